"""Views of a run for people and monitors: the report, the live view, numbers and events.

Begin with `commands`. All of it reads what `amo_worker status --follow` prints, so nothing here
takes a lock, recovers a journal or writes in the run's folder.
"""
