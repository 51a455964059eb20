"""Controls: the stand-in makes a mistake, and the same tests have to show it: by a line performed
twice, a false doubt, an acknowledged line that is gone, or a damaged file that is taken. Without
the mistake the stand-in passes them."""

import os

from harness import bench as harness
from worker import (
    counted, crowd, damage, entering, kills, making, persons, power, registers, remains, rounds,
    scene, staying, telling, texts,
)

STAND_IN = os.path.join(os.path.dirname(os.path.realpath(__file__)), "stand_in.py")
TWICE, GONE = "performed twice", "performed twice|acknowledged line is gone"
# The registers or the round would have had a line performed twice; clearance takes it.
GIVEN = "was given a line that isn't open"
DOUBT = "(?s)status says .* doubt (1 .*'doubt': 0|2 .*'doubt': 1),"
# If two write one journal, or one doesn't recover it, its checksums show that before a line is
# gone.
SPOILED = GONE + "|append [0-9]+: "
# A mistake, the test that must show it, and what that must say; the short form has the first of
# them.
MISTAKES = [
    ("last_journal_wins", rounds.try_closing_wins, GIVEN),
    ("pending_is_open", persons.try_pending, TWICE),
    ("missing_is_empty", making.try_missing_beside, "journal.1: "),
    ("forgotten_is_taken", making.try_forgotten, "status 0"),
    ("mount_by_path", entering.try_mounts, "ext2 rw,relatime rw,discard : status 77"),
    ("options_are_taken", entering.try_mounts, "overlay rw,nobarrier rw  overlay .*: status 0"),
    ("reads_once", damage.try_stopped_reader, "status 65, .*journal.2`: append 4: more follows"),
    ("header_after_the_journals", counted.try_round_beside, "status 65, .*journal.2`: it has"),
    ("own_name_is_not_compared", registers.try_changed_journals, "journal.1: copied: it ends"),
    ("cut_line_is_kept", texts.try_cut_off_append, DOUBT + "|append 1 is damaged"),
    ("words_of_another_boot", power.try_words_of_another_boot, GIVEN),
    ("lists_without_settling", power.try_listed_and_cut, "after it was listed as a doubt"),
    ("guard_is_removed", kills.try_two_of_one_number, SPOILED),
    ("intent_after_the_act", kills.try_killed, GONE),
    ("opens_without_settling", power.try_failed_sync_and_cut, SPOILED),
    ("above_synced_by_the_maker_alone", making.try_door_killed_and_cut, "another id after the cut"),
    ("own_words_forgotten", crowd.try_crew_killed, GIVEN),
    ("claim_after_the_act", kills.try_killed_beside, GIVEN),
    ("readers_without_a_lock", crowd.try_readers_beside_each_other, "a final doubt running"),
    ("empty_is_empty", making.try_missing, "journal.* is emptied, .*: status 0"),
    ("id_is_replaced", making.try_door_killed, "the id is replaced"),
    ("id_first", making.try_door_killed, "there is an id, and not all else"),
    ("id_before_the_sync", making.try_door_cut, "the next door ends with status 65"),
    ("leftovers_are_taken", making.try_leftovers, "status 0"),
    ("users_files_are_refused", making.try_made, "status 65"),
    ("old_run_is_settled", making.try_old_run, "something is written by who looks"),
    ("old_run_is_worked", making.try_old_run, "work: status"),
    ("id_is_not_compared", making.try_id, "status 0"),
    ("running_is_refused", making.try_answers_that_wait, "status 65"),
    ("emptied_by_recovery", texts.try_cut_off_append, "is empty for a moment"),
    ("checksum_is_not_compared", damage.try_flipped, "checksum doesn't fit.*: status ends with 0"),
    ("checksum_is_not_chained", damage.try_moved,
     "append 1 .*: status (ends with 0|says .*append [0-9]+ is damaged, or was edited)"),
    ("checksum_without_the_file", damage.try_of_others,
     "journal.1, append 1 .*: status says .*: append [0-9]+ is another one"),
    ("damage_is_cut_off", damage.try_refused_by_all,
     "is damaged, (work|status|doubts|answer|again): status"),
    ("two_cut_off_appends_are_taken", damage.try_more_than_a_crash_leaves,
     "more follows than .*: status ends with 0"),
    ("cuts_what_it_sees", power.try_failed_recovery_and_cut, "would be refused: .*more follows"),
    ("counts_the_last_append", counted.try_last_append_cut,
     "(journal.1|answers)`: it has [0-9]+ appends?, and [0-9]+ w"),
    ("counts_are_not_compared", counted.try_counted_lost,
     "on the disk when .*: status (ends with 0|says .*entry)"),
    ("compares_after_the_cut", counted.try_lost_to_all,
     "lacks an append: something was changed"),
    ("seal_is_not_compared", counted.try_record_flipped,
     ": status (0: lines|65: .*jobs`: it is damaged)"),
    ("jobs_are_not_compared", counted.try_jobs_damaged, "jobs .*: status ends with 0"),
    ("missing_record_is_taken", counted.try_parts_removed, "record .*: status ends with 0"),
    ("unknown_is_open", remains.try_damaged_shown, "line [0-9]+: open"),
    ("outcomes_without_times", telling.try_times, "was noted"),
    ("not_done_at_once", persons.try_not_done_waits, "1.1 .*: status 0, 1 taken"),
    ("failed_is_quiet", persons.try_not_done_waits, "1.1 .*: status 0, 1 taken"),
    ("ahead_is_old", persons.try_not_done_waits, "1.3 .*: status 0, 1 taken"),
    ("now_is_ignored", persons.try_not_done_waits, "1.3 .* --now: status 65"),
    ("done_waits", persons.try_done_at_once, "1.1 .* done .*: status 75"),
    ("again_waits", persons.try_done_at_once, "again: status 75"),
    ("first_row_alone_waits", persons.try_sheet_waits, "status 0, 5 taken"),
    ("doubts_are_not_recorded", persons.try_recorded, "None is recorded"),
    ("no_clearance", registers.try_spoiled, TWICE),
    ("clears_before_the_intent", registers.try_stopped_and_brought_back, TWICE),
    ("own_attempts_are_not_looked_at", registers.try_own_attempts, TWICE),
    ("skips_a_journal", registers.try_taken, TWICE),
    ("pending_is_opened", registers.try_taken, TWICE),
    ("others_are_not_compared", registers.try_changed_journals,
     "(?s)journal.2: copied: it ends with .*journal.2: cut_off: it ends with"),
    ("keeps_one_of_two", kills.try_killed, GONE),
    ("owed_is_dropped", kills.try_killed, GONE),
    ("two_appends", power.try_syncs_of_a_line, "between two lines are the syncs"),
    ("nothing_is_owed", power.try_syncs_of_a_line, "between two lines are the syncs"),
    ("reads_three_records", texts.try_records_of_an_append, "append [0-9]+ .*: status ends with 0"),
    ("keeps_the_round_lock", staying.try_holds, "it holds .*lock.round"),
    ("stays_in_the_former_round", staying.try_next_round, f"does nothing in the next round|{GIVEN}"),
    ("stays_with_the_former_words", staying.try_next_round,
     f"does nothing in the next round|{GIVEN}"),
    ("stays_on_the_former_boot", staying.try_another_boot, "of another boot"),
    ("stays_though_one_runs", staying.try_running, "over [1-9][0-9]* times"),
    ("stays_though_told_to_leave", staying.try_ends, "after b'leave"),
    ("any_answer_is_go", staying.try_ends, "after b'stay"),
    ("number_is_not_compared", staying.try_another_folder, "moved: it writes there"),
    ("owes_while_it_waits", staying.try_owes_nothing, "has not noted"),
    ("ends_without_a_seat", staying.try_no_seat, "doesn't wait: status .*75"),
    ("waits_in_the_round", staying.try_no_seat, "holds the lock of a round that is over"),
    ("passes_by_each_round", staying.try_next_round, "does nothing in the next round"),
]
CHEAPEST = 9


def show(bench, mistake, test, wanted):
    """Returns what the test says of the mistake. Without the mistake the test passes."""
    def mistaken():
        found = scene.Bench(STAND_IN, bench.room, False, bench.seed, mistake)
        found.watches = False  # the test must see the mistake's effect, and not its beginning
        return found

    test(scene.Bench(STAND_IN, bench.room, False, bench.seed))
    wrong = harness.shown(mistake, test, mistaken, wanted, 3)
    return wrong.split(";")[0].replace("\n", " ")[:150]


def control(mistake, test, wanted):
    """Returns the control of one mistake, as a test."""

    def try_control(bench):
        return f"shown: {show(bench, mistake, test, wanted)}"

    try_control.__doc__ = f"the mistake {mistake} is shown by: {test.__doc__}"
    return try_control


PARTS = {"controls": [control(*it) for it in MISTAKES]}
