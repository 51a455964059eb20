"""The settings of one call of amo_jobs, by the words of its command line."""

from __future__ import annotations

import os
import sys
from typing import Any, Collection, List, Optional

from amo_jobs.worker import Program
from amo_watch.texts import quoted


class Settings:
    """The settings of one call. A value here is the default of its option; the empty text stands
    for an option that isn't given. `find` makes the paths absolute."""

    what: str = ""  # the command: crew, work, status and so on
    words: List[str] = []  # the words that remain after the list
    command: List[str] = []  # the words after --
    options: List[str] = []  # those before it, as they were given
    asked: str = ""  # the list, as it was given
    jobs: str = ""  # the list, resolved
    mark: str = ""  # the list's mark
    run: str = ""  # the run's folder
    has_folder: bool = False  # --run was given
    names: List[str] = []  # how the next command names the run
    worker_program: str = ""
    file_system: str = ""
    worker: int = 0
    workers: int = 0
    beta: int = 1
    untouched: Collection[int] = ()  # statuses by which a command reports that it did nothing
    timeout: Optional[float] = None  # seconds
    grace: float = 10  # seconds
    linger: float = 5  # seconds
    halt: Optional[int] = None  # failures in a row
    may_leave: Collection[str] = ()  # programs that a command may leave behind
    caller: str = ""  # the version of the supervisor that starts this runner
    results: str = ""  # the folder for what commands print
    command_changed: bool = False
    new_run: str = ""  # the id that is given up
    id: str = ""  # the id that the folder must have
    force: bool = False
    json: bool = False
    lines: str = ""  # a kind of lines
    damaged: bool = False
    source: str = ""  # a file of answers
    quiet: int = 60  # seconds
    now: bool = False
    metrics: str = ""  # a file of numbers
    shared: str = ""  # the folder of an amo_share whose chunks these numbers are of
    events: str = ""  # a file of events
    notify: str = ""  # a command for the shell

    def __init__(self, what: str = "", **given: Any):
        """Takes the values that aren't the defaults. (Dataclasses take long to import.)"""
        for name in Settings.__annotations__:
            value = getattr(Settings, name)
            setattr(self, name, value.copy() if isinstance(value, list) else value)
        vars(self).update(given, what=what)

    def find(self) -> None:
        """Makes the paths absolute, and finds those that follow from the list."""
        self.names, self.asked, self.has_folder = names_of_run(self), self.jobs, bool(self.run)
        if self.jobs:
            self.jobs = os.path.realpath(self.jobs)
            self.mark = f"{self.jobs}.run-is"
        self.run = os.path.abspath(self.run) if self.run else f"{self.jobs}.run"
        self.results = os.path.abspath(self.results or self.run)


def names_of_run(settings: Settings) -> List[str]:
    """Returns the words by which another command means the same run, as they were given."""
    run, worker = settings.run, settings.worker_program
    words = ([settings.jobs] if not run else [f"--run={run}"] if run[:1] == "-" else ["--run", run])
    if settings.file_system:
        words = ["--file-system", settings.file_system, *words]
    if worker and os.path.realpath(worker) != os.path.realpath(Program.own()):
        words = ["--worker-program", worker, *words]
    return words


def next_command(settings: Settings, what: str, *words: str) -> str:
    """Returns the command for bash that does this with the same run."""
    return " ".join(map(quoted, [sys.argv[0], what, *settings.names, *words]))
