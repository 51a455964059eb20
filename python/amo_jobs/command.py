"""The command of one attempt: its lock, its outputs, its start, and what is left of it.

Begin with `Command`. The lock stands for the command: each process that has inherited it shows that
something of the attempt still runs.
"""

from __future__ import annotations

import os
from contextlib import suppress
from typing import FrozenSet, List, Optional, Sequence

from amo_jobs.call_log import note
from amo_jobs.calls import files_of, Process
from amo_jobs.locks import close_all, locked
from amo_jobs.messages import lowered, reason
from amo_jobs.processes import Family, NOBODY
from amo_jobs.runner_state import Rest
from amo_jobs.starter import LOCK, OUTPUTS, Starter

NOTHING_LOST = "(no line was lost)"


class NotStarted(Exception):
    """States why a command was not started, and what to do. No process of it was made, or none is
    left."""


class Command:
    """The command of one attempt."""

    def __init__(self, starter: Starter, family: Family, serial: int, line: int):
        self.starter, self.family, self.serial, self.line = starter, family, serial, line
        self.name, self.path = f"{starter.worker}.{serial}", starter.path(LOCK, serial)
        self.locks: List[int] = []
        self.process, self.before = 0, NOBODY
        self.status: Optional[int] = None  # of a process that has ended with its start
        self.until: Optional[FrozenSet[Process]] = None  # what was there as the next one began
        # The outputs that stay with an attempt of which something is left. None: the starter's.
        self.outputs: Optional[List[str]] = None

    def start(self, text: bytes, known: Sequence[int]) -> None:
        """Starts the command of a line, whose lock is made and held before. `known` are the
        runner's other children. If the command was short, `status` is how it has ended.

        Raises NotStarted only if no process was made, or if the child could not become the command
        and was reaped. Whatever fails after that, the command counts as begun: the line of a
        command that was not begun is open again.
        """
        note("starts", self.name, self.line)
        try:
            self.before = self.family.snapshot(known)
            self.process = self.starter.start(text, self.line, self.serial)
        except OSError as error:
            raise self.not_started(f"{reason(error)} {NOTHING_LOST}") from None
        if self.process == 0:
            raise self.not_started(f"{lowered(self.starter.error())} {NOTHING_LOST}; correct the"
                                   " command, and start again with --command-changed")
        self.locks = self.starter.take_lock()
        note("started", self.name, self.process)
        if self.starter.given.status >= 0:
            self.status = os.waitstatus_to_exitcode(self.starter.given.status)
            note("gone", self.process)

    def not_started(self, why: str) -> NotStarted:
        """Gives the lock and the outputs up, and returns the reason. If the lock's file stays, it
        counts as a missing one: nobody holds its lock."""
        self.starter.remove()
        return NotStarted(why)

    def ended(self) -> None:
        """Closes the runner's handle of the lock, once the process of the command has ended."""
        note("ended", self.name)
        self.process = 0
        close_all(self.locks)

    def left(self, known: Sequence[int], is_shared: bool = False) -> List[Process]:
        """Returns the processes of this attempt, the command's own among them. What loses its
        parent once the next command was begun may belong to either: it counts for both, but if
        `is_shared` is true, it isn't returned. Raises OSError."""
        among = self.until if is_shared else None
        return self.family.rest(self.before, known, self.process, among)

    def rest(self, known: Sequence[int]) -> Rest:
        """Looks what is left of this attempt, once the process of its command has ended. If nothing
        is, gives up the lock's file. If a descendant is left and the lock is free, takes it again,
        so that nobody can find it free."""
        if self.outputs is None and self.starter.is_over(self.serial, self.family.file, known):
            return Rest.NOTHING
        try:
            left = self.family.rest(self.before, known)
            if not left:
                is_over = self.free_lock()
                self.release_outputs(is_over)
                return Rest.NOTHING if is_over else Rest.SEEN
            self.release_outputs(False)
            again = None if self.locks else locked(self.path, True)
            self.locks += [] if again is None else [again]
        except OSError:
            self.release_outputs(False)
            return Rest.UNSEEN
        is_seen = not self.locks and all(self.path in files_of(it.number, True) for it in left)
        return Rest.SEEN if is_seen else Rest.UNSEEN

    def release_outputs(self, is_over: bool) -> None:
        """Leaves the outputs to this attempt, of which something was left: it may have them open
        still, also if it counts for nothing. Removes empty ones at the end."""
        if self.outputs is None:
            self.outputs = [self.starter.path(it, self.serial) for it in OUTPUTS.values()]
            self.starter.keep(False)
        for path in self.outputs if is_over else ():
            with suppress(OSError):
                if os.path.getsize(path) == 0:
                    os.unlink(path)

    def free_lock(self) -> bool:
        """Gives up the lock's file, unless a handle that is opened anew doesn't get the lock.
        Returns whether that is so."""
        if not self.locks:
            return self.starter.free(self.serial)
        with suppress(OSError):
            os.unlink(self.path)
        close_all(self.locks)
        return True
