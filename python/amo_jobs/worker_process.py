"""The process of a worker, and its three pipes."""

from __future__ import annotations

import os
import re
from typing import Callable, List, Optional

from amo_jobs.call_log import line_text, LOG, note
from amo_jobs.pipes import Child
from amo_jobs.runner_state import Said, STAY

MOST_KEPT = 1 << 16  # bytes of its messages
TAKEN = rb"(?:amo_worker: )?(line \d+: attempt \d+\.\d+ stands against it; not started)"


def said_by(line: bytes, is_alive: bool) -> Said:
    """Returns what a line of a worker says. Raises ValueError if it is no line of the protocol."""
    if line == STAY.encode():
        return Said(STAY, is_alive=is_alive)
    kind, serial, number, text = line.split(b" ", 3)
    return Said(kind.decode(), int(serial), int(number), text, is_alive)


class WorkerProcess(Child):
    """A worker's process. It is started with an object, and is over once `has_ended`."""

    def __init__(self, words: List[str], was_taken: Callable[[str], None]):
        """Starts it. Raises OSError. `was_taken` gets each message that a line was not started."""
        super().__init__(words, 0, (1, 2), {})
        self.was_taken, self.status = was_taken, None  # type: Callable[[str], None], Optional[int]
        self.lines: List[bytes] = []
        self.text = b""
        self.output, self.errors = self.outputs
        self.files = self.output.files + self.errors.files  # what is to be polled

    def read(self) -> None:
        """Takes the whole lines and the messages that there are, and then the end of the worker. A
        line without its end counts for nothing."""
        lines = self.output.lines()
        if lines:
            self.lines += lines
        else:
            self.read_errors()
            self.files = self.output.files + self.errors.files
        for line in lines if LOG is not None else ():
            note("receives", self.process, line_text(line))
        if self.status is None:
            try:
                number, status = os.waitpid(self.process, os.WNOHANG)
            except ChildProcessError:
                return
            if number:
                self.status = os.waitstatus_to_exitcode(status)
                note("gone", number)

    def read_errors(self) -> None:
        """Takes the messages that there are. A full pipe would block the worker."""
        for line in self.errors.lines():
            found = re.fullmatch(TAKEN, line)
            if found:
                self.was_taken(found[1].decode())
            else:  # the last ones are enough
                self.text = (self.text + line + b"\n")[-MOST_KEPT:]

    def answer(self, text: str) -> bool:
        """Answers. Returns whether the worker may have got it: if not, it is dead, or leaves."""
        note("replies", self.process, text)
        self.input.send(f"{text}\n".encode())
        if self.input.unsent:  # nobody would send the rest
            self.input.close()
        return bool(self.input.files)

    def has_ended(self) -> bool:
        """Returns whether it was reaped, and all that it said was read."""
        return self.status is not None and not self.output.files and not self.lines

    def message(self) -> str:
        """Closes the pipes, and returns its last messages."""
        self.read_errors()
        self.close()
        return (self.text + self.errors.rest).decode("utf-8", "replace").strip()
