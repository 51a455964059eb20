"""Pipes to and from a child: whole lines come out of one, and lines go into one that may be full.

Begin with `Child`.
"""

from __future__ import annotations

import os
from typing import Collection, Dict, List, Tuple

from amo_jobs import calls
from amo_jobs.locks import close_all

PART = 1 << 16  # bytes of one read


class Reader:
    """The end of a pipe from which lines come. `files` is empty once the pipe is at its end."""

    def __init__(self, file: int):
        self.files, self.rest = [file], b""
        os.set_blocking(file, False)

    def lines(self) -> List[bytes]:
        """Returns the whole lines that there are. One without its end stays in `rest`. Raises
        OSError."""
        data, size = self.rest, PART
        try:
            while size == PART and self.files:
                part = os.read(self.files[0], PART)
                data, size = data + part, len(part)
                if not part:
                    close_all(self.files)
        except BlockingIOError:
            pass
        *lines, self.rest = data.split(b"\n")
        return lines


class Writer:
    """The end of a pipe into which lines go. `files` is empty once nobody reads them any more."""

    def __init__(self, file: int):
        self.files, self.unsent = [file], b""
        os.set_blocking(file, False)

    def send(self, text: bytes = b"") -> None:
        """Sends as much as the pipe takes. The rest is sent later, unless nobody reads any more."""
        self.unsent += text if self.files else b""
        try:
            while self.unsent:
                self.unsent = self.unsent[os.write(self.files[0], self.unsent):]
        except BrokenPipeError:
            self.close()
        except OSError:  # it has no room now
            pass

    def close(self) -> None:
        """Gives the pipe up, with what isn't sent."""
        close_all(self.files)
        self.unsent = b""


class Child:
    """A process with a pipe to it, and some from it."""

    def __init__(self, words: List[str], takes: int, gives: Collection[int],
                 files: Dict[int, int]):
        """Starts it. It reads the file with the number `takes` and writes those of `gives`, and
        gets more `files`. Raises OSError."""
        pipes: Dict[int, Tuple[int, int]] = {}
        try:
            for number in (takes, *gives):
                pipes[number] = os.pipe()
            handed = {number: pipes[number][number in gives] for number in pipes}
            self.input = Writer(pipes[takes][1])
            self.outputs = [Reader(pipes[it][0]) for it in gives]
            self.process = calls.spawn([os.fsencode(it) for it in words], {**files, **handed})
        except OSError:
            close_all([file for pair in pipes.values() for file in pair])
            raise
        close_all(list(handed.values()))

    def close(self) -> None:
        """Closes the pipes."""
        self.input.close()
        for output in self.outputs:
            close_all(output.files)
