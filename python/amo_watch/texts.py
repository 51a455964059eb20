"""The texts of a run: lines of its list, ends of what commands have printed, words, dates."""

from __future__ import annotations

import os
import shlex
import time
from array import array
from contextlib import suppress
from typing import BinaryIO, Collection, Dict, List, NamedTuple, Optional

LAST, MOST = 5, 1000  # of an output: so many lines at its end, of so many bytes together


class Lines:
    """The lines of a run's list, by the copy of the list in the run's folder. That file only grows,
    so a line that an attempt names is there. Each line is looked for once."""

    def __init__(self, run: str):
        self.path, self.begins = f"{run}/jobs", array("Q", [0])  # where each line begins

    def texts(self, numbers: Collection[int]) -> Dict[int, str]:
        """Returns the texts of these lines. Raises OSError."""
        if not numbers:
            return {}
        with open(self.path, "rb") as file:
            if max(numbers) >= len(self.begins):
                file.seek(self.begins[-1])
                for line in file:
                    self.begins.append(self.begins[-1] + len(line))
            return {it: self.text(file, it) for it in numbers if it < len(self.begins)}

    def text(self, file: BinaryIO, number: int) -> str:
        """Returns the text of a line whose begin and end are known."""
        file.seek(self.begins[number - 1])
        line = file.read(self.begins[number] - self.begins[number - 1])
        return line.rstrip(b"\n").decode("utf-8", "replace")


class Output(NamedTuple):
    """A file that a command has written, and the lines at its end."""

    path: str
    size: int
    end: List[str]


def outputs_of(folders: Collection[str], name: str) -> List[Output]:
    """Returns what the command of an attempt has printed, without empty files."""
    paths = [f"{folder}/{kind}.{name}" for kind in ("out", "err") for folder in folders]
    return [it for it in map(output_of, paths) if it.size]


def output_of(path: str) -> Output:
    """Returns the end of a file; of one that can't be read it is empty."""
    with suppress(OSError), open(path, "rb") as file:
        size = file.seek(0, os.SEEK_END)
        file.seek(max(size - MOST, 0))
        return Output(path, size, file.read().decode("utf-8", "replace").splitlines()[-LAST:])
    return Output(path, 0, [])


def quoted(word: str) -> str:
    """Returns a word as bash reads it, without characters that can't be seen."""
    if word.isprintable():
        return shlex.quote(word)
    parts = (f"\\{it}" if it in "\\'" else it if it.isprintable() else escape_of(ord(it))
             for it in word)
    return f"$'{''.join(parts)}'"


def escape_of(code: int) -> str:
    """Returns a character's escape for bash; of one that stands for a byte of a path, that byte."""
    if 0xdc80 <= code <= 0xdcff:
        return f"\\x{code - 0xdc00:02x}"
    return (f"\\U{code:08x}" if code > 0xffff
            else f"\\u{code:04x}" if code > 0x7f else f"\\x{code:02x}")


def dated(seconds: Optional[int]) -> str:
    """Returns a time in seconds since 1970 as a date, with the offset of this machine's zone."""
    return ("at a time that is not known" if seconds is None
            else time.strftime("%Y-%m-%d %H:%M:%S %z", time.localtime(seconds)))


def lasting(seconds: int) -> str:
    """Returns a number of seconds by its two largest units, rounded down."""
    sizes = ((86400, "d"), (3600, "h"), (60, "min"), (1, "s"))
    parts, left = [], seconds
    for size, unit in sizes:
        parts.append((left // size, unit))
        left %= size
    while len(parts) > 1 and not parts[0][0]:
        parts.pop(0)
    return " ".join(f"{count} {unit}" for count, unit in parts[:2] if count or len(parts) == 1)
