"""How `calls.c` starts commands that differ in a text alone. Begin with `Starter`."""

from __future__ import annotations

import ctypes
import errno
import os
import signal
from contextlib import suppress
from typing import Any, List, Sequence

from amo_jobs.calls import IGNORED_BY_PYTHON
from amo_jobs.library import library
from amo_jobs.locks import close_all, NOT_GOT
from amo_jobs.settings import Settings

HOLE = b"{}"  # the word that stands for the text
VARIABLES = (b"AMO_JOB", b"AMO_LINE", b"AMO_RUN_ID")  # each command has its own
LONGEST_START = 4000  # bytes; `calls.c` adds a number, and has room for PATH_MAX
LOCK, NO_FILE = 0, 3  # places of files in `struct start`: the lock's, the outputs', and none
SPARE = 0  # the number of a lock's file between two commands; no attempt has it
OUTPUTS = {"out": 1, "err": 2}

Texts = ctypes.POINTER(ctypes.c_char_p)
Numbers = ctypes.POINTER(ctypes.c_int)


class Start(ctypes.Structure):
    """What `calls.c` calls `struct start`."""

    _fields_ = [("programs", Texts), ("words", Texts), ("surroundings", Texts),
                ("defaults", Numbers), ("timer", ctypes.c_long * 4),
                ("starts", ctypes.c_char_p * 3), ("serial", ctypes.c_long),
                ("former", ctypes.c_long * 3), ("files", ctypes.c_int * 3),
                ("failed", ctypes.c_int), ("error", ctypes.c_int), ("status", ctypes.c_int),
                ("mask", ctypes.c_long * 16)]


def texts(found: Sequence[bytes]) -> Any:
    """Returns these texts as a list for C."""
    return (ctypes.c_char_p * (len(found) + 1))(*found, None)


class Starter:
    """Starts the commands of one runner, one after the other."""

    def __init__(self, settings: Settings, worker: int):
        """Signals must be handled as they are while commands are started. If a command has a time,
        the kernel ends it too, a second later. Raises OSError."""
        self.worker, run = worker, os.path.realpath(settings.run)  # as /proc shows it
        self.starts = [f"{run}/command.{worker}.",
                       *(f"{settings.results}/{it}.{worker}." for it in OUTPUTS)]
        for it in self.starts:
            if len(os.fsencode(it)) > LONGEST_START:
                raise OSError(errno.ENAMETOOLONG, os.strerror(errno.ENAMETOOLONG), it)
        timer = settings.timeout + settings.grace + 1 if settings.timeout else 0.0
        words = [os.fsencode(it) for it in settings.command]
        words += [] if HOLE in words else [HOLE]
        self.places = [place for place, it in enumerate(words) if it == HOLE]
        others = [b"%b=%b" % it for it in os.environb.items() if it[0] not in VARIABLES]
        others.append(b"AMO_RUN_ID=" + settings.id.encode())
        folders = [b""] if b"/" in words[0] else [os.fsencode(it) for it in os.get_exec_path()]
        handled = [it for it in signal.valid_signals() if callable(signal.getsignal(it))]
        defaults = [*handled, *IGNORED_BY_PYTHON, *([signal.SIGALRM] if timer else []), 0]
        self.words, self.surroundings = texts(words), texts([*others, b"", b""])
        self.job, self.line = len(others), len(others) + 1
        self.given = Start(texts([os.path.join(it, words[0]) for it in folders]), self.words,
                           self.surroundings, (ctypes.c_int * len(defaults))(*defaults),
                           (0, 0, int(timer), int(timer % 1 * 1e6)),
                           tuple(os.fsencode(it) for it in self.starts), files=(-1, -1, -1))
        self.files, self.pointer = self.given.files, ctypes.byref(self.given)
        self.call, self.call_over = library().amo_start, library().amo_over

    def start(self, text: bytes, line: int, serial: int) -> int:
        """Starts the command of a line, and returns its process; 0 if its child could not become
        the command, and was reaped. The serial number ends the names of its files.

        Raises OSError only if no process was made. In each other case the command counts as begun.
        """
        for place in self.places:
            self.words[place] = text
        self.surroundings[self.job] = b"AMO_JOB=" + text
        self.surroundings[self.line] = b"AMO_LINE=%d" % line
        self.given.serial = serial
        process: int = self.call(self.pointer)
        if process < 0:
            raise self.failure(-process)
        return process

    def path(self, place: int, serial: int) -> str:
        """Returns the path of a file of an attempt: of its lock, or of one of its outputs."""
        return f"{self.starts[place]}{serial}"

    def failure(self, number: int) -> OSError:
        """Returns why no process was made."""
        place = self.given.failed
        path = None if place == NO_FILE else self.path(place, self.given.serial)
        if number == -NOT_GOT:
            return OSError(errno.EBUSY, "it is locked by another process", path)
        return OSError(number, os.strerror(number), path)

    def error(self) -> OSError:
        """Returns why the last child could not become the command."""
        return OSError(self.given.error, os.strerror(self.given.error))

    def take_lock(self) -> List[int]:
        """Returns the lock of the command that was started last. The caller closes it."""
        file, self.files[LOCK] = self.files[LOCK], -1
        return [file]

    def free(self, serial: int) -> bool:
        """Returns whether nobody has the lock of an attempt, and frees the name of its file then.
        The file is kept for the next command."""
        self.given.serial = serial
        return bool(library().amo_free(self.pointer))

    def is_over(self, serial: int, children: int, known: Sequence[int]) -> bool:
        """Returns whether surely nothing is left of the attempt that has the outputs. Frees the
        names of its files then. `children` is the list of this process's children."""
        self.given.serial = serial
        return bool(self.call_over(self.pointer, children, known[0] if known else 0))

    def keep(self, is_over: bool) -> None:
        """Keeps empty outputs for the next command, if theirs is over. The others stay."""
        library().amo_keep(self.pointer, is_over)

    def remove(self) -> None:
        """Removes the files that no command has any more, and what a killed runner has left."""
        former = [(it, self.given.former[it]) for it, file in enumerate(self.files) if file >= 0]
        for place, serial in [(LOCK, SPARE), *former]:
            with suppress(OSError):
                os.unlink(self.path(place, serial))
        close_all(self.take_lock())
        self.keep(False)
