"""The messages of amo_jobs and amo_share.

A message is `object: problem; remedy`. The operator reads it at night, and decides by it.
"""

from __future__ import annotations

import errno
import os
import signal
import sys
from contextlib import suppress
from typing import Callable, Optional, Tuple

from amo_jobs.statuses import Status

REMEDIES = {
    errno.ENOENT: "check the path", errno.ENOTDIR: "check the path", errno.EISDIR: "check the path",
    errno.ELOOP: "check the path", errno.ENAMETOOLONG: "choose a shorter path",
    errno.EACCES: "change its mode, or run this as a user who may",
    errno.EPERM: "change its owner, or run this as a user who may",
    errno.EEXIST: "move it away, since this run has not made it, then start again",
    errno.EROFS: "choose a place where files can be made", errno.EIO: "check the disk",
    errno.ENOSPC: "make room, then start again", errno.EDQUOT: "make room, then start again",
    errno.EMFILE: "allow more open files (ulimit -n), then start again",
    errno.ENFILE: "allow more open files, then start again",
    errno.EAGAIN: "allow more processes, or end some, then start again",
    errno.ENOMEM: "free some memory, then start again",
    errno.ENOEXEC: "give it a first line like #!/bin/sh", errno.ETXTBSY: "wait until it is written",
}


class End(Exception):
    """The end of a program: its status, and its message. The text is None if another program has
    reported why."""

    def __init__(self, status: int, text: Optional[str]):
        super().__init__(status, text)
        self.status, self.text = status, text


class Screen:
    """Standard error, and on a terminal a last line that shows how far the run is. If the terminal
    is gone, the program goes on."""

    clear, shown = "\r\033[K" if os.isatty(2) else "", ""
    also: Optional[Callable[[str], None]] = None  # what takes each message too

    @classmethod
    def tell(cls, text: str) -> None:
        """Prints a message."""
        if cls.also:
            cls.also(text)
        cls.write(text, "\n")

    @classmethod
    def write(cls, text: str, end: str) -> None:
        """Writes a text in place of the last line."""
        cls.shown = ""
        with suppress(OSError):
            os.write(2, f"{cls.clear}amo_jobs: {text}{end}".encode("utf-8", "replace"))

    @classmethod
    def show(cls, text: str) -> None:
        """Shows how far the run is, unless that is shown already."""
        if text != cls.shown:
            cls.write(text[:69] if cls.clear else text, "" if cls.clear else "\n")
            cls.shown = text


def visible(text: str) -> str:
    """Returns a text as it may be written to a terminal."""
    if text.isprintable():
        return text
    return "".join(it if it.isprintable() else it.encode("unicode_escape", "replace").decode()
                   for it in text)


def lowered(error: OSError) -> str:
    """Returns the text of an error of the system, for the middle of a message."""
    text = error.strerror or (os.strerror(error.errno) if error.errno else str(error))
    return f"{text[:1].lower()}{text[1:]}"


def reason(error: Exception) -> str:
    """Returns the message of a failed call of the system: the object, the problem, the remedy."""
    if not isinstance(error, OSError) or error.errno is None:
        return visible(str(error)) or type(error).__name__
    path = error.filename
    named = "standard output" if error.errno == errno.EPIPE else "a call of the system"
    if isinstance(path, (str, bytes, os.PathLike)):
        named = f"`{visible(os.fsdecode(path))}`"
    remedy = REMEDIES.get(error.errno, "correct that, then start again")
    return f"{named}: {lowered(error)}; {remedy}"


def signal_name(number: int) -> str:
    """Returns the name of a signal, or its number if it has none."""
    return next((it.name for it in signal.Signals if it == number), f"signal {number}")


def refused(text: str) -> End:
    """Returns the end of a program that refuses something."""
    return End(Status.REFUSED, visible(text))


def confirm(text: str) -> None:
    """Prints what was recorded. If nobody takes that text, the message says that it was."""
    try:
        print(text, flush=True)
    except OSError as error:
        drop_output()
        raise End(Status.WRITE, f"standard output: {lowered(error)}; all was recorded before that,"
                                " so don't give this command again") from None


def drop_output() -> None:
    """Drops what standard output has not taken; else Python reports it."""
    with suppress(OSError):
        os.dup2(os.open(os.devnull, os.O_WRONLY), 1)


def end_of(call: Callable[[], int], looks: str) -> Tuple[int, Optional[str]]:
    """Calls a program. Returns its exit status, and its last message. `looks` says how the operator
    finds out how far it is."""
    sys.stdout = sys.stdout or open(os.devnull, "w")  # Python has none if it was closed
    try:
        code = call()
        sys.stdout.flush()
        return code, None
    except SystemExit as end:  # of the parser; its status 2 means lines in doubt here
        return Status.WORDS if end.code else Status.DONE, None
    except End as end:
        return end.status, end.text
    except KeyboardInterrupt:
        return 128 + signal.SIGINT, None
    except OSError as error:
        message = reason(error)
        drop_output()
        return (Status.READ if isinstance(error, FileNotFoundError) else Status.WRITE), message
    except Exception:
        sys.excepthook(*sys.exc_info())
        return Status.BUILD, f"internal error, in the lines above; report them, and check {looks}"
