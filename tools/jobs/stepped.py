#!/usr/bin/env python3
"""Runs amo_jobs, and kills or stops it right before one of its calls, or has that call fail.

AMO_PROGRAM is amo_jobs. AMO_STEP is NUMBER:WHAT, with WHAT `kill`, `stop` or the number of an error
that the call then gives. AMO_STEPS is a file to which each call is appended before it is made, a
line each: its name, and its file if that has one. A call counts if it is on a file below AMO_ROOM
or on an open file, or starts the worker's program, until a crew begins its runners. A lock that the
part in C takes is one call, `flock`."""

import builtins
import ctypes
import os
import runpy
import signal
import subprocess
import sys

ROOM = os.environ["AMO_ROOM"]
AT, _, WHAT = os.environ.get("AMO_STEP", "0:").partition(":")
CALLS = [(builtins, "open"), (subprocess, "run"), *((os, it) for it in (
    "open write fsync link unlink rename replace mkdir listdir lstat").split())]
LOG = os.open(os.environ.get("AMO_STEPS", os.devnull), os.O_WRONLY | os.O_CREAT | os.O_APPEND)
WRITE, steps = os.write, []


def is_counted(given: tuple) -> bool:
    """Returns whether a call with these arguments counts."""
    first = given[0] if given else None
    return isinstance(first, (int, list)) or named(first).startswith(ROOM)


def named(target) -> str:
    """Returns a file as a text."""
    return os.fsdecode(target) if isinstance(target, bytes) else str(target)


def count(name: str, given: tuple) -> None:
    """Counts a call, and has happen what is to happen before it."""
    target = given[0][1] if isinstance(given[0], list) else given[0]
    WRITE(LOG, f"{name} {named(target)}\n".encode("utf-8", "replace"))
    steps.append(name)
    if len(steps) == int(AT):
        if WHAT.isdecimal():
            raise OSError(int(WHAT), os.strerror(int(WHAT)), named(target))
        os.kill(os.getpid(), signal.SIGKILL if WHAT == "kill" else signal.SIGSTOP)


def counted(name: str, call):
    """Returns the call with a step before it."""
    def counts(*given, **more):
        if is_counted(given) and "over" not in steps:
            count(name, given)
        return call(*given, **more)

    return counts


def loaded(load):
    """Returns what loads a library, so that each lock that the library takes is counted."""
    def loads(path, *given, **more):
        library = load(path, *given, **more)
        if path:
            library.amo_lock = counted("flock", library.amo_lock)
        return library

    return loads


def begins(call):
    """Returns the call, after which no step counts."""
    def ends(*given):
        steps.append("over")
        return call(*given)

    return ends


if __name__ == "__main__":
    program = sys.argv[0] = os.environ.pop("AMO_PROGRAM")
    for owner, word in CALLS:
        setattr(owner, word, counted(word, getattr(owner, word)))
    ctypes.CDLL = loaded(ctypes.CDLL)
    os.pipe2 = begins(os.pipe2)  # the first call of a crew that is about to begin its runners
    runpy.run_path(program, run_name="__main__")
