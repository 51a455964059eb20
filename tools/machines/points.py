#!/usr/bin/env python3
"""Runs amo_share, and kills it before one of the calls by which it changes a folder or starts a program.

  points.py N REPORT amo_share WORDS..      before the N-th of these calls; 0 for none

REPORT gets a line for each of these calls, and one that begins with `unsynced` where a chunk is asked for, or a crew is begun,
while the disk doesn't have all that was written and named in the folder.
"""

import builtins
import os
import runpy
import signal
import subprocess
import sys

STOP, REPORT, PROGRAM = int(sys.argv[1]), sys.argv[2], sys.argv[3]
REAL = {name: getattr(os, name) for name in "mkdir fsync replace rename rmdir unlink".split()}
POPEN, OPEN, DIRTY, COUNT = subprocess.Popen, builtins.open, set(), [0]


def say(text):
    with OPEN(REPORT, "a") as file:
        file.write(f"{text}\n")


def step(name, text):
    """Counts a call, and ends before it."""
    COUNT[0] += 1
    say(f"{COUNT[0]} {name} {text}")
    if COUNT[0] == STOP:
        os.kill(os.getpid(), signal.SIGKILL)


def name_is_dirty(path):
    DIRTY.add(("name", os.path.dirname(path), path))


def mkdir(path, *more, **how):
    step("mkdir", path)
    REAL["mkdir"](path, *more, **how)
    name_is_dirty(path)


def fsync(file):
    path = os.readlink(f"/proc/self/fd/{file}")
    step("fsync", path)
    REAL["fsync"](file)
    DIRTY.difference_update({it for it in DIRTY if it[1] == path})


def moved(name):
    def move(old, new, *more, **how):
        step(name, new)
        REAL[name](old, new, *more, **how)
        for it in {it for it in DIRTY if it[2] == old or it[2].startswith(f"{old}/")}:
            DIRTY.remove(it)
            if it[:1] != ("name",) or it[2] != old:
                DIRTY.add((it[0], *(new + path[len(old):] if path.startswith(old) else path for path in it[1:])))
        name_is_dirty(new)
    return move


def opened(path, mode="r", *more, **how):
    file = OPEN(path, mode, *more, **how)
    if "w" in mode:
        DIRTY.add(("bytes", path, path))
        name_is_dirty(path)
    return file


def started(words, *more, **how):
    step("start", " ".join(os.path.basename(it) for it in words[:6]))
    if "claim" in words or "crew" in words:
        for it in DIRTY:
            say(f"unsynced {it[0]} {it[2]} before {words}")
    return POPEN(words, *more, **how)


os.mkdir, os.fsync, os.replace, os.rename = mkdir, fsync, moved("replace"), moved("rename")
builtins.open, subprocess.Popen = opened, started
sys.argv = sys.argv[3:]
runpy.run_path(PROGRAM, run_name="__main__")
