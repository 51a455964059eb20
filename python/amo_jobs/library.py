"""The calls in `calls.c`. A release has them built; a clone builds them at the first call."""

from __future__ import annotations

import ctypes
import os
import zlib
from functools import lru_cache

from amo_jobs.messages import End, lowered
from amo_jobs.statuses import Status

HERE = os.path.dirname(os.path.realpath(__file__))
SOURCE, FOLDER = f"{HERE}/calls.c", f"{os.path.dirname(HERE)}/out"
BUILT = f"{FOLDER}/calls.so"  # of a release; in the package it would be taken for `calls.py`
OPTIONS = ["-std=gnu11", "-O2", "-Wall", "-Wextra", "-shared", "-fPIC", "-s"]


@lru_cache(maxsize=None)
def library() -> ctypes.CDLL:
    """Returns the calls. Raises the end of the program if they can't be built, and OSError."""
    return ctypes.CDLL(BUILT if os.path.exists(BUILT) else built())


def built() -> str:
    """Returns the path of the built calls. If they are missing, or their source has changed, builds
    them beside and renames them, so that programs that start at once don't disturb each other."""
    with open(SOURCE, "rb") as file:
        name = f"calls-{zlib.crc32(file.read()):08x}.so"
    path, new = f"{FOLDER}/{name}", f"{FOLDER}/{os.getpid()}.{name}"
    if not os.path.exists(path):
        os.makedirs(FOLDER, exist_ok=True)
        build(new)
        os.rename(new, path)
    return path


def build(path: str) -> None:
    """Has the C compiler build the calls."""
    import shlex  # only a clone needs both, once
    import subprocess
    compiler = shlex.split(os.environ.get("CC", "cc"))
    try:
        ran = subprocess.run([*compiler, *OPTIONS, "-o", path, SOURCE], stdin=subprocess.DEVNULL,
                             stdout=subprocess.DEVNULL, stderr=subprocess.PIPE)
        why = ran.stderr.decode("utf-8", "replace").strip() or f"status {ran.returncode}"
    except OSError as error:
        why = lowered(error)
    if not os.path.exists(path):
        raise End(Status.BUILD, f"`{shlex.join(compiler)}`: it can't build the part of amo_jobs in"
                                f" C: {why}; install a C compiler: apt-get install gcc libc6-dev")
