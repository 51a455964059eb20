"""Exclusive locks of files. Begin with `locked`."""

from __future__ import annotations

import os
import time
from typing import List, Optional

from amo_jobs.library import library

NOT_GOT = -4096  # of calls.c
PATIENCE = 5.0  # seconds for which a lock is tried


def close_all(files: List[int]) -> None:
    """Closes these descriptors and empties the list. The kernel closes a descriptor even if
    close(2) reports an error, so errors are ignored."""
    while files:
        try:
            os.close(files.pop())
        except OSError:
            pass


def locked(path: str, makes: bool) -> Optional[int]:
    """Takes the exclusive lock of a file, and returns its handle; None if another process has the
    lock, or if the name has gone to another file. Nothing is synced: a lock doesn't outlive the
    machine, so its file needn't either. If `makes` is true, a missing file is made."""
    got: int = library().amo_lock(os.fsencode(path), makes)
    if got >= 0:
        return got
    if got != NOT_GOT:
        raise OSError(-got, os.strerror(-got), path)
    return None


def locked_soon(path: str, makes: bool = False, end: Optional[float] = None) -> Optional[int]:
    """Takes the exclusive lock of a file, and returns its handle; None if another process has it
    for PATIENCE seconds, or until the monotonic time `end`."""
    end = end or time.monotonic() + PATIENCE
    while (lock := locked(path, makes)) is None and time.monotonic() < end:
        time.sleep(0.05)
    return lock
