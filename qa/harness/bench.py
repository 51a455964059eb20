"""The verdict of a test of programs, and the bench on which it tries them.

tools/kill_jobs, tools/try_worker and tools/try_machines share these parts.
"""

from __future__ import annotations

import os
import random
import re
import time
from typing import Any, Callable, Iterator, Optional


class Wrong(Exception):
    """A mistake of the program, in words."""


class Skipped(Exception):
    """The reason why a test can't be tried on this machine."""


def want(holds: object, problem: str) -> None:
    """Raises Wrong with this problem unless something holds."""
    if not holds:
        raise Wrong(problem)


def until(holds: Callable[[], object], event: str, seconds: float = 300,
          pause: float = 0.01) -> None:
    """Waits until something holds, far longer than a loaded machine needs for the event."""
    end = time.monotonic() + seconds
    while not holds():
        want(time.monotonic() < end, f"it never is so: {event}")
        time.sleep(pause)


def processes_of(folder: str, *words: str) -> Iterator[int]:
    """Yields the processes that have these words in their command line, and a path in a folder."""
    for process in filter(str.isdecimal, os.listdir("/proc")):
        try:
            with open(f"/proc/{process}/cmdline", "rb") as file:
                line = file.read().decode("utf-8", "replace").split("\0")
        except OSError:
            continue
        if any(f"{it}/".startswith(f"{folder}/") for it in line) and set(words) <= set(line):
            yield int(process)


class Bench:
    """A folder in which a test tries programs, with its random draws, its end and its counts."""

    def __init__(self, room: str, is_long: bool, seed: str) -> None:
        self.room, self.is_long = os.path.realpath(room), is_long
        self.seed, self.draws = seed, random.Random(seed)
        self.end: Optional[float] = None
        self.skipped: list[str] = []
        self.counts: dict[str, int] = {}

    def has_time(self) -> bool:
        """Returns whether the test may go on."""
        return self.end is None or time.monotonic() < self.end

    def add(self, name: str, more: int = 1) -> None:
        """Counts so many more things of this name."""
        self.counts[name] = self.counts.get(name, 0) + more


def spread(whole: list[Any], count: int) -> list[Any]:
    """Returns so many elements of a list, at equal distances, or all if there are fewer."""
    if len(whole) <= count:
        return whole
    return [whole[k * len(whole) // count] for k in range(count)]


def shown(name: str, test: Callable[[Any], Any], bench_of: Callable[[], Any], pattern: str,
          tries: int) -> str:
    """Returns what a test says of a planted mistake, which it must find, in words of this pattern.

    Which process is faster may decide whether one try shows the mistake, so there are several.
    """
    found = ""
    for _ in range(tries):
        bench = bench_of()
        try:
            test(bench)
        except Wrong as wrong:
            found = str(wrong)
            break
        finally:
            bench.close()
    want(found, f"{name} shows nothing in: {test.__doc__}")
    want(re.search(pattern, found), f"{name} shows something else: {found}")
    return found
