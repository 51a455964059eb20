"""Tests side by side, each in a process of its own.

tools/kill_jobs, tools/try_worker and tools/try_machines run their tests so.
"""

from __future__ import annotations

import json
import os
import shutil
import signal
import sys
import time
import traceback
from contextlib import suppress
from typing import Any, Callable, Iterable, NamedTuple, NoReturn, Optional, Sequence

from harness.bench import Skipped, Wrong

Told = dict[str, Any]  # what came of a test, as its process writes it to a file
DIED: Told = {"wrong": "it died", "said": None, "skipped": [], "seconds": 0.0}


class Test(NamedTuple):
    """A test with the part of the tool that it belongs to."""
    part: str
    name: str
    call: Callable[[Any], Any]


def tests_of(modules: Iterable[Any]) -> list[Test]:
    """Returns the tests of these modules, `try_NAME` each, in their order."""
    return [Test(part, test.__name__[4:], test)
            for module in modules for part in module.PARTS for test in module.PARTS[part]]


def check_names(tool: str, names: Sequence[str], tests: Sequence[Test]) -> None:
    """Ends the program if one of the names is neither a part nor a test."""
    unknown = set(names) - {name for it in tests for name in (it.part, it.name)}
    if unknown:
        sys.exit(f"{tool}: `{' '.join(sorted(unknown))}`: no part or test has this name; see the"
                 f" parts in the head of tools/{tool}")


def tried(test: Callable[[Any], Any], bench: Any) -> Told:
    """Tries a test, and returns what it found wrong, what it says, or why it was left out."""
    try:
        return {**DIED, "wrong": None, "said": test(bench)}
    except Skipped as skipped:
        return {**DIED, "wrong": None, "skipped": [str(skipped)], "is_left_out": True}
    except Wrong as wrong:
        return {**DIED, "wrong": str(wrong)}
    except Exception:
        return {**DIED, "wrong": traceback.format_exc()}


class Lanes:
    """Runs tests in so many lanes. A tool's own class tries one test, and may do more for it."""

    def __init__(self, room: str, most: int, end: Optional[float] = None) -> None:
        self.room, self.most, self.end = room, most, end
        self.running: dict[int, tuple[Test, str]] = {}
        self.passed = self.failed = 0
        self.skipped: set[str] = set()
        self.told: list[Told] = []

    def try_test(self, it: Test, room: str, seconds: Optional[float]) -> Told:
        """Tries a test in its process, in a folder, for so many seconds if there is an end."""
        raise NotImplementedError

    def weight(self, it: Test) -> int:
        """Returns how many shares of the time that is left a test gets."""
        return 1

    def prepare(self, room: str) -> None:
        """Puts the files into a test's folder that the test needs."""

    def begin(self) -> None:
        """Makes the process of a test ready."""
        signal.signal(signal.SIGTERM, signal.SIG_DFL)

    def figures(self, told: Told) -> str:
        """Returns the numbers that the line of a test has."""
        return f"{told['seconds']:.1f} s"

    def clear(self, it: Test, room: str, told: Told) -> None:
        """Removes a test's folder, unless something is wrong."""
        if not told["wrong"]:
            shutil.rmtree(room, ignore_errors=True)

    def run(self, tests: Sequence[Test]) -> None:
        """Runs these tests, and prints a line for each."""
        waiting = list(tests)
        while waiting or self.running:
            while waiting and len(self.running) < self.most:
                self.start(waiting[0], self.share(waiting))
                waiting.pop(0)
            process, _ = os.wait()
            if process in self.running:
                self.take(*self.running.pop(process))

    def share(self, waiting: Sequence[Test]) -> Optional[float]:
        """Returns how many seconds the first of these tests may take; None if there is no end."""
        if self.end is None:
            return None
        left, weights = max(self.end - time.monotonic(), 1), [self.weight(it) for it in waiting]
        return left * min(self.most * weights[0] / sum(weights), 1)

    def start(self, it: Test, seconds: Optional[float]) -> None:
        """Starts the process of a test."""
        room = f"{self.room}/{it.part}.{it.name}"
        os.mkdir(room)
        self.prepare(room)
        sys.stdout.flush()
        process = os.fork()
        if process == 0:
            self.live(it, room, seconds)
        self.running[process] = it, room

    def live(self, it: Test, room: str, seconds: Optional[float]) -> NoReturn:
        """Tries a test in a process of its own, and ends that process."""
        try:
            self.begin()
            begun = time.monotonic()
            told = self.try_test(it, room, seconds)
            with open(f"{room}/told.{it.name}", "w") as file:
                json.dump({**told, "seconds": time.monotonic() - begun}, file)
        finally:
            os._exit(0)

    def stop(self) -> None:
        """Ends the tests that still run, and waits until their processes are gone."""
        for process in self.running:
            with suppress(ProcessLookupError, ChildProcessError):
                os.kill(process, signal.SIGTERM)
                os.waitpid(process, 0)

    def take(self, it: Test, room: str) -> None:
        """Takes what came of a test whose process has ended, and prints its line."""
        try:
            with open(f"{room}/told.{it.name}") as file:
                told = json.load(file)
        except (OSError, ValueError):
            told = DIED
        self.clear(it, room, told)
        self.skipped |= set(told["skipped"])
        if told.get("is_left_out"):
            return
        self.told.append(told)
        figures = self.figures(told)
        if told["wrong"]:
            self.failed += 1
            end = f"FAILED: {told['wrong'].strip()} ({figures}; {it.call.__doc__})"
        else:
            self.passed += 1
            end = f"ok, {told['said']}, {figures}" if told["said"] else f"ok, {figures}"
        print(f"{it.part} {it.name}: {end}", flush=True)
