"""A tool's tests, one after the other. Begin with `try_all`."""

from __future__ import annotations

import filecmp
import subprocess
from typing import Callable, Collection, Dict


class Wrong(Exception):
    """What is wrong with what is tried."""


class Skipped(Exception):
    """Why something isn't tried here."""


def try_all(name: str, tests: Dict[str, Callable[[], object]],
            needed: Collection[str] = ()) -> int:
    """Makes these tests, and prints what came of each. If one that is needed fails, makes no other
    one. Prints the counts at the end, without what was skipped, and returns the exit status."""
    passed, total = 0, len(tests)
    for title, test in tests.items():
        try:
            last = str(test()).rpartition("\n")[2]
            print(f"{name}: {title}: ok{', ' if last else ''}{last}", flush=True)
            passed += 1
        except Skipped as why:
            print(f"{name}: {title}: skipped: {why}", flush=True)
            total -= 1
        except (Wrong, OSError, RuntimeError, subprocess.TimeoutExpired) as wrong:
            print(f"{name}: {title}: FAILED: {wrong}", flush=True)
            if title in needed:
                break
    print(f"{passed} passed, {total - passed} failed")
    return 0 if passed == total else 1


def made_twice(tool: str, folder: str) -> str:
    """Has a tool make a package twice, and returns the path of one. Raises Wrong if they differ."""
    one, two = (printed([tool, f"{folder}/{name}"]) for name in ("one", "two"))
    if not filecmp.cmp(one, two, shallow=False):
        raise Wrong(f"`{one}` and `{two}` were made of the same files, and differ")
    return one


def printed(words: Collection[str]) -> str:
    """Returns what a command prints. Raises Wrong if it fails."""
    ran = subprocess.run(list(words), stdin=subprocess.DEVNULL, stdout=subprocess.PIPE,
                         stderr=subprocess.STDOUT, text=True)
    if ran.returncode:
        raise Wrong(f"`{' '.join(words)}`: status {ran.returncode}:\n{ran.stdout}")
    return ran.stdout.strip()
