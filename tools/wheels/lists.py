#!/usr/bin/env python3
"""Calls of `amo.jobs` of the installed module, killed with all their processes at each step of a
command in turn, and made again.

  lists.py FOLDER [FILE-SYSTEM]

The command of a line has two steps: before it pays, and after. At a step it kills the process that
has called `run`, the crew, its runners and itself. A second call goes on. An operator looks at the
payments, answers each doubt, and a third call ends the list. Each line must be paid once. An
operator who answers the other way pays a line twice, and the audit must find that. A call that is
interrupted must end its crew in order. FOLDER must be on a file system that amo accepts, or on the
FILE-SYSTEM that is given. The last line is 'N passed, M failed'; the status is 0 if none failed,
else 1.
"""

from __future__ import annotations

import os
import shutil
import signal
import subprocess
import sys
import time
from functools import partial
from typing import Callable, Dict, List

sys.dont_write_bytecode = True

from amo import jobs
from trying import Wrong, try_all

LONGEST = 300  # seconds of a call that is interrupted
LINES = ["rent 700 to Ada", "rent 650 to Ben", "rent 500 to Cid"]


def want(holds: bool, what: object) -> None:
    if not holds:
        raise Wrong(str(what))


# ---- the command of a line, and the process that calls `run`

def parent_of(process: int) -> int:
    with open(f"/proc/{process}/stat", encoding="utf-8", errors="replace") as file:
        return int(file.read().rpartition(")")[2].split()[1])


def kill_all_above(top: int) -> None:
    """Kills each process from `top` down to this one."""
    chain = [os.getpid()]
    while chain[-1] != top and chain[-1] > 1:
        chain.append(parent_of(chain[-1]))
    if chain[-1] != top:
        sys.exit(f"process {top} isn't above this one")
    for process in reversed(chain):
        os.kill(process, signal.SIGKILL)


def step(folder: str) -> None:
    """Counts a step, and kills all if it is the one to be killed at."""
    with open(f"{folder}/steps", "a+", encoding="ascii") as file:
        file.write(".")
        file.flush()
        file.seek(0)
        number = len(file.read())
    with open(f"{folder}/kill", encoding="ascii") as file:
        top, at = map(int, file.read().split())
    if number == at:
        kill_all_above(top)


def pay(folder: str, text: str) -> None:
    """The command of a line."""
    step(folder)
    with open(f"{folder}/paid", "a", encoding="utf-8") as file:
        file.write(f"{text}\n")
    step(folder)


def call(folder: str, at: int, options: List[str]) -> int:
    """Calls `run`, to be killed at this step; returns the status of the crew."""
    with open(f"{folder}/kill", "w", encoding="ascii") as file:
        file.write(f"{os.getpid()} {at}")
    words = [sys.executable, os.path.abspath(__file__), "pay", folder]
    return jobs.run(f"{folder}/list.txt", words, workers=1, options=options,
                    report=lambda line: None)


# ---- the tests

def begun(folder: str) -> None:
    """Makes a folder with a list."""
    shutil.rmtree(folder, ignore_errors=True)
    os.makedirs(folder)
    with open(f"{folder}/list.txt", "w", encoding="utf-8") as file:
        file.writelines(f"{it}\n" for it in LINES)


def started(folder: str, at: int, options: List[str]) -> "subprocess.Popen[bytes]":
    words = [sys.executable, os.path.abspath(__file__), "call", folder, str(at), *options]
    return subprocess.Popen(words)


def paid(folder: str) -> List[str]:
    if not os.path.exists(f"{folder}/paid"):
        return []
    with open(f"{folder}/paid", encoding="utf-8") as file:
        return file.read().splitlines()


def stands(folder: str, options: List[str]) -> jobs.Status:
    """Returns how the lines stand once nothing runs."""
    found = jobs.status(f"{folder}/list.txt", options=options)
    while found.running or found.alive:
        time.sleep(0.02)
        found = jobs.status(f"{folder}/list.txt", options=options)
    return found


def killed_at(folder: str, at: int, options: List[str], lies: bool) -> int:
    """Makes the calls, of which the first is killed at this step; returns its status. An operator
    who lies answers the other way. Raises Wrong if a line isn't paid exactly once."""
    begun(folder)
    first = started(folder, at, options).wait()
    want(first in (0, -signal.SIGKILL), f"the first call ended with {first}")
    want(stands(folder, options).doubt == (first != 0), stands(folder, options))
    second = started(folder, 0, options).wait()
    want(second == (2 if first else 0), f"the second call ended with {second}")
    for doubt in jobs.doubts(f"{folder}/list.txt", options=options):
        jobs.answer(f"{folder}/list.txt", doubt, (doubt.text in paid(folder)) != lies, now=True,
                    options=options)
    third = started(folder, 0, options).wait()
    want(third == 0, f"the third call ended with {third}")
    want(sorted(paid(folder)) == sorted(LINES), f"paid: {paid(folder)}")
    want(stands(folder, options).done == len(LINES), stands(folder, options))
    return first


def at_each_step(folder: str, options: List[str]) -> str:
    """Kills the first call at each step."""
    at = 1
    while killed_at(folder, at, options, False):
        at += 1
    want(at == 2 * len(LINES) + 1, f"{at - 1} steps")
    return f"{at - 1} steps"


def a_lie(folder: str, options: List[str]) -> str:
    """Shows that a false answer is found."""
    try:
        killed_at(folder, 2, options, True)
    except Wrong as found:
        want(paid(folder).count(LINES[0]) == 2, found)
        return str(found)
    raise Wrong("a false answer isn't found")


def too_early(folder: str, options: List[str]) -> str:
    """Shows that not-done waits, and that a refusal has its status."""
    begun(folder)
    started(folder, 1, options).wait()
    stands(folder, options)
    doubt = jobs.doubts(f"{folder}/list.txt", options=options)[0]
    try:
        jobs.answer(f"{folder}/list.txt", doubt, False, options=options)
    except jobs.Refused as refused:
        want(refused.status == 75, refused.status)
        return str(refused)
    raise Wrong("not-done is taken at once")


def interrupted(folder: str, options: List[str]) -> str:
    """Shows that a call that is interrupted ends its crew in order: no line is in doubt."""
    begun(folder)
    words = [sys.executable, os.path.abspath(__file__), "wait", folder, *options]
    with subprocess.Popen(words, stderr=subprocess.DEVNULL) as caller:
        while not paid(folder) and caller.poll() is None:
            time.sleep(0.02)
        caller.send_signal(signal.SIGINT)
        try:
            caller.wait(LONGEST)
        finally:
            let_go(folder)
    found = jobs.status(f"{folder}/list.txt", options=options)
    want((found.done, found.open, found.doubt, found.alive) == (1, 2, 0, []), found)
    want(caller.returncode in (1, 130, -signal.SIGINT), caller.returncode)
    return f"status {caller.returncode}"


def let_go(folder: str) -> None:
    """Has the command of `wait` end."""
    with open(f"{folder}/go", "w", encoding="ascii"):
        pass


def wait(folder: str, options: List[str]) -> None:
    """Calls `run` with a command that pays at once, and ends once its crew got the interrupt."""
    signal.signal(signal.SIGINT, signal.default_int_handler)  # which may be ignored at the start
    script = 'echo "$1" >>"$0/paid"; until [ -e "$0/go" ]; do sleep 0.05; done'
    jobs.run(f"{folder}/list.txt", ["sh", "-c", script, folder], workers=1, options=options,
             report=lambda line: let_go(folder) if "it got SIGINT" in line else None)


def check(folder: str, file_system: str = "") -> int:
    """Runs the tests."""
    options = ["--file-system", file_system] if file_system else []
    tests: Dict[str, Callable[[str, List[str]], str]] = {
        "killed at each step": at_each_step, "a false answer": a_lie,
        "an early answer": too_early, "interrupted": interrupted}
    return try_all("lists", {name: partial(test, folder, options) for name, test in tests.items()})


def main(words: List[str]) -> int:
    if words[0] == "pay":
        pay(words[1], words[2])
        return 0
    if words[0] == "call":
        return call(words[1], int(words[2]), words[3:])
    if words[0] == "wait":
        wait(words[1], words[2:])
        return 0
    return check(f"{os.path.abspath(words[0])}/lists", *words[1:])


if __name__ == "__main__":
    sys.exit(main(sys.argv[1:]))
