"""Runners whose supervisor stands still, or is gone: each ends its command, and starts no other one
without an acknowledgement or a place in the pipe. No report is lost or cut."""

from __future__ import annotations

import fcntl
import os
import re
import signal
import struct
import subprocess
import termios
import time
from typing import Callable

from jobs.crews import listed, performed
from harness.bench import until
from jobs.scene import DONE, FAILED, LEFT, Bench, Scene, want
from jobs.spoiled import status_of

REPORTS = 4  # the number of the pipe to its supervisor in a runner
SMALL = 4096  # bytes that a small pipe takes
LINES = 320  # the reports of so many lines fill two small pipes
LOOKS = 10  # in a row, after which nothing is about to happen
WAITS = 'while ! [ -e "$0/go" ]; do sleep 0.02; done; '


def state_of(process: int) -> str:
    """Returns what a process does, as /proc names it: S if it sleeps; nothing if it is gone."""
    try:
        with open(f"/proc/{process}/stat", encoding="utf-8", errors="replace") as file:
            return file.read().rpartition(")")[2].split()[0]
    except OSError:
        return ""


def stands_still(scene: Scene) -> Callable[[], bool]:
    """Returns a function that returns whether at many looks in a row no command lives, all runners
    and workers sleep, and nothing was performed."""
    def look() -> tuple:
        below = [*scene.runners(), *scene.worker_processes()]
        return performed(scene), [(it, state_of(it)) for it in below], len(scene.commands())

    def is_so() -> bool:
        first = look()
        for _ in range(LOOKS):
            time.sleep(0.01)
            if look() != first:
                return False
        return first[2] == 0 and {state for _, state in first[1]} <= {"S"}

    return is_so


def in_pipe(runner: int) -> int:
    """Returns how many bytes stand in a runner's pipe to its supervisor; 0 if it has none."""
    try:
        file = os.open(f"/proc/{runner}/fd/{REPORTS}", os.O_RDONLY | os.O_NONBLOCK)
    except FileNotFoundError:
        return 0
    try:
        return struct.unpack("i", fcntl.ioctl(file, termios.FIONREAD, b"1234"))[0]
    finally:
        os.close(file)


def make_small(runner: int) -> None:
    """Has a runner's pipe to its supervisor take few reports."""
    file = os.open(f"/proc/{runner}/fd/{REPORTS}", os.O_RDONLY | os.O_NONBLOCK)
    try:
        fcntl.fcntl(file, fcntl.F_SETPIPE_SZ, SMALL)
    finally:
        os.close(file)


def two_begun(bench: Bench, lines: int, script: str,
              *options: str) -> tuple[Scene, subprocess.Popen]:
    """Returns a run of two workers of which each has begun a command that waits, and its crew,
    which stands still."""
    scene, crew = listed(bench, lines, WAITS + script, 2, *options)
    until(lambda: performed(scene) == 2, "two commands have begun")
    crew.send_signal(signal.SIGSTOP)
    until(lambda: state_of(crew.pid) == "T", "the supervisor stands still")
    return scene, crew


def try_full_pipe(bench: Bench) -> str:
    """the supervisor stands still until the pipes of its runners are full: they go on until then
    and wait between two lines, and after that each end is reported"""
    scene, crew = two_begun(bench, LINES, "exit 75", "--untouched", "75")
    runners = list(scene.runners())
    for it in runners:
        make_small(it)
    scene.let("go")
    until(stands_still(scene), "the runners wait")
    count, sizes = performed(scene), [in_pipe(it) for it in runners]
    crew.send_signal(signal.SIGCONT)
    status = status_of(crew)
    told = re.findall(r"^amo_jobs: line (\d+): attempt \d\.\d+ did nothing \(status 75\)$",
                      scene.tale(), re.M)
    want(sorted(map(int, told)) == list(range(1, LINES + 1)),
         f"of {LINES} ends {len(set(told))} are told: {scene.tale()[-500:]}")
    want(status == FAILED and performed(scene) == LINES,
         f"{performed(scene)} of {LINES} lines were performed, status {status}")
    want(count < LINES and min(sizes) > SMALL // 2, f"the runners go on: {count}, {sizes}")
    want(scene.counts(status=FAILED)["untouched"] == LINES, "not each end is recorded")
    return f"the pipes were full after {count} of {LINES} lines"


def try_stopped_supervisor(bench: Bench) -> None:
    """while the supervisor stands still a misspelt command uses up one line a runner, and a good
    one goes on"""
    scene, crew = two_begun(bench, 60, "exit 127")
    scene.let("go")
    until(stands_still(scene), "the runners wait for an acknowledgement")
    want(performed(scene) == 2, f"{performed(scene)} lines were used up")
    crew.send_signal(signal.SIGCONT)
    scene.ends(crew, LEFT)
    scene, crew = two_begun(bench, 60, "exit 0")
    scene.let("go")
    until(lambda: performed(scene) == 60, "all lines are performed")
    crew.send_signal(signal.SIGCONT)
    scene.ends(crew, DONE)


def try_killed_supervisor(bench: Bench) -> None:
    """the supervisor is killed while two commands run: their runners record both ends, start no
    other command, and end; the next crew finishes"""
    scene, crew = two_begun(bench, 30, "exit 0")
    crew.kill()
    crew.wait()
    scene.let("go")
    until(lambda: not list(scene.runners()), "the runners end")
    count, ends = performed(scene), [it.answer for it in scene.look().intents.values()]
    scene.ends(scene.start(), DONE)
    want(count == 2, f"{count} lines were performed, and two had begun")
    want(ends.count("done") == 2 and set(ends) <= {"done", "unbegun"}, f"the ends are {ends}")
    want(performed(scene) == 30, f"{performed(scene)} of 30 lines were performed")


PARTS = {"held": [try_full_pipe, try_stopped_supervisor, try_killed_supervisor]}
