#!/usr/bin/env -S python3 -S
"""Stands between a runner and its worker, hands on each line, and kills or stops somebody at one
moment.

AMO_REAL is the program of the worker. AMO_ROOM has `effects`, and `moments`, which counts them over
all workers of a run: before and after each line of the worker is handed on, once the command has
begun and once it did its work, and before and after each answer is handed on. AMO_ROOM/lives has
the number of each worker that is started. AMO_ROOM/overs has the replies to workers that wait for
the next round. AMO_PLAN is NUMBER:WHO+WHO, of supervisor, runner, worker and command, each with `~`
before it if it is stopped for a while, and for as long as there is a file AMO_ROOM/held.
"""

import contextlib
import fcntl
import os
import select
import signal
import subprocess
import sys
import time

REAL, ROOM = os.environ["AMO_REAL"], os.environ["AMO_ROOM"]
AT, _, WHO = os.environ.get("AMO_PLAN", "0:").partition(":")
STOPPED, OVER = 0.7, b"over\n"
ORDER = "command ~command supervisor ~supervisor runner ~runner worker ~worker".split()
# How long a word of a command is waited for, while its runner lives and once that is gone.
LONGEST, ALONE = 240, 0.6


def read(path):
    try:
        with open(path) as file:
            return file.read()
    except FileNotFoundError:
        return ""


def note(name, text):
    """Notes a line in a file of the room."""
    with open(f"{ROOM}/{name}", "a") as file:
        file.write(f"{text}\n")


def number():
    """Returns the number of this moment."""
    with open(f"{ROOM}/moments", "a+") as file:
        fcntl.flock(file, fcntl.LOCK_EX)
        file.seek(0)
        count = len(file.read()) + 1
        file.write(".")
    return count


def parent_of(process):
    """Returns the number of this process's parent."""
    return int(read(f"/proc/{process}/stat").rpartition(")")[2].split()[1])


def befall(process, is_killed):
    """Kills a process, or stops it and has it go on after a while."""
    try:
        os.kill(process, signal.SIGKILL if is_killed else signal.SIGSTOP)
    except ProcessLookupError:
        return
    if not is_killed:
        goes_on = (f'sleep {STOPPED}; while [ -e "$0/held" ]; do sleep 0.05; done;'
                   f' kill -CONT {process}')
        subprocess.Popen(["sh", "-c", goes_on, ROOM], stdin=subprocess.DEVNULL,
                         start_new_session=True)


def moment(worker, name, line, kind):
    if number() != int(AT):
        return
    with open(f"{ROOM}/befallen", "a") as file:
        file.write(f"{AT}:{WHO} {name} of line {line} {kind}\n")
    words = WHO.split("+")
    supervisor = parent_of(os.getppid())
    for who in sorted(words, key=ORDER.index):
        if who.endswith("command"):
            begun = [it.split() for it in read(f"{ROOM}/effects/{line}").splitlines() if it.startswith(f"begun {name} ")]
            if begun:
                befall(int(begun[-1][2]), who == "command")
        elif who.endswith("supervisor"):
            befall(supervisor, who == "supervisor")
        elif who.endswith("runner"):
            befall(os.getppid(), who == "runner")
        else:
            befall(worker.pid, who == "worker")
            if who == "worker":
                os.kill(os.getpid(), signal.SIGKILL)


def is_over(lock):
    """Returns whether the runner has answered, or is gone, and nothing of the command is left."""
    return bool(select.select([0], [], [], 0)[0]) and not os.path.exists(lock)


def wait_for(word, name, line, lock, runner):
    """Waits until the command has written this down, or is gone."""
    end, gone = time.monotonic() + LONGEST, False
    while time.monotonic() < end:
        over = is_over(lock)
        if f"{word} {name}" in read(f"{ROOM}/effects/{line}"):
            return True
        if over:
            return False
        if not gone and os.getppid() != runner:
            gone, end = True, time.monotonic() + ALONE
        time.sleep(0.004)
    return False


def relay(worker, run, number_of_worker):
    """Hands lines on in both directions, one after the other."""
    runner = os.getppid()
    while True:
        said = worker.stdout.readline()
        if not said.endswith(b"\n"):
            return
        kind, serial, line = (said.split(b" ") if said != OVER else (said, b"over", b"0"))[:3]
        name, line = f"{number_of_worker}.{serial.decode()}", int(line)
        moment(worker, name, line, "unsaid")
        sys.stdout.buffer.write(said)
        sys.stdout.buffer.flush()
        moment(worker, name, line, "said")
        if kind == b"perform" and WHO:
            for word in ("begun", "did"):
                if wait_for(word, name, line, f"{run}/command.{name}", runner):
                    moment(worker, name, line, word)
        answer = sys.stdin.buffer.readline()
        if said == OVER:
            note("overs", f"{name} {answer.decode().strip()}")
        moment(worker, name, line, "unanswered")
        if not answer.endswith(b"\n"):
            worker.stdin.close()
            return
        worker.stdin.write(answer)
        worker.stdin.flush()
        moment(worker, name, line, "answered")


def main(words):
    if words[0] != "work":
        os.execv(REAL, [REAL, *words])
    note("lives", words[2])
    worker = subprocess.Popen([REAL, *words], stdin=subprocess.PIPE, stdout=subprocess.PIPE)
    try:
        relay(worker, words[1], words[2])
    except BrokenPipeError:
        pass
    with contextlib.suppress(BrokenPipeError):  # it may have died with an answer in its pipe
        worker.stdin.close()
    status = worker.wait()
    if status < 0:
        os.kill(os.getpid(), signal.SIGKILL)
    os._exit(status)


if __name__ == "__main__":
    main(sys.argv[1:])
