"""Measures how fast lines are done: by amo_worker with a partner that does nothing, by amo_jobs,
and by the scripts that one would write in their place. bench/worker and bench/worker_syncs use it.

A run is made in a folder of its own, which is removed. It ends with its list, or when its time is
over.
"""

from __future__ import annotations

import math
import os
import random
import shutil
import signal
import subprocess
import sys
import tempfile
import time
import traceback
from typing import Callable, Dict, Iterable, List, NamedTuple, Sequence

HERE = os.path.dirname(os.path.realpath(__file__))
AMO_JOBS, BUILT = f"{HERE}/../amo_jobs", f"{HERE}/../crates/amo_worker/out/amo_worker"
CREWS = (1, 4, 16)
MOST_WORKERS = 16
OVER, LEFT, LATER = 0, 69, 75
STAYS = b"over\n"  # a worker says this if its part of a round is over
# Seconds until a partner starts its worker again, or has it go on; twice as long each time until it
# asks for a line.
SHORTEST, LONGEST = 0.01, 2.0


class Way(NamedTuple):
    """A way to start programs: the program amo_worker, or a script that starts it; the words before
    those of another program; and the additions to the environment of each."""
    worker: str
    words: Sequence[str] = ()
    more: Sequence[tuple] = ()

    def environment(self) -> Dict[str, str]:
        """Returns the environment of a program."""
        return {**os.environ, **dict(self.more)}


class Size(NamedTuple):
    """The size of a run: its lines, its workers, and the seconds that it may take."""
    lines: int
    workers: int
    seconds: float = math.inf


class Span(NamedTuple):
    """The result of a run: how many lines it did, when the first was begun, and when the last was
    over. It has how many of them lie between the two times with all that they take."""
    count: int
    whole: int
    first: float
    last: float

    def rate(self) -> float:
        """Returns the lines a second."""
        if not self.whole or self.last <= self.first:
            sys.exit("bench: too few lines were done; give more --seconds")
        return self.whole / (self.last - self.first)


def write_list(room: str, lines: int) -> None:
    """Writes a list of so many lines of some thirty bytes."""
    with open(f"{room}/jobs", "w") as file:
        file.writelines(f"job {k} of some forty bytes or so\n" for k in range(1, lines + 1))


def make_run(worker: str, room: str, workers: int, options: Iterable[str] = ()) -> None:
    """Makes the run's folder, which the door alone does, over the list of this room."""
    words = [worker, "door", f"{room}/run", "--workers", str(workers), *options, f"{room}/jobs"]
    if subprocess.run(words, stdin=subprocess.DEVNULL).returncode:
        sys.exit(f"`{room}/run`: it can't be made; correct what the lines above report")


def at_once(calls: List[Callable[[], Span]]) -> Span:
    """Makes these calls in processes side by side, and returns what all of them did together."""
    ends = []
    for call in calls:
        ready, result = os.pipe()
        if os.fork() == 0:
            try:
                os.write(result, " ".join(map(repr, call())).encode())
            except BaseException:
                traceback.print_exc()
            finally:
                os._exit(0)
        os.close(result)
        ends.append(ready)
    texts = [os.read(it, 1 << 12).split() for it in ends]
    for it in ends:
        os.close(it)
        os.wait()
    if not all(texts):
        sys.exit("bench: a process failed; correct what the lines above report")
    spans = [Span(int(it[0]), int(it[1]), float(it[2]), float(it[3])) for it in texts]
    spans = [it for it in spans if it.count] or spans
    return Span(sum(it.count for it in spans), sum(it.whole for it in spans),
                min(it.first for it in spans), max(it.last for it in spans))


def partner(way: Way, room: str, size: Size, options: Iterable[str], p: int) -> Span:
    """Has worker `p` do lines until none is open, or the time is over. Each line that the worker
    asks for is answered as done at once; nothing is started for it, and no lock is made. From the
    first line that it asks for to the last it does one line less than it asks for."""
    words = [way.worker, "work", f"{room}/run", str(p), "--workers", str(size.workers),
             f"{room}/jobs", *options]
    count, first, last, status, pause = 0, math.inf, 0.0, LATER, SHORTEST
    while status == LATER and time.monotonic() < first + size.seconds:
        with subprocess.Popen(words, stdin=subprocess.PIPE, stdout=subprocess.PIPE,
                              stderr=subprocess.PIPE, bufsize=0, env=way.environment()) as process:
            while line := os.read(process.stdout.fileno(), 1 << 16):
                now = time.monotonic()
                ending = b"go\n" if now < first + size.seconds else b"leave\n"
                if line == STAYS:
                    time.sleep(random.uniform(pause / 2, pause))
                    process.stdin.write(ending)
                    pause = min(2 * pause, LONGEST)
                    continue
                first, last, count, pause = min(first, now), now, count + 1, SHORTEST
                process.stdin.write(b"done %s 0 %s" % (line.split(b" ", 2)[1], ending))
            message = process.stderr.read()
        status = process.returncode
        time.sleep(random.uniform(pause / 2, pause))
        pause = min(2 * pause, LONGEST)
    if status not in (OVER, LEFT, LATER):
        raise RuntimeError(f"worker {p}: status {status}: {message.decode()}")
    return Span(count, max(count - 1, 0), first, last)


def script(name: str, way: Way, room: str, size: Size, command: Iterable[str], p: int) -> Span:
    """Has worker `p` of bench/worker_flock or bench/worker_sqlite do lines."""
    words = [*way.words, sys.executable, f"{HERE}/worker_{name}", f"{room}/run", str(p),
             f"{room}/jobs", str(size.seconds), *command]
    ran = subprocess.run(words, stdout=subprocess.PIPE, check=True, env=way.environment())
    count, first, last = ran.stdout.split()
    return Span(int(count), int(count), float(first), float(last))


def crew(way: Way, room: str, size: Size, options: Iterable[str], command: Iterable[str]) -> Span:
    """Has amo_jobs run the list, and stops it in order when its time is over. The journals show
    what was done: the first that grows, the last that was written, and the ends that they have."""
    words = [sys.executable, AMO_JOBS, "crew", "--worker-program", way.worker, "--workers",
             str(size.workers), *options, f"{room}/jobs", "--", *command]
    journals = [f"{room}/jobs.run/journal.{p}" for p in range(1, MOST_WORKERS + 1)]
    with open(f"{room}/messages", "w+b") as messages:
        process = subprocess.Popen(words, stdin=subprocess.DEVNULL, stdout=messages,
                                   stderr=messages, env=way.environment())
        while process.poll() is None and not any(map(has_appends, journals)):
            time.sleep(0.001)
        first = time.time()
        try:
            process.wait(size.seconds if size.seconds < math.inf else None)
        except subprocess.TimeoutExpired:
            process.send_signal(signal.SIGTERM)
        status = process.wait()
        messages.seek(0)
        if status not in (OVER, LEFT):
            sys.exit(f"amo_jobs: status {status}: {messages.read().decode()}")
    count = sum(map(ends_in, journals))
    return Span(count, count, first, max(os.stat(it).st_mtime for it in journals))


def has_appends(journal: str) -> bool:
    """Returns whether the file is there and has more than its first byte."""
    return os.path.exists(journal) and os.path.getsize(journal) > 1


def ends_in(journal: str) -> int:
    """Returns how many lines are done by this journal, whose records hold no other text."""
    with open(journal, "rb") as file:
        return file.read().count(b"done ")


def run(kind: str, way: Way, folder: str, size: Size, options: Sequence[str] = (),
        command: Sequence[str] = ()) -> Span:
    """Makes one run: of `amo_worker`, `amo_jobs`, `flock` or `sqlite`. amo_jobs and the scripts
    start the command for each line; the scripts may do without."""
    room = tempfile.mkdtemp(dir=folder)
    try:
        write_list(room, size.lines)
        if kind == "amo_jobs":
            return crew(way, room, size, options, command)
        if kind == "amo_worker":
            make_run(way.worker, room, size.workers, options)
            return at_once([lambda p=p: partner(way, room, size, options, p)
                            for p in range(1, size.workers + 1)])
        os.mkdir(f"{room}/run", 0o700)
        return at_once([lambda p=p: script(kind, way, room, size, command, p)
                        for p in range(1, size.workers + 1)])
    finally:
        shutil.rmtree(room)
