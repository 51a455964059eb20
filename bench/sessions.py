"""One contender of bench/contenders.py with a list, from its first start until nothing is left to
begin, and what became of each line. Begin with `Session`.
"""

from __future__ import annotations

import os
import random
import shutil
import signal
import subprocess
import tempfile
import time
from collections import Counter
from contextlib import suppress
from typing import Any, Dict, Iterator, List, NamedTuple, Sequence, Tuple

from contenders import ACT, content

MORE_STARTS, LONGEST = 50, 300  # starts beyond the kills, and seconds


class Kill(NamedTuple):
    """A kill: of which kind of process, how many seconds after what, and whether that is the first
    job that is begun since the last kill."""
    kind: str
    delay: float
    is_after_a_job: bool


class Audit(NamedTuple):
    """The counts of lines: performed twice, lost unseen, in doubt, in doubt and performed, and not
    begun."""
    twice: int
    lost: int
    doubts: int
    performed: int
    unbegun: int


def audit(count: int, effects: str, stand: Dict[int, str]) -> Audit:
    """Compares the file of effects with what a contender's own record says of each line."""
    performed = Counter(map(int, content(effects).split()))
    doubts = [line for line, kind in stand.items() if kind == "doubt"]
    lost = [line for line, kind in stand.items() if kind == "done" and not performed[line]]
    return Audit(sum(times > 1 for times in performed.values()), len(lost), len(doubts),
                 sum(performed[it] > 0 for it in doubts),
                 sum(line not in stand for line in range(1, count + 1)))


class Session:
    """A contender with a list. `given` has the words of the command line. Use it as a context: at
    its end all processes that it has started are killed, and its folder is removed."""

    def __init__(self, given: Any, contender: Any, waits: Sequence[str], kills: Sequence[Kill] = (),
                 more: Sequence[Tuple[str, str]] = ()):
        """Makes the folder and the list, with a job for each of the times to wait. `more` is what
        the environment has in addition."""
        self.room, self.kills = tempfile.mkdtemp(dir=given.disk), list(kills)
        self.more, self.draws, self.starts = dict(more), random.Random(given.seed), 0
        self.count, self.most = len(waits), len(kills) + MORE_STARTS
        self.effects, self.crew = f"{self.room}/effects/file", None  # type: str, Any
        os.mkdir(f"{self.room}/effects")
        os.mkdir(f"{self.room}/run")
        with open(f"{self.room}/jobs", "w") as file:
            file.writelines(f"{line} {wait}\n" for line, wait in enumerate(waits, 1))
        self.contender = contender(given, self.room)
        self.contender.prepare()

    def __enter__(self) -> Session:
        return self

    def __exit__(self, *_: Any) -> None:
        while self.strike("all"):
            pass
        self.crew.wait()
        shutil.rmtree(self.room)

    def start(self) -> None:
        """Starts the contender, as its user does the first time and after a kill."""
        words, self.starts = self.contender.words(), self.starts + 1
        surroundings = {**os.environ, **self.more, "BENCH_ROOM": self.room}
        with open(f"{self.room}/said", "ab") as said:
            self.crew = subprocess.Popen(words, stdin=subprocess.DEVNULL, stdout=said, stderr=said,
                                         start_new_session=True, env=surroundings)
        self.look_anew()

    def see_out(self) -> Audit:
        """Starts it until nothing is left to begin, and waits for its leftovers."""
        end = time.monotonic() + LONGEST
        self.start()
        while time.monotonic() < end and not self.is_over():
            if self.crew.poll() is not None:
                time.sleep(0 if self.crew.returncode == -signal.SIGKILL else 0.1)
                self.start()
            elif self.kills:
                self.befall(self.kills[0])
                time.sleep(0.002)
            else:
                with suppress(subprocess.TimeoutExpired):
                    self.crew.wait(end - time.monotonic())
        while time.monotonic() < end and any(self.processes()):
            time.sleep(0.02)
        return audit(self.count, self.effects, self.contender.stand())

    def is_over(self) -> bool:
        """Returns whether nothing is left to begin. A runner that was killed doesn't know that."""
        is_killed = self.crew.poll() in (None, -signal.SIGKILL)
        is_done = not is_killed and len(self.contender.stand()) == self.count
        return self.starts == self.most or is_done

    def look_anew(self) -> None:
        """Has the next moment count from here, or from the first job that is begun after this."""
        self.since, self.begun = time.monotonic(), content(self.effects)

    def befall(self, kill: Kill) -> None:
        """Kills, if the moment has come and there is a process to kill."""
        now = time.monotonic()
        if kill.is_after_a_job and content(self.effects) == self.begun:
            self.since = now
        if now >= self.since + kill.delay and self.strike(kill.kind):
            while kill.kind == "all" and self.strike(kill.kind):
                pass
            self.kills.pop(0)
            self.look_anew()

    def processes(self) -> Iterator[Tuple[int, List[str]]]:
        """Yields the processes of this session with their words: they have its folder in their
        environment."""
        mark = f"BENCH_ROOM={self.room}".encode()
        for process in filter(str.isdecimal, os.listdir("/proc")):
            with suppress(OSError):
                if mark in content(f"/proc/{process}/environ").split(b"\0"):
                    words = content(f"/proc/{process}/cmdline").decode().split("\0")
                    yield int(process), words

    def strike(self, kind: str) -> bool:
        """Kills one process of a kind, or all that are there. Returns whether there was one."""
        processes, worker = list(self.processes()), self.contender.worker
        if kind == "all":
            found = [it for it, _ in processes]
        elif kind == "command":
            found = [it for it, words in processes if words[1:2] == [ACT] or words[0] == "sleep"]
        elif kind == "worker" and worker:
            found = [it for it, words in processes if worker in words[:3]]
        else:
            found = [self.crew.pid]
        for process in found if kind == "all" else self.draws.sample(found, min(len(found), 1)):
            with suppress(ProcessLookupError):
                os.kill(process, signal.SIGKILL)
        return bool(found)
