"""A run as `amo_worker status --follow` prints it: one JSON object a line.

The first line has all attempts, each further one those that are new or have changed.
docs/follow.schema.json describes a line.
"""

from __future__ import annotations

import json
import os
import subprocess
from bisect import bisect_left, bisect_right
from typing import Any, Counter, Dict, List, NamedTuple, Optional, Set, Tuple

from amo_jobs.messages import End, visible
from amo_jobs.processes import signer
from amo_jobs.statuses import Status
from amo_jobs.worker import Program

FORMAT, PART = 1, 1 << 20  # of the lines, bytes of one read
# How a line may stand, and what people read for it. A line is pending if nobody has looked whether
# its attempt is over.
NAMES = {"done": "done", "failed": "failed", "doubt": "in doubt",
         "pending": "running or in doubt", "untouched": "untouched", "open": "open"}
COUNTS = tuple(NAMES)

# The state of an outcome that nobody answered; `done` with a code above 0 is failed.
OWN = {**{it: it for it in COUNTS}, "unbegun": "open"}


class Attempt(NamedTuple):
    """One attempt, as its records say. Times are in seconds since 1970; None is not known."""

    worker: int
    serial: int
    line: int
    begun: Optional[int]
    outcome: str  # pending, done, doubt, unbegun or untouched
    code: Optional[int]
    ended: Optional[int]
    state: str  # one of COUNTS; an answer of an operator may have changed it

    @property
    def key(self) -> Tuple[int, int]:
        """What no other attempt of the run has."""
        return self.worker, self.serial

    @property
    def name(self) -> str:
        """The name by which an operator answers, P.S."""
        return f"{self.worker}.{self.serial}"

    @property
    def answer(self) -> Optional[str]:
        """What an operator answered, which the state shows; None if nobody did."""
        own = "failed" if self.outcome == "done" and self.code else OWN.get(self.outcome)
        return None if self.state == own else "not-done" if self.state == "open" else "done"

    @property
    def seconds(self) -> Optional[int]:
        """How long it took; None if that isn't known. Nobody may have seen the end of a doubt."""
        if self.begun is None or self.ended is None or self.outcome == "doubt":
            return None
        return self.ended - self.begun if self.ended > self.begun else 0


class Snapshot:
    """All that the lines have said so far. What a view asks each second is counted as lines come,
    since a run may have 100,000 attempts."""

    def __init__(self) -> None:
        self.time, self.id = 0, ""
        self.round: Optional[int] = None
        self.workers: Optional[int] = None
        self.lines = 0
        self.counts: Dict[str, int] = dict.fromkeys(COUNTS, 0)
        self.attempts: Dict[Tuple[int, int], Attempt] = {}
        self.states: Dict[str, Set[Tuple[int, int]]] = {it: set() for it in COUNTS}
        self.outcomes: Counter[str] = Counter()  # how many attempts have which outcome
        self.ends: Counter[int] = Counter()  # how many attempts have ended in each second
        self.ended: Optional[int] = None  # when the last one has ended
        self.timed = 0  # of how many it is known how long they took
        self.begun: Optional[int] = None  # when the first one was begun
        self.begins: List[int] = []  # when attempts were under way: begins, and the ends of these
        self.stops: List[int] = []  # times, which are apart from each other
        self.since = 0.0  # when the first runner that is alive began

    def take(self, said: Dict[str, Any]) -> List[Attempt]:
        """Takes a line; returns the attempts that are new or have changed."""
        self.time, self.id = said["time"], said["id"]
        self.round, self.workers, self.lines = said["round"], said["workers"], said["lines"]
        self.counts = {it: said[it] for it in COUNTS}
        fresh = {it.key: it for it in map(Attempt._make, said["attempts"])
                 if self.attempts.get(it.key) != it}
        self.put(fresh)
        return list(fresh.values())

    def put(self, fresh: Dict[Tuple[int, int], Attempt]) -> None:
        """Puts attempts at their places. (A first line may have 100,000 of them.)"""
        for key in [it for it in fresh if it in self.attempts]:
            self.forget(key, self.attempts[key])
        self.attempts.update(fresh)
        for key, it in fresh.items():
            self.states[it.state].add(key)
        ended = [it.ended for it in fresh.values() if it.ended is not None]
        begun = [it.begun for it in fresh.values() if it.begun is not None]
        self.outcomes.update(it.outcome for it in fresh.values())
        self.ends.update(ended)
        self.ended = max([*ended, *filter(None, [self.ended])], default=None)
        self.begun = min([*begun, *filter(None, [self.begun])], default=None)
        times = [(it.begun or 0, it.seconds) for it in fresh.values() if it.seconds is not None]
        self.timed += len(times)
        for begin, seconds in {*times}:
            self.note_time(begin, seconds)

    def note_time(self, begin: int, seconds: int) -> None:
        """Notes when an attempt was under way. Times that meet become one."""
        stop = begin + seconds
        part = slice(bisect_left(self.stops, begin - 1), bisect_right(self.begins, stop + 1))
        self.begins[part] = [min([begin, *self.begins[part]])]
        self.stops[part] = [max([stop, *self.stops[part]])]

    def forget(self, key: Tuple[int, int], it: Attempt) -> None:
        """Doesn't count an attempt any more that has changed."""
        self.states[it.state].discard(key)
        self.outcomes[it.outcome] -= 1
        self.timed -= it.seconds is not None
        if it.ended is not None:
            self.ends[it.ended] -= 1

    def of(self, state: str) -> List[Attempt]:
        """Returns the attempts that stand so, by line."""
        found = [self.attempts[key] for key in self.states[state]]
        return sorted(found, key=lambda it: (it.line, it.worker, it.serial))


def said_in(line: bytes, program: Program) -> Dict[str, Any]:
    """Returns what a line says. Raises an end if it is no line of this version's worker."""
    try:
        said = json.loads(line)
        if said["format"] == FORMAT:
            return dict(said)
    except (ValueError, KeyError, TypeError):
        pass
    raise End(Status.BUILD, f"`{visible(program.path)}`: it isn't the amo_worker of this version;"
                            " give that one by --worker-program, or leave out the option")


def alive(run: str, workers: int) -> List[int]:
    """Returns the workers whose runner lives, by its number in a file that it has open."""
    path = f"{os.path.realpath(run)}/runner."
    return [it for it in range(1, workers + 1) if signer(f"{path}{it}")]


def began(run: str, workers: List[int]) -> float:
    """Returns when the first of these runners began, which then wrote its file; 0 if none did."""
    return min((os.path.getmtime(f"{run}/runner.{it}") for it in workers), default=0.0)


def words_of(program: Program, run: str, *more: str) -> List[str]:
    """Returns the command that follows a run."""
    return [program.path, "status", run, "--follow", *more, *program.more]


def said_now(program: Program, run: str) -> Dict[str, Any]:
    """Returns what a first line says, which has all attempts."""
    return said_in(program.call("status", run, "--follow", "--once"), program)


def snapshot_of(program: Program, run: str) -> Snapshot:
    """Returns how a run stands now."""
    found = Snapshot()
    found.take(said_now(program, run))
    found.since = began(run, alive(run, found.workers or 0))
    return found


class Follower:
    """The process of `amo_worker` that follows a run."""

    def __init__(self, program: Program, run: str):
        """Starts it. Raises OSError."""
        self.program, self.rest = program, b""
        self.process = subprocess.Popen(words_of(program, run), stdin=subprocess.DEVNULL,
                                        stdout=subprocess.PIPE, start_new_session=True)

    @property
    def file(self) -> int:
        """The descriptor by which its lines come."""
        assert self.process.stdout
        return self.process.stdout.fileno()

    def said(self) -> Optional[List[Dict[str, Any]]]:
        """Returns what the lines say that have come; None at their end. Raises an end, and OSError.
        """
        part = os.read(self.file, PART)
        *lines, self.rest = (self.rest + part).split(b"\n")
        return [said_in(it, self.program) for it in lines] if part else None

    def close(self) -> int:
        """Ends the process, and returns its status; 0 if this call has ended it."""
        status = self.process.poll()
        if status is None:
            self.process.terminate()
        self.process.wait()
        if self.process.stdout:
            self.process.stdout.close()
        return status or 0
