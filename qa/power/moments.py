"""The moments at which the power is cut. Begin with `drawn`."""

from __future__ import annotations

import random
import time
from typing import NamedTuple, Optional

# The cut comes so many seconds after the first such line of a boot, at the latest.
LONGEST = {"@begins": 300.0, "begun": 8.0}


class Moment(NamedTuple):
    """A moment: so many requests to the disk, or seconds, after a line of the guest."""

    stage: str
    word: str  # how the line begins
    number: int  # which such line of this boot it is, from 1
    requests: int = 0  # writes and flushes of the disk after the line
    seconds: float = 0.0
    after_fault: bool = False  # lines count once the disk has failed a request


def drawn(draws: random.Random, is_logged: bool) -> Moment:
    """Draws a moment; only a guest that logs its calls has those of `calls`."""
    number, few, many = draws.randint(1, 12), draws.randint(1, 12), draws.randint(1, 200)
    stages = [
        *4 * [Moment("some time", "begun", 1, seconds=draws.uniform(0, 3))],
        Moment("a mount", "@up", 1, few),
        Moment("a recovery", "@listed", 1, draws.choice((few, many))),
        *2 * [Moment("a run or round begins", "@begins", 1, draws.choice((few, many)))],
        *3 * [Moment("a line", draws.choice(("begun", "performed", "performed")), number,
                     draws.choice((0, 1, few)), draws.choice((0.0, 0.01)))],
        *2 * [Moment("an append", "begun", number, few)],
        *2 * [Moment("an answer", draws.choice(("@answering", "@doubts")), 1, draws.randint(1, 6))],
        Moment("an answer", "@answered", 1),
        *2 * [Moment("forgetting", "@forgetting", 1, draws.randint(1, 14))],
        Moment("the end", "@over", 1, draws.randint(0, 3)),
    ]
    calls = [Moment("a worker begins", "begin", draws.randint(1, 6), few),
             Moment("a call", "before", draws.randint(1, 300)),
             Moment("a call", "after", draws.randint(1, 300))]
    return draws.choice(stages + calls * is_logged)


def again(draws: random.Random) -> Moment:
    """Draws a moment soon after the boot, for the second of two cuts in a row."""
    return draws.choice((Moment("a mount again", "@up", 1, draws.randint(1, 8)),
                         Moment("a recovery again", "@listed", 1, draws.randint(1, 20)),
                         Moment("a round again", "@begins", 1, draws.randint(1, 30))))


def of_control(draws: random.Random, after_fault: bool) -> Moment:
    """Draws a moment at which a mistake should show: as a line was performed, or some time."""
    if after_fault:
        return Moment("a fault", "performed", 1, after_fault=True)
    return draws.choice((Moment("a line", "performed", draws.randint(1, 8)),
                         Moment("some time", "begun", 1, seconds=draws.uniform(0.1, 3))))


class Watch:
    """Waits for the moment of one boot."""

    def __init__(self, moment: Moment):
        self.moment, self.left, self.requests = moment, moment.number, 0
        self.deadline: Optional[float] = None
        self.latest: Optional[float] = None

    def hear(self, line: str, has_failed: bool = False) -> None:
        """Takes a line of the guest, and whether the disk has failed a request."""
        word = line.split(" ", 1)[0]
        if word in LONGEST:
            latest = time.monotonic() + LONGEST[word]
            self.latest = latest if self.latest is None else min(self.latest, latest)
        if word == "@forgotten":  # nothing more comes
            self.deadline = time.monotonic()
        counts = has_failed or not self.moment.after_fault
        if word == self.moment.word and self.left and counts:
            self.left -= 1
            if not self.left:
                self.arrive()

    def arrive(self) -> None:
        """The line has come."""
        self.requests = self.moment.requests
        if not self.requests:
            self.deadline = time.monotonic() + self.moment.seconds

    def serve(self) -> None:
        """The disk has served a write or a flush."""
        if self.requests:
            self.requests -= 1
            if not self.requests:
                self.deadline = time.monotonic() + self.moment.seconds

    def due(self) -> Optional[float]:
        """Returns when the power is to be cut, as far as that is known."""
        known = [it for it in (self.deadline, self.latest) if it is not None]
        return min(known) if known else None
