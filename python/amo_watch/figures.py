"""The numbers of a run: how its lines stand, how fast they are done, and when all will be over.

The figures of several runs can be added.
"""

from __future__ import annotations

import collections
from typing import Any, Counter, Dict, List, NamedTuple, Optional

from amo_watch.snapshot import COUNTS, Snapshot

MINUTE = 60  # seconds


class Figures(NamedTuple):
    """How many lines and attempts stand how, and since when. Times are in seconds since 1970."""

    time: int  # when this was read
    counts: Dict[str, int]  # lines
    outcomes: Counter[str]  # attempts
    begun: Optional[int]  # when the first attempt was begun
    ends: Counter[int]  # how many attempts have ended in each second of the last minute
    pending: Optional[int]  # when the oldest attempt without an end was begun
    doubt: Optional[int]  # when the oldest doubt was recorded

    def rate(self) -> float:
        """Returns how many attempts ended in a second of the last minute."""
        return round(minute_of(self.ends, self.begun, self.time), 3)

    def age(self, since: Optional[int]) -> int:
        """Returns how many seconds ago this time was; 0 if there is none."""
        return max(self.time - since, 0) if since is not None else 0


def figures_of(found: Snapshot) -> Figures:
    """Returns the figures of a run."""
    ends = {it: found.ends[it] for it in range(found.time - MINUTE + 1, found.time + 1)}
    return Figures(found.time, found.counts, collections.Counter(found.outcomes), found.begun,
                   collections.Counter(ends), first([it.begun for it in found.of("pending")]),
                   first([it.ended for it in found.of("doubt")]))


def added(them: List[Figures]) -> Figures:
    """Returns the figures of several runs together, as of the time of the first."""
    return Figures(them[0].time,
                   {state: sum(it.counts[state] for it in them) for state in COUNTS},
                   sum((it.outcomes for it in them), collections.Counter()),
                   first([it.begun for it in them]),
                   sum((it.ends for it in them), collections.Counter()),
                   first([it.pending for it in them]), first([it.doubt for it in them]))


def first(times: List[Optional[int]]) -> Optional[int]:
    """Returns the first of these times; None if none is known."""
    return min((it for it in times if it is not None), default=None)


def rates_of(found: Snapshot) -> Dict[str, Any]:
    """Returns when the run began, when the last end was recorded, how many attempts ended in a
    second, over all and in the last minute, and when all lines will be closed. Over all, neither
    doubts nor pauses count. The last time is None if no attempt ended in the last minute: then
    nobody may be at work."""
    span = sum(max(stop - begin, 1) for begin, stop in zip(found.begins, found.stops))
    minute = minute_of(found.ends, found.begun, found.time, found.since)
    left = found.counts["open"] + found.counts["pending"]
    return {"begun": found.begun, "ended": found.ended, "ends": sum(found.ends.values()),
            "a_second": round(found.timed / max(span, 1), 3),
            "last_minute": round(minute, 3), "over_at": over_at(found.time, left, minute)}


def minute_of(ends: Counter[int], begun: Optional[int], now: int, since: float = 0) -> float:
    """Returns how many attempts ended in a second of the last minute, or of the time since the run
    began, or since this time."""
    if begun is None:
        return 0.0
    seconds = max(min(MINUTE, now - max(begun, int(since))), 1)
    return sum(ends[now - it] for it in range(seconds)) / seconds


def over_at(now: int, left: int, a_second: float) -> Optional[int]:
    """Returns when so many lines will be over; None if that can't be expected."""
    return int(now + left / a_second) if left and a_second > 0 else None
