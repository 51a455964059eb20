"""The timeline of a run: a lane a worker, a bar an attempt, and marks."""

from __future__ import annotations

import re
from contextlib import suppress
from typing import Any, Dict, Iterator, List, Set, Tuple

from amo_jobs.calls import FRONT, this_boot
from amo_jobs.runner_state import BY_CREW, RUNNER_AGAIN, WORKER_AGAIN
from amo_watch.snapshot import Attempt, Snapshot

MOST_BARS, PARTS = 5000, 120  # attempts that have a bar each; else so many bars a lane
MOST_MARKS, MACHINE = 300, "machine"  # marks, the kind of those for starts of the machine
# The kinds of marks, and what each means. If there are too many, the last ones are left out.
MEANINGS = {
    MACHINE: "start of this machine", BY_CREW: "start of {} by a crew, or by amo_jobs work",
    RUNNER_AGAIN: "restart of {} by the crew, since a runner was killed",
    WORKER_AGAIN: "restart of {} by the runner, since a worker was killed or had failed"}
# The line of a start: what it was, when, when the machine was started, and the id of that boot.
LINE = re.compile(r"(crew|runner|worker) (\d{1,12}) (\d{1,12}) ([0-9a-f-]{36})")


def timeline_of(found: Snapshot, run: str) -> Dict[str, Any]:
    """Returns the lanes of the workers and the marks, between two times."""
    begun = [it for it in found.attempts.values() if it.begun is not None]
    first = found.time if found.begun is None else found.begun
    last = max((ends_at(it, found.time) for it in begun), default=found.time) + 1
    lanes: Dict[int, List[Attempt]] = {}
    for it in begun:
        lanes.setdefault(it.worker, []).append(it)
    is_aggregated, marks = len(begun) > MOST_BARS, marks_of(run, first, last)
    bars_in = parts_of if is_aggregated else bars_of
    return {"from": first, "to": last, "is_aggregated": is_aggregated,
            "lanes": [{"worker": worker, "attempts": len(rows),
                       "bars": bars_in(sorted(rows), first, last, found.time)}
                      for worker, rows in sorted(lanes.items())],
            "marks": marks[:MOST_MARKS], "more_marks": max(len(marks) - MOST_MARKS, 0)}


def ends_at(it: Attempt, now: int) -> int:
    """Returns where a bar ends. One that is pending may run until now."""
    begun = it.begun or 0
    end = now if it.outcome == "pending" else it.ended or begun
    return end if end > begun else begun


def bars_of(rows: List[Attempt], first: int, last: int, now: int) -> List[Dict[str, Any]]:
    """Returns a bar for each attempt of a worker, in order. Records have whole seconds, so those
    that began in one second share it."""
    shares: Dict[int, int] = {}
    for it in rows:
        shares[it.begun or 0] = shares.get(it.begun or 0, 0) + 1
    begins, place = [], 0
    for k, it in enumerate(rows):
        place = place + 1 if k and rows[k - 1].begun == it.begun else 0
        begins.append(round((it.begun or 0) + place / shares[it.begun or 0], 3))
    ends = [min(ends_at(it, now) + 1, after) if it.outcome != "pending" else now + 1
            for it, after in zip(rows, [*begins[1:], float(last)])]
    return [{"from": begin, "to": max(end, begin), "counts": {it.state: 1}, "attempt": it.name,
             "line": it.line} for it, begin, end in zip(rows, begins, ends)]


def parts_of(rows: List[Attempt], first: int, last: int, now: int) -> List[Dict[str, Any]]:
    """Returns a bar for each part of the time in which attempts began."""
    size = (last - first) / PARTS
    parts: Dict[int, Dict[str, int]] = {}
    for it in rows:
        place = min(int(((it.begun or 0) - first) / size), PARTS - 1)
        counts = parts.setdefault(place, {})
        counts[it.state] = counts.get(it.state, 0) + 1
    return [{"from": round(first + place * size, 3), "to": round(first + (place + 1) * size, 3),
             "counts": counts, "attempt": None, "line": None}
            for place, counts in sorted(parts.items())]


def marks_of(run: str, first: int, last: int) -> List[Dict[str, Any]]:
    """Returns the marks between two times, by kind and time: the starts that are noted, those of a
    second together; the starts of the machine that these notes have, and the last one."""
    found: Dict[Tuple[str, int], Set[int]] = {}
    boots: Dict[str, int] = {}
    for worker, what, time, booted, boot in starts_of(run):
        found.setdefault((what, int(time)), set()).add(worker)
        boots.setdefault(boot, int(booted))
    with suppress(OSError):
        boots.setdefault(*this_boot())
    found.update({(MACHINE, booted): set() for booted in boots.values()})
    return [mark_of(what, time, sorted(found[what, time])) for kind in MEANINGS
            for what, time in sorted(found) if what == kind and first + 1 < time <= last]


def mark_of(what: str, time: int, workers: List[int]) -> Dict[str, Any]:
    """Returns a mark: when it was, its kind, the workers, and what it means."""
    named = f"worker{'s' if len(workers) > 1 else ''} {', '.join(map(str, workers))}"
    return {"time": time, "kind": what, "workers": workers, "what": MEANINGS[what].format(named)}


def starts_of(run: str) -> Iterator[Tuple[int, str, str, str, str]]:
    """Yields each start in the files `pace.P`: its worker, and the parts of its line. A line that
    was cut off is none."""
    for worker in range(1, 17):
        with suppress(OSError), open(f"{run}/pace.{worker}", "rb") as file:
            lines = file.read()[FRONT:].decode("ascii", "replace").split("\n")
            yield from ((worker, it[1], it[2], it[3], it[4])
                        for it in map(LINE.fullmatch, lines) if it)
