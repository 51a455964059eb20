"""Numbers for a monitor: a file in the text format of Prometheus, for its textfile collector.

The file is replaced as a whole, so a reader never sees half of it.
"""

from __future__ import annotations

import os
from contextlib import suppress
from typing import Iterator, NamedTuple, Optional, Tuple

from amo_watch.figures import Figures
from amo_watch.snapshot import COUNTS

HEADS = [("amo_lines", "gauge", "Lines of the list by state; pending is running or in doubt."),
         ("amo_attempts", "gauge", "Attempts by what is recorded of their end."),
         ("amo_ends_per_second", "gauge", "Ends of attempts per second, in the last minute."),
         ("amo_oldest_pending_seconds", "gauge", "Age of the oldest attempt without an end."),
         ("amo_oldest_doubt_seconds", "gauge", "Time since the oldest doubt was recorded."),
         ("amo_runners_alive", "gauge", "Runners of the crew that are alive."),
         ("amo_crew_running", "gauge", "1 while the crew works, 0 once it has ended."),
         ("amo_last_error_timestamp_seconds", "gauge", "When the crew last reported an error."),
         ("amo_updated_timestamp_seconds", "gauge", "When these numbers were made.")]
OUTCOMES = ("pending", "done", "doubt", "unbegun", "untouched")


class Crew(NamedTuple):
    """What the supervisor knows: living runners, whether it works, and its last error's time."""

    alive: int
    works: bool
    error_at: Optional[float]


def escaped(text: str) -> str:
    """Returns a text as the value of a label."""
    return text.replace("\\", "\\\\").replace('"', '\\"').replace("\n", "\\n")


def samples(found: Figures, crew: Crew) -> Iterator[Tuple[str, str, float]]:
    """Yields each number: its name, a further label, and its value."""
    for state in COUNTS:
        yield "amo_lines", f'state="{state}"', found.counts[state]
    for outcome in OUTCOMES:
        yield "amo_attempts", f'outcome="{outcome}"', found.outcomes[outcome]
    yield "amo_ends_per_second", "", found.rate()
    yield "amo_oldest_pending_seconds", "", found.age(found.pending)
    yield "amo_oldest_doubt_seconds", "", found.age(found.doubt)
    yield "amo_runners_alive", "", crew.alive
    yield "amo_crew_running", "", int(crew.works)
    if crew.error_at is not None:
        yield "amo_last_error_timestamp_seconds", "", round(crew.error_at, 3)
    yield "amo_updated_timestamp_seconds", "", found.time


def text_of(found: Figures, crew: Crew, run: str) -> str:
    """Returns the numbers of a run in the text format of Prometheus."""
    label = f'run="{escaped(run)}"'
    rows = list(samples(found, crew))
    lines = []
    for name, kind, about in HEADS:
        own = [it for it in rows if it[0] == name]
        lines += [f"# HELP {name} {about}", f"# TYPE {name} {kind}"] if own else []
        lines += [f"{name}{{{label}{',' + more if more else ''}}} {value:.15g}"
                  for _, more, value in own]
    return "\n".join(lines) + "\n"


def put(path: str, text: str) -> None:
    """Replaces a file by one that holds this text. Raises OSError."""
    new = f"{path}.{os.getpid()}.new"
    try:
        with open(new, "w", encoding="utf-8", errors="backslashreplace") as file:
            file.write(text)
        os.replace(new, path)
    except OSError:
        with suppress(OSError):
            os.unlink(new)
        raise
