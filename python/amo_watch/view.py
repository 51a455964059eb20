"""The rows of text of the live view. Begin with `picture`. Nothing here touches a terminal."""

from __future__ import annotations

import enum
import time
import unicodedata
from dataclasses import dataclass
from typing import Collection, Dict, Iterator, List, NamedTuple, Tuple

from amo_jobs.messages import visible
from amo_watch.figures import rates_of
from amo_watch.snapshot import Attempt, NAMES, Snapshot
from amo_watch.texts import lasting

Row = Tuple[str, bool]  # a text, and whether it is strong
MARKS = (("done", "#"), ("failed", "x"), ("doubt", "?"), ("untouched", "="), ("pending", ">"),
         ("open", "."))
FEW, MOST = 16, 400  # rows of a low terminal, characters of a text that are looked at
KEYS = "q quit  d doubts  s stop the crew"
ASKED = "Stop the crew? y yes, other keys no"


class Answer(enum.Enum):
    """What the operator wants."""

    NONE = 0
    QUIT = 1
    STOP = 2


@dataclass
class View:
    """What of the run is shown, and what the operator is asked."""

    has_doubts: bool = False  # the lines in doubt are shown in place of the workers
    is_asking: bool = False  # whether to stop the crew
    note: str = ""
    answer: Answer = Answer.NONE

    def take(self, key: str) -> None:
        """Takes a key."""
        if self.is_asking:
            self.is_asking, self.note = False, ""
            self.answer = Answer.STOP if key in ("y", "Y") else Answer.NONE
        elif key in ("q", "Q"):
            self.answer = Answer.QUIT
        elif key in ("d", "D"):
            self.has_doubts = not self.has_doubts
        elif key in ("s", "S"):
            self.is_asking = True


class Facts(NamedTuple):
    """What is shown: the run, texts of its lines, the last lines that attempts have printed, by
    their names, and the workers whose runner lives."""

    found: Snapshot
    texts: Dict[int, str]
    outputs: Dict[str, str]
    alive: Collection[int]


def picture(facts: Facts, view: View, width: int, height: int) -> List[Row]:
    """Returns the rows of the view: the progress, the workers or the lines in doubt, the keys."""
    if not facts.found.time:
        return [("reading ..", False)]
    head = [(cut(it, width), strong) for it, strong in heads(facts.found, width, height)]
    body = list(doubts(facts) if view.has_doubts else workers(facts, width))
    room = max(height - len(head) - 1, 0)
    if len(body) > room:
        body = [*body[:max(room - 1, 0)], f".. {len(body) - max(room - 1, 0)} more"][:room]
    last = ASKED if view.is_asking else view.note or KEYS
    rows = [*head, *((cut(it, width), False) for it in body)]
    rows += [("", False)] * max(height - 1 - len(rows), 0)
    return [*rows[:max(height - 1, 0)], (cut(last, width), view.is_asking)]


def heads(found: Snapshot, width: int, height: int) -> Iterator[Row]:
    """Yields the bar, the counts and the pace. In few rows the pace has one."""
    yield bar(found, width), True
    counts = [f"{found.counts[state]} {NAMES[state]}" for state, _ in MARKS if found.counts[state]]
    yield from ((it, False) for it in wrapped([f"{found.lines} lines:", *counts], width))
    if height < FEW:
        yield brief_pace(found), False
        return
    yield from ((it.rstrip(",;"), False) for it in wrapped(pace(found), width))
    yield "", False


def bar(found: Snapshot, width: int) -> str:
    """Returns a bar of this width, with a part for each state. A state with a line has a place."""
    size = max(width - 2, 1)
    if not found.lines:
        return f"[{' ' * size}]"
    total = found.lines
    shares = {state: found.counts[state] * size / total for state, _ in MARKS}
    parts = {state: max(int(share), 1) if share else 0 for state, share in shares.items()}
    left = size - sum(parts.values())
    largest = max(parts, key=lambda it: parts[it])
    parts[largest] = max(parts[largest] + left, 0)
    text = "".join(mark * parts[state] for state, mark in MARKS)
    return f"[{text[:size].ljust(size)}]"


def pace(found: Snapshot) -> List[str]:
    """Returns how fast the run is, and when it will be over."""
    rates = rates_of(found)
    said = [f"{rates['last_minute']:.3g} a second in the last minute,"]
    if rates["over_at"] is None:
        return [*said, f"{rates['a_second']:.3g} over all"]
    clock = time.strftime("%H:%M:%S", time.localtime(rates["over_at"]))
    return [*said, f"{rates['a_second']:.3g} over all;",
            f"over at {clock}, in {lasting(rates['over_at'] - found.time)}"]


def brief_pace(found: Snapshot) -> str:
    """Returns the same in less than 40 columns."""
    rates = rates_of(found)
    said = f"{rates['last_minute']:.3g}/s, all {rates['a_second']:.3g}/s"
    if rates["over_at"] is None:
        return said
    return f"{said}, over {time.strftime('%H:%M:%S', time.localtime(rates['over_at']))}"


def workers(facts: Facts, width: int) -> Iterator[str]:
    """Yields a row for each worker: what it runs, for how long, and what that has printed last."""
    found, pending = facts.found, {}  # type: Snapshot, Dict[int, List[Attempt]]
    for it in found.of("pending"):
        pending.setdefault(it.worker, []).append(it)
    for worker in sorted({*range(1, (found.workers or 0) + 1), *pending}):
        life = "" if worker in facts.alive else " (no runner)"
        rows = pending.get(worker, [])
        if not rows:
            yield f"{worker:2}{life or ' waits'}"
        for it in rows:
            age = lasting(max(found.time - it.begun, 0)) if it.begun else "?"
            yield beside(f"{worker:2}{life} {age}, line {it.line}: {text_of(facts, it)}",
                         visible(facts.outputs.get(it.name, "")[:MOST]), width)


def beside(left: str, right: str, width: int) -> str:
    """Returns two texts in one row. If it is too short, each gets half of it at least."""
    if not right:
        return left
    room = max(width - sum(map(columns_of, right)) - 3, width // 2)
    return f"{cut(left, room)} | {right}"


def text_of(facts: Facts, it: Attempt) -> str:
    """Returns the text of an attempt's line, as it may be shown."""
    return visible(facts.texts.get(it.line, "")[:MOST])


def doubts(facts: Facts) -> Iterator[str]:
    """Yields a row for each line in doubt."""
    found, rows = facts.found, facts.found.of("doubt")
    if not rows:
        yield "no line is recorded as in doubt"
    for it in rows:
        age = f"recorded {lasting(max(found.time - it.ended, 0))} ago" if it.ended else "undated"
        yield f"{it.name}, line {it.line}, {age}: {text_of(facts, it)}"


def summary(found: Snapshot) -> str:
    """Returns how far the run is, as one line."""
    counts = ", ".join(f"{found.counts[state]} {NAMES[state]}" for state, _ in MARKS)
    return f"{found.lines} lines: {counts}; {' '.join(pace(found))}"


def wrapped(words: List[str], width: int) -> Iterator[str]:
    """Yields these parts in rows of at most this width, with a blank between two."""
    row = ""
    for it in words:
        if row and len(row) + 1 + len(it) > width:
            yield row
            row = ""
        row = f"{row} {it}" if row else it
    if row:
        yield row


def cut(text: str, width: int) -> str:
    """Returns the front of a text that fills at most so many columns."""
    columns = 0
    for place, it in enumerate(text):
        columns += columns_of(it)
        if columns > width:
            return text[:place]
    return text


def columns_of(character: str) -> int:
    """Returns how many columns of a terminal a character fills."""
    if unicodedata.combining(character):
        return 0
    return 2 if unicodedata.east_asian_width(character) in "WF" else 1
