"""The facts of a report, as data: what `amo_jobs report --json` prints, and the page shows.

Begin with `facts_of`. docs/report.schema.json describes the data.
"""

from __future__ import annotations

import collections
import heapq
import html
import os
from typing import Any, Dict, Iterable, List, NamedTuple, Optional

from amo_jobs.files import content
from amo_jobs.messages import visible
from amo_jobs.run_folder import folders_of_outputs
from amo_jobs.settings import Settings
from amo_jobs.status import ANSWERS
from amo_jobs.worker import HERE, TEST_BOOT_ID, Program
from amo_watch.figures import rates_of
from amo_watch.snapshot import Attempt, Snapshot, snapshot_of
from amo_watch.texts import Lines, Output, outputs_of, quoted
from amo_watch.timeline import MOST_MARKS, timeline_of

FORMAT = 1  # of the data
MOST_ROWS, MOST_SLOW = 1000, 20  # rows of a list
MOST_TEXT = 3_000_000  # bytes that all texts and outputs take in the page, as they stand there
SHORT = 100  # characters of a text that is cut
# The lists of a report: the state of their attempts, and the words by which `status` prints more.
LISTS = {"doubts": "doubt", "pending": "pending", "failures": "failed", "untouched": "untouched"}


class Run(NamedTuple):
    """The run that a report is about: its names for commands, and what it was given."""

    settings: Settings
    worker: str  # the path of amo_worker
    version: str
    given: Optional[Dict[str, Any]]
    folders: List[str]  # those that have what the run's commands have printed

    def command(self, what: str, *words: str) -> str:
        """Returns a command for bash that does this with the run, from any folder."""
        it = self.settings
        named = ["--run", it.run] if it.has_folder or not it.jobs else [it.jobs]
        more = ["--file-system", it.file_system] if it.file_system else []
        more += ["--worker-program", self.worker] if it.worker_program else []
        return " ".join(map(quoted, [f"{HERE}/amo_jobs", what, *more, *named, *words]))


class Budget:
    """How many bytes of the page texts may still take."""

    def __init__(self, most: int = MOST_TEXT):
        self.left, self.cut, self.hidden = most, 0, 0

    def reserve(self, texts: List[str]) -> bool:
        """Takes the room that these texts need in the page; returns false if there isn't enough."""
        least = sum(map(len, texts))
        size = sum(map(size_of, texts)) if least <= self.left else least
        if size <= self.left:
            self.left -= size
            return True
        return False

    def take(self, text: str, *more: str) -> str:
        """Returns a text, or its front if there is no room for it and for what repeats it."""
        if self.reserve([text, *more]) or len(text) <= SHORT:
            return text
        self.cut += 1
        return text[:SHORT]

    def outputs(self, found: List[Output]) -> List[Output]:
        """Returns what was printed, without its lines if there is no room."""
        if self.reserve([line for it in found for line in it.end]):
            return found
        self.hidden += 1
        return [it._replace(end=[]) for it in found]


def size_of(text: str) -> int:
    """Returns how many bytes a text takes in the page."""
    return len(html.escape(visible(text)).encode("utf-8", "replace"))


def facts_of(settings: Settings, program: Program, version: str) -> Dict[str, Any]:
    """Returns all that a report says of a run."""
    found = snapshot_of(program, settings.run)
    run = Run(settings, program.path, version, content(f"{settings.run}/command", True),
              folders_of_outputs(settings.run))
    budget = Budget()
    lists = {name: found.of(state) for name, state in LISTS.items()}
    shown = {name: rows[:MOST_ROWS] for name, rows in lists.items()}
    spans = [(it.seconds, it) for it in found.attempts.values()]
    timed = [(span, it) for span, it in spans if span is not None]
    slow = [it for _, it in heapq.nsmallest(MOST_SLOW, timed, lambda row: (-row[0], row[1].line))]
    answered = sorted((it for _, it in spans if it.answer), key=lambda it: (it.line, it[:2]))
    shown = {**shown, "answered": answered[:MOST_ROWS], "slowest": slow}
    texts = Lines(settings.run).texts({it.line for rows in shown.values() for it in rows})
    facts = {**head_of(run, found), "rates": rates_of(found),
             **{name: [row_of(run, found.time, it, texts, budget, name in LISTS) for it in rows]
                for name, rows in shown.items()},
             "again": run.command("again"), "histogram": histogram_of([span for span, _ in timed]),
             "timeline": timeline_of(found, settings.run)}
    facts["left_out"] = left_out(facts, {**lists, "answered": answered}, budget, run)
    return facts


def head_of(run: Run, found: Snapshot) -> Dict[str, Any]:
    """Returns which run it is, what it was given, and how many lines stand how."""
    settings, given = run.settings, run.given or {}
    return {"format": FORMAT, "made": found.time, "program": run.version,
            "list": settings.jobs or None, "folder": settings.run, "id": found.id,
            "round": found.round, "workers": found.workers,
            "command": given.get("command"), "results": given.get("results"),
            "options": given.get("options"), "version": given.get("version"),
            "test": os.environ.get(TEST_BOOT_ID) is not None,
            "lines": found.lines, "counts": dict(found.counts), "attempts": len(found.attempts)}


def row_of(run: Run, now: int, it: Attempt, texts: Dict[int, str], budget: Budget,
           is_whole: bool = True) -> Dict[str, Any]:
    """Returns what is known of an attempt; if it is wanted whole, with outputs and commands."""
    text = texts.get(it.line, "")
    commands = commands_of(run, it, text) if is_whole else []
    shown = budget.take(text, *commands)
    age = None if it.ended is None or it.ended > now else now - it.ended
    outputs = budget.outputs(outputs_of(run.folders, it.name)) if is_whole else []
    return {"attempt": it.name, "line": it.line, "text": shown, "cut": len(text) - len(shown),
            "begun": it.begun, "ended": it.ended, "age": age, "seconds": it.seconds,
            "code": it.code, "state": it.state, "answer": it.answer,
            "outputs": [row._asdict() for row in outputs],
            "commands": commands if shown == text or it.state == "pending" else []}


def commands_of(run: Run, it: Attempt, text: str) -> List[str]:
    """Returns the commands by which an operator answers, or looks whether an attempt is over."""
    if it.state == "pending":
        return [run.command("doubts")]
    return [run.command("answer", "--", it.name, str(it.line), text, verdict)
            for verdict in ANSWERS]


def histogram_of(seconds: Iterable[int]) -> List[Dict[str, Any]]:
    """Returns how many attempts took below 1 s, and from each power of two to the next."""
    counts = collections.Counter(it.bit_length() for it in seconds)
    return [{"from": (1 << k) >> 1, "below": 1 << k, "count": counts[k]}
            for k in range(max(counts, default=-1) + 1)]


def left_out(facts: Dict[str, Any], lists: Dict[str, List[Attempt]], budget: Budget,
             run: Run) -> List[str]:
    """Returns a sentence for each thing that the report doesn't show."""
    said = []
    for name, rows in lists.items():
        if len(rows) > MOST_ROWS:
            kind = {**LISTS, "pending": "running"}.get(name)
            more = f"; to list them all: {run.command('status', '--lines', kind)}" if kind else ""
            said.append(f"{len(rows) - MOST_ROWS} more {name}, after the first {MOST_ROWS}{more}")
    if facts["timeline"]["is_aggregated"]:
        said.append(f"single attempts in the timeline, since there are {facts['attempts']}: each"
                    " bar stands for all attempts that began in its time")
    if facts["timeline"]["more_marks"]:
        said.append(f"{facts['timeline']['more_marks']} more marks of the timeline, after the first"
                    f" {MOST_MARKS}: starts of the machine come first, then those by crews")
    if budget.cut:
        said.append(f"the ends of {budget.cut} texts, and the commands with these texts; to have"
                    f" them: {run.command('doubts')}")
    if budget.hidden:
        said.append(f"the lines that {budget.hidden} commands have printed; to read them, open the"
                    " files that are named")
    return said
