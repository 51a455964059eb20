"""How far a crew is: the line on the terminal while it works, and the counts at its end."""

from __future__ import annotations

import collections
from time import monotonic
from typing import Any, Deque, Dict, List, Optional, Tuple

from amo_jobs.crew_rules import MOST_TAKEN, State
from amo_jobs.messages import Screen
from amo_jobs.pipes import PART
from amo_jobs.settings import next_command, Settings
from amo_jobs.status import counted, listed, outlook, status_of
from amo_jobs.statuses import KINDS, Status
from amo_jobs.worker import Program

OFTEN, SELDOM = 0.5, 30.0  # seconds, on a terminal and else
MINUTE = 60  # seconds


class Recent:
    """How many commands have ended in the last minute."""

    def __init__(self, now: float):
        self.seen: Deque[Tuple[float, int]] = collections.deque([(now, 0)])

    def pace(self, now: float, ended: int) -> float:
        """Takes how many have ended until now; returns how many a second did in the last minute."""
        self.seen.append((now, ended))
        while self.seen[1][0] <= now - MINUTE:
            self.seen.popleft()
        begun, before = self.seen[0]
        return (ended - before) / max(now - begun, 1)


class Progress:
    """How far a crew is."""

    def __init__(self, settings: Settings, program: Program, state: State):
        """Counts the lines. Raises OSError, and the end of the worker's program."""
        self.settings, self.program, self.state = settings, program, state
        self.recent, self.due = Recent(monotonic()), 0.0
        self.before: Dict[str, Any] = program.status(settings.run)
        with open(settings.jobs, "rb", 0) as file:
            self.lines = sum(part.count(b"\n") for part in iter(lambda: file.read(PART), b""))

    def show(self) -> float:
        """Shows how far the crew is, once that is due, and returns when it is due again."""
        if monotonic() < self.due:
            return self.due
        self.due = monotonic() + (OFTEN if Screen.clear else SELDOM)
        ended = self.state.ended
        closed = min(sum(self.before[it] for it in KINDS[:5]) + ended, self.lines)
        pace = self.recent.pace(monotonic(), ended)
        Screen.show(f"{closed} of {self.lines} lines, {len(self.state.running())} running"
                    f"{outlook(pace, self.lines - closed)}")
        return self.due

    def next_steps(self, found: Dict[str, Any]) -> List[str]:
        """Returns what the operator may do about lines that aren't done."""
        failed = next_command(self.settings, "status", "--lines", "failed")
        steps = {"open": "for the open lines start the crew again",
                 "failed": f"see the failed lines: {failed}",
                 "doubt": f"see the doubts: {next_command(self.settings, 'doubts')}"}
        return [text for state, text in steps.items() if found[state]]

    def conclude(self, status: Optional[int]) -> int:
        """Prints how all lines stand. Returns this status, or the one by the counts."""
        found = self.program.status(self.settings.run)
        unknown = max(self.lines - found["lines"], 0)  # all, if no round was begun
        found = {**found, "lines": found["lines"] + unknown, "open": found["open"] + unknown}
        if self.state.taken > MOST_TAKEN:
            Screen.tell(f"{self.state.taken - MOST_TAKEN} more lines were not started, since"
                        " another attempt stands against each")
        rows = listed(self.settings.run, found, ["running"])
        Screen.tell("\n".join(["; ".join([counted(found), *self.next_steps(found)]), *rows]))
        return status_of(found, Status.LEFT) if status is None else status
