"""The news of a run, as events, notifications and numbers. The teller of a crew calls `News`."""

from __future__ import annotations

import json
import os
import subprocess
import time
from contextlib import suppress
from typing import Any, Callable, Dict, List, Optional, Set

from amo_jobs.messages import End, reason, visible
from amo_jobs.settings import Settings
from amo_jobs.worker import Program
from amo_watch import metrics
from amo_watch.chunks import OtherChunks
from amo_watch.figures import added, figures_of
from amo_watch.snapshot import alive, Attempt, Follower, said_now, Snapshot

EVERY = 5.0  # seconds between two files of numbers
PATIENCE = 10.0  # seconds for the last notifications
ERRORS = ("line ", "worker ", "crew:")  # how a message of the crew begins that reports an error


class News:
    """What is new of a run."""

    def __init__(self, settings: Settings, program: Program, tell: Callable[[str], None]):
        self.settings, self.program, self.tell = settings, program, tell
        self.found = Snapshot()
        self.told: Set[int] = set()
        self.failed: Set[str] = set()
        self.follower: Optional[Follower] = None
        self.has_looked = False
        self.due, self.begin_at = 0.0, 0.0
        self.error_at: Optional[float] = None
        self.status: Optional[int] = None
        self.children: List["subprocess.Popen[bytes]"] = []
        self.others = OtherChunks(settings, program) if settings.shared else None

    def look(self) -> None:
        """Looks at the run before the crew's first runner starts."""
        self.has_looked = True
        with suppress(End, OSError):
            self.take(said_now(self.program, self.settings.run))

    def files(self) -> List[int]:
        """Returns the file that is to be polled. The process that follows the run is started again
        once a second if it has ended: a round may not have been begun."""
        if self.has_looked and self.follower is None and time.monotonic() >= self.begin_at:
            self.begin_at = time.monotonic() + 1
            self.try_to("metrics", self.follow)
        return [self.follower.file] if self.follower else []

    def follow(self) -> None:
        """Begins to follow the run. Raises OSError."""
        self.follower = Follower(self.program, self.settings.run)

    def turn(self, ready: List[int]) -> None:
        """Takes what has come, and writes what is due."""
        if self.follower and self.follower.file in ready:
            said = self.follower.said()
            for it in said or ():
                self.take(it)
            if said is None:
                self.follower.close()
                self.follower = None
        self.reap()
        if time.monotonic() >= self.due and self.found.time:
            self.due = time.monotonic() + EVERY
            self.numbers(True)

    def take(self, said: Dict[str, Any]) -> None:
        """Takes a line, and tells of each attempt that is new or has changed. What stands in the
        first line is no news."""
        is_first, fresh = not self.found.time, self.found.take(said)
        if is_first:
            self.told = {it.line for it in self.found.of("doubt")}
            return
        for it in fresh:
            self.attempt(it)

    def attempt(self, it: Attempt) -> None:
        """Tells that an attempt is new or has changed; of a line in doubt also by the command."""
        self.event("attempt", attempt=it.name, line=it.line, begun=it.begun, outcome=it.outcome,
                   code=it.code, ended=it.ended, state=it.state)
        if it.state == "doubt" and it.line not in self.told:
            self.told.add(it.line)
            self.notify("doubt", AMO_LINE=str(it.line), AMO_ATTEMPT=it.name)

    def hear(self, kind: str, value: Any) -> None:
        """Takes a message of the crew, or its status."""
        if kind == "end":
            self.status = value
            return
        if value.startswith(ERRORS):
            self.error_at = time.time()
        self.event("message", text=value)
        if "so no further job is started" in value:
            self.notify("stop", AMO_MESSAGE=value)

    def end(self) -> None:
        """Tells that the crew has ended; its status is None if it was killed."""
        if self.follower:
            self.follower.close()
            self.follower = None
        with suppress(End, OSError):
            self.take(said_now(self.program, self.settings.run))
        self.event("end", status=self.status, counts=self.found.counts)
        self.notify("end", AMO_STATUS="" if self.status is None else str(self.status))
        if self.has_looked:  # else the numbers are those of the crew that has the folder
            self.numbers(False)
        until = time.monotonic() + PATIENCE
        while self.children and time.monotonic() < until:
            time.sleep(0.05)
            self.reap()

    def event(self, kind: str, **more: Any) -> None:
        """Appends one event to the file of events."""
        line = json.dumps({"format": 1, "time": round(time.time(), 3), "event": kind,
                           "id": self.found.id or None, **more})
        if self.settings.events:
            self.try_to("events", lambda: append(self.settings.events, line))

    def numbers(self, works: bool) -> None:
        """Replaces the file of numbers."""
        living = alive(self.settings.run, self.settings.workers)
        crew = metrics.Crew(len(living), works, self.error_at)
        figures = [figures_of(self.found), *(self.others.figures() if self.others else ())]
        text = metrics.text_of(added(figures), crew, self.settings.shared or self.settings.run)
        if self.settings.metrics:
            self.try_to("metrics", lambda: metrics.put(self.settings.metrics, text))

    def notify(self, what: str, **facts: str) -> None:
        """Runs the command that is to be told, with the facts in its environment."""
        counts = {f"AMO_{name.upper()}": str(count) for name, count in self.found.counts.items()}
        surroundings = {**os.environ, **counts, **facts, "AMO_EVENT": what,
                        "AMO_RUN": self.settings.run, "AMO_LIST": self.settings.jobs}
        if self.settings.notify:
            self.try_to("notify", lambda: self.children.append(subprocess.Popen(
                ["/bin/sh", "-c", self.settings.notify], stdin=subprocess.DEVNULL,
                stdout=subprocess.DEVNULL, env=surroundings)))

    def try_to(self, option: str, call: Callable[[], object]) -> None:
        """Makes a call. Its first failure is reported, and changes nothing."""
        try:
            call()
        except OSError as error:
            if option not in self.failed:
                self.failed.add(option)
                self.tell(f"--{option}: {reason(error)}; the crew goes on")

    def reap(self) -> None:
        """Reports each notification that has failed."""
        for it in [child for child in self.children if child.poll() is not None]:
            self.children.remove(it)
            if it.returncode:
                self.tell(f"--notify: `{visible(self.settings.notify)}`: it has ended with"
                          f" {it.returncode}; correct it (the crew goes on)")


def append(path: str, line: str) -> None:
    """Appends a line to a file, by one call. Raises OSError."""
    with open(path, "ab", 0, opener=lambda name, flags: os.open(name, flags, 0o600)) as file:
        file.write(f"{line}\n".encode())
