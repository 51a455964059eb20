"""The supervisor of a crew: the runners' processes, and a blocking loop over `poll`.

Begin with `Crew`, and `work` for a runner without a supervisor. What a supervisor does about each
event is in `crew_rules`.
"""

from __future__ import annotations

import os
import sys
from contextlib import suppress
from time import monotonic, sleep
from typing import AbstractSet, Collection, Dict, List, Optional

from amo_jobs import calls, crew_rules, reports
from amo_jobs.crew_rules import (
    End, Event, LetGo, Locked, Number, Occupied, Order, Orphans, Pause, PauseOver, Phase,
    Reported, RunnerEnded, Say, SignalOrphans, Signalled, Start, State
)
from amo_jobs.desk import Desk, event_of, LOCK, ORDERS, REPORTS
from amo_jobs.locks import close_all, locked, locked_soon, PATIENCE
from amo_jobs.messages import End as Refusal, reason, Screen, visible
from amo_jobs.pipes import Child
from amo_jobs.processes import described, Family, Signals
from amo_jobs.progress import Progress
from amo_jobs.run_folder import note_command
from amo_jobs.runner import Runner
from amo_jobs.runner_state import BY_CREW
from amo_jobs.settings import next_command, Settings
from amo_jobs.statuses import Status
from amo_jobs.worker import HERE, Program

# Seconds until a lock is tried or an order is sent again, and until a lock is after some seconds.
SOON, LATER = 0.05, 0.5
TOGETHER = 0.005  # seconds; reports that come meanwhile wake the supervisor once


def words_of(settings: Settings, program: str) -> List[str]:
    """Returns the words that a runner gets, after those of its own. All paths are absolute."""
    options = {"run": settings.run, "results": settings.results, "worker-program": program,
               "file-system": settings.file_system, "id": settings.id,
               "workers": settings.workers, "beta": settings.beta, "timeout": settings.timeout,
               "grace": settings.grace, "linger": settings.linger,
               "untouched": ",".join(map(str, settings.untouched)),
               "may-leave": ",".join(settings.may_leave)}
    words = [f"--{name}={value}" for name, value in options.items() if value not in ("", None)]
    return [*words, settings.jobs, "--", *settings.command]


def work(settings: Settings, program: Program) -> int:
    """Runs one worker in this process, and returns the status."""
    worker = settings.worker
    state = State(settings, next_command(settings, "status"), {worker: Number()})
    progress = Progress(settings, program, state)
    lock = locked_soon(f"{settings.run}/runner.{worker}", True)
    if lock is None:
        Screen.tell(f"worker {worker}: another runner has its number; wait until that crew has"
                    f" ended, or stop it (status {Status.LATER:d})")
        return progress.conclude(Status.LATER)
    calls.note_start(settings.run, worker, BY_CREW)
    crew_rules.take(state, Locked(worker))
    desk = OwnDesk(worker, state, progress)
    Runner(settings, program, worker, desk).run()
    close_all([lock])  # no worker is started any more
    desk.take(RunnerEnded(worker, 0))
    return progress.conclude(desk.status)


class OwnDesk(Desk):
    """The desk of a runner without a supervisor: the rules of a crew of one number."""

    def __init__(self, worker: int, state: State, progress: Progress):
        super().__init__()
        self.worker, self.state, self.progress = worker, state, progress
        self.status: Optional[int] = None

    def show(self) -> float:
        return self.progress.show()

    def report(self, report: reports.Report) -> None:
        self.take(Reported(self.worker, report))

    def signalled(self, number: int) -> None:
        self.take(Signalled(number))

    def take(self, event: Event) -> None:
        """Has the rules take an event, and does what they ask for."""
        for action in crew_rules.take(self.state, event):
            if isinstance(action, Say):
                Screen.tell(action.text)
            if isinstance(action, Order):
                self.events.append(event_of(action.text))
            if isinstance(action, End):
                self.status = action.status


class Crew:
    """The supervisor of the runners of some numbers."""

    def __init__(self, settings: Settings, program: Program, version: str):
        """Raises OSError, and an end if another crew works in the folder."""
        self.settings, self.program, self.version = settings, program, version
        self.folder = os.path.realpath(settings.run)
        self.state = State(settings, next_command(settings, "status"),
                           {it: Number() for it in range(1, settings.workers + 1)})
        self.lock = self.take_crew()
        note_command(settings, version)
        self.family, self.signals = Family(settings.may_leave), Signals(Screen.tell)
        self.before: Collection[calls.Process] = ()  # children of whoever became this process
        with suppress(OSError):  # else they count as left behind, and are waited for
            self.before = self.family.snapshot(())
        self.bell = calls.Bell()
        self.progress = Progress(settings, program, self.state)
        self.locks: Dict[int, int] = {}
        self.posts: Dict[int, Child] = {}  # the runners that live
        self.pauses: Dict[int, float] = {}
        self.patience, self.try_at, self.look_at = monotonic() + PATIENCE, 0.0, 0.0
        self.is_over, self.status = False, None  # type: bool, Optional[int]

    def take_crew(self) -> List[int]:
        """Takes the lock that a folder's supervisor has as long as it lives."""
        path = f"{self.settings.run}/crew"
        lock = locked(path, True)
        if lock is None:
            process = calls.signed(path)
            named = f", process {process}," if process else ""
            raise Refusal(Status.LATER, f"`{visible(self.settings.run)}`: another crew{named} works"
                          " in this folder; wait until it has ended, or stop it")
        calls.sign(path)
        return [lock]

    def run(self) -> int:
        """Runs all runners to their end, and returns the crew's status."""
        while not self.is_over:
            self.turn()
        close_all(list(self.locks.values()))  # no worker is started any more
        return self.progress.conclude(self.status)

    def turn(self) -> None:
        """Takes what has happened, and waits until something does."""
        self.try_locks()
        ready = self.poll()
        if self.bell.wake in ready:
            for number in self.bell.taken():
                self.feed(Signalled(number))
        for worker, post in list(self.posts.items()):
            post.input.send()
            if not ready.isdisjoint(post.outputs[0].files):
                self.take_reports(worker, post)
        self.take_ended(self.bell.wake in ready)
        if ready:
            sleep(TOGETHER)
        for worker, due in list(self.pauses.items()):
            if due <= monotonic():
                del self.pauses[worker]
                self.feed(PauseOver(worker))

    def poll(self) -> AbstractSet[int]:
        """Waits for reports, signals, ends of children, and times."""
        if self.is_over:
            return frozenset()
        dues = [self.progress.show(), *self.pauses.values()]
        dues += [self.try_at] if self.untaken() else []
        dues += [self.look_at] if self.state.has_orphans else []
        dues += [monotonic() + SOON for it in self.posts.values() if it.input.unsent]
        reads = [file for it in self.posts.values() for file in it.outputs[0].files]
        return self.bell.wait(reads, [], min(dues) - monotonic())

    def untaken(self) -> List[int]:
        """Returns the numbers whose lock another runner has."""
        return [worker for worker, it in self.state.numbers.items() if it.phase is Phase.LOCKS]

    def try_locks(self) -> None:
        """Tries the locks that it doesn't have. (`doubts` has such a lock for a moment.)"""
        if monotonic() < self.try_at:
            return
        is_late = monotonic() > self.patience
        self.try_at = monotonic() + (LATER if is_late else SOON)
        for worker in self.untaken():
            path = f"{self.settings.run}/runner.{worker}"
            try:
                lock = locked(path, True)
            except OSError:  # such as no descriptor: what lives, or is left, needs this process
                if not (self.posts or self.state.has_orphans):
                    raise
                return
            if lock is not None:
                self.locks[worker] = lock
                self.feed(Locked(worker))
            elif is_late:
                self.feed(Occupied(worker, calls.signed(path)))

    def take_reports(self, worker: int, post: Child) -> None:
        """Takes the reports that there are. Those of a runner that has ended are all."""
        for line in post.outputs[0].lines():
            self.feed(Reported(worker, reports.report_of(line)))

    def take_ended(self, has_rung: bool) -> None:
        """Reaps the children that have ended. What a runner has reported comes before its end."""
        if not has_rung and (not self.state.has_orphans or monotonic() < self.look_at):
            return
        ended, _ = calls.reap()
        for worker, post in list(self.posts.items()):
            if post.process in ended:
                self.take_reports(worker, post)
                del self.posts[worker]
                post.close()
                self.feed(RunnerEnded(worker, ended[post.process]))
        self.look_at = monotonic() + LATER
        self.feed(self.orphans())

    def orphans(self) -> Orphans:
        """Looks at what runners have left behind."""
        try:
            left = self.orphans_below()
        except OSError as error:
            return Orphans(True, f"processes that can't be seen ({reason(error)})")
        start = f"{self.folder}/command."
        unseen = [it for it in left if not any(path.startswith(start)
                                               for path in calls.files_of(it.number, True))]
        return Orphans(bool(left), described(unseen))

    def orphans_below(self) -> List[calls.Process]:
        """Returns the later children that are no runners, and all below them. Raises OSError."""
        return self.family.rest(self.before, [it.process for it in self.posts.values()])

    def feed(self, event: Event) -> None:
        """Has the rules take an event, and does what they ask for."""
        for action in crew_rules.take(self.state, event):
            if isinstance(action, Say):
                Screen.tell(action.text)
            elif isinstance(action, Order) and action.worker in self.posts:
                self.posts[action.worker].input.send(f"{action.text}\n".encode())
            elif isinstance(action, Start):
                self.start(action.worker, action.what)
            elif isinstance(action, Pause):  # which differs each time
                seconds = calls.drawn(action.seconds / 2, action.seconds)
                self.pauses[action.worker] = monotonic() + seconds
            elif isinstance(action, LetGo) and action.worker in self.locks:
                close_all([self.locks.pop(action.worker)])
            elif isinstance(action, SignalOrphans):
                self.signals.send(action.number, self.orphans_below)
            elif isinstance(action, End):
                self.is_over, self.status = True, action.status

    def start(self, worker: int, what: str) -> None:
        """Notes the start of a runner, and starts it."""
        calls.note_start(self.settings.run, worker, what)
        words = [sys.executable, "-I", "-S", f"{HERE}/amo_jobs", "work", f"--as={self.version}",
                 f"--worker={worker}", *words_of(self.settings, self.program.path)]
        try:
            self.posts[worker] = Child(words, ORDERS, [REPORTS], {LOCK: self.locks[worker]})
        except OSError as error:
            over = reports.Report(reports.OVER, code=Status.READ, text=reason(error))
            self.feed(Reported(worker, over))
            self.feed(RunnerEnded(worker, Status.READ))
