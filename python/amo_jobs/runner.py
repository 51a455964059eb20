"""The runner of one worker: its process, and a blocking loop over `poll`.

Begin with `Runner`. What it does about each event is in `runner_rules`; here the events are made,
and the actions are carried out. docs/protocol.md explains the lines between worker and runner.
"""

from __future__ import annotations

import errno
import os
from contextlib import suppress
from math import inf
from time import monotonic, time
from typing import AbstractSet, Any, Callable, Dict, List, Optional, Tuple

from amo_jobs import calls, reports, runner_rules
from amo_jobs.command import Command, NotStarted
from amo_jobs.desk import Desk, LOCK, ORDERS, REPORTS, SupervisedDesk
from amo_jobs.messages import reason
from amo_jobs.processes import described, Family, Signals
from amo_jobs.reports import Report
from amo_jobs.runner_state import (
    Action, Answer, Begin, CommandEnded, Elapsed, End, Event, Look, Looked, PAUSE, Plain,
    Rest, Send, StartFailed, StartWorker, State, Tell, Wait, WORKER_AGAIN, WorkerEnded
)
from amo_jobs.settings import Settings
from amo_jobs.starter import Starter
from amo_jobs.statuses import Status
from amo_jobs.worker import Program
from amo_jobs.worker_process import said_by, WorkerProcess

LOOK = "look"  # the timer by which a runner looks again what is left, if no child ends, and
SOON, LATER = 0.02, 1.0  # its seconds
PACE = 1.0  # seconds between two notes of the pace


def supervised(settings: Settings, program: Program) -> int:
    """Runs one worker of a crew in this process, and returns the status. The lock of its number
    came with the process."""
    for file in (LOCK, REPORTS, ORDERS):
        os.set_inheritable(file, False)
    desk = SupervisedDesk(settings.worker, REPORTS, ORDERS)
    return max(Runner(settings, program, settings.worker, desk).run(), Status.DONE)


class Runner:
    """The runner of one worker, whose number it has."""

    def __init__(self, settings: Settings, program: Program, worker: int, desk: Desk):
        """Raises OSError if the system can't show a process's children, or can't name a process."""
        self.settings, self.program, self.worker, self.desk = settings, program, worker, desk
        calls.sign(f"{settings.run}/runner.{worker}")
        self.family = Family(settings.may_leave)
        self.signals = Signals(lambda text: self.desk.report(Report(reports.SAYS, text=text)))
        self.bell = calls.Bell()
        self.starter = Starter(settings, worker)  # after the signals are handled
        self.state = State(settings)
        self.process: Optional[WorkerProcess] = None
        self.attempts: Dict[int, Command] = {}  # those of which something may be left
        self.short: Optional[Command] = None  # a command that has ended with its start
        self.timers: Dict[Tuple[str, int], float] = {}
        self.due = inf  # no time is over before this one
        self.ends, self.begun, self.paced = 0, time(), 0.0
        self.status: Optional[int] = None

    def run(self) -> int:
        """Runs to the end, and returns the worker's last status."""
        self.act(runner_rules.start_worker(self.state))
        while self.status is None:
            self.turn()
        self.starter.remove()
        self.desk.close()
        return self.status

    def turn(self) -> None:
        """Waits until something has happened, and takes it."""
        if self.short:
            return self.take_end(self.short, self.short.status)
        if self.desk.events:
            return self.feed(self.desk.events.pop(0))
        ready, process = self.wait_for(), self.process
        has_rung = self.bell.wake in ready
        if has_rung or not ready:
            for number in self.bell.taken():
                self.desk.signalled(number)
            self.take_ended()
        self.desk.exchange(ready)
        if has_rung:
            self.take_left()
        if process and (process.status is not None or not ready.isdisjoint(process.files)):
            self.take_worker(process)
        if monotonic() >= self.due:
            self.take_times()

    def wait_for(self) -> AbstractSet[int]:
        """Waits for the files and times, and returns the files that are ready."""
        reads, writes = self.desk.files()
        if self.process:
            reads = reads + self.process.files
        return self.bell.wait(reads, writes, min(self.due, self.desk.show()) - monotonic())

    def known(self, serial: int = 0) -> List[int]:
        """Returns the children that surely don't belong to an attempt: the worker, if it isn't
        reaped, and the command of another one."""
        found = [self.process.process] if self.process and self.process.status is None else []
        if serial not in self.attempts or len(self.attempts) > 1:
            found += [it.process for it in self.attempts.values()
                      if it.process and it.serial != serial]
        return found

    def take_ended(self) -> None:
        """Reaps the children that have ended, and takes the end of the command."""
        ended, has_more = calls.reap()
        found: Dict[int, Optional[int]] = {**ended}
        if not has_more:  # those that are gone, and of whose end the system doesn't report
            there = self.family.others(())
            found.update((it, None) for it in self.known() if it not in [*there, *found])
        if not found:
            return
        if self.process and self.process.process in found:
            status = found[self.process.process]
            self.process.status = -1 if status is None else status
        current = self.attempts.get(self.state.current or 0)
        if current and current.process in found:
            self.take_end(current, found[current.process])

    def take_end(self, command: Command, status: Optional[int]) -> None:
        """Takes the end of the command that the worker waits for."""
        self.short = None
        command.ended()
        self.feed(CommandEnded(status))

    def take_left(self) -> None:
        """Looks what is left of the attempts whose commands have ended."""
        for serial in [serial for serial, it in self.attempts.items() if not it.process]:
            self.look(serial)

    def take_worker(self, process: WorkerProcess) -> None:
        """Takes what the worker says, and its end. Once it is dead no line is carried out."""
        process.read()
        while process.lines and (self.state.asks is None or process.status is not None):
            self.feed(said_by(process.lines.pop(0), process.status is None))
        if process.has_ended():
            self.take_left()
            self.process = None
            self.feed(WorkerEnded(process.status or 0, process.message()))

    def take_times(self) -> None:
        """Takes the times that are over."""
        now = monotonic()
        for name, due in sorted(self.timers.items(), key=lambda it: it[1]):
            if due <= now and self.timers.get(name) == due:
                del self.timers[name]
                self.look(name[1]) if name[0] == LOOK else self.feed(Elapsed(*name))
        self.due = min(self.timers.values(), default=inf)

    def feed(self, event: Event) -> None:
        """Has the rules take an event, and does what they ask for."""
        self.act(runner_rules.take(self.state, event))

    def act(self, actions: List[Action]) -> None:
        """Carries actions out, in their order."""
        for action in actions:
            CARRIES_OUT[type(action)](self, action)

    def answer(self, action: Answer) -> None:
        """Answers the worker."""
        if self.process and not self.process.answer(action.text):
            self.feed(Plain.UNANSWERED)

    def start_worker(self, action: StartWorker) -> None:
        """Starts the worker."""
        settings = self.settings
        if action.has_failed:
            calls.note_start(settings.run, self.worker, WORKER_AGAIN)
        words = [self.program.path, "work", settings.run, str(self.worker), "--workers",
                 str(settings.workers), "--beta", str(settings.beta), settings.jobs]
        try:
            self.process = WorkerProcess([*words, *self.program.more], lambda text: (
                self.desk.report(Report(reports.TAKEN, text=text))))
        except OSError as error:
            is_short = error.errno in (errno.EAGAIN, errno.ENOMEM)
            self.feed(WorkerEnded(Status.MEMORY if is_short else Status.READ, reason(error)))

    def begin(self, action: Begin) -> None:
        """Starts the command of a line."""
        command = Command(self.starter, self.family, action.serial, action.line)
        self.attempts[action.serial] = command
        try:
            command.start(action.text, self.known(action.serial))
        except NotStarted as why:
            del self.attempts[action.serial]
            self.feed(StartFailed(str(why)))
            return
        for it in self.attempts.values() if len(self.attempts) > 1 else ():
            it.until = command.before if it.until is None and it is not command else it.until
        self.short = command if command.status is not None else None

    def look(self, serial: int) -> None:
        """Looks what is left of an attempt. Of one that an earlier runner has begun its lock
        tells: no runner begins while something is left that has lost its runner."""
        command = self.attempts.get(serial)
        if command:
            rest = command.rest(self.known(serial))
        else:
            rest = Rest.NOTHING if self.starter.free(serial) else Rest.SEEN
        if rest is Rest.NOTHING and command:
            del self.attempts[serial]
            self.timers = {it: due for it, due in self.timers.items() if it[1] != serial}
            self.note_pace()
        elif command:
            self.set_timer(LOOK, serial, LATER if self.state.current is None else SOON)
        self.feed(Looked(serial, rest))

    def note_pace(self) -> None:
        """Notes how many commands have ended, for `status`."""
        self.ends += 1
        if monotonic() > self.paced + PACE:
            self.paced = monotonic()
            calls.note_pace(self.settings.run, self.worker, self.begun, self.ends)

    def wait(self, action: Wait) -> None:
        """Has an event come after a time. A pause differs each time, since two that try in step
        might go round for ever."""
        timer, serial, most = action
        self.set_timer(timer, serial, calls.drawn(most / 2, most) if timer == PAUSE else most)

    def set_timer(self, timer: str, serial: int, seconds: float) -> None:
        """Has a time be over after so many seconds."""
        due = monotonic() + seconds
        self.timers[timer, serial] = due
        if due < self.due:
            self.due = due

    def send(self, action: Send) -> None:
        """Sends a signal to all that is left of an attempt, but not to what may be another's."""
        if action.serial in self.attempts:
            left, known = self.attempts[action.serial].left, self.known(action.serial)
            is_shared = len(self.attempts) > 1 and not self.state.is_last_wait
            self.signals.send(action.number, lambda: left(known, is_shared))

    def tell(self, action: Tell) -> None:
        """Reports. If the runner waits at last, the report names the processes."""
        report = action.report
        if report.kind == reports.WAITS:
            report = report._replace(text=described(self.unseen()))
        self.desk.report(report)

    def unseen(self) -> List[calls.Process]:
        """Returns the processes that only this runner sees, and all below them."""
        found: List[calls.Process] = []
        for serial, it in self.state.attempts.items():
            if it.rest is Rest.UNSEEN and serial in self.attempts:
                with suppress(OSError):
                    found += self.attempts[serial].left(self.known(serial))
        return list(dict.fromkeys(found))


CARRIES_OUT: Dict[type, Callable[[Runner, Any], None]] = {
    Answer: Runner.answer, Begin: Runner.begin, Look: lambda runner, it: runner.look(it.serial),
    Wait: Runner.wait, Send: Runner.send, Tell: Runner.tell, StartWorker: Runner.start_worker,
    End: lambda runner, it: setattr(runner, "status", it.status),
}
