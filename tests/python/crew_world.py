"""The world around the rules of a crew, for their tests: two runners and what they leave behind.
And a monitor that holds each step to the rules. It knows nothing of the rules' own state."""

import signal

from worlds import Broken, want, World as AnyWorld
from amo_jobs import crew_rules, reports
from amo_jobs.crew_rules import (
    Locked, Number, Occupied, Orphans, PauseOver, Reported, RunnerEnded, Signalled, State
)
from amo_jobs.reports import Report
from amo_jobs.runner_state import RUNNER_AGAIN
from amo_jobs.settings import Settings

HALT, KILLED = 2, -9
GOOD, FAILED = Report(reports.ENDED, 1, 1, "done", 0), Report(reports.ENDED, 1, 1, "done", 3)
UNBEGUN, ROUND = Report(reports.UNBEGUN, 1, 1, text="why"), Report(reports.ROUND)


class World(AnyWorld):
    """The outside of the rules, the rules' state, and the notes of the monitor."""

    parts = "numbers"

    def __init__(self, numbers=2, halt=HALT):
        self.state = State(Settings(command=["pay"], halt=halt), "status",
                           {it + 1: Number() for it in range(numbers)})
        self.numbers, self.halt = numbers, halt
        self.held = set()  # the locks
        self.living = {}  # of each runner that lives whether it waits for an order
        self.over = {}  # the last status of those that have reported one
        self.dead = set()  # numbers whose runner was killed
        self.pauses, self.orphans = set(), ""  # "", "seen" or "unseen"
        self.is_stopped = self.is_ended = False
        self.signals = self.row = 0
        self.told_to_stop, self.has_ended = set(), set()
        self.idle = set()  # those that were told to stop and have no command any more
        self.status, self.trace = None, []

    def events(self):
        """Returns the events that may come next, with what is left of a runner that is killed."""
        if self.is_ended:
            return []
        found = [Signalled(signal.SIGINT)]
        for worker in range(1, self.numbers + 1):
            found += self.of_number(worker)
        if self.orphans:
            found += [Orphans(bool(it), "x" if it == "unseen" else "")
                      for it in ("", "seen", "unseen") if it != self.orphans]
        return found

    def of_number(self, worker):
        if worker in self.pauses:
            return [PauseOver(worker)]
        if worker not in self.held and worker not in self.has_ended and not self.is_stopped:
            return [Locked(worker), Occupied(worker, 4711)]
        if worker not in self.living:
            return []
        if worker in self.over:
            return [RunnerEnded(worker, 0)]
        found = [RunnerEnded(worker, KILLED), RunnerEnded(worker, 125)]
        if not self.living[worker]:
            found += [Reported(worker, it) for it in (GOOD, FAILED, UNBEGUN)
                      if worker not in self.idle]
            found.append(Reported(worker, ROUND))
            codes = [69] if worker in self.told_to_stop else [0, 65]
            found += [Reported(worker, Report(reports.OVER, code=it)) for it in codes]
        return found

    def branches(self, event):
        """Returns the processes that a runner may leave running when it ends."""
        lefts = ["", "seen", "unseen"] if isinstance(event, RunnerEnded) else [""]
        return [dict(left=it) for it in lefts]

    def step(self, event, left=""):
        """Has the rules take an event. `left` are the processes that a runner leaves running when
        it ends."""
        self.trace.append(event)
        try:
            self.before(event)
            self.take(event)
            if isinstance(event, RunnerEnded):
                self.orphans = max(self.orphans, left)
                more = Orphans(bool(self.orphans), "x" if self.orphans == "unseen" else "")
                self.trace.append(more)
                self.take(more)
            self.check()
        except Broken as broken:
            raise Broken(f"{broken}: {self.trace}") from None

    def before(self, event):
        if isinstance(event, Locked):
            self.held.add(event.worker)
        elif isinstance(event, Reported):
            self.runner_reports(event.worker, event.report)
        elif isinstance(event, RunnerEnded):
            del self.living[event.worker]
            is_in_order = event.worker in self.over and event.code >= 0
            self.dead |= set() if is_in_order else {event.worker}
            self.is_stopped |= event.code > 0
            self.told_to_stop.discard(event.worker)
            self.idle.discard(event.worker)
        elif isinstance(event, PauseOver):
            self.pauses.remove(event.worker)
        elif isinstance(event, Orphans):
            self.orphans = "unseen" if event.unseen else "seen" if event.are_there else ""
        elif isinstance(event, Signalled):
            self.signals += 1
            self.is_stopped = True

    def runner_reports(self, worker, report):
        if report == ROUND:
            return
        self.living[worker] = report.is_failure() and worker not in self.told_to_stop
        if report.kind == reports.OVER:
            self.over[worker] = report.code
            self.is_stopped |= report.code == 65
        self.idle |= self.told_to_stop & {worker}
        if report == FAILED:
            self.row += 1
            self.is_stopped |= self.row >= self.halt
        if report == GOOD:
            self.row = 0
        self.is_stopped |= report == UNBEGUN

    def take(self, event):
        """Has the rules take an event, and carries their actions out."""
        self.carry(crew_rules.take(self.state, event), event)

    def on_Start(self, action, event):
        worker = action.worker
        want(worker in self.held and worker not in self.living, "a runner without its lock")
        want(not self.is_stopped, "a runner is started after a stop")
        want(worker not in self.dead or not self.orphans, "a runner is started beside orphans")
        want(worker not in self.dead or isinstance(event, PauseOver), "a runner without a pause")
        want((action.what == RUNNER_AGAIN) == (worker in self.dead), "a start of another kind")
        self.dead.discard(worker)
        self.living[worker] = False

    def on_Order(self, action, event):
        word, _, number = action.text.partition(" ")
        want(action.worker in self.living, "an order to nobody")
        if word == reports.GO:
            want(not self.is_stopped, "a runner goes on after too many failures")
            self.living[action.worker] = False
        if word == reports.STOP:
            want(self.is_stopped, "a stop that nobody asked for")
            self.told_to_stop.add(action.worker)
            self.idle |= {action.worker} if self.living[action.worker] else set()
            self.living[action.worker] = False
        if word == reports.NEWS:
            is_own = isinstance(event, Reported) and event.worker == action.worker
            want(not is_own, "a runner gets news of itself")
        if word == reports.PASS:
            want(self.signals > 1 and isinstance(event, Signalled), "the first signal is passed on")
            want(int(number) == event.number, "another signal is passed on")

    def on_Say(self, action, event):
        want(action.text and "\n" not in action.text, "no message")

    def on_Pause(self, action, event):
        want(action.worker in self.dead and not self.orphans, "a pause beside orphans")
        want(crew_rules.SHORTEST <= action.seconds <= crew_rules.LONGEST, "another pause")
        self.pauses.add(action.worker)

    def on_LetGo(self, action, event):
        worker = action.worker
        want(worker in self.held and worker not in self.living, "a living runner's lock is let go")
        is_unseen = worker in self.dead and self.orphans == "unseen"
        want(not is_unseen, "a lock is let go while nobody else sees what is left")
        self.held.discard(worker)
        self.pauses.discard(worker)
        self.has_ended.add(worker)

    def on_SignalOrphans(self, action, event):
        want(self.signals > 1 and self.orphans == "unseen", "a signal to orphans")

    def on_End(self, action, event):
        want(not self.living and not self.pauses, "it ends while a runner lives")
        want(self.orphans != "unseen", "it ends while nobody else sees what is left")
        refused = 65 in self.over.values()
        want(not refused or action.status in (65, 125), "a refusal isn't its status")
        self.is_ended, self.status = True, action.status

    def check(self):
        want(self.row <= self.halt + self.numbers - 1, "too many lines fail")
        if self.is_ended:
            return
        stopped = self.told_to_stop | set(self.over)
        want(not self.is_stopped or set(self.living) <= stopped, "a runner isn't told to stop")
        want(not any(self.living.values()), "a runner waits for an order")
        untaken = set(range(1, self.numbers + 1)) - self.held - self.has_ended
        is_waiting = self.living or self.pauses or self.orphans or untaken and not self.is_stopped
        want(is_waiting, "it waits for nothing")
