"""The world around the rules of a runner, for their tests: a worker with its journal, commands and
what they leave behind, a supervisor. And a monitor that holds each step to the rules.

`World.events` are those that can come next. `World.step` has the rules take one, carries their
actions out, and raises Broken if a rule is broken. World and monitor know nothing of the rules' own
state: they see events and actions alone.
"""

import signal

from worlds import Broken, want, World as AnyWorld
from amo_jobs import reports, runner_rules
from amo_jobs.runner_state import (
    Answer, Begin, CommandEnded, Elapsed, End, GRACE, LINGER, LONGEST, Look, Looked, PassOn, PAUSE,
    PERFORM, Plain, Rest, Said, Send, SHORTEST, StartFailed, StartWorker, State, Tell, TIMEOUT,
    Wait, WorkerEnded
)
from amo_jobs.settings import Settings

SETTINGS = Settings(timeout=60.0, untouched=frozenset({75}))
KILLED = -9


class World(AnyWorld):
    """The outside of the rules, the rules' state, and the notes of the monitor."""

    parts = "attempts"

    def __init__(self, pending=(), lines=2, rests=None):
        self.state = State(SETTINGS)
        # the worker: its journal has `serial` intents, of which these have no outcome yet
        self.pending, self.serial, self.lines = set(pending), max(pending, default=0), lines
        self.is_alive = self.has_failed = False  # whether the last worker was killed, or has failed
        self.to_ask, self.asks, self.answered = [], None, None
        self.is_working = self.has_running = self.must_leave = False
        self.recorded = {}
        # commands and what is left of attempts
        self.command, self.rests, self.codes, self.late = None, dict(rests or {}), {}, set()
        self.begun, self.unbegun, self.told_of = set(), set(), set()
        self.timers = set()
        # the supervisor
        self.is_there, self.is_held, self.unacked = True, False, False
        # the monitor's memory
        self.is_stopped = self.is_over = self.is_ended = False
        self.last_wait = False
        self.answers = {}  # the attempts about which it has answered, by their last word
        self.trace = []  # for messages alone
        self.carry(runner_rules.start_worker(self.state), None)

    # ---- what may come

    def events(self):
        """Returns the events that may come next."""
        if self.is_over:
            return []
        found = [Plain.NEWS]
        found += [] if self.is_stopped else [Plain.STOP]
        found += [PassOn(signal.SIGINT)] if self.is_stopped else []
        found += self.of_supervisor() + self.of_worker() + self.of_commands()
        return found + [Elapsed(*it) for it in sorted(self.timers)]

    def of_supervisor(self):
        if not self.is_there:
            return []
        found = [Plain.DESERTED, Plain.SENT if self.is_held else Plain.HELD]
        return found + ([Plain.ACKNOWLEDGED] if self.unacked else [])

    def of_worker(self):
        """Returns what the worker may say, alive or just killed, and how it may end."""
        if not self.is_alive:
            return []
        found = [WorkerEnded(KILLED, "")]
        if self.asks is not None:
            return found
        found += [WorkerEnded(73, "full"), WorkerEnded(75, "later")]
        if self.must_leave:
            return found + [WorkerEnded(69, "left")]
        if self.to_ask:
            lines = [("was", self.to_ask[0])]
        else:
            found.append(WorkerEnded(0, "all done"))
            lines = [("perform", self.serial + 1)] if self.lines else []
            lines += [] if self.has_running else [("over", 0)]
        for kind, serial in lines:
            found += [Said(kind, serial, serial, b"", it) for it in (True, False)]
        return found

    def of_commands(self):
        """Returns the ends of the command, and what becomes of what is left."""
        found = []
        if self.command is not None:
            found = [CommandEnded(it) for it in (0, 3, KILLED, None)]
        for serial, rest in self.rests.items():
            if serial in self.begun and serial != self.command and rest is not Rest.NOTHING:
                found += [Looked(serial, it) for it in Rest if it is not rest]
        return found

    def branches(self, event):
        """Returns the processes that a command leaves running, and whether one can be started."""
        if isinstance(event, CommandEnded):
            rests = Rest if event.status in (0, None) else (Rest.NOTHING, Rest.UNSEEN)
            return [dict(rest=it) for it in rests]
        may_start = isinstance(event, Said) and event.kind == PERFORM and event.is_alive
        return [{}, dict(starts=False)] if may_start else [{}]

    # ---- a step

    def step(self, event, rest=Rest.NOTHING, starts=True):
        """Has the rules take an event. `rest` are the processes that a command leaves running when
        it ends; `starts` is whether a command that is begun can be started."""
        self.replies = [rest, starts]
        self.trace.append(event)
        self.before(event)
        try:
            self.carry(runner_rules.take(self.state, event), event)
            self.check(event)
        except Broken as broken:
            raise Broken(f"{broken}: {self.trace}") from None
        del self.replies

    def before(self, event):
        """Does what the event means outside."""
        if isinstance(event, Said):
            self.worker_says(event)
        elif isinstance(event, WorkerEnded):
            self.worker_ends(event)
        elif isinstance(event, CommandEnded):
            self.codes[self.command] = event.status
            self.rests[self.command], self.command = self.replies[0], None
        elif isinstance(event, Looked):
            self.rests[event.serial] = event.rest
        elif isinstance(event, Elapsed):
            self.timers.discard((event.timer, event.serial))
        elif event in (Plain.STOP, Plain.DESERTED):
            self.is_stopped = True
        if event is Plain.DESERTED:
            self.is_there = self.is_held = self.unacked = False
        if event in (Plain.HELD, Plain.SENT):
            self.is_held = event is Plain.HELD
        if event is Plain.ACKNOWLEDGED:
            self.unacked = False

    def worker_says(self, it):
        """The line shows that the answer before it is recorded. A dead worker's line is its
        last."""
        self.record()
        if it.kind == "was":
            self.to_ask.pop(0)
        if it.kind == "perform":
            self.serial, self.lines = it.serial, self.lines - 1
            self.pending.add(it.serial)
            self.is_working = True
        self.asks = (it.kind, it.serial) if it.is_alive else None
        self.is_alive = it.is_alive
        if not it.is_alive:
            self.is_ended = True
            self.unbegun |= {it.serial} if it.kind == "perform" else set()

    def worker_ends(self, it):
        """A worker that ends in order has recorded the last answer; one that was killed may not
        have."""
        self.has_failed = it.status not in (0, 69, 75)
        if not self.has_failed:
            self.record()
        if self.asks and self.asks[0] == "perform" and self.asks[1] not in self.begun:
            self.unbegun.add(self.asks[1])
        self.is_alive, self.asks, self.answered, self.is_ended = False, None, None, False

    def record(self):
        if self.answered and self.answered[1] != "running":
            self.recorded[self.answered[0]] = self.answered[1]
            self.pending.discard(self.answered[0])
        self.answered = None

    def on_StartWorker(self, action, event):
        want(action.has_failed == self.has_failed, "a start of another kind")
        self.has_failed = False
        want(not self.is_alive and not self.is_ended, "a worker is started while one is there")
        want(self.command is None, "a worker is started while a command of the former one runs")
        want(not isinstance(event, WorkerEnded), "a worker is started again without a pause")
        self.is_alive, self.to_ask = True, sorted(self.pending)
        self.is_working = self.has_running = self.must_leave = False

    def on_Answer(self, action, event):
        want(self.is_alive and self.asks is not None, "nobody has asked")
        kind, serial = self.asks
        *words, way = action.text.split(" ")
        want(way in ("go", "leave"), f"no way: {action}")
        self.must_leave = way == "leave"
        self.asks = None
        if kind == "over":
            want(not words, f"an answer to over: {action}")
            want(not (self.is_stopped and way == "go"), "a round is begun after a stop")
            is_first = self.is_working or not isinstance(event, Said)
            want(way == "leave" or is_first, "a worker that performs nothing goes on at once")
            self.is_working = False
            return
        want(int(words[1]) == serial, f"an answer to another question: {action}")
        self.check_answer(kind, serial, words, way)
        self.answers[serial] = words[0]
        self.answered = serial, " ".join([words[0], *words[2:]])
        self.has_running |= words[0] == "running"

    def check_answer(self, kind, serial, words, way):
        """An answer is true, and it is the one that was seen."""
        word, is_begun = words[0], serial in self.begun
        rest = self.rests.get(serial, Rest.NOTHING)
        if word in ("done", "untouched", "doubt"):
            want(serial != self.command and rest is Rest.NOTHING, f"{word} of what still runs")
        if word == "unbegun":
            want(not is_begun and (kind == "perform" or serial in self.unbegun),
                 "unbegun of what was begun, or of what nobody knows")
        if word == "done":
            want(words[2] == str(self.codes.get(serial)) and serial not in self.late,
                 "another end than the command's")
        if word == "doubt" and serial in self.codes:
            code = self.codes[serial]
            want(code is None or code < 0 or serial in self.late, "an end that was seen is a doubt")
        if word == "doubt":
            want(serial not in self.unbegun, "what is known as unbegun is a doubt")
        if kind == "perform" and self.is_stopped:
            want(way == "leave", "a worker goes on after a stop")
        self.unbegun |= {serial} if word == "unbegun" else set()
        if word == "doubt" or word == "done" and words[2] != "0":
            self.unacked = True

    def on_Begin(self, action, event):
        want(self.command is None, "two commands at a time")
        want(not any(it in self.begun and it not in self.answers and rest is not Rest.NOTHING
                     for it, rest in self.rests.items()), "a command before the last one's answer")
        want(not self.is_stopped, "a command is begun after a stop")
        want(self.is_alive and self.asks == ("perform", action.serial), "a dead worker's line")
        want(action.serial not in self.begun, "an attempt is begun twice")
        want(not self.unacked, "a command before the supervisor knows of a failure")
        want(not self.is_held, "a command while a report isn't sent")
        if self.replies[1]:
            self.begun.add(action.serial)
            self.command = action.serial
        else:
            self.unbegun.add(action.serial)
            self.carry(runner_rules.take(self.state, StartFailed("why")), StartFailed("why"))
            self.is_stopped = self.unacked = True

    def on_Look(self, action, event):
        rest = self.rests.get(action.serial, Rest.NOTHING)
        want(action.serial != self.command, "it looks at what runs")
        found = Looked(action.serial, rest)
        self.carry(runner_rules.take(self.state, found), found)

    def on_Wait(self, action, event):
        if action.timer == PAUSE:
            want(SHORTEST <= action.seconds <= LONGEST, f"a pause of {action.seconds} s")
        if action.timer != "moment":
            self.timers.add((action.timer, action.serial))

    def on_Send(self, action, event):
        want(action.serial in self.begun, "a signal to what was not begun")
        is_timer = isinstance(event, Elapsed)
        is_current = action.serial in (self.command, self.state.current)
        wanted = ({TIMEOUT: signal.SIGTERM, GRACE: signal.SIGKILL}.get(event.timer) if is_timer
                  else event.number if is_current else signal.SIGTERM)
        want(action.number == wanted, f"{action} after {event}")
        self.late |= {action.serial} if is_timer else set()

    def on_Tell(self, action, event):
        report = action.report
        if report.kind in (reports.ENDED, reports.UNBEGUN, reports.LOST):
            want(report.serial in self.answers, "a report before the answer")
            want(report.serial not in self.told_of, "a report twice")
            self.told_of.add(report.serial)
        self.last_wait |= report.kind == reports.WAITS
        self.unacked |= report.is_failure() and self.is_there

    def on_End(self, action, event):
        want(not self.is_alive and self.command is None, "it ends while somebody lives")
        unrecorded = [it for it in self.codes if self.rests[it] is Rest.NOTHING
                      and it not in self.recorded]
        unrecorded += [it for it in self.unbegun if it in self.pending]
        want(not unrecorded, f"it ends before these ends are recorded: {unrecorded}")
        unseen = [it for it, rest in self.rests.items() if rest is Rest.UNSEEN and it in self.begun]
        want(not unseen, f"it ends while nobody else sees what is left: {unseen}")
        self.is_over = True

    # ---- after a step

    def check(self, event):
        """Somebody is always waited for, and what may go on does."""
        if isinstance(event, PassOn) and self.command is not None:
            want(self.sent(event), "a further signal isn't passed on")
        if self.is_over:
            return
        if self.is_alive and self.asks:
            self.check_waiting(*self.asks)
        if not self.is_alive and not self.is_ended:
            is_waiting = (PAUSE, 0) in self.timers or self.command is not None
            is_waiting |= any(rest is not Rest.NOTHING for it, rest in self.rests.items()
                              if it in self.begun)
            want(is_waiting, "it waits for nothing")

    def sent(self, event):
        """Returns whether the rules, asked once more, pass the signal on to the command."""
        found = runner_rules.take(self.copy().state, event)
        return Send(self.command, event.number) in found

    def check_waiting(self, kind, serial):
        """A worker that has no answer waits for something that will come."""
        want(kind != "was", "a question has no answer")
        if kind == "over":
            want((PAUSE, 0) in self.timers and not self.is_stopped, "a worker waits at over")
        elif serial not in self.begun:
            want(not self.is_stopped, "after a stop a line isn't refused")
            want(self.unacked or self.is_held, "a line waits for nothing")
        elif serial != self.command:
            is_waiting = (LINGER, serial) in self.timers or (GRACE, serial) in self.timers
            want(self.rests[serial] is not Rest.NOTHING and is_waiting, "an end isn't answered")
