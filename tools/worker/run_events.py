"""Finds an order of a log's calls in which they are events of the model. Begin with `Translation`.

Each call stands between its two lines, or between its first line and the end of its process. Most
events have a place that is best whatever comes later:

  begins      after a recovery by a worker; before that `dies`, if the former process has not died
  lands       after a recovery that shows an attempt whose append nobody has acknowledged
  intends     after the append: so readers may have missed it as long as that is allowed
  opens       before the append: so readers may have seen it as early as that is allowed
  hands-over  before the worker says `perform`
  performs    at the command's own line
  ends        before the attempt is opened: what is performed later is refused
  looks       as soon as nothing stands against the attempt, between the lines of the reading

So no choice is left, and nothing has to be tried twice. What the model can't express is checked
here: which attempt the worker says to its runner, with which text; what the runner hears, replies
and starts; and which process calls.
"""

import hashlib
import re
from typing import Callable, Dict, List, NamedTuple, Optional, Tuple

from worker.call_lines import Line, OPERATOR
from worker.run_model import AWAY, NOBODY, Site

ANSWERS = "answers"
NAME = re.compile("[1-9][0-9]?[.][1-9][0-9]*")  # of an attempt


class Intent(NamedTuple):
    """An intent that is being appended."""

    serial: int
    line: int


class Process:
    """A process whose calls a log has."""

    def __init__(self, number: int, worker: int) -> None:
        self.number, self.worker = number, worker
        self.is_gone = self.has_recovered = self.has_answers = False
        self.owed: List[str] = []  # the entries that its next append takes along
        self.intents: List[Intent] = []  # those of the append that it makes
        self.call: Optional[str] = None  # which it makes
        self.said: Optional[str] = None  # what it says to its runner
        self.reply: Optional[str] = None  # what its runner says that it replies
        self.log = ANSWERS  # the log that it reads or recovers
        self.is_reading = False


def owner_of(log: str) -> Optional[int]:
    """Returns the worker whose journal this log is; None if it is the answers."""
    return None if log == ANSWERS else int(log.rpartition(".")[2])


def digest_of(data: bytes) -> str:
    return hashlib.sha256(data).hexdigest()


class Translation:
    """The events of a run, by its log. `wrongs` has what the model can't express."""

    def __init__(self, lines: List[Line], texts: List[bytes]) -> None:
        """Takes the lines of the log, and the texts of the run's lines."""
        self.site, self.texts = Site(), texts
        self.events: List[str] = []
        self.refused: Optional[str] = None  # the first event that may not follow, by this code
        self.wrongs: List[str] = []
        self.processes: Dict[int, Process] = {}
        self.holders: Dict[int, Process] = {}
        self.line = Line(0, [])
        for it in lines:
            self.line = it
            self.take()
            self.look()

    def emit(self, name: str, *given: int) -> None:
        """Adds an event."""
        event = " ".join(map(str, (name, *given)))
        if self.refused is None and not self.site.may_follow(name, *given):
            place = f"line {self.line.number}: event {len(self.events) + 1}"
            self.refused = f"{place} may not follow: {event}"
        self.site.take(name, *given)
        self.events.append(event)

    def wrong(self, what: str) -> None:
        self.wrongs.append(f"line {self.line.number}: {what}")

    def take(self) -> None:
        """Takes a line."""
        kind = self.line.kind
        if kind == "begin":
            self.processes[self.line.process] = Process(self.line.process, self.line.worker)
        elif kind in ("before", "after"):
            self.take_call(kind)
        elif kind == "performed":
            self.take_performed(self.line.words[1], int(self.line.words[2]))
        elif kind == "gone":
            self.take_gone()
        elif kind in ("receives", "replies"):
            self.take_runner(kind, " ".join(self.line.words[2:]))
        elif kind == "starts":
            worker, serial = map(int, self.line.words[1].split("."))
            if (worker, serial, int(self.line.words[2])) not in self.site.alive:
                self.wrong("a command is started, and its attempt wasn't handed over, or is over")

    def take_performed(self, name: str, line: int) -> None:
        """A command has performed its line. The name is that of its lock."""
        if not NAME.fullmatch(name):
            self.wrong(f"line {line} was performed by a command without a lock: {name}")
            return
        worker, serial = map(int, name.split("."))
        self.emit("performs", worker, serial, line)

    def take_runner(self, kind: str, text: str) -> None:
        """Notes that a runner gets a line of its worker, or replies."""
        process = self.processes.get(self.line.process)
        if process is None:  # a process of the test stands between the two
            return
        if kind == "replies":
            process.reply = text
        elif text != process.said:
            self.wrong(f"the runner hears `{text}`, and its worker said `{process.said}`")

    def take_gone(self) -> None:
        """A process was reaped."""
        process = self.processes.get(self.line.process)
        if process is None:
            return
        process.is_gone = True
        if self.holders.get(process.worker) is process:
            del self.holders[process.worker]
            self.let_die(process.worker)

    def take_call(self, side: str) -> None:
        """Takes a line about a call."""
        process = self.processes.get(self.line.process)
        if process is None:
            self.wrong("this process hasn't begun")
            return
        if process.call != (None if side == "before" else self.line.call):
            self.wrong(f"`{side} {self.line.call}`, and the process makes the call {process.call}")
        process.call = self.line.call if side == "before" else None
        is_owner = self.holders.get(process.worker) is process or not process.has_recovered
        if process.is_gone or process.worker != OPERATOR and not is_owner:
            self.wrong("this process calls after its end, or after another one took its number")
        step = STEPS.get((side, self.line.call))
        if step:
            step(self, process, self.line.more)

    def let_die(self, worker: int) -> None:
        """The worker's process is dead by now."""
        if self.site.stages[worker] != AWAY:
            self.emit("dies", worker)

    def let_go(self, worker: int) -> None:
        """The worker's process gives up the attempt that it has in hand, if it has one. In the
        model a process dies then, and another one begins."""
        if self.site.holds(worker):
            self.emit("dies", worker)
            self.emit("begins", worker)

    # Recoveries.

    def begin_recovery(self, process: Process, more: List[str]) -> None:
        process.log = more[0]
        owner = owner_of(process.log)
        if owner is None:
            return
        self.holders.pop(owner, None)
        self.let_die(owner)
        if process.worker != OPERATOR:
            self.holders[owner], process.has_recovered = process, True

    def end_recovery(self, process: Process, more: List[str]) -> None:
        owner = owner_of(process.log)
        if owner is None or more == ["failed"]:
            return
        if more == ["refused"]:
            self.wrong("a journal was recovered whose attempts can't be read")
            return
        count, last, digest = int(more[0]), int(more[1]), more[2]
        if count == len(self.site.kept[owner]) + 1:
            self.emit("lands", owner, last)
        kept = "".join(f"{it} " for it in self.site.kept[owner])
        if digest != digest_of(kept.encode()):
            self.wrong(f"an acknowledged attempt is gone: journal.{owner} has {count}, and there"
                       f" were {len(self.site.kept[owner])}")
        if process.worker != OPERATOR:
            self.emit("begins", owner)

    # Appends.

    def begin_append(self, process: Process, entries: List[str]) -> None:
        """Notes that a worker's process appends these entries."""
        self.let_go(process.worker)
        for entry in entries:
            kind, serial, *rest = entry.split(" ")
            if kind == "unbegun":
                self.open((process.worker, int(serial)))
            elif kind == "intent":
                process.intents.append(Intent(int(serial), int(rest[0])))

    def begin_put(self, process: Process, more: List[str]) -> None:
        entries, process.owed = [*process.owed, " ".join(more)], []
        self.begin_append(process, entries)

    def begin_owe(self, process: Process, more: List[str]) -> None:
        """An entry that is owed already is appended first."""
        entries, process.owed = process.owed, [" ".join(more)]
        if entries:
            self.begin_append(process, entries)

    def begin_pay(self, process: Process, _more: List[str]) -> None:
        entries, process.owed = process.owed, []
        if entries:
            self.begin_append(process, entries)

    def end_append(self, process: Process, more: List[str]) -> None:
        intents, process.intents = process.intents, []
        for it in intents if not more else ():
            process.has_answers = False
            self.emit("intends", process.worker, it.line)
            self.emit("looks", process.worker, NOBODY)
            if it.serial != len(self.site.kept[process.worker]):
                self.wrong(f"the intent's serial number is {it.serial}, and there are"
                           f" {len(self.site.kept[process.worker])}")

    def begin_answer(self, _process: Process, more: List[str]) -> None:
        """An operator's answer is appended."""
        if more[0] == "not-done":
            self.open((int(more[1]), int(more[2])))

    def open(self, attempt: Tuple[int, int]) -> None:
        """Some record says that this attempt was not begun, or not done."""
        while places := [k for k, it in enumerate(self.site.alive) if it[:2] == attempt]:
            self.emit("ends", places[0])
        self.emit("opens", *attempt)

    # Readings.

    def begin_reading(self, process: Process, more: List[str]) -> None:
        process.log, process.is_reading = more[0], True

    def end_reading(self, process: Process, more: List[str]) -> None:
        self.look_by(process)
        process.is_reading = False
        process.has_answers |= process.log == ANSWERS and not more

    def look(self) -> None:
        """Each process that reads a journal sees what is there now, or later."""
        for process in self.holders.values():
            self.look_by(process)

    def look_by(self, process: Process) -> None:
        other, held = owner_of(process.log), self.site.holds(process.worker)
        may_look = process.is_reading and process.has_answers and held is not None
        if (may_look and other is not None and other not in held.seen
                and self.site.is_clear(process.worker, other)):
            self.emit("looks", process.worker, other)

    # The runner.

    def end_saying(self, process: Process, more: List[str]) -> None:
        text, reply, process.reply = " ".join(more), process.reply, None
        if reply not in (None, text) and text not in ("none", "failed"):
            self.wrong(f"the worker hears `{text}`, and its runner said `{reply}`")

    def begin_saying(self, process: Process, more: List[str]) -> None:
        process.said = " ".join(more)
        if more[0] != "perform":
            return
        serial, line, digest = int(more[1]), int(more[2]), more[4]
        held = self.site.holds(process.worker)
        if held and (held.serial, held.line) != (serial, line):
            self.wrong(f"the attempt {serial} of line {line} is handed over, and the intent is"
                       f" {held.serial} of line {held.line}")
        if not 1 <= line <= len(self.texts) or digest != digest_of(self.texts[line - 1]):
            self.wrong(f"another text than that of line {line} is handed over")
        self.emit("hands-over", process.worker)


Step = Callable[[Translation, Process, List[str]], None]
STEPS: Dict[Tuple[str, str], Step] = {
    ("before", "recover"): Translation.begin_recovery,
    ("after", "recover"): Translation.end_recovery,
    ("before", "put"): Translation.begin_put, ("after", "put"): Translation.end_append,
    ("before", "owe"): Translation.begin_owe, ("after", "owe"): Translation.end_append,
    ("before", "pay"): Translation.begin_pay, ("after", "pay"): Translation.end_append,
    ("before", "put_answer"): Translation.begin_answer,
    ("before", "read_on"): Translation.begin_reading,
    ("after", "read_on"): Translation.end_reading,
    ("before", "say"): Translation.begin_saying, ("after", "say"): Translation.end_saying,
}
