"""The rules of a crew: what its supervisor does about each event.

`take` changes a `State` and returns actions. Nothing here calls the system. `crew` makes the
events, and carries the actions out in their order. A runner without a supervisor, as `amo_jobs
work` has it, is a crew of one number that runs in the same process.
"""

from __future__ import annotations

import signal
from enum import Enum
from typing import Any, Callable, Dict, List, NamedTuple, Optional, Union

from amo_jobs import reports
from amo_jobs.messages import signal_name, visible
from amo_jobs.reports import Report
from amo_jobs.runner_state import BY_CREW, LONGEST, RUNNER_AGAIN, SHORTEST
from amo_jobs.settings import Settings
from amo_jobs.statuses import Status

MOST_FIRST_FAILURES, MOST_TAKEN = 10, 10
NO_END = 1 << 60
# The messages of reports that change little.
TEXTS = {
    reports.LOST: "line {line}: attempt {worker}.{serial} is in doubt, since its runner was gone"
                  " before the end was recorded; find out whether it took effect",
    reports.LEFT_BEHIND: "line {line}: attempt {worker}.{serial} has ended, and something that it"
                         " started still runs; wait for it, or end it ({status} names the process)",
    reports.WAITS: "worker {worker}: it has ended, and its runner waits for {text}, since nobody"
                   " else can see that something of a command is left; to send TERM: send two"
                   " signals to the crew",
    reports.TRIES: "worker {worker}: {text}. It goes on trying, since {code} ends are not recorded"
                   " yet",
    reports.SHORT: "worker {worker}: {text}. It goes on trying, until you stop it",
    reports.SAYS: "{text}",
}


class Phase(Enum):
    """How far a number of the crew is."""

    LOCKS = 0  # another runner has its lock
    RUNS = 1  # its runner lives
    DEAD = 2  # its runner was killed, and something of it may be left
    PAUSES = 3  # before its runner is started again
    ENDED = 4


Locked = NamedTuple("Locked", [("worker", int)])  # the lock of a number was got
# Another runner has had that lock for some seconds. 0: its process isn't known.
Occupied = NamedTuple("Occupied", [("worker", int), ("process", int)])
Reported = NamedTuple("Reported", [("worker", int), ("report", Report)])  # a runner reports
# A runner has ended. A code below 0 is the negative of a signal.
RunnerEnded = NamedTuple("RunnerEnded", [("worker", int), ("code", int)])
PauseOver = NamedTuple("PauseOver", [("worker", int)])
# The supervisor has looked at its children that are no runners. `unseen` names those of them that
# don't hold the lock of a command, so that nobody else sees them.
Orphans = NamedTuple("Orphans", [("are_there", bool), ("unseen", str)])
Signalled = NamedTuple("Signalled", [("number", int)])  # the supervisor got a signal
Event = Union[Locked, Occupied, Reported, RunnerEnded, PauseOver, Orphans, Signalled]

# Start the runner of a number: the first one, or one more.
Start = NamedTuple("Start", [("worker", int), ("what", str)])
Order = NamedTuple("Order", [("worker", int), ("text", str)])  # give a runner an order
Say = NamedTuple("Say", [("text", str)])  # print a message
# Have a PauseOver come after a random part of so many seconds.
Pause = NamedTuple("Pause", [("worker", int), ("seconds", float)])
LetGo = NamedTuple("LetGo", [("worker", int)])  # close the handle of a number's lock
# Send a signal to the children that are no runners, and to all below them.
SignalOrphans = NamedTuple("SignalOrphans", [("number", int)])
End = NamedTuple("End", [("status", Optional[int])])  # None: the counts of the lines decide
Action = Union[Start, Order, Say, Pause, LetGo, SignalOrphans, End]
Actions = List[Action]


class Number:
    """A number of the crew."""

    def __init__(self) -> None:
        self.phase, self.pause = Phase.LOCKS, SHORTEST / 2
        self.status: Optional[int] = None  # of its worker at last, or of a runner that failed
        self.has_begun = False  # whether it ever had a runner
        self.is_refused = False  # whether the status is one that the operator has to look at
        self.running = 0  # the attempt whose command has run for a moment
        self.waits = False  # its runner waits for processes that only it sees
        self.was_killed = False  # whether this crew had a runner of it that was killed
        self.is_told = False  # that another runner has its lock


class State:
    """What a supervisor knows."""

    def __init__(self, settings: Settings, status_command: str, numbers: Dict[int, Number]):
        """Takes the command for the operator that shows the status of this run, too."""
        self.settings, self.status_command, self.numbers = settings, status_command, numbers
        self.is_stopping = False
        self.asked = self.ended = self.good = 0  # signals, ends, and the good ones of these
        self.row = 0  # failures in a row
        self.taken = 0  # lines against which another attempt stands
        self.has_orphans, self.unseen, self.has_told_unseen = False, "", False
        self.is_lasting = False  # whether two looks in a row have found the same unseen ones
        self.is_over = False

    def running(self) -> List[str]:
        """Returns the names of the attempts whose commands have run for a moment."""
        return [f"{worker}.{it.running}" for worker, it in self.numbers.items() if it.running]


def take(state: State, event: Event) -> Actions:
    """Takes an event, and returns what the supervisor does about it."""
    return [] if state.is_over else HANDLERS[type(event)](state, event)


def locked(state: State, it: Locked) -> Actions:
    """Starts the runner of a number."""
    number = state.numbers[it.worker]
    if state.is_stopping or number.phase is not Phase.LOCKS:
        return [LetGo(it.worker)]
    number.phase, number.has_begun = Phase.RUNS, True
    return [Start(it.worker, BY_CREW)]


def occupied(state: State, it: Occupied) -> Actions:
    """Prints, once, that an earlier crew's runner has a number."""
    number = state.numbers[it.worker]
    if number.is_told:
        return []
    number.is_told = True
    process = f", process {it.process}," if it.process else ""
    return [Say(f"worker {it.worker}: the runner of an earlier crew{process} ends its command; this"
                " worker begins after that")]


def reported(state: State, it: Reported) -> Actions:
    """Takes a report."""
    return REPORTS.get(it.report.kind, noted)(state, it.worker, it.report)


def command_ended(state: State, worker: int, report: Report) -> Actions:
    """Counts an end. Failures in a row stop the crew, and a few are enough if no line was done
    before: so a misspelt command uses up no list."""
    number, name = state.numbers[worker], f"{worker}.{report.serial}"
    state.ended, number.running, number.pause = state.ended + 1, 0, SHORTEST / 2
    if report.word == "done" and report.code == 0:
        state.good, state.row = state.good + 1, 0
        return []
    state.row += report.word != "untouched"
    ended_by = "the timeout" if report.is_late else "a signal"
    how = {"doubt": f"is in doubt, since {ended_by} ended it; find out whether it took effect",
           "untouched": f"did nothing (status {report.code})",
           "done": f"failed with status {report.code}"}[report.word]
    return [Say(f"line {report.line}: attempt {name} {how}"), *after_failure(state, worker, report)]


def after_failure(state: State, worker: int, report: Report) -> Actions:
    """Stops the crew after too many failures in a row, or lets the runner go on that waits."""
    halt = state.settings.halt
    most = halt if state.good or halt == 0 else min(halt or NO_END, MOST_FIRST_FAILURES)
    if most and state.row >= most:
        return stop(state, f"crew: {state.row} failures in a row"
                    + ("" if state.good else ", and no line was done before"),
                    f"; see the files err.P.S in `{visible(state.settings.results)}` for the cause")
    return go(state, worker) if report.is_failure() else []


def go(state: State, worker: int) -> Actions:
    """Lets a runner go on that waits. After a stop it has the order to stop."""
    return [] if state.is_stopping else [Order(worker, reports.GO)]


def unbegun(state: State, worker: int, report: Report) -> Actions:
    """Stops the crew, since a line can't be started."""
    is_known = state.is_stopping
    more = stop(state, "crew: a line cannot be started")
    return more if is_known else [
        Say(f"line {report.line}: cannot start `{visible(state.settings.command[0])}`:"
            f" {report.text}"), *more]


def noted(state: State, worker: int, report: Report) -> Actions:
    """Notes how far a runner is, and prints it. What was lost is a failure, which the runner waits
    to be known. It counts for the row if this crew has begun it, and not an earlier one."""
    number, kind = state.numbers[worker], report.kind
    if kind in (reports.RUNS, reports.LEFT_BEHIND):
        number.running = report.serial if kind == reports.RUNS else 0
    number.waits |= kind == reports.WAITS
    text = TEXTS.get(kind, "").format(worker=worker, status=state.status_command,
                                      **report._asdict())
    state.row += kind == reports.LOST and number.was_killed
    more = after_failure(state, worker, report) if kind == reports.LOST else []
    return [Say(text), *more] if text else []


def news(state: State, worker: int, report: Report) -> Actions:
    """Has the other workers that wait for a round try at once."""
    return [it for it in orders(state, reports.NEWS) if it.worker != worker]


def was_taken(state: State, worker: int, report: Report) -> Actions:
    """Prints that a line was not started, since another attempt stands against it. Of many such
    messages the first are enough; the end has the count of the others."""
    state.taken += 1
    return [Say(report.text)] if state.taken <= MOST_TAKEN else []


def asked(state: State, worker: int, report: Report) -> Actions:
    """Stops the crew, since a runner got a signal of its own."""
    return stop(state, f"worker {worker}: its runner got {signal_name(report.code)}")


def over(state: State, worker: int, report: Report) -> Actions:
    """Takes a worker's last status. If it isn't started again, the crew stops, and the operator has
    to look."""
    number = state.numbers[worker]
    number.status, number.running, number.waits = report.code, 0, False
    if report.is_end_in_order() or report.code < 0:
        return []
    number.is_refused = report.code != Status.MEMORY
    return [Say(f"worker {worker}: {report.text} (status {report.code})"),
            *stop(state, f"worker {worker}: it isn't started again")]


def stop(state: State, why: str, remedy: str = "") -> Actions:
    """Starts no further command. Those that run go on to their end."""
    if state.is_stopping:
        return []
    state.is_stopping, running = True, len(state.running())
    more = f" (commands that go on to their end: {running})" if running else ""
    actions: Actions = [Say(f"{why}, so no further job is started{more}{remedy}")]
    for worker, number in state.numbers.items():
        if number.phase is Phase.RUNS:
            actions.append(Order(worker, reports.STOP))
        if number.phase is Phase.PAUSES:
            number.phase = Phase.DEAD
        if number.phase is Phase.LOCKS:
            number.phase = Phase.ENDED
    return [*actions, *settle(state)]


def runner_ended(state: State, it: RunnerEnded) -> Actions:
    """Takes the end of a runner. One that has reported its worker's status has ended in order. If
    another one was killed, it is started again. If it has failed, the crew stops."""
    number = state.numbers[it.worker]
    number.running = 0
    if number.status is not None and it.code >= 0:
        number.phase = Phase.ENDED
        return [LetGo(it.worker), *orders(state, reports.NEWS), *settle(state)]
    number.phase, number.status, state.has_orphans = Phase.DEAD, None, True
    number.was_killed = True
    state.unseen, state.is_lasting = f"processes of worker {it.worker}", False  # before a look
    if it.code >= 0:
        is_own = it.code > Status.DOUBTFUL  # Python ends with 1 or 2 if it finds no program
        number.status, number.is_refused = it.code if is_own else Status.BUILD, True
        return stop(state, f"worker {it.worker}: its runner has failed (status {it.code})")
    name = signal_name(-it.code)
    return [Say(f"worker {it.worker}: its runner was ended by {name}"
                + ("" if state.is_stopping else "; it is started again once nothing that it has"
                   " started is left"))]


def orders(state: State, text: str) -> List[Order]:
    """Gives all living runners an order."""
    return [Order(worker, text) for worker, it in state.numbers.items() if it.phase is Phase.RUNS]


def pause_over(state: State, it: PauseOver) -> Actions:
    """Starts a runner again, unless another one has left something meanwhile."""
    number = state.numbers[it.worker]
    if number.phase is not Phase.PAUSES:
        return []
    number.phase = Phase.DEAD if state.has_orphans else Phase.RUNS
    return [] if state.has_orphans else [Start(it.worker, RUNNER_AGAIN)]


def orphans(state: State, it: Orphans) -> Actions:
    """Takes what is left of runners that are gone."""
    state.is_lasting = it.unseen != "" and it.unseen == state.unseen
    state.has_orphans, state.unseen = it.are_there, it.unseen
    return settle(state)


def settle(state: State) -> Actions:
    """Goes on with the numbers whose runner was killed, once nothing is left that it has started,
    and ends once there is nothing more to do."""
    actions: Actions = []
    for worker, number in state.numbers.items():
        if number.phase is not Phase.DEAD or state.has_orphans and state.unseen:
            continue
        if state.is_stopping:
            number.phase = Phase.ENDED
            actions.append(LetGo(worker))
        elif not state.has_orphans:
            number.phase, number.pause = Phase.PAUSES, min(2 * number.pause, LONGEST)
            actions.append(Pause(worker, number.pause))
    return [*actions, *end(state)]


def end(state: State) -> Actions:
    """Ends once all numbers have. If the lines are closed, none is waited for that another runner
    has."""
    phases = {it.phase for it in state.numbers.values()}
    is_closed = any(it.status == Status.DONE for it in state.numbers.values())
    is_waiting = Phase.LOCKS in phases and not is_closed
    is_waiting |= Phase.DEAD in phases and not state.is_lasting
    if is_waiting or phases & {Phase.RUNS, Phase.PAUSES}:
        return []
    if state.unseen:
        is_told, state.has_told_unseen = state.has_told_unseen, True
        return [] if is_told else [Say(
            f"crew: it waits for {state.unseen}, since nobody else can see that something of a"
            " command is left; to send TERM: send two signals to the crew")]
    state.is_over = True
    return [End(last_status(state))]


def last_status(state: State) -> Optional[int]:
    """Returns the status of a worker that was refused, or that another runner has all numbers."""
    refused = [it.status for it in state.numbers.values() if it.is_refused]
    has_begun = any(it.has_begun for it in state.numbers.values())
    return refused[0] if refused else None if has_begun else Status.LATER


def signalled(state: State, it: Signalled) -> Actions:
    """Takes a signal. The first one stops the crew in order, and each further one is passed on to
    the commands that run. What is waited for at last gets TERM."""
    state.asked += 1
    name = signal_name(it.number)
    if state.asked == 1:
        return stop(state, f"crew: it got {name}",
                    "; to pass a signal on to the commands: send one more")
    waiting = [f"the processes for which worker {worker} waits"
               for worker, number in state.numbers.items() if number.waits]
    waiting += [state.unseen] if state.unseen else []
    found = ", ".join(state.running() + waiting) or "no command, since none runs"
    return [Say(f"crew: it got {name} again, and passes it on to {found}"),
            *orders(state, f"{reports.PASS} {it.number}"),
            *([SignalOrphans(signal.SIGTERM)] if state.unseen else [])]


REPORTS: Dict[str, Callable[[State, int, Report], Actions]] = {
    reports.ENDED: command_ended, reports.UNBEGUN: unbegun, reports.TAKEN: was_taken,
    reports.ASKED: asked, reports.OVER: over, reports.ROUND: news,
}
HANDLERS: Dict[type, Callable[[State, Any], Actions]] = {
    Locked: locked, Occupied: occupied, Reported: reported, RunnerEnded: runner_ended,
    PauseOver: pause_over, Orphans: orphans, Signalled: signalled,
}
