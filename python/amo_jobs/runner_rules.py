"""The rules of a runner: what it does about each event.

`take` changes a `State` and returns actions. Nothing here calls the system, so the tests hold every
order of events to the rules. `runner` makes the events, and carries the actions out in their order.
Read `State` and `take` first; docs/protocol.md has the lines between worker and runner.
"""

from __future__ import annotations

import signal
from typing import Any, Callable, Dict, List

from amo_jobs import reports
from amo_jobs.reports import Report
from amo_jobs.runner_state import (
    Action, Answer, Attempt, Begin, CommandEnded, Elapsed, End, Event, GRACE, LINGER, LONGEST, Look,
    Looked, MOMENT, PassOn, PAUSE, PERFORM, Plain, Rest, Said, Send, SHORTEST, StartFailed,
    StartWorker, State, STAY, Tell, TIMEOUT, Wait, WAS, WorkerEnded
)
from amo_jobs.statuses import IN_ORDER, Status

KILL_AGAIN = 0.5  # seconds after which KILL is sent once more to what is still there
A_MOMENT = 0.2  # seconds after which a command is reported as running

Actions = List[Action]


def take(state: State, event: Event) -> Actions:
    """Takes an event, and returns what the runner does about it."""
    if state.is_over:
        return []
    return (HANDLERS.get(type(event)) or HANDLERS[event])(state, event)


def start_worker(state: State) -> Actions:
    """Starts the worker. A runner does that first."""
    state.is_pausing, state.has_worker, state.last = False, True, None
    return [StartWorker(state.status not in IN_ORDER)]


def said(state: State, it: Said) -> Actions:
    """Takes a line of the worker. None is carried out once the worker is dead: the next one may be
    told that the attempt is in doubt, and the operator may do by hand what the line asks for."""
    note(state, it.kind != WAS)
    if it.kind == PERFORM:
        state.top = max(it.serial, state.top or 0)
    if not it.is_alive:
        if it.kind == PERFORM:
            state.seen[it.serial] = f"unbegun {it.serial}"
        return []
    state.asks = it
    if it.kind == PERFORM:
        state.has_said = True
        return go_on(state) if state.is_in_round else [*go_on(state), turn_of_round(state)]
    if it.kind == WAS:
        return was_asked(state, it.serial)
    return over(state)


def over(state: State) -> Actions:
    """Has a worker whose part of the round is over wait, or leave. If it has performed a line since
    it waited, it goes on at once, since it may be the last one of the round."""
    if state.is_stopping or state.found:
        return way(state, "leave")
    return [*way(state, "go"), turn_of_round(state)] if state.is_in_round else [pause(state)]


def turn_of_round(state: State) -> Tell:
    """Reports that the worker has its first line of a round, or that its part is over: the workers
    that wait may go on then."""
    state.is_in_round = not state.is_in_round
    return Tell(Report(reports.ROUND))


def note(state: State, is_past: bool) -> None:
    """Forgets the ends that are recorded: the last one that was answered, once the worker goes on;
    and all that it has asked for, once it performs lines."""
    if state.last is not None:
        state.seen.pop(state.last, None)
    if is_past:
        state.seen.clear()
    state.last = None


def way(state: State, word: str) -> Actions:
    """Has the worker go on with the next round, or leave."""
    state.asks = None
    return [Answer(word)]


def was_asked(state: State, serial: int) -> Actions:
    """Reports an end that was seen, or looks what is left of the attempt."""
    if serial in state.found:
        state.seen[serial] = state.found.pop(serial)
    if serial in state.seen:
        state.has_said = True
        return answer(state, serial)
    return [Look(serial)]


def go_on(state: State) -> Actions:
    """Performs the line that the worker has said, refuses it after a stop, or has it wait. It waits
    while the supervisor doesn't know of a failure, or doesn't take reports."""
    it = state.asks
    if it is None or it.kind != PERFORM or state.current is not None:
        return []
    if state.is_stopping:
        state.seen[it.serial] = f"unbegun {it.serial}"
        return answer(state, it.serial)
    if state.is_held or state.is_unacknowledged:
        return []
    state.current, state.attempts[it.serial] = it.serial, Attempt(it.line)
    timeout = state.settings.timeout
    return [Begin(it.serial, it.line, it.text), Wait(MOMENT, it.serial, A_MOMENT),
            *([Wait(TIMEOUT, it.serial, timeout)] if timeout else [])]


def answer(state: State, serial: int) -> Actions:
    """Answers with an end that was seen, and reports it after that."""
    actions, report = reply(state, serial, state.seen[serial]), state.untold.pop(serial, None)
    if report is None:
        return actions
    state.is_unacknowledged |= report.is_failure()
    return [*actions, Tell(report)]


def reply(state: State, serial: int, text: str) -> Actions:
    """Answers the worker's question about this attempt. One that asks goes on as long as it may ask
    for another end. One that performs leaves if there is an end that the next one asks for."""
    if state.asks_for(serial, WAS):
        leaves = state.is_stopping and not state.found and not set(state.seen) - {serial}
    else:
        leaves = state.is_stopping or bool(state.found)
    state.asks, state.last = None, serial
    return [Answer(f"{text} {'leave' if leaves else 'go'}")]


def start_failed(state: State, it: StartFailed) -> Actions:
    """Reports that a line can't be started, and starts no other one."""
    serial = state.current
    if serial is None:
        return []
    line, state.current = state.attempts.pop(serial).line, None
    state.is_stopping, state.seen[serial] = True, f"unbegun {serial}"
    state.untold[serial] = Report(reports.UNBEGUN, serial, line, text=it.why)
    return answer(state, serial) if state.asks_for(serial, PERFORM) else what_next(state)


def command_ended(state: State, it: CommandEnded) -> Actions:
    """Looks what the command has left behind."""
    serial = state.current
    if serial is None:
        return []
    state.attempts[serial].status = it.status
    return [Look(serial)]


def looked(state: State, it: Looked) -> Actions:
    """Takes what was found of an attempt. What its command has left behind is waited for."""
    if it.rest is Rest.NOTHING:
        return gone(state, it.serial)
    attempt = state.attempts.get(it.serial)
    if attempt:
        attempt.rest = it.rest
    if attempt and it.serial == state.current:
        if attempt.has_lingered is not None:
            return []
        attempt.has_lingered = False
        return [Wait(LINGER, it.serial, state.settings.linger)]
    if state.asks_for(it.serial, WAS):
        return reply(state, it.serial, f"running {it.serial}")
    return what_next(state)


def gone(state: State, serial: int) -> Actions:
    """Takes the end of an attempt, of which nothing is left."""
    attempt = state.attempts.pop(serial, None)
    if attempt is None:
        return lost(state, serial)
    word, code = attempt.outcome(state.settings.untouched)
    text = f"{word} {serial}" + ("" if word == "doubt" else f" {code}")
    state.untold[serial] = Report(reports.ENDED, serial, attempt.line, word, code, attempt.is_late)
    if serial == state.current:
        state.current, state.seen[serial] = None, text
        return answer(state, serial) if state.asks_for(serial, PERFORM) else what_next(state)
    if state.asks_for(serial, WAS):
        state.seen[serial] = text
        return answer(state, serial)
    state.found[serial] = text
    return what_next(state)


def lost(state: State, serial: int) -> Actions:
    """Answers what became of an attempt of which this runner knows nothing, and nothing is left. If
    its intent is younger than one that a worker of this runner has said, all lines of the worker
    that made it were read, and none was to perform it. Else it is in doubt."""
    if state.asks is None or not state.asks_for(serial, WAS):
        return []
    is_unsaid = state.top is not None and serial > state.top
    state.has_said, state.seen[serial] = True, f"{'unbegun' if is_unsaid else 'doubt'} {serial}"
    if not is_unsaid:
        state.untold[serial] = Report(reports.LOST, serial, state.asks.line)
    return answer(state, serial)


def elapsed(state: State, it: Elapsed) -> Actions:
    """Takes the end of a time."""
    if it.timer == PAUSE:
        return end_pause(state)
    attempt = state.attempts.get(it.serial)
    if attempt is None:
        return []
    return TIMERS[it.timer](state, it.serial, attempt)


def end_pause(state: State, _: Any = None) -> Actions:
    """Has the worker go on, or starts it."""
    if state.asks_for(0, STAY):
        return way(state, "leave" if state.found else "go")
    return start_worker(state) if state.is_pausing else []


def moment_over(state: State, serial: int, attempt: Attempt) -> Actions:
    """Reports that a command runs."""
    is_running = serial == state.current
    return [Tell(Report(reports.RUNS, serial, attempt.line))] if is_running else []


def timeout_over(state: State, serial: int, attempt: Attempt) -> Actions:
    """Ends an attempt whose time is over, with all that it has started."""
    attempt.is_late = True
    return [Send(serial, signal.SIGTERM), Wait(GRACE, serial, state.settings.grace)]


def grace_over(state: State, serial: int, attempt: Attempt) -> Actions:
    """Kills what is left of it, and does so again until nothing is."""
    is_first, attempt.is_killed = not attempt.is_killed, True
    more = [Wait(LINGER, serial, state.settings.linger)] if (
        is_first and attempt.has_lingered and serial == state.current) else []
    return [Send(serial, signal.SIGKILL), Wait(GRACE, serial, KILL_AGAIN), *more]


def linger_over(state: State, serial: int, attempt: Attempt) -> Actions:
    """Goes on without an attempt of which something is left. If its time is over, KILL comes
    first."""
    attempt.has_lingered = True
    if serial != state.current or attempt.is_late and not attempt.is_killed:
        return []
    state.current = None
    report = Tell(Report(reports.LEFT_BEHIND, serial, attempt.line))
    if state.asks_for(serial, PERFORM):
        return [*reply(state, serial, f"running {serial}"), report]
    return [report, *what_next(state)]


def unanswered(state: State, _: Plain) -> Actions:
    """Keeps an end that the worker didn't get: the next one asks for it."""
    state.last = None
    return []


def worker_ended(state: State, it: WorkerEnded) -> Actions:
    """Takes the end of the worker. A line that waits is surely not begun."""
    asks, state.asks, state.has_worker, state.is_in_round = state.asks, None, False, False
    if it.status in IN_ORDER:
        note(state, it.status == Status.DONE)
    if asks and asks.kind == PERFORM and asks.serial != state.current:
        state.seen[asks.serial] = f"unbegun {asks.serial}"
    state.last, state.status, state.message = None, it.status, it.message
    return what_next(state)


def what_next(state: State) -> Actions:
    """Returns what a runner does that has no worker and no command: it starts the worker again
    after a pause, waits for what only it sees, or ends."""
    if state.has_worker or state.current is not None:
        return []
    if not may_end(state):
        return restart(state)
    if any(it.rest is Rest.UNSEEN for it in state.attempts.values()):
        is_known, state.is_last_wait = state.is_last_wait, True
        return [] if is_known else [Tell(Report(reports.WAITS))]
    state.is_over = True
    return [Tell(Report(reports.OVER, code=state.status, text=state.message)), End(state.status)]


def may_end(state: State) -> bool:
    """Returns whether nothing is to be recorded or performed any more. As long as an end isn't
    recorded the worker is started once more, whatever its last status was: so no end that was
    seen becomes a doubt."""
    comes_back = state.status in (Status.LATER, Status.MEMORY) or state.status < 0
    return not state.seen and not state.found and (state.is_stopping or not comes_back)


def restart(state: State) -> Actions:
    """Starts the worker again after a pause. Reports, once for each status, that it goes on trying:
    if ends aren't recorded yet, if the worker has too little memory, or is always killed."""
    state.is_last_wait = False
    if state.is_pausing:
        return []
    state.is_pausing = True
    count = len(state.seen) + len(state.found)
    is_killed = state.status < 0 and state.pause == LONGEST and not state.has_said
    is_told = is_killed or state.status == Status.MEMORY or state.status > 0 and count > 0
    if not is_told or state.status in (*IN_ORDER, state.warned):
        return [pause(state)]
    state.warned = state.status
    kind = reports.TRIES if count else reports.SHORT
    text = state.message or f"amo_worker has ended with status {state.status}"
    return [Tell(Report(kind, code=count, text=text)), pause(state)]


def pause(state: State) -> Wait:
    """Returns a pause. It is doubled as long as the worker says nothing new."""
    state.pause = SHORTEST if state.has_said else min(2 * state.pause, LONGEST)
    state.has_said = False
    return Wait(PAUSE, 0, state.pause)


def stop(state: State, _: Any = None) -> Actions:
    """Starts no further command, and ends what waits for one."""
    if state.is_stopping:
        return []
    state.is_stopping = True
    if state.is_pausing:
        state.is_pausing = False
        return what_next(state) if may_end(state) else start_worker(state)
    return way(state, "leave") if state.asks_for(0, STAY) else go_on(state)


def deserted(state: State, _: Plain) -> Actions:
    """Ends in order. Nobody acknowledges or takes reports any more."""
    state.is_held = state.is_unacknowledged = False
    return stop(state)


def pass_on(state: State, it: PassOn) -> Actions:
    """Passes a signal on to the command, and TERM to what the runner waits for at last."""
    found: Actions = [] if state.current is None else [Send(state.current, it.number)]
    if state.is_last_wait:
        found += [Send(serial, signal.SIGTERM) for serial, attempt in state.attempts.items()
                  if attempt.rest is Rest.UNSEEN]
    return stop(state) + found


def supervisor(state: State, event: Plain) -> Actions:
    """Starts no further command while a report isn't sent, and goes on once all are sent, or once
    the supervisor knows of a failure."""
    if event is Plain.ACKNOWLEDGED:
        state.is_unacknowledged = False
    else:
        state.is_held = event is Plain.HELD
    return go_on(state)


TIMERS: Dict[str, Callable[[State, int, Attempt], Actions]] = {
    MOMENT: moment_over, TIMEOUT: timeout_over, GRACE: grace_over, LINGER: linger_over
}
HANDLERS: Dict[Any, Callable[[State, Any], Actions]] = {
    Said: said, WorkerEnded: worker_ended, StartFailed: start_failed, CommandEnded: command_ended,
    Looked: looked, Elapsed: elapsed, PassOn: pass_on, Plain.UNANSWERED: unanswered,
    Plain.STOP: stop, Plain.DESERTED: deserted, Plain.NEWS: end_pause,
    Plain.ACKNOWLEDGED: supervisor, Plain.HELD: supervisor, Plain.SENT: supervisor,
}
