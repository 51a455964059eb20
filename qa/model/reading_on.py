"""Readers that go on from the last append that they read, and don't read a journal anew.

An append whose sync failed can be read, and may vanish afterwards without a stop of the machine.
Another append of the same length may then take its place. So a reader reads the last append that it
knows once more, and compares it, before it goes on. If the append differs, the worker ends.

Two workers share two lines. An attempt closes its line for ever: there are no outcomes here.
"""

from __future__ import annotations

from functools import partial
from typing import List, NamedTuple, Tuple

from journals import Journal
from search import Case, Found, Steps, control, design, replaced, search

QUESTION = "May a reader go on from the last append that it read?"
AWAY, IDLE, READING, HANDING = "away", "idle", "reading", "handing"
LINES = (1, 2)


class Intent(NamedTuple):
    """An append. Its number takes the place of a checksum: no two appends have the same number."""
    number: int
    line: int


class Worker(NamedTuple):
    """The process of a worker, and what it has read of the other one's journal."""
    phase: str
    line: int = 0
    read: Tuple[Intent, ...] = ()


class Performed(NamedTuple):
    """Raised if a worker has performed a line."""
    worker: int
    line: int


class State(NamedTuple):
    """Journals, processes, and what happened so far."""
    journals: Tuple[Journal, Journal] = (Journal(), Journal())
    workers: Tuple[Worker, Worker] = (Worker(AWAY), Worker(AWAY))
    performed: Tuple[Performed, ...] = ()
    appends: int = 0
    vanished: int = 0


class Bounds(NamedTuple):
    """The limits of a search. Kills and restarts have none."""
    appends: int  # of each journal
    vanished: int


SHORT, LONG = Bounds(appends=2, vanished=1), Bounds(appends=3, vanished=2)


class Rules(NamedTuple):
    """The rules of readers. A control breaks one of them."""
    reads_again: bool = True  # the last append that is known is read again, and compared


def with_worker(state: State, number: int, worker: Worker) -> State:
    """Returns the state with another process of this worker."""
    return state._replace(workers=replaced(state.workers, number, worker))


def with_journal(state: State, number: int, journal: Journal) -> State:
    """Returns the state with another journal of this worker."""
    return state._replace(journals=replaced(state.journals, number, journal))


def performed_twice(state: State) -> str:
    """Returns a text if a line was performed twice."""
    lines = [it.line for it in state.performed]
    twice = [line for line in set(lines) if lines.count(line) > 1]
    return f"line {twice[0]} is performed by both workers" if twice else ""


def away_steps(state: State, number: int, bounds: Bounds) -> Steps:
    """Yields what may happen while no process of this worker lives."""
    journal = state.journals[number]
    started = with_journal(state, number, journal.recovered())
    yield f"worker {number + 1} starts", with_worker(started, number, Worker(IDLE))
    if journal.loose and state.vanished < bounds.vanished:
        gone = state._replace(vanished=state.vanished + 1)
        yield (f"the last append of journal {number + 1} vanishes",
               with_journal(gone, number, Journal(journal.kept)))


def idle_steps(state: State, number: int, bounds: Bounds) -> Steps:
    """Yields the appends of a worker that has nothing in hand."""
    worker, journal = state.workers[number], state.journals[number]
    if len(journal.visible()) == bounds.appends:
        return
    for line in LINES:
        if any(it.line == line for it in journal.visible()):
            continue
        counted = state._replace(appends=state.appends + 1)
        intent = Intent(state.appends, line)
        kept = with_journal(counted, number, journal.acknowledged(intent))
        yield (f"worker {number + 1} appends an intent of line {line}",
               with_worker(kept, number, Worker(READING, line, worker.read)))
        loose = with_journal(counted, number, journal.unconfirmed(intent))
        yield (f"worker {number + 1} appends an intent of line {line}, the sync fails, and it ends",
               with_worker(loose, number, Worker(AWAY)))


def can_go_on(known: Tuple[Intent, ...], found: Tuple[Intent, ...], rules: Rules) -> bool:
    """Returns whether a reader finds that it may go on from what it knows."""
    if not rules.reads_again:
        return len(found) >= len(known)  # otherwise there is no commit byte at that place
    return not known or found[len(known) - 1:len(known)] == known[-1:]


def read_step(state: State, number: int, rules: Rules) -> Steps:
    """Yields how a worker reads on in the other journal, to get clearance for its line."""
    worker = state.workers[number]
    other = 1 - number
    found = state.journals[other].visible()
    if not can_go_on(worker.read, found, rules):
        yield (f"worker {number + 1} finds another append in journal {other + 1}, and ends",
               with_worker(state, number, Worker(AWAY)))
        return
    read = worker.read + found[len(worker.read):]
    is_clear = all(it.line != worker.line for it in read)
    then = Worker(HANDING, worker.line, read) if is_clear else Worker(IDLE, read=read)
    yield (f"worker {number + 1} reads on in journal {other + 1}: line {worker.line} is "
           f"{'clear' if is_clear else 'taken'}", with_worker(state, number, then))


def hand_step(state: State, number: int) -> Steps:
    """Yields the performance of a line that is clear."""
    worker = state.workers[number]
    performed = state.performed + (Performed(number, worker.line),)
    yield (f"worker {number + 1} PERFORMS line {worker.line}",
           with_worker(state, number, Worker(IDLE, read=worker.read))._replace(performed=performed))


def steps(state: State, bounds: Bounds, rules: Rules) -> Steps:
    """Yields all that may happen next."""
    for number, worker in enumerate(state.workers):
        if worker.phase == AWAY:
            yield from away_steps(state, number, bounds)
            continue
        yield f"worker {number + 1} is killed", with_worker(state, number, Worker(AWAY))
        if worker.phase == IDLE:
            yield from idle_steps(state, number, bounds)
        elif worker.phase == READING:
            yield from read_step(state, number, rules)
        else:
            yield from hand_step(state, number)


def find(rules: Rules, bounds: Bounds) -> Found:
    """Searches with these rules, within these bounds."""
    return search(State(), partial(steps, bounds=bounds, rules=rules), performed_twice)


def cases() -> List[Case]:
    """Returns the design and its control."""
    return [
        design("design", "two workers, two lines; the last append known is read again", find,
               Rules(), SHORT, LONG),
        control("last-append-unread", "a reader goes on without reading that append again", find,
                Rules(reads_again=False), SHORT),
    ]
