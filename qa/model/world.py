"""One line with all that clearance.py and outcomes.py share: commands, operators, and the machine.

A worker may try the line whenever it likes, whatever registers, rounds and locks say. So what
keeps the line from a second performance is in the journals alone.
"""

from __future__ import annotations

import itertools
from typing import Callable, FrozenSet, Iterator, NamedTuple, Optional, Tuple

from journals import Journal
from search import Steps, replaced

# Records of an attempt.
INTENT, DOUBT, UNBEGUN = "intent", "doubt", "unbegun"

# The next step of a worker's process.
AWAY = "away"  # no process lives
ASKING = "asking"  # asks its runner about the first of `pending`
RECORDING = "recording"  # appends the outcome of `serial`
IDLE = "idle"  # has nothing in hand; may owe the outcome of `serial`
READING = "reading"  # asks for clearance of `serial`
APPENDING = "appending"  # appends the intent `serial`, for which it has clearance already
HANDING = "handing"  # hands `serial` over
WAITING = "waiting"  # waits for what becomes of `serial`


class Attempt(NamedTuple):
    """An attempt at the line, by the intent with this serial number in the worker's journal."""
    worker: int
    serial: int

    def __str__(self) -> str:
        return f"{self.worker + 1}.{self.serial}"


class Record(NamedTuple):
    """A record of a journal, about the attempt with this serial number."""
    kind: str
    serial: int

    def __str__(self) -> str:
        return f"{self.kind} {self.serial}"


Append = Tuple[Record, ...]
Left = Callable[[Journal], Iterator[Journal]]  # what a stop of the machine may leave of a file


class Worker(NamedTuple):
    """The process of a worker, and what it knows."""
    phase: str
    serial: int = 0
    pending: Tuple[int, ...] = ()  # attempts that it still asks its runner about
    outcome: str = ""  # of `serial`: what it appends, or owes
    resolutions: Optional[Tuple[Attempt, ...]] = None  # that it read, for clearance
    journals_read: int = 0
    standing: Tuple[Attempt, ...] = ()  # attempts that stand against it, if resolutions come last
    is_taken: bool = False  # an attempt stands against it


class World(NamedTuple):
    """All that is there: files, processes, and what happened so far."""
    journals: Tuple[Journal, ...]
    resolutions: Journal  # of `not-done`: each append is an Attempt
    workers: Tuple[Worker, ...]
    waiting: FrozenSet[Attempt] = frozenset()  # handed over, and not begun by the runner
    running: FrozenSet[Attempt] = frozenset()  # something of the command is left
    under_way: FrozenSet[Attempt] = frozenset()  # requests that were sent, and haven't arrived
    performed: Tuple[Attempt, ...] = ()
    answers: int = 0  # of operators so far
    stops: int = 0  # of the machine so far


class Bounds(NamedTuple):
    """The limits of a search. Kills, restarts and failed appends have none."""
    workers: int
    intents: int  # of each journal
    answers: Optional[int] = None  # of operators; None: any number
    stops: Optional[int] = None  # of the machine; None: any number


class Effects(NamedTuple):
    """The way in which commands perform the line."""
    arrive_later: bool = False  # a request may arrive after its command has ended
    are_awaited: bool = True  # an operator answers only once no request is under way


def first_world(bounds: Bounds) -> World:
    """Returns the world in which no process lives and nothing was appended."""
    return World((Journal(),) * bounds.workers, Journal(), (Worker(AWAY),) * bounds.workers)


def records(appends: Tuple[Append, ...]) -> Iterator[Record]:
    """Yields the records of a journal's appends in their order."""
    return itertools.chain.from_iterable(appends)


def intents(appends: Tuple[Append, ...]) -> int:
    """Returns the number of intents."""
    return sum(record.kind == INTENT for record in records(appends))


def outcome_of(appends: Tuple[Append, ...], serial: int) -> str:
    """Returns the outcome of an attempt; empty if it has none."""
    found = (it.kind for it in records(appends) if it.serial == serial and it.kind != INTENT)
    return next(found, "")


def performed_twice(world: World) -> str:
    """Returns a text if the line was performed twice."""
    if len(world.performed) < 2:
        return ""
    return "the line is performed by attempts " + " and ".join(map(str, world.performed))


def with_worker(world: World, number: int, worker: Worker,
                journal: Optional[Journal] = None) -> World:
    """Returns the world with another state of this worker, and of its journal if one is given."""
    workers = replaced(world.workers, number, worker)
    if journal is None:
        return world._replace(workers=workers)
    return world._replace(workers=workers, journals=replaced(world.journals, number, journal))


def append_steps(world: World, number: int, append: Append, then: Worker) -> Steps:
    """Yields what may become of an append: acknowledged, killed after it, failed."""
    journal, text = world.journals[number], "; ".join(map(str, append))
    name = f"worker {number + 1}"
    yield (f"{name} appends `{text}`",
           with_worker(world, number, then, journal.acknowledged(append)))
    yield (f"{name} appends `{text}` and is killed before the append is acknowledged",
           with_worker(world, number, Worker(AWAY), journal.unconfirmed(append)))
    yield (f"{name} fails to append `{text}`, and ends",
           with_worker(world, number, Worker(AWAY), journal.failed(append)))


def start_step(world: World, number: int) -> Steps:
    """Yields the start of a worker: it recovers its journal, and finds what is pending."""
    journal = world.journals[number].recovered()
    yield f"worker {number + 1} starts", with_worker(world, number, asking(journal), journal)


def asking(journal: Journal) -> Worker:
    """Returns a worker that asks about each attempt of its journal that has no outcome."""
    appends = journal.visible()
    serials = range(1, intents(appends) + 1)
    return next_question(tuple(it for it in serials if not outcome_of(appends, it)))


def next_question(pending: Tuple[int, ...]) -> Worker:
    """Returns a worker that asks about the first of these attempts, or is idle."""
    return Worker(ASKING, pending=pending) if pending else Worker(IDLE)


def ask_steps(world: World, number: int) -> Steps:
    """Yields what a runner answers about an attempt of an earlier process.

    The runner has dropped what the earlier process wrote and the runner hadn't begun.
    """
    serial, *rest = world.workers[number].pending
    attempt = Attempt(number, serial)
    if attempt in world.running:
        yield f"runner answers: {attempt} is running", with_worker(world, number,
                                                                   next_question(tuple(rest)))
        return
    dropped = world._replace(waiting=world.waiting - {attempt})
    for outcome in [DOUBT, UNBEGUN] if attempt in world.waiting else [DOUBT]:
        worker = Worker(RECORDING, serial, tuple(rest), outcome)
        yield f"runner answers: {outcome} {attempt}", with_worker(dropped, number, worker)


def hand_steps(world: World, number: int) -> Steps:
    """Yields the ways in which a worker hands its attempt over: it lives on, or is killed."""
    attempt = Attempt(number, world.workers[number].serial)
    handed = world._replace(waiting=world.waiting | {attempt})
    waits = Worker(WAITING, attempt.serial)
    yield f"worker {number + 1} hands over {attempt}", with_worker(handed, number, waits)
    yield (f"worker {number + 1} hands over {attempt} and is killed",
           with_worker(handed, number, Worker(AWAY)))


def is_over(world: World, attempt: Attempt) -> bool:
    """Returns whether nobody is about to hand it over, and nothing of its command is left."""
    worker = world.workers[attempt.worker]
    in_hand = worker.phase in (HANDING, READING) and worker.serial == attempt.serial
    return not in_hand and attempt not in world.waiting and attempt not in world.running


def surrounding_steps(world: World, bounds: Bounds, left: Left = Journal.stopped,
                      effects: Effects = Effects()) -> Steps:
    """Yields all steps but those of living workers."""
    for number, worker in enumerate(world.workers):
        if worker.phase == AWAY:
            yield from start_step(world, number)
            yield from vanish_step(world, number)
        else:
            yield f"worker {number + 1} is killed", with_worker(world, number, Worker(AWAY))
    yield from command_steps(world, effects)
    if bounds.answers is None or world.answers < bounds.answers:
        yield from answer_steps(world, effects, bounds)
    if world.resolutions.loose:
        yield ("the last resolution vanishes",
               world._replace(resolutions=Journal(world.resolutions.kept)))
    if bounds.stops is None or world.stops < bounds.stops:
        yield from stop_steps(world, left, bounds)


def counted(number: int, bound: Optional[int]) -> int:
    """Returns the next number; without a bound nothing is counted, so that fewer states differ."""
    return number if bound is None else number + 1


def vanish_step(world: World, number: int) -> Steps:
    """Yields the loss of an append that was never acknowledged, without a stop of the machine."""
    journal = world.journals[number]
    if journal.loose:
        journals = replaced(world.journals, number, Journal(journal.kept))
        yield f"the last append of journal {number + 1} vanishes", world._replace(journals=journals)


def command_steps(world: World, effects: Effects) -> Steps:
    """Yields what runners and commands do with the attempts that were handed over."""
    for attempt in world.waiting:
        yield f"the command of {attempt} begins", world._replace(
            waiting=world.waiting - {attempt}, running=world.running | {attempt})
    for attempt in world.running:
        if attempt not in world.performed and attempt not in world.under_way:
            yield perform_step(world, attempt, effects)
        yield f"the command of {attempt} ends", world._replace(running=world.running - {attempt})
    for attempt in world.under_way:
        yield f"the request of {attempt} arrives and PERFORMS the line", world._replace(
            under_way=world.under_way - {attempt}, performed=world.performed + (attempt,))


def perform_step(world: World, attempt: Attempt, effects: Effects) -> Tuple[str, World]:
    """Returns the step by which a command performs the line, or sends a request to do so."""
    if effects.arrive_later:
        sent = world._replace(under_way=world.under_way | {attempt})
        return f"the command of {attempt} sends its request", sent
    performed = world._replace(performed=world.performed + (attempt,))
    return f"the command of {attempt} PERFORMS the line", performed


def answer_steps(world: World, effects: Effects, bounds: Bounds) -> Steps:
    """Yields the true answers `not-done` of operators, to attempts that are kept and over."""
    found = world.resolutions.visible()
    for number, journal in enumerate(world.journals):
        for serial in range(1, intents(journal.kept) + 1):
            attempt = Attempt(number, serial)
            closes = outcome_of(journal.kept, serial) != UNBEGUN and attempt not in found
            awaited = effects.are_awaited and attempt in world.under_way
            is_true = attempt not in world.performed and not awaited
            if closes and is_true and is_over(world, attempt):
                yield from resolve_steps(world, attempt, counted(world.answers, bounds.answers))


def resolve_steps(world: World, attempt: Attempt, answers: int) -> Steps:
    """Yields what may become of the operator's append."""
    before = world.resolutions.recovered()
    for became, after in [("", before.acknowledged(attempt)),
                          (", and never learns that it is written", before.unconfirmed(attempt)),
                          (", which fails", before.failed(attempt))]:
        yield (f"an operator answers not-done to {attempt}{became}",
               world._replace(resolutions=after, answers=answers))


def stop_steps(world: World, left: Left, bounds: Bounds) -> Steps:
    """Yields what a stop of the machine may leave of all files."""
    stops = counted(world.stops, bounds.stops)
    for journals in itertools.product(*(left(journal) for journal in world.journals)):
        for resolutions in world.resolutions.stopped():
            yield "the machine stops", World(
                journals, resolutions, (Worker(AWAY),) * len(world.workers), frozenset(),
                frozenset(), world.under_way, world.performed, world.answers, stops)
