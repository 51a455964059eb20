"""Clearance, for which a worker asks between the acknowledgement of its intent and the hand-over.

The worker reads the resolutions and then every journal. It hands its line over only if each other
attempt at the line is opened: its outcome is `unbegun`, or it was resolved as not done. Otherwise
the line is taken: the worker records `unbegun` for its own attempt and goes on.
"""

from __future__ import annotations

from functools import partial
from typing import Iterator, List, NamedTuple

from search import Case, Found, Steps, control, design, search
from world import (
    APPENDING, ASKING, Attempt, Bounds, DOUBT, Effects, HANDING, IDLE, INTENT, READING, RECORDING,
    Record, UNBEGUN, WAITING, Worker, World, append_steps, ask_steps, first_world, hand_steps,
    intents, next_question, outcome_of, performed_twice, surrounding_steps, with_worker,
)

QUESTION = "Is a line performed at most once, whatever registers, rounds and locks say?"
AFTER, BEFORE, NEVER = "after the intent", "before the intent", "never"
ONCE, TWICE = Bounds(workers=2, intents=1), Bounds(workers=2, intents=2, answers=0)
ANSWERED, THREE = TWICE._replace(answers=1), Bounds(workers=3, intents=1, answers=1)


class Rules(NamedTuple):
    """The rules of clearance. A control breaks one of them."""
    asks: str = AFTER
    reads_own: bool = True  # the worker looks at its own earlier attempts too
    reads_all: bool = True  # no journal is skipped
    pending_closes: bool = True  # an attempt without an outcome isn't opened
    resolutions_first: bool = True
    effects: Effects = Effects()


def stands(world: World, attempt: Attempt, rules: Rules) -> bool:
    """Returns whether an attempt is closed by its journal, before resolutions are asked."""
    outcome = outcome_of(world.journals[attempt.worker].visible(), attempt.serial)
    return outcome == DOUBT or (not outcome and rules.pending_closes)


def others(world: World, own: Attempt, journal: int, rules: Rules) -> Iterator[Attempt]:
    """Yields the closed attempts of a journal, except the attempt that asks for clearance."""
    if (journal == own.worker and not rules.reads_own) or (journal == 1 and not rules.reads_all):
        return
    for serial in range(1, intents(world.journals[journal].visible()) + 1):
        attempt = Attempt(journal, serial)
        if attempt != own and stands(world, attempt, rules):
            yield attempt


def read_steps(world: World, number: int, rules: Rules, clear: Worker, taken: Worker) -> Steps:
    """Yields the next step of a worker that asks for clearance."""
    worker = world.workers[number]
    if rules.resolutions_first and worker.resolutions is None:
        read = worker._replace(resolutions=world.resolutions.visible())
        yield f"worker {number + 1} reads the resolutions", with_worker(world, number, read)
    elif worker.journals_read < len(world.journals):
        yield (f"worker {number + 1} reads journal {worker.journals_read + 1}",
               with_worker(world, number, after_journal(world, number, rules)))
    elif rules.resolutions_first:
        is_clear = not worker.is_taken
        yield (f"worker {number + 1} {'has clearance' if is_clear else 'finds the line taken'}",
               with_worker(world, number, clear if is_clear else taken))
    else:
        is_clear = set(worker.standing) <= set(world.resolutions.visible())
        yield (f"worker {number + 1} reads the resolutions, and "
               f"{'has clearance' if is_clear else 'finds the line taken'}",
               with_worker(world, number, clear if is_clear else taken))


def after_journal(world: World, number: int, rules: Rules) -> Worker:
    """Returns the worker after it has read one more journal."""
    worker = world.workers[number]
    found = others(world, Attempt(number, worker.serial), worker.journals_read, rules)
    read = worker._replace(journals_read=worker.journals_read + 1)
    if not rules.resolutions_first:
        return read._replace(standing=worker.standing + tuple(found))
    return read._replace(is_taken=worker.is_taken
                         or any(it not in worker.resolutions for it in found))


def idle_steps(world: World, number: int, bounds: Bounds, rules: Rules) -> Steps:
    """Yields the steps of a worker that has nothing in hand."""
    serial = intents(world.journals[number].visible()) + 1
    if rules.asks == BEFORE:
        reads = Worker(READING, serial)
        yield f"worker {number + 1} asks for clearance", with_worker(world, number, reads)
    elif serial <= bounds.intents:
        then = Worker(HANDING if rules.asks == NEVER else READING, serial)
        yield from append_steps(world, number, (Record(INTENT, serial),), then)


def clearance_steps(world: World, number: int, rules: Rules) -> Steps:
    """Yields the next step of a worker that asks for clearance of its attempt."""
    serial = world.workers[number].serial
    if rules.asks == BEFORE:
        clear, taken = Worker(APPENDING, serial), Worker(IDLE)
    else:
        clear, taken = Worker(HANDING, serial), Worker(RECORDING, serial, outcome=UNBEGUN)
    yield from read_steps(world, number, rules, clear, taken)


def wait_step(world: World, number: int) -> Steps:
    """Yields what a runner answers about the attempt that was just handed over."""
    attempt = Attempt(number, world.workers[number].serial)
    if attempt in world.waiting:
        declined = world._replace(waiting=world.waiting - {attempt})
        yield f"runner answers: unbegun {attempt}", with_worker(
            declined, number, Worker(RECORDING, attempt.serial, outcome=UNBEGUN))
    elif attempt in world.running:
        yield f"runner answers: {attempt} is running", with_worker(world, number, Worker(IDLE))
    else:
        yield f"runner answers: doubt {attempt}", with_worker(
            world, number, Worker(RECORDING, attempt.serial, outcome=DOUBT))


def worker_steps(world: World, number: int, bounds: Bounds, rules: Rules) -> Steps:
    """Yields what a living worker may do next."""
    worker = world.workers[number]
    if worker.phase == ASKING:
        yield from ask_steps(world, number)
    elif worker.phase == RECORDING:
        yield from append_steps(world, number, (Record(worker.outcome, worker.serial),),
                                next_question(worker.pending))
    elif worker.phase == IDLE:
        yield from idle_steps(world, number, bounds, rules)
    elif worker.phase == READING:
        yield from clearance_steps(world, number, rules)
    elif worker.phase == APPENDING:
        if worker.serial <= bounds.intents:
            intent = world.journals[number].acknowledged((Record(INTENT, worker.serial),))
            yield (f"worker {number + 1} appends `intent {worker.serial}`",
                   with_worker(world, number, Worker(HANDING, worker.serial), intent))
    elif worker.phase == HANDING:
        yield from hand_steps(world, number)
    elif worker.phase == WAITING:
        yield from wait_step(world, number)


def steps(world: World, bounds: Bounds, rules: Rules) -> Steps:
    """Yields all that may happen next."""
    for number in range(len(world.workers)):
        yield from worker_steps(world, number, bounds, rules)
    yield from surrounding_steps(world, bounds, effects=rules.effects)


def find(rules: Rules, bounds: Bounds) -> Found:
    """Searches with these rules, within these bounds."""
    return search(first_world(bounds), partial(steps, bounds=bounds, rules=rules), performed_twice)


def cases() -> List[Case]:
    """Returns the designs and the controls."""
    later = Effects(arrive_later=True)
    hasty = later._replace(are_awaited=False)
    return [
        design("design", "resolutions, then all journals, after the intent", find, Rules(), TWICE,
               ANSWERED),
        design("answers", "operators answer at any time", find, Rules(), ONCE, None),
        design("three-workers", "three workers", find, Rules(), None, THREE),
        design("resolutions-last", "the order of the reads isn't needed", find,
               Rules(resolutions_first=False), ONCE, ANSWERED),
        design("arrives-later", "requests arrive after their command has ended", find,
               Rules(effects=later), ONCE, ANSWERED),
        control("answered-under-way", "an operator answers while a request is under way", find,
                Rules(effects=hasty), ONCE),
        control("no-clearance", "a worker hands over at once", find, Rules(asks=NEVER), ONCE),
        control("before-the-intent", "a worker asks before its intent is acknowledged", find,
                Rules(asks=BEFORE), ONCE),
        control("own-attempts-unread", "a worker doesn't look at its own earlier attempts", find,
                Rules(reads_own=False), TWICE),
        control("journal-skipped", "nobody reads journal 2", find, Rules(reads_all=False), ONCE),
        control("pending-opens", "an attempt without an outcome counts as opened", find,
                Rules(pending_closes=False), ONCE),
    ]
