"""Outcomes that are appended together with the next intent, in one append of two records.

A worker may owe what came of an attempt. It appends that outcome with its next intent, or alone.
A crash leaves both records of an append or neither. Clearance is as in clearance.py.
"""

from __future__ import annotations

from functools import partial
from typing import Iterator, List, NamedTuple

import clearance
from journals import Journal
from search import Case, Found, Steps, control, design, search
from world import (
    ASKING, Append, Attempt, Bounds, DOUBT, HANDING, IDLE, INTENT, READING, RECORDING, Record,
    UNBEGUN, WAITING, Worker, World, append_steps, ask_steps, first_world, hand_steps, intents,
    next_question, performed_twice, surrounding_steps, with_worker,
)

QUESTION = "Is a line performed at most once, if an outcome is appended with the next intent?"
SHORT, LONG = Bounds(workers=2, intents=2, answers=0), Bounds(workers=2, intents=2, answers=1)


class Rules(NamedTuple):
    """The rules of appends. A control breaks one of them."""
    clearance: clearance.Rules = clearance.Rules()
    keeps_all: bool = True  # an acknowledged append is kept whole, not its first record alone
    reads_all: bool = True  # a reader takes each record of an append, not the first one alone
    tears: bool = False  # of an append that isn't kept, a stop may leave either record alone


def owed(worker: Worker) -> Append:
    """Returns the outcome that a worker owes, as no record or as one."""
    return (Record(worker.outcome, worker.serial),) if worker.outcome else ()


def idle_steps(world: World, number: int, bounds: Bounds, rules: Rules) -> Steps:
    """Yields the appends of a worker that has nothing in hand."""
    worker = world.workers[number]
    serial = intents(world.journals[number].visible()) + 1
    if worker.outcome:
        yield from append_steps(world, number, owed(worker), Worker(IDLE))
    if serial <= bounds.intents:
        is_free = rules.clearance.asks == clearance.NEVER
        then = Worker(HANDING if is_free else READING, serial)
        append = owed(worker) + (Record(INTENT, serial),)
        for label, after in append_steps(world, number, append, then):
            yield label, after if rules.keeps_all else half_kept(after, number, append)


def half_kept(world: World, number: int, append: Append) -> World:
    """Returns the world in which only the first record of an acknowledged append is kept."""
    journal = world.journals[number]
    if len(append) < 2 or journal.kept[-1:] != (append,):
        return world
    halved = Journal(journal.kept[:-1] + (append[:1],), (append[1:],))
    return with_worker(world, number, world.workers[number], halved)


def first_records(world: World) -> World:
    """Returns the world as a reader sees it that takes the first record of each append alone."""
    seen = (Journal(tuple(it[:1] for it in journal.visible())) for journal in world.journals)
    return world._replace(journals=tuple(seen))


def clearance_steps(world: World, number: int, rules: Rules) -> Steps:
    """Yields the next step of a worker that asks for clearance. A taken attempt is owed."""
    worker = world.workers[number]
    clear, taken = Worker(HANDING, worker.serial), Worker(IDLE, worker.serial, outcome=UNBEGUN)
    if rules.reads_all:
        yield from clearance.read_steps(world, number, rules.clearance, clear, taken)
        return
    for label, after in clearance.read_steps(first_records(world), number, rules.clearance, clear,
                                             taken):
        yield label, after._replace(journals=world.journals)


def wait_step(world: World, number: int) -> Steps:
    """Yields what a runner answers about the attempt that was just handed over."""
    attempt = Attempt(number, world.workers[number].serial)
    if attempt in world.waiting:
        declined = world._replace(waiting=world.waiting - {attempt})
        yield f"runner answers: unbegun {attempt}", with_worker(
            declined, number, Worker(IDLE, attempt.serial, outcome=UNBEGUN))
    elif attempt in world.running:
        yield f"runner answers: {attempt} is running", with_worker(world, number, Worker(IDLE))
    else:
        yield f"runner answers: doubt {attempt}", with_worker(
            world, number, Worker(IDLE, attempt.serial, outcome=DOUBT))


def worker_steps(world: World, number: int, bounds: Bounds, rules: Rules) -> Steps:
    """Yields what a living worker may do next."""
    worker = world.workers[number]
    if worker.phase == ASKING:
        yield from ask_steps(world, number)
    elif worker.phase == RECORDING:
        yield from append_steps(world, number, owed(worker), next_question(worker.pending))
    elif worker.phase == IDLE:
        yield from idle_steps(world, number, bounds, rules)
    elif worker.phase == READING:
        yield from clearance_steps(world, number, rules)
    elif worker.phase == HANDING:
        yield from hand_steps(world, number)
    elif worker.phase == WAITING:
        yield from wait_step(world, number)


def left_torn(journal: Journal) -> Iterator[Journal]:
    """Yields what a stop may leave, if it may leave one of two records alone."""
    yield from journal.stopped()
    for append in journal.loose + journal.hidden:
        if len(append) == 2:
            for record in append:
                yield Journal(journal.kept + ((record,),))


def steps(world: World, bounds: Bounds, rules: Rules) -> Steps:
    """Yields all that may happen next."""
    for number in range(len(world.workers)):
        yield from worker_steps(world, number, bounds, rules)
    left = left_torn if rules.tears else Journal.stopped
    yield from surrounding_steps(world, bounds, left)


def find(rules: Rules, bounds: Bounds) -> Found:
    """Searches with these rules, within these bounds."""
    return search(first_world(bounds), partial(steps, bounds=bounds, rules=rules), performed_twice)


def cases() -> List[Case]:
    """Returns the design, the same with a weaker append, and the controls."""
    never = clearance.Rules(asks=clearance.NEVER)
    return [
        design("design", "an outcome and the next intent in one append", find, Rules(), SHORT,
               LONG),
        design("records-apart", "a stop may leave either record of an append that isn't kept",
               find, Rules(tears=True), SHORT, LONG),
        control("no-clearance", "a worker hands over at once", find, Rules(clearance=never), SHORT),
        control("first-record-kept", "only the first record of an acknowledged append is kept",
                find, Rules(keeps_all=False), SHORT),
        control("first-record-read", "a reader takes only the first record of an append", find,
                Rules(reads_all=False), SHORT),
    ]
