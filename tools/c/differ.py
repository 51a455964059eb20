#!/usr/bin/env python3
"""Compares workers by amo_next and amo_batch, over one list of words, with the replay of the same
schedule.

  differ.py REPLAY RUNS SEED

REPLAY is the built amo, or bench/replay.rs, as it is started to replay a plan on standard input.
Each run is a random plan: turns, bursts of turns, stops, leaves and rounds. A worker here has
loaded its own words, all 0, before the schedule begins. From then on a turn is one access. Before
each turn the worker asks amo_next. It asks amo_batch if nothing is left of the last batch, and now
and then though something is. amo_next must return the first access that is left of the batch. The
jobs that were claimed, performed and filed, the workers that ended and when, and the counts of each
worker must be those of the report. The last line states how much was compared; the status is 0 if
all was the same.

It needs the module `amo` with its library, as the wheel has it.
"""

import random
import shlex
import subprocess
import sys

sys.dont_write_bytecode = True

from amo import library as amo


class Wrong(Exception):
    """A mistake in a run."""


def want(so, what):
    if not so:
        raise Wrong(what)


def as_access(item):
    """Returns the first access of an item of a batch, in the form of amo_next."""
    return (amo.STORE, item.word, item.value) if item.access == amo.STORE else (amo.LOAD, item.word, 0)


class Worker:
    def __init__(self, library, words, number, events):
        self.library, self.words, self.number, self.events = library, words, number, events
        self.heard, self.items, self.job, self.turns, self.state = amo.Heard(), [], 0, 0, "running"
        for _ in range(3):
            told = self.told()
            want((told.access, told.phase) == (amo.LOAD, amo.BEGINNING), "it doesn't begin with its own words")
            self.heard.add(words[told.word])
        self.see_end()

    def told(self):
        return self.library.next(self.number, self.heard)

    def end_as(self, state):
        self.state = state
        self.events.append(f"{state} {self.number}")

    def see_end(self):
        told = self.told()
        if told.access == amo.NOTHING:
            want(told.phase == amo.OVER, f"nothing to do in phase {told.phase}")
            self.end_as("ended")

    def turn(self, asks_anew):
        if self.state != "running":
            return
        told = self.told()
        if asks_anew or not self.items:
            batched, self.items = self.library.batch(self.number, self.heard)
            want(bytes(batched) == bytes(told), "amo_batch and amo_next return different accesses")
        want(as_access(self.items[0]) == (told.access, told.word, told.value), "another access is left of the batch")
        want(told.doubt == 0 and (told.perform == 0) == (told.phase != amo.HOLDING), "another job is to be performed")
        if told.phase == amo.CLAIMING:
            self.job = self.words[self.library.announcement(self.number)]
        if told.phase == amo.HOLDING:
            want(told.perform == self.job == told.value, f"job {told.perform}, where {self.job} was claimed")
        self.make(told)
        if told.phase in (amo.CLAIMING, amo.HOLDING):
            self.events.append(f"{'claimed' if told.phase == amo.CLAIMING else 'done'} {self.number} {self.job}")
        self.see_end()

    def make(self, told):
        """Makes this access, and takes it off the batch."""
        value, item = 0, self.items[0]
        if told.access == amo.STORE:
            self.words[told.word] = told.value
        else:
            value = self.words[told.word]
        self.heard.add(value)
        self.turns += 1
        if item.access == amo.LOAD_ROW and value != 0 and item.word < item.value:
            item.word += 1
        else:
            self.items.pop(0)

    def stop(self):
        if self.state == "running":
            self.end_as("halted")

    def leave(self):
        """A worker that may not leave stays."""
        if self.state != "running":
            return
        told = self.library.leave(self.number, self.heard)
        if told is None:
            want(self.told().phase == amo.HOLDING, "it is refused to leave without a job in hand")
            return
        self.words[told.word] = told.value
        self.turns += 1
        self.end_as("left")

    def line(self):
        told = self.told()
        return f"worker {self.number} {self.state} turns {self.turns} claimed {told.claims} done {told.dones}"


def draw_plan(draws):
    """Jobs, workers, beta, words of a schedule, and rounds."""
    workers = draws.choice([1, 2, 3, 4, 6, 16])
    jobs, beta = draws.randint(0, 80), workers + draws.choice([0, 0, 0, 1, 5])
    kinds = draws.choice([(1, 0, 0), (60, 1, 1)])
    schedule = []
    for _ in range(draws.randint(0, 200)):
        p = draws.randint(1, workers)
        turns = str(p) if draws.random() < 0.5 else f"{p}*{draws.randint(1, 8 * workers)}"
        schedule.append(draws.choices([turns, f"x{p}", f"l{p}"], kinds)[0])
    return jobs, workers, beta, schedule, draws.choice([0, 10, 400])


def moves_of(schedule, workers, rounds):
    for word in schedule:
        kind = word[0] if word[0] in "xl" else ""
        number, _, times = word.removeprefix(kind).partition("*")
        yield from [(kind, int(number))] * int(times or 1)
    yield from [("", p) for _ in range(rounds) for p in range(1, workers + 1)]


def followed(library, draws, schedule, rounds):
    """Returns the lines of a report that say what happened, and how many accesses were made."""
    workers, events, words = library.givens.workers, [], [0] * library.word_count()
    crew = [Worker(library, words, p, events) for p in range(1, workers + 1)]
    for kind, p in moves_of(schedule, workers, rounds):
        worker = crew[p - 1]
        if kind:
            worker.stop() if kind == "x" else worker.leave()
        else:
            worker.turn(draws.random() < 0.1)
    lines = [f"{place} {event}" for place, event in enumerate(events, 1)]
    return lines + [it.line() for it in crew], sum(it.turns for it in crew)


def replayed(command, jobs, workers, beta, schedule, rounds):
    """Returns the same lines of the report of this plan."""
    plan = [f"version = 2\nworkers = {workers}\nbeta = {beta}\nrounds = {rounds}\nschedule = \"{' '.join(schedule)}\""]
    plan += [f'[[job]]\nname = "job{job}"\nsay = ""' for job in range(1, jobs + 1)]
    ran = subprocess.run(shlex.split(command), input="\n".join(plan), capture_output=True, text=True)
    want(ran.returncode == 0, f"the replay fails: {ran.stderr}")
    return [line for line in ran.stdout.splitlines() if line.split()[0].isdecimal() or line.startswith("worker")]


def main(command, runs, seed):
    draws, accesses, events = random.Random(int(seed)), 0, 0
    for run in range(int(runs)):
        jobs, workers, beta, schedule, rounds = draw_plan(draws)
        try:
            found, more = followed(amo.Library(jobs, workers, beta), draws, schedule, rounds)
            wanted = replayed(command, jobs, workers, beta, schedule, rounds)
            want(found == wanted, "".join(f"\n  {a}, replay: {b}" for a, b in zip(found, wanted) if a != b) or "of other length")
        except Wrong as wrong:
            print(f"run {run}, {jobs} jobs, {workers} workers, beta {beta}, {' '.join(schedule)}, {rounds} rounds: {wrong}")
            return 1
        accesses, events = accesses + more, events + len(found) - workers
    print(f"{runs} schedules, {accesses} accesses, {events} events, all as replayed")
    return 0


if __name__ == "__main__":
    sys.exit(main(*sys.argv[1:]))
