#!/usr/bin/env python3
"""Workers of the installed module that are killed at each of their steps in turn, and begin again.

  stepped.py FOLDER

A process works as worker 1 of 2, and kills itself with SIGKILL at a step: before an access to a
register, or before a performance. (After the one is before the next.) Then worker 2 works to its
end, and another process works as worker 1; it is killed too, at each of its steps in turn, and a
third one works to the end. Registers are a file, a shared memory, and an object with `load` and
`store` alone.

No job may be performed twice. Each recorded job must be performed or reported to be in doubt, and
at least the bound must be recorded. MISTAKES are workers that break the rules; the audit must find
each. The last line is 'N passed, M failed'; the status is 0 if none failed, else 1.
"""

from __future__ import annotations

import collections
import os
import signal
import sys
from contextlib import contextmanager
from functools import partial
from multiprocessing.shared_memory import SharedMemory
from typing import Callable, ContextManager, Dict, Iterator, List, Sequence, Tuple

sys.dont_write_bytecode = True

import amo
from trying import Wrong, try_all

WORKERS, JOBS = 2, 3
NEVER = 10**6  # a step that no process reaches


class Plain:
    """Registers in a file, as an object that has no guard."""

    def __init__(self, path: str):
        self.file = os.open(path, os.O_RDWR | os.O_CREAT, 0o600)

    def load(self, place: int) -> int:
        return int.from_bytes(os.pread(self.file, 8, 8 * place), "little")

    def store(self, place: int, value: int) -> None:
        os.pwrite(self.file, value.to_bytes(8, "little"), 8 * place)


class Stepped:
    """Registers whose process kills itself at a step."""

    def __init__(self, registers: amo.Registers, dies_at: int):
        self.registers, self.left = registers, dies_at

    def step(self) -> None:
        if self.left == 0:
            os.kill(os.getpid(), signal.SIGKILL)
        self.left -= 1

    def load(self, place: int) -> int:
        self.step()
        return self.registers.load(place)

    def store(self, place: int, value: int) -> None:
        self.step()
        self.registers.store(place, value)


class Run:
    """The registers of a run, and a file with a line for each thing that workers did."""

    def __init__(self, registers: amo.Registers, path: str):
        self.registers, self.path = registers, path

    def note(self, word: str, job: int) -> None:
        file = os.open(self.path, os.O_WRONLY | os.O_CREAT | os.O_APPEND, 0o600)
        os.write(file, f"{word} {job}\n".encode())
        os.close(file)

    def noted(self, word: str) -> List[int]:
        if not os.path.exists(self.path):
            return []
        with open(self.path, encoding="ascii") as file:
            rows = [it.split() for it in file]
        return [int(job) for found, job in rows if found == word]

    def audit(self) -> None:
        """Raises Wrong if a job was performed twice, or a recorded one is unknown."""
        performed, doubts = self.noted("performed"), self.noted("doubt")
        recorded = amo.standing(self.registers, WORKERS, JOBS).recorded
        twice = [job for job, count in collections.Counter(performed).items() if count > 1]
        if twice:
            raise Wrong(f"performed twice: {twice}")
        if not set(performed) <= set(recorded) <= {*performed, *doubts}:
            raise Wrong(f"performed {performed}, recorded {recorded}, in doubt {doubts}")
        if len(recorded) < amo.bound(WORKERS, JOBS) or len(set(recorded)) < len(recorded):
            raise Wrong(f"recorded {recorded}")


# ---- workers

def works(run: Run, number: int, dies_at: int) -> None:
    """Works as this worker to its end, and keeps all rules."""
    stepped = Stepped(run.registers, dies_at)
    worker = amo.Worker(stepped, number, WORKERS, JOBS)
    for job in worker.doubts:
        run.note("doubt", job)
    for job in worker:
        stepped.step()
        run.note("performed", job)


def performs_doubts(run: Run, number: int, dies_at: int) -> None:
    """Makes a mistake: performs what is in doubt."""
    worker = amo.Worker(Stepped(run.registers, NEVER), number, WORKERS, JOBS)
    for job in worker.doubts:
        run.note("performed", job)
    works(run, number, dies_at)


def performs_later(run: Run, number: int, dies_at: int) -> None:
    """Makes a mistake: performs the jobs once all are recorded."""
    stepped = Stepped(run.registers, dies_at)
    for job in list(amo.Worker(stepped, number, WORKERS, JOBS)):
        stepped.step()
        run.note("performed", job)


def forgets_registers(run: Run, number: int, dies_at: int) -> None:
    """Makes a mistake: takes the worker's own registers for 0 when it begins."""
    stepped = Stepped(Forgetful(run.registers), dies_at)
    for job in amo.Worker(stepped, number, WORKERS, JOBS):
        stepped.step()
        run.note("performed", job)


class Forgetful:
    """Registers that show 0 until the first store."""

    def __init__(self, registers: amo.Registers):
        self.registers, self.shows = registers, False

    def load(self, place: int) -> int:
        return self.registers.load(place) if self.shows else 0

    def store(self, place: int, value: int) -> None:
        self.shows = True
        self.registers.store(place, value)


Work = Callable[[Run, int, int], None]
MISTAKES: List[Work] = [performs_doubts, performs_later, forgets_registers]


def was_killed(work: Work, run: Run, number: int, dies_at: int) -> bool:
    """Has a process of its own work, and returns whether it was killed. Raises Wrong if it
    failed."""
    sys.stdout.flush()
    child = os.fork()
    if child == 0:
        status = 1
        try:
            work(run, number, dies_at)
            status = 0
        finally:
            os._exit(status)
    code = os.waitstatus_to_exitcode(os.waitpid(child, 0)[1])
    if code not in (0, -signal.SIGKILL):
        raise Wrong(f"worker {number}, to be killed at step {dies_at}: status {code}")
    return code != 0


# ---- registers

@contextmanager
def in_file(path: str) -> Iterator[amo.Registers]:
    try:
        yield amo.File(path, WORKERS, JOBS)
    finally:
        os.unlink(path)
        os.unlink(f"{path}.boot")


@contextmanager
def in_shared_memory(_: str) -> Iterator[amo.Registers]:
    memory = SharedMemory(create=True, size=amo.size(WORKERS, JOBS))
    registers = amo.Shared(memory, WORKERS, JOBS)
    try:
        yield registers
    finally:
        registers.close()
        memory.close()
        memory.unlink()


@contextmanager
def in_object(path: str) -> Iterator[amo.Registers]:
    with open(path, "wb") as file:
        file.truncate(amo.size(WORKERS, JOBS))
    try:
        yield Plain(path)
    finally:
        os.unlink(path)


Kind = Callable[[str], ContextManager[amo.Registers]]
KINDS: List[Kind] = [in_file, in_shared_memory, in_object]


# ---- runs

def one_run(kind: Kind, folder: str, work: Work, first: int, second: int) -> Tuple[bool, bool]:
    """Makes a run in which worker 1 is killed at these steps. Returns whether it came to be so."""
    log = f"{folder}/log"
    with kind(f"{folder}/words") as registers:
        run = Run(registers, log)
        try:
            killed = was_killed(work, run, 1, first)
            was_killed(works, run, 2, NEVER)
            again = was_killed(work, run, 1, second)
            was_killed(work, run, 1, NEVER)
            run.audit()
        finally:
            if os.path.exists(log):
                os.unlink(log)
    return killed, again


def at_each_step(kind: Kind, folder: str, work: Work, seconds: Sequence[int]) -> int:
    """Makes a run for each step at which the first process can be killed, and for each of these
    steps of the second one. Returns how many runs there were."""
    runs, first, goes_on = 0, 0, True
    while goes_on:
        for second in seconds:
            goes_on, again = one_run(kind, folder, work, first, second)
            runs += 1
            if not again:
                break
        first += 1
    return runs


def caught(folder: str, work: Work) -> str:
    """Returns what the audit finds of a mistake. Raises Wrong if it finds nothing."""
    try:
        at_each_step(in_object, folder, work, [NEVER])
    except (Wrong, amo.Damaged) as found:
        return str(found)
    raise Wrong(f"the mistake of `{work.__name__}` isn't found")


def two_at_once(folder: str) -> str:
    """Shows that two workers of one number are refused, and that without a guard a job is performed
    twice. Raises Wrong if either isn't so."""
    path = f"{folder}/both"
    guarded = amo.File(path, WORKERS, JOBS)
    first = amo.Worker(guarded, 1, WORKERS, JOBS)
    try:
        amo.Worker(amo.File(path, WORKERS, JOBS), 1, WORKERS, JOBS)
        raise Wrong("two workers of one number are allowed")
    except amo.Taken:
        first.close()
    amo.Worker(guarded, 1, WORKERS, JOBS).close()
    plain = Plain(path)
    loops = [iter(amo.Worker(plain, 1, WORKERS, JOBS)) for _ in range(2)]
    jobs = [next(it) for it in loops]
    if jobs[0] != jobs[1]:
        raise Wrong(f"two workers of one number without a guard got {jobs}")
    return f"job {jobs[0]} twice without a guard"


def main(folder: str) -> int:
    checks: Dict[str, Callable[[], object]] = {
        f"killed at each step, {kind.__name__}": partial(at_each_step, kind, folder, works, [NEVER])
        for kind in KINDS}
    twice = range(NEVER)
    checks["killed at each two steps"] = partial(at_each_step, in_file, folder, works, twice)
    for mistake in MISTAKES:
        checks[f"the mistake {mistake.__name__}"] = partial(caught, folder, mistake)
    checks["two at once"] = partial(two_at_once, folder)
    return try_all("stepped", checks)


if __name__ == "__main__":
    sys.exit(main(sys.argv[1]))
