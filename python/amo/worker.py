"""One worker of a run, and how far a run is. Begin with `Worker`."""

from __future__ import annotations

import os
import threading
import time
from typing import Iterator, List, NamedTuple, NoReturn, Optional

from amo._processes import is_starting
from amo.library import BEGINNING, NOTHING, STORE, Heard, Item, Library, Next, whole
from amo.registers import Guard, Registers, Taken, check_registers

__all__ = ["Worker", "Standing", "standing", "bound"]
_PAUSE = 0.01  # seconds between two tries of a lock


class _Life:
    """The time of one process as a worker: what it has read, and the job in its hand."""

    def __init__(self, library: Library, registers: Registers, number: int):
        """Takes what it needs, and makes no access."""
        self.library, self.registers, self.number = library, registers, number
        self.heard, self.job = Heard(), 0
        self.items: List[Item] = []
        self.is_new = False  # it has begun, and no loop uses it yet
        self.is_busy = False  # a loop makes its accesses, which belong together
        self.is_known = False  # `job` is in the hand, and no other one: no claim can have landed

    def begin(self) -> int:
        """Loads the worker's own registers. Returns the job that an earlier process, or an earlier
        loop, had in its hand, or 0."""
        told = self._told()
        while told.phase == BEGINNING:
            self.carry_out()
            told = self._told()
        self.is_new = self.is_known = True
        return int(told.doubt)

    def _told(self) -> Next:
        told, self.items = self.library.batch(self.number, self.heard)
        return told

    def ask(self) -> bool:
        """Finds out what is next; `job` is the job to perform, or 0. Returns False if the worker
        has ended."""
        told = self._told()
        self.job, self.is_known = int(told.perform), True
        return bool(told.access != NOTHING)

    def carry_out(self) -> None:
        """Makes the accesses of the batch. The first one records the job in hand as done. Until the
        next call of `ask` a job may be claimed, also if an access raises an exception."""
        self.is_known = False
        for item in self.items:
            self._access(item)
            self.job = 0

    def _access(self, item: Item) -> None:
        if item.access == STORE:
            self.registers.store(item.word, item.value)
            self.heard.add(0)
            return
        for place in range(item.word, max(item.word, item.value) + 1):
            number = self.registers.load(place)
            self.heard.add(number)
            if number == 0:
                return

    def leave(self) -> bool:
        """Takes back the announcement. Returns False, and does nothing, if the worker may not leave
        now."""
        told = self.library.leave(self.number, self.heard)
        if told is None:
            return False
        self.is_known = True  # with a job in the hand no worker may leave
        self.registers.store(told.word, told.value)
        return True


class Worker:
    """A worker: a loop over it performs jobs that no other worker of the run performs.

    >>> from amo import Memory, Worker
    >>> with Worker(Memory(workers=1, jobs=3), number=1, workers=1, jobs=3) as worker:
    ...     for job in worker:
    ...         if job == 2:
    ...             break
    ...     print(worker.doubts, list(worker))
    [2] [3]

    The body of the loop performs the job. When the loop asks for the next one, the job is recorded
    as done. If the body raises an exception, or leaves the loop, the job is *in doubt*: it may have
    been performed, and no worker gets it again. Another loop over the worker goes on with others.

    A process may be killed at any moment. The next one of that number finds the job in doubt, if
    there is one, when it makes its Worker: look at `doubts` before the loop, which records the job
    as done. If other workers end as they are killed, up to `beta + workers - 2` jobs stay undone.

    One thread uses a worker at a time. A signal handler may call `leave`, or raise an exception.
    A child process has a copy, which it can't use: make a Worker of another number there.
    """

    def __init__(self, registers: Registers, number: int, workers: int, jobs: int, *,
                 beta: Optional[int] = None, wait: bool = False):
        """Begins as the worker `number`, from 1 to `workers`, of a run with so many jobs. All
        processes of the run give the same `workers`, `jobs` and `beta`, the threshold, which is
        `workers` if it isn't given.

        Raises Taken if another process acts as this worker; with `wait`, waits until it is gone.
        Raises ValueError if a number is beyond its limit or the registers were made for others,
        RuntimeError if other processes don't share them, Damaged if they hold a value that no
        worker stores, and whatever they raise.
        """
        self._library, self._registers = Library(jobs, workers, beta), registers
        self.number = whole(number)  # since the name of its lock is made of it
        self._library.next(self.number, Heard())  # which is refused if there is no such worker
        check_registers(registers, workers, jobs)
        self._process, self._lock, self._leaves = os.getpid(), threading.RLock(), False
        self._is_unsure = False  # the last loop may have left a job in the hand
        self._doubts: List[int] = []
        self._life: Optional[_Life] = None  # the only one that makes accesses
        self._guard = _guarded(registers, self.number, wait)
        try:
            self._begin()
        except BaseException:
            self._guard.close()
            raise

    @property
    def doubts(self) -> List[int]:
        """The jobs in doubt that this worker knows of: the one that an earlier process had in its
        hand, and those of loops that were left. Nobody performs them. Find out what became of
        each. **Write them to a disk before a loop begins**: then only this object has them.

        If an access of the last loop has failed, this asks the registers which job is in doubt, and
        raises whatever they raise."""
        with self._own_lock():
            if self._is_unsure and self._guard.is_open and not self._is_copy():
                self._begin()
            return list(self._doubts)

    def __iter__(self) -> Iterator[int]:
        """Begins a loop. An earlier loop over this worker can't go on. Raises RuntimeError if it
        finds a job in doubt that `doubts` didn't have, as one that is in the hand of an earlier
        loop. From then on `doubts` has it, and a loop can begin."""
        with self._own_lock():
            self._check_idle()
            self._check_holder()
            life = self._life
            if life is None or not life.is_new:
                known = len(self._doubts)
                life = self._begin()
                if len(self._doubts) > known:
                    raise RuntimeError(f"worker {self.number}: job {self._doubts[-1]} is in doubt,"
                                       " and `doubts` didn't have it before this loop; write it to"
                                       " a disk, and begin the loop again")
            life.is_new = False
            return self._jobs(life)

    def leave(self) -> None:
        """Has the loop end once its job is recorded as done, so that other workers get the rest. If
        no loop goes on, the next one ends without a job."""
        self._leaves = True

    def fileno(self) -> int:
        """Returns the descriptor of the lock that shows that this worker lives. Give it to commands
        that perform a job, by `pass_fds=[worker.fileno()]` of subprocess.run: then nobody else
        begins as this worker before they are gone too. Raises OSError if there is no lock."""
        return self._guard.fileno()

    def close(self) -> None:
        """Ends the worker, so that another process may begin with its number. The job in hand is in
        doubt. Raises RuntimeError in a signal handler that comes between two accesses, since the
        others would follow."""
        with self._own_lock():
            self._check_idle()
            self._end(self._life)
            self._guard.close()

    def __reduce__(self) -> NoReturn:
        raise TypeError(f"worker {self.number}: a copy would perform its jobs too; make a Worker in"
                        " the process that uses it")

    def __enter__(self) -> Worker:
        return self

    def __exit__(self, *_: object) -> None:
        self.close()

    def _begin(self) -> _Life:
        """Begins a life for the next loop. It finds out whether an earlier one has left a job in
        the hand."""
        # in its place at once: if a signal handler begins another one meanwhile, this can't go on
        self._life = life = _Life(self._library, self._registers, self.number)
        self._add_doubt(life.begin())
        self._is_unsure = False
        return life

    def _jobs(self, life: _Life) -> Iterator[int]:
        try:
            while self._asked(life):
                if life.job:
                    yield life.job
                self._carry_out(life)
        finally:
            self._end(life)  # also if an exception came in the middle of accesses

    def _asked(self, life: _Life) -> bool:
        """Finds out what is next. Returns False if the loop has ended."""
        with self._own_lock():
            self._enter(life)
            goes_on = not (self._leaves and life.leave()) and life.ask()
            if not goes_on:
                self._leaves = False
            life.is_busy = False
            return goes_on

    def _carry_out(self, life: _Life) -> None:
        """Makes the accesses that come next."""
        with self._own_lock():
            self._enter(life)
            life.carry_out()
            life.is_busy = False

    def _enter(self, life: _Life) -> None:
        """Keeps signal handlers away from the accesses that follow. Raises RuntimeError if another
        loop has begun, or the worker can't be used."""
        life.is_busy = True  # first of all, since a handler may come between these lines
        self._check_holder()
        if life is not self._life:
            raise RuntimeError(f"worker {self.number}: another loop over it has begun; go on with"
                               " that one")

    def _own_lock(self) -> threading.RLock:
        """Returns the lock. A child process gets another one, since a thread that held the lock as
        the child was forked isn't there."""
        return threading.RLock() if self._is_copy() else self._lock

    def _is_copy(self) -> bool:
        return self._process != os.getpid()

    def _check_idle(self) -> None:
        """Raises RuntimeError if a loop makes its accesses, in which a signal handler came."""
        if self._life and self._life.is_busy and not self._is_copy():
            raise RuntimeError(f"worker {self.number}: a signal handler uses it in the middle of an"
                               " access; call leave() there, or raise an exception")

    def _check_holder(self) -> None:
        """Raises RuntimeError if this process doesn't hold the number."""
        if not self._guard.is_open:
            raise RuntimeError(f"worker {self.number}: it is closed; make another Worker")
        if self._is_copy():
            raise RuntimeError(f"worker {self.number}: it belongs to process {self._process}, and"
                               f" process {os.getpid()} has a copy; make a Worker in each process,"
                               " of a number of its own")

    def _end(self, life: Optional[_Life]) -> None:
        with self._own_lock():
            if life:
                self._add_doubt(life.job)
            if life and life is self._life:
                self._life, self._is_unsure = None, not life.is_known

    def _add_doubt(self, job: int) -> None:
        if job and job not in self._doubts:
            self._doubts.append(job)


class Standing(NamedTuple):
    """How far a run is. Each list is in rising order."""

    recorded: List[int]  # recorded as done; those in doubt among them
    in_hand: List[int]  # claimed, and not recorded: at work, or in doubt if the process is dead
    free: List[int]  # claimed by nobody


def standing(registers: Registers, workers: int, jobs: int) -> Standing:
    """Returns how far a run is. It is exact if no worker makes an access meanwhile.

    >>> from amo import Memory, Worker
    >>> registers = Memory(workers=2, jobs=4)
    >>> jobs = list(Worker(registers, number=1, workers=2, jobs=4))
    >>> standing(registers, workers=2, jobs=4)
    Standing(recorded=[1, 2, 3], in_hand=[], free=[4])
    """
    library = Library(jobs, workers)
    check_registers(registers, workers, jobs)
    words = [registers.load(place) for place in range(library.word_count())]
    recorded, in_hand = [], []
    for worker in range(1, workers + 1):
        row = library.row(words, worker)
        recorded += row
        if words[library.claims(worker)] > len(row):
            in_hand.append(words[library.announcement(worker)])
    free = set(range(1, jobs + 1)) - {*recorded, *in_hand}
    return Standing(sorted(recorded), sorted(in_hand), sorted(free))


def bound(workers: int, jobs: int, beta: Optional[int] = None) -> int:
    """Returns how many jobs are recorded as done at least, once a worker has ended.

    >>> bound(workers=2, jobs=10)
    8
    """
    return Library(jobs, workers, beta).bound()


def _guarded(registers: Registers, number: int, wait: bool) -> Guard:
    """Returns the guard of a worker's number. With `wait`, waits until the number is free.
    Registers without a method `guard` have nothing to hold."""
    guard = getattr(registers, "guard", None)
    if guard is None:
        return Guard(lambda: None)
    while True:
        try:
            found: Guard = guard(number)
            return found
        except Taken:
            if is_starting():  # the process above may wait for this one
                raise Taken(f"worker {number}: another process has this number, and this one begins"
                            " with it while multiprocessing imports its main module; put what the"
                            " program does below `if __name__ == \"__main__\":`") from None
            if not wait:
                raise
            time.sleep(_PAUSE)
