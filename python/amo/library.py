"""The calls of libamo, the shared library in this package's folder.

Begin with `Library`. `examples/c/amo.h` describes each call.
"""

from __future__ import annotations

import ctypes
import operator
import os
from functools import lru_cache
from typing import Any, List, Optional, Sequence, Tuple

PATH = os.path.join(os.path.dirname(os.path.realpath(__file__)), "libamo.so")

NOTHING, LOAD, STORE, LOAD_ROW = range(4)  # accesses
BEGINNING, ANNOUNCING, TRYING, READING, CLAIMING, HOLDING, OVER, LEFT = range(8)  # phases
(OK, TOO_MANY_JOBS, NO_WORKERS, TOO_MANY_WORKERS, BETA_LOW, BETA_HIGH, NO_SUCH_WORKER, BAD_HEARD,
 NO_MEMORY, MAY_NOT_LEAVE) = range(10)  # codes
ALL_ITEMS = 33  # room for any batch: 2 * 16 workers + 1
ABOVE = 1 << 64  # no register holds this number, or a larger one

U64, U32 = ctypes.c_uint64, ctypes.c_uint32


class Damaged(RuntimeError):
    """The registers hold a value that no worker stores, so a job might be performed twice. **Stop
    all workers.** Then find out what else writes to the registers."""


class Givens(ctypes.Structure):
    """The three numbers of a run."""

    _fields_ = [("jobs", U64), ("workers", U64), ("beta", U64)]


class Next(ctypes.Structure):
    """The next access of a worker, with the state of the worker."""

    _fields_ = [("access", U32), ("phase", U32), ("word", U64), ("value", U64), ("perform", U32),
                ("doubt", U32), ("claims", U64), ("dones", U64)]


class Item(ctypes.Structure):
    """An access of a batch, or the loads of a row."""

    _fields_ = [("access", U64), ("word", U64), ("value", U64)]


@lru_cache(maxsize=None)
def calls() -> ctypes.CDLL:
    """Returns the calls. Raises OSError if the shared library is missing."""
    if not os.path.exists(PATH):
        raise OSError(f"`{PATH}`: it is missing; install the wheel, which has it")
    found = ctypes.CDLL(PATH)
    givens, heard = ctypes.POINTER(Givens), [U64, ctypes.POINTER(U64), ctypes.c_size_t]
    told, items = ctypes.POINTER(Next), [ctypes.POINTER(Item), ctypes.c_size_t, ctypes.POINTER(U64)]
    for name, result, arguments in [
            ("amo_next", U32, [givens, *heard, told]), ("amo_leave", U32, [givens, *heard, told]),
            ("amo_batch", U32, [givens, *heard, *items, told]),
            ("amo_words", U64, [givens]), ("amo_bound", U64, [givens]),
            ("amo_announcement_word", U64, [givens, U64]), ("amo_claims_word", U64, [givens, U64]),
            ("amo_entry_word", U64, [givens, U64, U64]), ("amo_load", U64, [ctypes.c_void_p]),
            ("amo_store", None, [ctypes.c_void_p, U64])]:
        call = getattr(found, name)
        call.restype, call.argtypes = result, arguments
    return found


def whole(number: int) -> int:
    """Returns a number as an int and nothing else, since an enumeration has another text. Raises
    TypeError if it isn't whole."""
    return int(operator.index(number))


class Heard:
    """The values that a process has read since it began, and 0 for each of its stores."""

    def __init__(self) -> None:
        self.numbers: Any = (U64 * 256)()
        self.len = 0

    def add(self, number: int) -> None:
        """Adds a value, from 0 to 2^64 - 1. Raises Damaged if it is another one."""
        if not 0 <= number < ABOVE:
            raise Damaged(f"registers: a load returned {number}; return a number of 64 bits")
        if self.len == len(self.numbers):
            numbers = (U64 * (2 * self.len))()
            ctypes.memmove(numbers, self.numbers, 8 * self.len)
            self.numbers = numbers
        self.numbers[self.len] = number
        self.len += 1


class Library:
    """The calls for one run: so many jobs, workers, and a threshold."""

    def __init__(self, jobs: int, workers: int, beta: Optional[int] = None):
        """Takes the numbers of a run. Without `beta` the threshold is the number of workers. Raises
        ValueError if a number is beyond its limit."""
        jobs, workers = whole(jobs), whole(workers)
        beta = workers if beta is None else whole(beta)
        for name, number in (("jobs", jobs), ("workers", workers), ("beta", beta)):
            if not 0 <= number < ABOVE:
                raise ValueError(f"{name} {number}: it isn't a number of 64 bits; give a valid one")
        self.calls, self.givens = calls(), Givens(jobs, workers, beta)
        self.next(1, Heard())  # which is refused if a number is beyond its limit

    def next(self, worker: int, heard: Heard) -> Next:
        """Returns the next access of a worker."""
        if not 0 <= worker < ABOVE:  # else the call gets another number
            raise ValueError(self._limit(NO_SUCH_WORKER, worker))
        told = Next()
        self._check(self.calls.amo_next(self.givens, worker, heard.numbers, heard.len, told),
                    worker)
        return told

    def batch(self, worker: int, heard: Heard, room: int = ALL_ITEMS) -> Tuple[Next, List[Item]]:
        """Returns the next access, and the items of its batch, as many as there is room for."""
        told, items, count = Next(), (Item * room)(), U64()
        self._check(self.calls.amo_batch(self.givens, worker, heard.numbers, heard.len, items, room,
                                         count, told), worker)
        return told, items[:count.value]

    def leave(self, worker: int, heard: Heard) -> Optional[Next]:
        """Returns the store by which a worker leaves; None if it may not leave."""
        told = Next()
        code = self.calls.amo_leave(self.givens, worker, heard.numbers, heard.len, told)
        if code == MAY_NOT_LEAVE:
            return None
        self._check(code, worker)
        return told

    def _check(self, code: int, worker: int) -> None:
        """Raises the error for a code that isn't OK. Nothing has changed then."""
        if code == OK:
            return
        if code == BAD_HEARD:
            raise Damaged("registers: they hold a value that no worker stores; stop all workers,"
                          " and find out what else writes to them")
        if code == NO_MEMORY:
            raise MemoryError("libamo: memory was refused; free some, and call again")
        raise ValueError(self._limit(code, worker))

    def _limit(self, code: int, worker: int) -> str:
        """Returns the message for a number that is beyond its limit."""
        jobs, workers, beta = self.givens.jobs, self.givens.workers, self.givens.beta
        return {
            TOO_MANY_JOBS: f"jobs {jobs}: a run has at most 4096; make several runs",
            NO_WORKERS: "workers 0: a run has a worker at least; give 1 to 16",
            TOO_MANY_WORKERS: f"workers {workers}: a run has at most 16; give 1 to 16",
            BETA_LOW: f"beta {beta}: it is below the number of workers; give {workers} or more",
            BETA_HIGH: f"beta {beta}: it is above 65535; give {workers} to 65535",
            NO_SUCH_WORKER: f"number {worker}: no worker has it; give 1 to {workers}",
        }[code]

    def word_count(self) -> int:
        """Returns how many registers there are."""
        return int(self.calls.amo_words(self.givens))

    def bound(self) -> int:
        """Returns how many jobs are recorded as done at least, once a worker has ended."""
        return int(self.calls.amo_bound(self.givens))

    def announcement(self, worker: int) -> int:
        """Returns the place of a worker's announcement."""
        return int(self.calls.amo_announcement_word(self.givens, worker))

    def claims(self, worker: int) -> int:
        """Returns the place of a worker's count of claims."""
        return int(self.calls.amo_claims_word(self.givens, worker))

    def entry(self, worker: int, k: int) -> int:
        """Returns the place of the k-th entry of a worker's row, from 1."""
        return int(self.calls.amo_entry_word(self.givens, worker, k))

    def row(self, words: Sequence[int], worker: int) -> List[int]:
        """Returns the jobs that a worker has recorded as done, of the values of all registers."""
        entries = [words[self.entry(worker, k)] for k in range(1, self.givens.jobs + 2)]
        return entries[:entries.index(0)]
