#!/usr/bin/env python3
"""Pays ten bills by two processes of multiprocessing. If any of them was killed, start it again.

  payday.py FOLDER

FOLDER must be on a local disk. It gets the registers, and two lists: `paid`, and `doubts`, the
bills that were perhaps paid.
"""

import json
import multiprocessing
import os
import sys
from typing import List

import amo

BILLS = [f"bill {number}" for number in range(1, 11)]  # job 1 is the first one, at each start


def write(path: str, line: str, mode: str = "a") -> None:
    """Writes a line to a file, and returns once it is on the disk."""
    with open(path, mode, encoding="utf-8") as file:
        print(line, file=file, flush=True)
        os.fsync(file.fileno())


def work(path: str, number: int, workers: int, bills: List[str]) -> None:
    """Works as one worker over these registers, unless `close` has closed them."""
    registers = amo.File(path, workers, len(bills))
    with amo.Worker(registers, number, workers, len(bills), wait=True) as worker:
        if os.path.exists(f"{path}.left"):
            return
        for job in worker.doubts:
            write("doubts", bills[job - 1])
        for job in worker:
            write("paid", bills[job - 1])


def close(path: str, workers: int, bills: List[str]) -> List[str]:
    """Has no worker begin any more over these registers, and returns the bills that are left."""
    registers = amo.File(path, workers, len(bills))
    crew = [amo.Worker(registers, number, workers, len(bills), wait=True)
            for number in range(1, workers + 1)]
    if not os.path.exists(f"{path}.left"):
        for job in [job for worker in crew for job in worker.doubts]:
            write("doubts", bills[job - 1])
        free = amo.standing(registers, workers, len(bills)).free
        write(f"{path}.new", json.dumps([bills[job - 1] for job in free]), "w")
        os.rename(f"{path}.new", f"{path}.left")
    with open(f"{path}.left", encoding="utf-8") as file:
        left: List[str] = json.load(file)
    return left


def main(folder: str) -> None:
    os.chdir(folder)
    crew = [multiprocessing.Process(target=work, args=("words", number, 2, BILLS))
            for number in (1, 2)]
    for process in crew:
        process.start()
    for process in crew:
        process.join()
    if any(process.exitcode for process in crew):
        sys.exit("payday: a worker has died; find out why, and start this program again")
    work("rest", 1, 1, close("words", 2, BILLS))


if __name__ == "__main__":
    main(sys.argv[1])
