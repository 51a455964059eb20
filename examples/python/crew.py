#!/usr/bin/env python3
"""A process that works as one worker of a run, over registers in a file. It performs a job by
writing a line.

  crew.py FILE JOBS WORKERS P

All processes of a run are given the same FILE, JOBS and WORKERS. FILE is made if it is missing; put
it on a local disk, and keep the files beside it: FILE.boot and a lock for each worker. If a process
has died, start another one with its number: it waits until the earlier one is gone.
examples/c/crew.c does the same, and may share the file.
"""

import os
import sys

import amo


def main(path: str, jobs: int, workers: int, number: int) -> None:
    registers = amo.File(path, workers, jobs)
    with amo.Worker(registers, number, workers, jobs, wait=True) as worker:
        for job in worker.doubts:
            print(f"job {job} is in doubt", file=sys.stderr, flush=True)
        for job in worker:
            os.write(1, b"job %d\n" % job)


if __name__ == "__main__":
    if len(sys.argv) != 5:
        sys.exit(__doc__)
    main(sys.argv[1], *map(int, sys.argv[2:]))
