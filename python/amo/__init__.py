"""Performs each job at most once, by processes or threads that may be killed at any moment.

    import amo

    registers = amo.File("tonight.words", workers=2, jobs=10)
    with amo.Worker(registers, number=1, workers=2, jobs=10) as worker:
        for job in worker.doubts:
            write_down(job)  # a killed process had it in its hand: find out what became of it
        for job in worker:
            pay(job)  # a number from 1 to 10, which no worker gets again

Each process makes its own registers and Worker, with a number of its own. Go on with

    help(amo.Worker)     the loop, the job in doubt, and how a worker leaves
    help(amo.File)       registers in a file, for processes
    help(amo.Shared)     registers in a SharedMemory, for processes of multiprocessing
    help(amo.Memory)     registers for the threads of one process
    help(amo.Registers)  what registers of yours must do, and amo.Guard
    help(amo.standing)   which jobs are recorded, in hand and free; amo.bound and amo.size count
    help(amo.Taken)      the error if another Worker has the number; amo.Damaged: stop all workers
    help("amo.jobs")     a command for each line of a list, with a journal on the disk

The page docs/guide/python.md, in the folder amo/programs, has examples of programs and what is
proved: libamo, which names each access, but not this package, your registers or your processes.
"""

from __future__ import annotations

from amo.library import Damaged
from amo.registers import File, Guard, Memory, Registers, Shared, Taken, size
from amo.version import VERSION as __version__
from amo.worker import Standing, Worker, bound, standing

__all__ = ["Worker", "File", "Shared", "Memory", "Registers", "Guard", "Taken", "Damaged",
           "standing", "Standing", "bound", "size", "__version__"]
