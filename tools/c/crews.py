#!/usr/bin/env python3
"""Crews of the example programs over one file, killed by SIGKILL and begun again, and what they
wrote.

  crews.py FOLDER RUNS SEED COMMAND..

Each COMMAND starts an example, such as crew or examples/python/crew.py; it is given FILE JOBS
WORKERS P. One of them, drawn at random, works as each worker, and once that has its lock a second
process waits for its death. The files lie in FOLDER. No job may be written twice. Each recorded job
is written, or reported as in doubt. At least the bound is recorded. The last line has the number of
written jobs; the status is 0 if all was so.

It needs the module `amo` with its library, as the wheel has it.
"""

import fcntl
import os
import random
import shlex
import subprocess
import sys
import time

sys.dont_write_bytecode = True

import amo


class Wrong(Exception):
    """A mistake in a run."""


def want(so, what):
    if not so:
        raise Wrong(what)


class Process:
    """A process of a worker, and what it has written."""

    def __init__(self, command, words):
        # unbuffered, so that no line that was read too early is lost to communicate
        pipes = {"stdin": subprocess.DEVNULL, "stdout": subprocess.PIPE, "stderr": subprocess.PIPE, "bufsize": 0}
        self.run, self.lines = subprocess.Popen([*shlex.split(command), *words], **pipes), []

    def wait_to_hold(self, path):
        """Waits until it holds the lock on this file, or has ended. (Were the second process first,
        a kill of the first one would leave a job in hand with nobody to come back.)"""
        with open(path, "a") as lock:
            while self.run.poll() is None:
                try:
                    fcntl.flock(lock, fcntl.LOCK_EX | fcntl.LOCK_NB)
                except BlockingIOError:
                    return
                fcntl.flock(lock, fcntl.LOCK_UN)
                time.sleep(0.001)

    def kill_after(self, count):
        """Kills it once it has written so many lines, or its last."""
        while len(self.lines) < count and (line := self.run.stdout.readline()):
            self.lines.append(line)
        self.run.kill()

    def end(self):
        """Waits for its end, and returns the jobs that it performed, and those that it found in
        doubt."""
        out, err = self.run.communicate()
        want(self.run.returncode in (0, -9), f"status {self.run.returncode}: {err.decode()}")
        jobs = [int(line.split()[1]) for line in [*self.lines, *out.splitlines()]]
        return jobs, [int(line.split()[1]) for line in err.splitlines()]


def crew_of(file, draws, commands):
    """One run: how many jobs were written, and how many processes were killed."""
    workers, jobs = draws.randint(1, 5), draws.randint(0, 60)
    processes, killed = [], 0
    try:
        for p in range(1, workers + 1):
            command, words = draws.choice(commands), [file, str(jobs), str(workers), str(p)]
            processes.append(Process(command, words))
            processes[-1].wait_to_hold(f"{file}.{p}")
            processes.append(Process(command, words))
        for process in processes[::2]:
            if draws.random() < 0.7:
                process.kill_after(draws.randint(0, 8))
                killed += 1
        ends = [process.end() for process in processes]
    finally:
        for process in processes:
            process.run.kill()
            process.run.wait()
    written, doubted = [sum(it, []) for it in zip(*ends)]
    filed = amo.standing(amo.File(file, workers, jobs), workers, jobs).recorded
    want(len(set(written)) == len(written), f"written twice: {sorted(it for it in set(written) if written.count(it) > 1)}")
    want(len(set(filed)) == len(filed), f"filed twice: {filed}")
    want(set(written) <= set(filed) <= set(written) | set(doubted), f"written {written}, filed {filed}, in doubt {doubted}")
    want(len(filed) >= amo.bound(workers, jobs), f"{len(filed)} of {jobs} jobs are filed")
    return len(written), killed


def main(folder, runs, seed, *commands):
    draws, sums = random.Random(int(seed)), [0, 0]
    try:
        for run in range(int(runs)):
            sums = [sum(it) for it in zip(sums, crew_of(f"{folder}/words.{run}", draws, commands))]
    except Wrong as wrong:
        print(f"run {run}: {wrong}")
        return 1
    print(f"{runs} crews, {sums[1]} processes killed, {sums[0]} jobs written, none twice")
    return 0


if __name__ == "__main__":
    sys.exit(main(*sys.argv[1:]))
