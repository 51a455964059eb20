#!/usr/bin/env python3
"""Tests loops over a worker of the installed module: how they end, and who may begin one. The tests
of children.py belong to them.

  loops.py [NAME..]
"""

from __future__ import annotations

import copy
import enum
import multiprocessing
import os
import pickle
import random
import shutil
import signal
import subprocess
import sys
import tempfile
import threading
import time
import types
import unittest
from multiprocessing.shared_memory import SharedMemory
from typing import Any, Callable, List, Optional, Tuple
from unittest import mock

sys.dont_write_bytecode = True

import amo
from amo import jobs as lists
from children import Children, Payday

__all__ = ["Children", "Payday"]  # unittest.main runs them too
# Makes a shared memory, prints its name and the number of a child process, and waits with it.
MAKER = """
import os, signal, sys, amo
from multiprocessing.shared_memory import SharedMemory
memory = SharedMemory(create=True, size=amo.size(1, 3))
child = os.fork()
if child:
    print(memory.name, child, flush=True)
signal.pause()
"""


class Failing:
    """Registers in a list, of which an access can fail once."""

    def __init__(self, workers: int, jobs: int):
        self.words = [0] * (amo.size(workers, jobs) // 8)
        self.fails: Callable[[str, int], bool] = lambda kind, place: False

    def load(self, place: int) -> int:
        if self.fails("load", place):
            raise OSError("the load fails")
        return self.words[place]

    def store(self, place: int, value: int) -> None:
        if self.fails("store", place):
            raise OSError("the store fails")
        self.words[place] = value


class Landing(amo.Memory):
    """Registers that make a call once a store has landed: that of this value in this place."""

    def __init__(self, place: int, value: int, call: Callable[[], object]):
        super().__init__(1, 3)
        self.landed, self.call = (place, value), call

    def store(self, place: int, value: int) -> None:
        super().store(place, value)
        if (place, value) == self.landed:
            self.call()


class Number(int, enum.Enum):
    """Numbers of workers, whose text isn't that of a number."""

    ONE = 1


def fail(*_: object) -> None:
    raise TimeoutError("the reply is lost")


def note(path: str, word: str, job: int) -> None:
    """Adds a line to a file that processes share."""
    file = os.open(path, os.O_WRONLY | os.O_CREAT | os.O_APPEND, 0o600)
    os.write(file, f"{word} {job}\n".encode())
    os.close(file)


def work_in_shared_memory(name: str, path: str, number: int) -> None:
    """Works as a worker of 3 over 60 jobs. It is a process of `multiprocessing`."""
    registers = amo.Shared(SharedMemory(name), 3, 60)
    worker = amo.Worker(registers, number, 3, 60, wait=True)
    for job in worker.doubts:
        note(path, "doubt", job)
    for job in worker:
        note(path, "performed", job)
        time.sleep(0.01)  # so that many kills come in the middle of a loop


def alone(registers: amo.Registers, jobs: int = 3) -> amo.Worker:
    return amo.Worker(registers, number=1, workers=1, jobs=jobs)


class Loops(unittest.TestCase):
    def test_an_exception_that_leaves_no_doubt(self) -> None:
        worker = alone(amo.Memory(1, 3))
        with self.assertRaises(KeyError):
            for job in worker:
                raise KeyError(job)
        self.assertEqual(worker.doubts, [1])
        self.assertEqual(list(worker), [2, 3])
        self.assertEqual(worker.doubts, [1])

    def test_an_earlier_loop_that_goes_on(self) -> None:
        worker = alone(amo.Memory(1, 3))
        first = iter(worker)
        self.assertEqual(next(first), 1)
        with self.assertRaisesRegex(RuntimeError, "job 1 is in doubt"):
            iter(worker)
        self.assertEqual(worker.doubts, [1])
        with self.assertRaisesRegex(RuntimeError, "another loop"):
            next(first)
        self.assertEqual(list(worker), [2, 3])
        self.assertEqual(worker.doubts, [1])

    # place 2 has the count of claims, of which the second one is that of job 2

    def test_a_claim_that_landed_and_is_no_doubt_before_the_next_loop(self) -> None:
        worker = alone(Landing(2, 2, fail))
        with self.assertRaises(TimeoutError):
            list(worker)
        self.assertEqual(worker.doubts, [2])
        self.assertEqual(list(worker), [3])

    def test_a_loop_that_records_a_claim_that_nobody_saw(self) -> None:
        worker = alone(Landing(2, 2, fail))
        with self.assertRaises(TimeoutError):
            list(worker)
        with self.assertRaisesRegex(RuntimeError, "job 2 is in doubt"):
            list(worker)
        self.assertEqual(worker.doubts, [2])
        self.assertEqual(list(worker), [3])

    def test_a_signal_that_leaves_no_doubt(self) -> None:
        self.addCleanup(signal.signal, signal.SIGUSR1, signal.signal(signal.SIGUSR1, fail))
        worker = alone(Landing(2, 2, lambda: signal.raise_signal(signal.SIGUSR1)))
        with self.assertRaises(TimeoutError):
            list(worker)
        self.assertEqual(worker.doubts, [2])
        self.assertEqual(list(worker), [3])

    def test_a_kept_exception_that_leaves_no_doubt(self) -> None:
        worker = alone(amo.Memory(1, 3))

        def pay_all() -> None:
            loop = iter(worker)  # the frame of a kept exception keeps it
            for job in loop:
                raise KeyError(job)

        try:
            pay_all()
        except KeyError as error:
            kept = error
        with self.assertRaisesRegex(RuntimeError, "job 1 is in doubt"):
            list(worker)
        self.assertEqual(worker.doubts, [1])
        self.assertEqual(list(worker), [2, 3])
        self.assertEqual(kept.args, (1,))

    def test_a_worker_that_is_closed_between_two_accesses(self) -> None:
        seen: List[object] = []

        def close(*_: object) -> None:
            worker.close()
            seen.append("closed")

        self.addCleanup(signal.signal, signal.SIGTERM, signal.signal(signal.SIGTERM, close))
        # place 3 has the record of job 1, after which the worker announces job 2
        registers = Landing(3, 1, lambda: signal.raise_signal(signal.SIGTERM))
        worker = alone(registers)
        first_store = registers.store

        def store(place: int, value: int) -> None:
            seen.append(place)
            first_store(place, value)

        setattr(registers, "store", store)
        with self.assertRaisesRegex(RuntimeError, "signal handler"):
            list(worker)
        self.assertEqual(seen, [1, 2, 3])  # announced, claimed and recorded
        self.assertEqual((worker.doubts, list(worker)), ([1], [2, 3]))

    def test_a_signal_that_begins_a_loop_as_another_begins(self) -> None:
        performed: List[int] = []

        def begin(*_: object) -> None:
            performed.extend(worker)

        self.addCleanup(signal.signal, signal.SIGTERM, signal.signal(signal.SIGTERM, begin))
        registers = amo.Memory(1, 3)
        worker, first_load = alone(registers), registers.load

        def load(place: int) -> int:
            setattr(registers, "load", first_load)
            signal.raise_signal(signal.SIGTERM)
            return first_load(place)

        for job in worker:
            break
        setattr(registers, "load", load)
        with self.assertRaisesRegex(RuntimeError, "another loop"):
            list(worker)
        self.assertEqual((worker.doubts, performed), ([1], [2, 3]))

    def test_a_leave_before_the_loop_that_is_forgotten(self) -> None:
        worker = alone(amo.Memory(1, 3))
        worker.leave()
        self.assertEqual(list(worker), [])
        self.assertEqual((list(worker), worker.doubts), ([1, 2, 3], []))

    def test_a_copy_that_performs_the_jobs_too(self) -> None:
        worker = alone(amo.Memory(1, 3))
        calls: List[Callable[[Any], object]] = [copy.copy, copy.deepcopy, pickle.dumps]
        for call in calls:
            with self.assertRaisesRegex(TypeError, "a copy would perform"):
                call(worker)
        self.assertEqual(list(worker), [1, 2, 3])

    def test_an_answer_that_is_none(self) -> None:
        doubt = lists.Doubt("1.1", 1, "rent 700 to Ada", None, None, None)
        with self.assertRaisesRegex(TypeError, "it isn't an answer"):
            lists.answer("no_such_list.txt", doubt, None)  # type: ignore[arg-type]

    def test_a_closed_worker_that_goes_on(self) -> None:
        worker = alone(amo.Memory(1, 3))
        loop = iter(worker)
        self.assertEqual(next(loop), 1)
        worker.close()
        with self.assertRaisesRegex(RuntimeError, "closed"):
            next(loop)
        with self.assertRaisesRegex(RuntimeError, "closed"):
            iter(worker)
        self.assertEqual(worker.doubts, [1])

    def test_a_child_process_that_goes_on(self) -> None:
        worker, memory = alone(amo.Memory(1, 3)), amo.Memory(2, 3)
        loop = iter(worker)
        next(loop)
        child = os.fork()
        if child == 0:
            refused = 0
            calls: List[Callable[[], object]] = [lambda: next(loop), lambda: iter(worker),
                                                 lambda: alone(amo.Memory(1, 3)),
                                                 lambda: amo.Worker(memory, 2, 2, 3)]
            for call in calls:
                try:
                    call()
                except RuntimeError:
                    refused += 1
            os._exit(refused)
        self.assertEqual(os.waitstatus_to_exitcode(os.waitpid(child, 0)[1]), 3)
        self.assertEqual(list(loop), [2, 3])

    def test_a_failed_access_after_which_a_job_comes_again(self) -> None:
        for kind, place in (("store", 3), ("store", 2), ("store", 1), ("load", 1), ("load", 3)):
            registers = Failing(1, 3)
            failed: List[int] = []

            def fails(found: str, at: int, kind: str = kind, place: int = place) -> bool:
                if (found, at) == (kind, place) and not failed:
                    failed.append(at)
                    return True
                return False

            performed: List[int] = []
            registers.fails = fails
            try:
                performed += alone(registers)
            except OSError:
                pass
            worker = alone(registers)
            self.assertEqual(failed, [place])
            performed += [job for job in worker if job not in worker.doubts]
            self.assertEqual(len(set(performed)), len(performed), (kind, place))

    def test_a_value_that_no_worker_stores(self) -> None:
        for value in (77, -1, 1 << 64):
            registers = Failing(1, 3)
            registers.words[2] = value
            with self.assertRaises(amo.Damaged):
                alone(registers)

    def test_a_number_beyond_its_limit(self) -> None:
        # the number, the workers, the jobs and the threshold
        wrong = [(0, 1, 1, 1), (2, 1, 1, 1), (-1, 1, 1, 1), (1, 0, 1, 1), (1, 17, 1, 17),
                 (1, 1, 4097, 1), (1, 1, -1, 1), (1, 1, 1 << 64, 1), (1, 2, 1, 1),
                 (1, 1, 1, 65536)]
        for number, workers, jobs, beta in wrong:
            with self.assertRaises(ValueError, msg=f"{number} {workers} {jobs} {beta}"):
                amo.Worker(amo.Memory(1, 1), number, workers, jobs, beta=beta)

    def test_threads_that_perform_a_job_twice(self) -> None:
        registers, performed = amo.Memory(4, 200), []  # type: amo.Memory, List[int]
        threads = [threading.Thread(
            target=lambda number=number: performed.extend(amo.Worker(registers, number, 4, 200)))
            for number in range(1, 5)]
        for it in threads:
            it.start()
        for it in threads:
            it.join()
        self.assertEqual(sorted(performed), amo.standing(registers, 4, 200).recorded)
        self.assertEqual(len(set(performed)), len(performed))
        self.assertGreaterEqual(len(performed), amo.bound(4, 200))


class Watched:
    """Registers of 3 jobs that note whether a worker stores once its part is over."""

    def __init__(self) -> None:
        self.registers, self.is_over, self.has_stored = amo.Memory(1, 3), False, False
        self.load, self.guard = self.registers.load, self.registers.guard

    def store(self, place: int, value: int) -> None:
        self.has_stored |= self.is_over
        self.registers.store(place, value)


class AtLine:
    """Makes a call at a line of worker.py: that of this number, counted as the lines are run."""

    def __init__(self, number: int, call: Callable[[], object]):
        self.left, self.call = number, call

    def __call__(self, frame: types.FrameType, event: str, _: object) -> Optional[AtLine]:
        if frame.f_code.co_filename != sys.modules["amo.worker"].__file__:
            return None
        if event == "line":
            self.left -= 1
            if self.left == 0:
                sys.settrace(None)
                self.call()
        return self


class Interrupts(unittest.TestCase):
    """Signal handlers that come at each line of worker.py in turn."""

    def work(self, number: int, handler: Callable[[], object]) -> bool:
        """Performs all jobs, with a handler at the line of this number. Returns whether there is
        one."""
        self.registers = Watched()
        self.worker = alone(self.registers)
        self.performed: List[int] = []
        self.written: List[int] = []
        line = AtLine(number, handler)
        for _ in range(3):
            try:
                sys.settrace(line)
                self.written += self.worker.doubts
                for job in self.worker:
                    self.performed.append(job)
                break
            except (TimeoutError, RuntimeError):
                if self.registers.is_over:
                    self.worker.close()
                    self.worker = alone(self.registers.registers)
            finally:
                sys.settrace(None)
        self.worker.close()
        return line.left <= 0

    def at_each_line(self, handler: Callable[[], object]) -> None:
        """Has the handler come at each line in turn. No job may be performed twice. Each recorded
        one must be performed, or written down before the loop that recorded it."""
        number = 1
        while self.work(number, handler):
            standing = amo.standing(self.registers.registers, 1, 3)
            self.assertEqual(len(set(self.performed)), len(self.performed), f"line {number}")
            self.assertLessEqual(set(standing.recorded), {*self.performed, *self.written},
                                 f"line {number}")
            self.assertFalse(self.registers.has_stored, f"line {number}: its accesses go on")
            number += 1
        self.assertEqual((self.performed, self.written), ([1, 2, 3], []))
        self.assertGreater(number, 200)  # 9 accesses, each of some lines, and 4 batches for a job

    def test_an_exception_after_which_a_doubt_is_unknown(self) -> None:
        self.at_each_line(fail)

    def test_a_close_after_which_two_have_one_number(self) -> None:
        def close() -> None:
            self.worker.close()
            self.registers.is_over = True
            with alone(self.registers.registers) as worker:
                self.written += worker.doubts
                for job in worker:
                    self.performed.append(job)
                    break

        self.at_each_line(close)

    def test_a_loop_within_a_loop(self) -> None:
        def begin() -> None:
            self.written += self.worker.doubts
            for job in self.worker:
                self.performed.append(job)
            self.registers.is_over = True  # this loop has performed all jobs that were left

        self.at_each_line(begin)


class Processes(unittest.TestCase):
    """Processes of `multiprocessing` that are killed at random, and begun again."""

    def setUp(self) -> None:
        folder = tempfile.TemporaryDirectory()
        self.addCleanup(folder.cleanup)
        self.path = f"{folder.name}/noted"
        self.memory = SharedMemory(create=True, size=amo.size(3, 60))
        self.addCleanup(self.memory.unlink)
        self.addCleanup(self.memory.close)

    def live(self, number: int, lives: int) -> None:
        """Has processes work as this worker, of which all but the last are killed."""
        for _ in range(lives):
            process = multiprocessing.get_context("spawn").Process(
                target=work_in_shared_memory, args=(self.memory.name, self.path, number))
            process.start()
            process.join(random.random())
            process.kill()
            process.join()
        work_in_shared_memory(self.memory.name, self.path, number)

    def noted(self, word: str) -> List[int]:
        with open(self.path, encoding="ascii") as file:
            return [int(it.split()[1]) for it in file if it.split()[0] == word]

    def test_a_shared_memory_that_is_kept_for_a_restart(self) -> None:
        with subprocess.Popen([sys.executable, "-B", "-c", MAKER], text=True,
                              stdout=subprocess.PIPE, stderr=subprocess.DEVNULL) as maker:
            assert maker.stdout is not None
            name, child = maker.stdout.readline().split()
            maker.kill()
        # the child may still work, so the memory is there
        self.assertTrue(os.path.exists(f"/dev/shm/{name}"))
        os.kill(int(child), signal.SIGKILL)
        end = time.monotonic() + 60
        while os.path.exists(f"/dev/shm/{name}") and time.monotonic() < end:
            time.sleep(0.01)
        self.assertFalse(os.path.exists(f"/dev/shm/{name}"))

    def test_a_kill_after_which_a_job_is_performed_twice(self) -> None:
        threads = [threading.Thread(target=self.live, args=(number, 4)) for number in (1, 2, 3)]
        for it in threads:
            it.start()
        for it in threads:
            it.join()
        registers = amo.Shared(self.memory, 3, 60)
        standing = amo.standing(registers, 3, 60)
        registers.close()
        performed, known = self.noted("performed"), {*self.noted("performed")}
        known |= {*self.noted("doubt")}
        self.assertEqual(len(set(performed)), len(performed), performed)
        self.assertEqual((set(standing.recorded), standing.in_hand), (known, []))
        self.assertGreaterEqual(len(standing.recorded), amo.bound(3, 60))


class Numbers(unittest.TestCase):
    def setUp(self) -> None:
        folder = tempfile.TemporaryDirectory()
        self.addCleanup(folder.cleanup)
        self.path = f"{folder.name}/words"

    def test_a_number_that_two_workers_have(self) -> None:
        first = alone(amo.File(self.path, 1, 3))
        with self.assertRaises(amo.Taken):
            alone(amo.File(self.path, 1, 3))
        first.close()
        alone(amo.File(self.path, 1, 3)).close()
        memory = amo.Memory(1, 3)
        second = alone(memory)
        with self.assertRaises(amo.Taken):
            alone(memory)
        del second
        alone(memory).close()

    def test_a_number_that_two_workers_have_by_two_paths(self) -> None:
        folder, name = os.path.split(self.path)
        os.symlink(name, f"{self.path}.link")
        first, here = amo.File(self.path, 1, 3), os.getcwd()
        try:
            os.chdir(folder)
            second = amo.File(f"{name}.link", 1, 3)
        finally:
            os.chdir(here)
        worker = alone(first)
        with self.assertRaises(amo.Taken):
            alone(second)
        # another name of the file has locks of its own, so both would perform each job
        os.link(self.path, f"{self.path}.other")
        self.refuses(f"{self.path}.other", (1, 3), "it is missing")
        worker.close()

    def test_a_number_that_two_workers_have_by_two_texts(self) -> None:
        worker = alone(amo.File(self.path, 1, 3))
        for number in (Number.ONE, True):
            with self.assertRaises(amo.Taken):
                amo.Worker(amo.File(self.path, 1, 3), number, 1, 3)
        worker.close()
        for number in ((1 << 64) + 1, -(1 << 64) + 1):  # a call of 64 bits takes each for 1
            with self.assertRaisesRegex(ValueError, "no worker has it"):
                amo.Worker(amo.File(self.path, 1, 3), number, 1, 3)
        self.assertEqual(sorted(os.listdir(os.path.dirname(self.path))),
                         ["words", "words.1", "words.boot"])

    def test_a_worker_that_does_not_wait(self) -> None:
        first = alone(amo.File(self.path, 1, 3))
        began: List[float] = []

        def begin() -> None:
            with amo.Worker(amo.File(self.path, 1, 3), 1, 1, 3, wait=True):
                began.append(time.monotonic())

        waiting = threading.Thread(target=begin)
        waiting.start()
        time.sleep(0.2)
        self.assertEqual(began, [])
        first.close()
        waiting.join()
        self.assertEqual(len(began), 1)

    def test_a_command_that_does_not_hold_the_number(self) -> None:
        worker = alone(amo.File(self.path, 1, 3))
        with subprocess.Popen(["cat"], stdin=subprocess.PIPE,
                              pass_fds=[worker.fileno()]) as command:
            worker.close()
            with self.assertRaises(amo.Taken):
                alone(amo.File(self.path, 1, 3))
            command.communicate()
        alone(amo.File(self.path, 1, 3)).close()

    def refuses(self, path: str, numbers: Tuple[int, int], why: str) -> None:
        """Has a file refused for these numbers of workers and jobs."""
        with self.assertRaisesRegex(ValueError, why):
            amo.File(path, *numbers)

    def test_a_file_of_another_run(self) -> None:
        # beside place 0: 2 announcements, 2 claims and 2 rows of 10, or 3 of each, 3 rows of 6
        self.assertEqual(amo.size(2, 9), amo.size(3, 5))
        amo.File(self.path, 2, 9)
        for numbers in ((3, 5), (2, 8)):
            self.refuses(self.path, numbers, "its second line isn't")
        with open(f"{self.path}.boot", "r+", encoding="ascii") as file:
            file.truncate(len(file.readline()))
        self.refuses(self.path, (2, 9), "its second line isn't `2 9`")

    def test_a_file_that_was_cut(self) -> None:
        amo.File(self.path, 1, 3)
        os.truncate(self.path, 8)
        self.refuses(self.path, (1, 3), "it has 8 bytes")

    def test_other_numbers_than_those_of_the_registers(self) -> None:
        for registers in (amo.Memory(2, 9), amo.File(self.path, 2, 9)):
            for workers, jobs in ((1, 9), (2, 8), (3, 5)):
                with self.assertRaisesRegex(ValueError, "2 workers and 9 jobs"):
                    amo.Worker(registers, 1, workers, jobs)
                with self.assertRaisesRegex(ValueError, "2 workers and 9 jobs"):
                    amo.standing(registers, workers, jobs)

    def test_a_file_of_an_earlier_boot(self) -> None:
        amo.File(self.path, 1, 3)
        amo.File(self.path, 1, 3)
        for text in ("00000000-0000-0000-0000-000000000000\n1 3\n", ""):
            with open(f"{self.path}.boot", "w", encoding="ascii") as file:
                file.write(text)
            self.refuses(self.path, (1, 3), "earlier boot")

    def test_registers_whose_maker_was_killed(self) -> None:
        amo.File(self.path, 1, 3)
        with open(f"{self.path}.boot", encoding="ascii") as note:
            whole = note.read()
        making = f"{whole}making\n"
        for length in (0, amo.size(1, 3)):
            self.leave(making, length)
            amo.File(self.path, 1, 3)
            with open(f"{self.path}.boot", encoding="ascii") as note:
                self.assertEqual(note.read(), whole)
            self.assertEqual(os.path.getsize(self.path), amo.size(1, 3))
        earlier = "00000000-0000-0000-0000-000000000000\n1 3\nmaking\n"
        for text in (whole, "", earlier, making.replace("\n1 3\n", "\n1 4\n")):
            self.leave(text, 0)
            self.refuses(self.path, (1, 3), "they are gone")
        self.leave(making, 8)
        self.refuses(self.path, (1, 3), "its second line isn't")

    def leave(self, text: str, length: int) -> None:
        """Leaves the note with a text, and the registers with a length and without a store."""
        with open(f"{self.path}.boot", "w", encoding="ascii") as note:
            note.write(text)
        os.truncate(self.path, 0)
        os.truncate(self.path, length)

    def test_registers_that_are_removed_while_they_are_made(self) -> None:
        real = os.truncate

        def cut(file: Any, length: int) -> None:
            real(file, length)
            if file == f"{self.path}.boot":  # another process has made the file anew by now
                os.unlink(self.path)
                open(self.path, "xb").close()

        with mock.patch("os.truncate", cut):
            self.refuses(self.path, (1, 3), "it was removed while it was made")

    def test_registers_without_their_note(self) -> None:
        self.assertEqual(list(alone(amo.File(self.path, 1, 3))), [1, 2, 3])
        shutil.copy(self.path, f"{self.path}.copy")
        self.refuses(f"{self.path}.copy", (1, 3), "it is missing")
        boot = f"{self.path}.boot"
        os.rename(boot, f"{boot}.kept")
        self.refuses(self.path, (1, 3), "it is missing")
        os.symlink("nowhere", boot)
        self.refuses(self.path, (1, 3), "it is missing")
        os.unlink(boot)
        os.symlink("words.boot", boot)  # a link to itself, which can't be looked at
        with self.assertRaises(OSError):
            amo.File(self.path, 1, 3)
        os.rename(f"{boot}.kept", boot)
        self.assertEqual(list(alone(amo.File(self.path, 1, 3))), [])

    def test_a_file_that_gets_the_number_of_a_standard_stream(self) -> None:
        registers = amo.File(self.path, 1, 3)
        calls: List[Callable[[], object]] = [lambda: amo.File(self.path, 1, 3),
                                             lambda: alone(registers)]
        child = os.fork()
        if child == 0:
            refused = 0
            for stream in (0, 1, 2):
                kept = os.dup(stream)
                os.close(stream)
                for call in calls:
                    try:
                        call()
                    except OSError:
                        refused += 1
                os.dup2(kept, stream)
            os._exit(refused)
        self.assertEqual(os.waitstatus_to_exitcode(os.waitpid(child, 0)[1]), 3 * len(calls))

    def test_registers_that_find_no_room_later(self) -> None:
        amo.File(self.path, 16, 4096)
        found = os.stat(self.path)
        self.assertGreaterEqual(512 * found.st_blocks, found.st_size)

    def test_registers_that_are_gone_and_begin_anew(self) -> None:
        self.assertEqual(list(alone(amo.File(self.path, 1, 3))), [1, 2, 3])
        os.unlink(self.path)
        for _ in range(2):  # the first call leaves an empty file
            with self.assertRaisesRegex(ValueError, "they are gone"):
                amo.File(self.path, 1, 3)
        # a mistake: without the note the jobs are performed twice
        os.unlink(f"{self.path}.boot")
        self.assertEqual(list(alone(amo.File(self.path, 1, 3))), [1, 2, 3])

    def test_a_place_beyond_the_registers(self) -> None:
        registers = amo.File(self.path, 1, 3)
        for place in (-1, amo.size(1, 3) // 8):
            with self.assertRaises(IndexError):
                registers.load(place)
            with self.assertRaises(IndexError):
                registers.store(place, 1)


if __name__ == "__main__":
    unittest.main()
