"""Tests of what processes of `multiprocessing` do with registers and workers, and of the example
payday.py. Begin with `Children`. loops.py runs them."""

from __future__ import annotations

import copy
import multiprocessing
import os
import pickle
import random
import re
import signal
import subprocess
import sys
import tempfile
import threading
import time
import unittest
from multiprocessing.shared_memory import SharedMemory
from typing import Any, Callable, Dict, List, Tuple

import amo
from amo import jobs as lists

ROOT = os.path.dirname(os.path.dirname(os.path.dirname(os.path.realpath(__file__))))
METHODS = ("fork", "spawn", "forkserver")
LONGEST = 120  # seconds of a program
LONGEST_CALL = 30  # seconds of a call in a child
REFUSED = 7  # the status of a call that raises RuntimeError
# A main module, which makes something, and whose processes work over registers.
PROGRAM = """
import multiprocessing, os, sys, amo
from multiprocessing.shared_memory import SharedMemory
{made}
def work(number):
    with amo.Worker({registers}, number, 2, 6, wait=True) as worker:
        for job in worker:
            os.write(1, b"performed %d\\n" % job)
if __name__ == "__main__":
    context = multiprocessing.get_context(sys.argv[1])
    crew = [context.Process(target=work, args=(number,)) for number in (1, 2)]
    for it in crew:
        it.start()
    for it in crew:
        it.join()
"""
MEMORY = "memory = SharedMemory(create=True, size=amo.size(2, 6))"
OWN, COPY = "an import in process", "this Memory belongs to process"  # errors
# A line of a main module, the registers of its processes, and the errors of processes that are
# started by fork, and by the other methods.
MADE = [("registers = amo.Memory(2, 6)", "registers", COPY, OWN),
        ("class Kept:\n    registers = amo.Memory(2, 6)", "Kept.registers", COPY, OWN),
        ("", "__import__('settings').registers", OWN, OWN),
        (f"{MEMORY}; registers = amo.Shared(memory, 2, 6)", "registers", "", OWN),
        (MEMORY, "amo.Shared(memory, 2, 6)", "", OWN),
        ("registers = amo.File('words', 2, 6)", "registers", "", "")]
SETTINGS = "import amo; registers = amo.Memory(2, 6)"
PAYDAY = "import multiprocessing, payday, sys; multiprocessing.set_start_method(sys.argv[1])" \
         "; payday.main('.')"
LATE = "import payday; left = payday.close('words', 2, payday.BILLS)" \
       "; payday.work('words', 1, 2, payday.BILLS); payday.work('rest', 1, 1, left)"


class Slow(amo.Memory):
    """Registers whose stores wait until they may land."""

    def __init__(self) -> None:
        super().__init__(1, 3)
        self.begins, self.may_land = threading.Event(), threading.Event()

    def store(self, place: int, value: int) -> None:
        self.begins.set()
        self.may_land.wait(LONGEST)
        super().store(place, value)


def status_of(call: Callable[[], object]) -> int:
    """Returns the status of a forked child that makes this call. Raises TimeoutError if it makes
    it for ever."""
    child = os.fork()
    if child == 0:
        status = 1
        try:
            call()
            status = 0
        except RuntimeError:
            status = REFUSED
        finally:
            os._exit(status)
    end = time.monotonic() + LONGEST_CALL
    while time.monotonic() < end:
        found, code = os.waitpid(child, os.WNOHANG)
        if found:
            return os.waitstatus_to_exitcode(code)
        time.sleep(0.01)
    os.kill(child, signal.SIGKILL)
    os.waitpid(child, 0)
    raise TimeoutError("a child goes on for ever")


def end_by(way: str, path: str) -> None:
    """Ends in this way while job 2 is in the hand. It is a process of multiprocessing."""
    ways: Dict[str, Callable[[], object]] = {
        "an exception": lambda: int("x"), "sys.exit": lambda: sys.exit(3),
        "os._exit": lambda: os._exit(3), "SIGKILL": lambda: os.kill(os.getpid(), signal.SIGKILL)}
    os.dup2(os.open(os.devnull, os.O_WRONLY), 2)
    with amo.Worker(amo.File(path, 1, 3), 1, 1, 3) as worker:
        for job in worker:
            if job == 2:
                ways[way]()


class Children(unittest.TestCase):
    def setUp(self) -> None:
        folder = tempfile.TemporaryDirectory()
        self.addCleanup(folder.cleanup)
        self.folder = folder.name

    def printed(self, program: str, method: str) -> Tuple[List[int], str]:
        """Returns the jobs that a program performs, and all that it prints, in a new folder."""
        folder = tempfile.mkdtemp(dir=self.folder)
        for name, text in (("program.py", program), ("settings.py", SETTINGS)):
            with open(f"{folder}/{name}", "w", encoding="ascii") as file:
                file.write(text)
        with subprocess.Popen([sys.executable, "-B", "program.py", method], cwd=folder, text=True,
                              stdout=subprocess.PIPE, stderr=subprocess.STDOUT,
                              start_new_session=True) as ran:
            try:
                text, _ = ran.communicate(timeout=LONGEST)
            finally:
                if ran.returncode is None:
                    os.killpg(ran.pid, signal.SIGKILL)
        return [int(it) for it in re.findall(r"^performed (\d+)$", text, re.M)], text

    def memory(self, name: str = "") -> SharedMemory:
        made = SharedMemory(name or None, create=True, size=amo.size(1, 3))
        self.addCleanup(made.close)
        return made

    def test_registers_that_each_process_makes(self) -> None:
        for made, registers, of_fork, of_others in MADE:
            for method in METHODS:
                why = of_fork if method == "fork" else of_others
                jobs, text = self.printed(PROGRAM.format(made=made, registers=registers), method)
                if why:
                    refused = text.count(f"\nRuntimeError: registers: {why}")
                    self.assertEqual((jobs, refused), ([], 2), f"{method}: {text}")
                else:
                    self.assertEqual(len(set(jobs)), len(jobs), text)
                    self.assertGreaterEqual(len(jobs), amo.bound(2, 6), text)

    def test_a_main_module_that_waits_for_its_own_worker(self) -> None:
        for waits in (False, True):
            made = f"worker = amo.Worker(amo.File('words', 2, 6), 1, 2, 6, wait={waits})"
            for method in ("spawn", "forkserver"):
                jobs, text = self.printed(PROGRAM.format(made=made, registers="worker"), method)
                self.assertEqual(jobs, [])
                self.assertIn("imports its main module; put what the program does below", text)

    def test_registers_that_are_sent(self) -> None:
        memory, file = self.memory(), amo.File(f"{self.folder}/words", 1, 3)
        self.addCleanup(memory.unlink)
        registers = amo.Shared(memory, 1, 3)
        self.addCleanup(registers.close)
        calls: List[Callable[[object], object]] = [pickle.dumps, copy.copy, copy.deepcopy]
        for it in (file, registers, amo.Memory(1, 3), file.guard(1)):
            for call in calls:
                with self.assertRaisesRegex(TypeError, "a copy would|can't be copied, or sent"):
                    call(it)

    def test_an_error_that_a_pool_waits_for(self) -> None:
        # a Pool never returns if a process of it sends an error that can't be made anew
        for error in (lists.Refused(75, "list: wait"), amo.Taken("worker 1"), amo.Damaged("all")):
            found = pickle.loads(pickle.dumps(error))
            self.assertEqual((type(found), str(found)), (type(error), str(error)))
            self.assertEqual(vars(found), vars(error))

    def test_a_child_that_waits_for_a_thread_of_its_parent(self) -> None:
        registers, performed = Slow(), []  # type: Slow, List[int]
        worker = amo.Worker(registers, 1, 1, 3)
        thread = threading.Thread(target=lambda: performed.extend(worker))
        thread.start()
        registers.begins.wait(LONGEST)
        try:
            self.assertEqual(status_of(lambda: iter(worker)), REFUSED)
            self.assertEqual(status_of(lambda: worker.doubts), 0)
            self.assertEqual(status_of(worker.close), 0)
        finally:
            registers.may_land.set()
            thread.join()
        self.assertEqual(performed, [1, 2, 3])

    def test_a_child_that_sees_an_old_copy(self) -> None:
        registers = amo.Memory(1, 3)
        self.assertEqual(status_of(lambda: amo.standing(registers, 1, 3)), REFUSED)
        self.assertEqual(status_of(lambda: amo.Worker(registers, 1, 1, 3)), REFUSED)

    def test_a_number_that_two_have_after_an_unlink(self) -> None:
        memory = self.memory(f"amo_children_{os.getpid()}")
        crew = [amo.Shared(memory, 1, 3) for _ in range(2)]
        worker = amo.Worker(crew[0], 1, 1, 3)
        memory.unlink()
        with self.assertRaisesRegex(OSError, "it was unlinked"):
            amo.Worker(crew[1], 1, 1, 3)
        other = self.memory(memory.name)
        self.addCleanup(other.unlink)
        with self.assertRaisesRegex(OSError, "it was unlinked"):
            amo.Worker(crew[1], 1, 1, 3)
        worker.close()
        for it in crew:
            it.close()

    def test_an_end_that_leaves_no_doubt(self) -> None:
        for method in METHODS:
            context: Any = multiprocessing.get_context(method)
            for way in ("an exception", "sys.exit", "os._exit", "SIGKILL"):
                path = f"{self.folder}/{method} {way}"
                process = context.Process(target=end_by, args=(way, path))
                process.start()
                process.join()
                self.assertNotEqual(process.exitcode, 0)
                worker = amo.Worker(amo.File(path, 1, 3), 1, 1, 3)
                self.assertEqual((worker.doubts, list(worker)), ([2], [3]), f"{method} {way}")


class Payday(unittest.TestCase):
    """Processes of the example payday.py that are killed at random, and begun again."""

    def setUp(self) -> None:
        folder = tempfile.TemporaryDirectory()
        self.addCleanup(folder.cleanup)
        self.folder = folder.name
        self.groups: List[int] = []  # of the processes of each start
        self.addCleanup(self.kill_all)

    def start(self, method: str, program: str = PAYDAY) -> "subprocess.Popen[bytes]":
        path = os.pathsep.join([f"{ROOT}/examples/python", os.environ.get("PYTHONPATH", "")])
        started = subprocess.Popen([sys.executable, "-B", "-c", program, method], cwd=self.folder,
                                   stdout=subprocess.DEVNULL, stderr=subprocess.DEVNULL,
                                   start_new_session=True, env={**os.environ, "PYTHONPATH": path})
        self.groups.append(started.pid)
        return started

    def status_of(self, program: "subprocess.Popen[bytes]") -> int:
        """Returns the status of a program once it has ended. Kills all if it goes on for ever."""
        try:
            return program.wait(LONGEST)
        except subprocess.TimeoutExpired:
            self.kill_all()
            raise

    def kill_all(self) -> None:
        """Kills the processes of all starts, and returns once they are gone."""
        while members(self.groups):
            kill(members(self.groups))

    def kill_some(self) -> None:
        """Kills the processes of all starts, or one process."""
        alive = members(self.groups)
        kill(alive if random.random() < 0.5 else random.sample(alive, min(1, len(alive))))

    def lines(self, name: str) -> List[str]:
        if not os.path.exists(f"{self.folder}/{name}"):
            return []
        with open(f"{self.folder}/{name}", encoding="ascii") as file:
            return file.read().splitlines()

    def remove_unmade(self) -> None:
        """Removes registers that no worker has begun to use. A process was killed as it made them.
        """
        for path in (f"{self.folder}/words", f"{self.folder}/rest"):
            if is_unused(path):
                self.kill_all()
            if is_unused(path):  # still so: before, a process may have begun after the look
                os.unlink(path)
                os.unlink(f"{path}.boot")

    def run_to_the_end(self, method: str, kills: int) -> None:
        """Starts the program until it ends with status 0. Kills some of its processes before."""
        for left in range(kills, -9, -1):
            with self.start(method) as program:
                if left > 0:
                    time.sleep(random.uniform(0.1, 0.6))
                    self.kill_some()
                if self.status_of(program) == 0:
                    return
            self.remove_unmade()
        self.fail("the program doesn't end with status 0")

    def test_a_worker_that_begins_after_the_registers_are_closed(self) -> None:
        with self.start("fork", LATE) as program:
            self.assertEqual(self.status_of(program), 0)
        self.assertEqual(self.lines("paid"), [f"bill {number}" for number in range(1, 11)])

    def test_a_bill_that_is_paid_twice(self) -> None:
        for method in METHODS:
            for run in range(3):
                self.kill_all()  # also those that wait for a number
                for name in os.listdir(self.folder):
                    os.unlink(f"{self.folder}/{name}")
                self.run_to_the_end(method, kills=run + 1)
                paid, known = self.lines("paid"), {*self.lines("paid"), *self.lines("doubts")}
                self.assertEqual(len(set(paid)), len(paid), f"{method}: {paid}")
                self.assertEqual(known, {f"bill {number}" for number in range(1, 11)})


def is_unused(path: str) -> bool:
    """Returns whether these registers have a note, and no worker has begun."""
    locks = [f"{path}.{number}" for number in (1, 2)]
    return os.path.exists(f"{path}.boot") and not any(map(os.path.exists, locks))


def kill(processes: List[int]) -> None:
    for process in processes:
        try:
            os.kill(process, signal.SIGKILL)
        except ProcessLookupError:  # it has ended meanwhile
            pass


def members(groups: List[int]) -> List[int]:
    """Returns the processes of these groups that are alive."""
    found = []
    for name in filter(str.isdigit, os.listdir("/proc")):
        try:
            with open(f"/proc/{name}/stat", encoding="utf-8", errors="replace") as file:
                state, _, group = file.read().rpartition(")")[2].split()[:3]
        except OSError:  # it has ended meanwhile
            continue
        if int(group) in groups and state not in "ZX":
            found.append(int(name))
    return found
