"""The processes below this one: who they are, which belong to an attempt, and signals to them."""

import os
import signal
import subprocess
import sys
import tempfile
import time
import unittest
from unittest import mock

from package import until
from amo_jobs import calls
from amo_jobs.calls import Process
from amo_jobs.processes import (
    below, described, Family, has_open, holders, named, Signals
)

SLEEPS = "exec sleep 60"


def process_of(number):
    return Process(number, calls.start_of(number))


class Processes(unittest.TestCase):
    """Children of this process, which ends them all."""

    def setUp(self):
        calls.become_subreaper()
        self.family = Family()
        self.addCleanup(os.close, self.family.file)
        self.addCleanup(self.end_all)

    def end_all(self):
        while numbers := self.family.others(()):
            for it in numbers:
                os.kill(it, signal.SIGKILL)
            calls.reap()

    def start(self, script, folder="sh"):
        """Starts a shell; returns its number."""
        words = [b"sh", b"-c", script.encode(), folder.encode()]
        return calls.spawn(words, {})

    def programs(self):
        return [calls.program_of(it.number) for it in self.family.rest((), ())]

    def test_children_are_found_until_they_are_reaped(self):
        number = self.start("exit 3")
        self.assertEqual(self.family.others(()), [number])
        self.assertEqual(self.family.others([number]), [])
        ended = {}
        until(lambda: ended.update(calls.reap()[0]) or ended)
        self.assertEqual(ended, {number: 3})
        self.assertEqual(self.family.others(()), [])
        self.assertEqual(calls.reap(), ({}, False))

    def test_a_signal_is_a_status_below_0(self):
        number = self.start("kill -9 $$")
        ended = {}
        until(lambda: ended.update(calls.reap()[0]) or ended)
        self.assertEqual(ended, {number: -9})

    def test_many_children_are_reaped(self):
        numbers = {self.start("exit 0") for _ in range(129)}
        ended = {}
        until(lambda: ended.update(calls.reap()[0]) or len(ended) == len(numbers))
        self.assertEqual(ended, dict.fromkeys(numbers, 0))

    def test_a_living_child_is_no_end(self):
        self.start(SLEEPS)
        self.assertEqual(calls.reap(), ({}, True))

    def test_who_loses_its_parent_comes_here(self):
        number = self.start("setsid sh -c 'sleep 60 & wait' < /dev/null & exec sleep 60")
        until(lambda: len(self.family.rest((), ())) == 3)
        grandchild = calls.children_of(number)[0]
        os.kill(number, signal.SIGKILL)
        until(lambda: calls.reap()[0])
        self.assertEqual(self.family.others(()), [grandchild])
        self.assertEqual(len(self.family.rest((), ())), 2)

    def test_children_of_each_thread_are_found(self):
        script = ("import subprocess, threading\n"
                  "it = threading.Thread(target=lambda: subprocess.run(['sleep', '60']))\n"
                  "it.start()\nit.join()\n")
        words = [os.fsencode(sys.executable), b"-c", script.encode()]
        calls.spawn(words, {})
        until(lambda: "sleep" in self.programs())

    def test_a_child_gets_each_file_under_its_number(self):
        with tempfile.TemporaryDirectory() as room:
            files = [os.open(f"{room}/{name}", os.O_RDWR | os.O_CREAT) for name in "ab"]
            for file, name in zip(files, (b"a", b"b")):
                os.write(file, name)
                self.addCleanup(os.close, file)
            one, two = files  # each has the other's number
            shows = f"cat /proc/self/fd/{one} /proc/self/fd/{two} /proc/self/fd/0 > {room}/shown"
            number, ended = calls.spawn([b"sh", b"-c", shows.encode()], {one: two, two: one}), {}
            until(lambda: ended.update(calls.reap()[0]) or number in ended)
            with open(f"{room}/shown", "rb") as file:
                self.assertEqual(file.read(), b"ba")

    def test_a_snapshot_leaves_out_earlier_children(self):
        early = self.start(SLEEPS)
        before = self.family.snapshot(())
        self.assertEqual(before, {process_of(early)})
        late = self.start(SLEEPS)
        self.assertEqual(self.family.rest(before, ()), [process_of(late)])
        self.assertEqual(self.family.rest(before, [late]), [])

    def test_a_number_that_is_given_again_is_another_process(self):
        number = self.start(SLEEPS)
        before = {Process(number, calls.start_of(number) - 1)}
        self.assertEqual(self.family.rest(before, ()), [process_of(number)])

    def test_named_programs_may_be_left(self):
        number = self.start("sleep 60 & exec sleep 61")
        until(lambda: self.programs() == ["sleep", "sleep"])
        self.family.may_leave = frozenset({"sleep"})
        self.assertEqual(self.family.rest((), ()), [])
        # the command itself counts, whatever its name is; its children may be named
        self.assertEqual(self.family.rest((), (), number), [process_of(number)])
        self.family.may_leave = frozenset({"slee"})
        self.assertEqual(len(self.family.rest((), ())), 2)

    def test_what_is_below_a_named_program_may_be_left_too(self):
        self.start("(sleep 60; true) & wait")
        until(lambda: len(self.family.rest((), ())) == 3)
        self.family.may_leave = frozenset({calls.program_of(self.family.others(())[0])})
        self.assertEqual(self.family.rest((), ()), [])

    def test_a_list_that_cannot_be_read_is_an_error(self):
        file, self.family.file = self.family.file, -1
        self.assertRaises(OSError, self.family.rest, (), ())
        self.family.file = file

    def test_a_list_may_be_longer_than_a_page(self):
        for numbers in (list(range(1, 4097)), [4194304, 1]):
            with tempfile.TemporaryFile() as file:
                file.write(b"".join(b"%d " % it for it in numbers))
                file.flush()
                self.assertEqual(calls.read_others(file.fileno()), numbers)
                self.assertEqual(calls.read_others(file.fileno(), 1), [it for it in numbers if it > 1])
        with tempfile.TemporaryFile() as file:
            file.write(b"1 " * 4097)
            file.flush()
            self.assertRaises(OSError, calls.read_others, file.fileno())

    def test_processes_that_are_gone_are_left_out(self):
        self.assertEqual(named([0]), [])
        self.assertEqual(below([Process(0, 0)], lambda _: True), [])
        self.assertEqual(calls.children_of(0), [])
        self.assertEqual((calls.program_of(0), calls.words_of(0)), ("", []))
        self.assertEqual(calls.files_of(0), [])

    def test_who_holds_a_file(self):
        number = self.start("exec sleep 60 < /etc/passwd")
        until(lambda: calls.program_of(number) == "sleep")
        self.assertTrue(has_open(process_of(number), ("/etc/pass",)))
        self.assertFalse(has_open(process_of(number), ("/etc/group",)))
        self.assertFalse(has_open(Process(0, 0), ("/etc/passwd",)))
        self.assertIn("/etc/passwd", calls.files_of(number))

    def test_what_only_a_runner_sees_is_named(self):
        with tempfile.TemporaryDirectory() as run:
            run = os.path.realpath(run)
            for keeper in ("runner.1", "crew"):
                with open(f"{run}/{keeper}", "w") as file:
                    calls.sign(file.name)
                    unseen = self.start(SLEEPS)
                    self.start(f"{SLEEPS} 3> $0/journal.1", run)  # the worker
                    command = self.start(f"{SLEEPS} 3> $0/command.1.2", run)
                    until(lambda: self.programs() == ["sleep"] * 3)
                    found = holders(run, ["1.2"])
                    self.assertEqual([it.split(" ")[1] for it in found["1.2"]],
                                     [str(command), str(unseen)])
                self.assertEqual(len(holders(run, ["1.2"])["1.2"]), 1)
                self.end_all()

    def test_a_signal_reaches_a_whole_tree_and_what_it_starts_meanwhile(self):
        self.start("trap '' TERM; sleep 60 & sleep 61 & wait; exec sleep 62")
        until(lambda: len(self.family.rest((), ())) == 3)
        told = []
        signals = Signals(told.append)
        signals.send(signal.SIGKILL, lambda: self.family.rest((), ()))
        until(lambda: calls.reap() and not self.family.others(()))
        self.assertEqual(told, [])

    def test_a_signal_is_sent_once_to_each(self):
        processes = [[Process(1, 1)], [Process(1, 1), Process(2, 2)], [Process(2, 2)]]
        with mock.patch.object(calls, "send") as send:
            Signals(print).send(signal.SIGTERM, lambda: processes.pop(0))
        self.assertEqual([it.args[0].number for it in send.mock_calls], [1, 2])

    def test_a_sweep_ends(self):
        with mock.patch.object(calls, "send") as send:
            count = iter(range(1, 10**6))
            Signals(print).send(signal.SIGTERM, lambda: [Process(next(count), 1)])
        self.assertLess(len(send.mock_calls), 100)

    def test_a_refused_signal_is_told_and_not_repeated(self):
        told = []
        signals, process = Signals(told.append), [Process(4711, 1)]
        error = PermissionError(1, "Not permitted")
        with mock.patch.object(calls, "send", side_effect=error) as send:
            for _ in range(2):
                signals.send(signal.SIGTERM, lambda: process)
        self.assertEqual(len(send.mock_calls), 1)
        self.assertEqual(told, ["process 4711 (no words): it can't be sent a signal: not permitted;"
                                " wait for its end, or end it as its user"])

    def test_a_want_of_descriptors_is_no_refusal(self):
        told = []
        signals, process = Signals(told.append), [Process(4711, 1)]
        with mock.patch.object(calls, "send", side_effect=OSError(24, "Too many")) as send:
            for _ in range(2):
                signals.send(signal.SIGTERM, lambda: process)
        self.assertEqual((len(send.mock_calls), told), (2, []))

    def test_processes_that_cannot_be_seen_end_no_sender(self):
        Signals(print).send(signal.SIGTERM, mock.Mock(side_effect=OSError(75, "Overflow")))

    def test_no_other_process_gets_a_signal(self):
        number = self.start(SLEEPS)
        calls.send(Process(number, calls.start_of(number) + 1), signal.SIGKILL)
        calls.send(Process(0x3fffff, 1), signal.SIGKILL)
        time.sleep(0.05)
        self.assertEqual(calls.reap(), ({}, True))
        calls.send(process_of(number), signal.SIGKILL)
        until(lambda: calls.reap()[0])


class Words(unittest.TestCase):
    """The name of a process for the operator."""

    def test_described(self):
        self.assertEqual(described([Process(0, 0)]), "process 0 (no words)")
        ran = subprocess.Popen(["sleep", "60"])
        self.assertIn(f"process {ran.pid} (", described([process_of(ran.pid)]))
        ran.kill()
        ran.wait()


if __name__ == "__main__":
    unittest.main()
