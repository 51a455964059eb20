"""The command of one attempt: how it is started, when it was not, and what is left of it."""

import errno
import fcntl
import os
import signal
import stat
import sys
import tempfile
import time
import unittest
from contextlib import suppress
from unittest import mock

import package  # noqa: F401

from amo_jobs import calls, starter
from amo_jobs.command import Command, NotStarted
from amo_jobs.locks import close_all, locked
from amo_jobs.processes import Family
from amo_jobs.runner_state import Rest
from amo_jobs.settings import Settings
from amo_jobs.starter import OUTPUTS, Starter
from package import until

SHOWS = """
import os, signal, sys
print(sys.argv[1:], os.environ["AMO_JOB"], os.environ["AMO_LINE"], os.environ["AMO_RUN_ID"],
      os.getsid(0) == os.getpid())
print(sorted(os.readlink(f"/proc/self/fd/{it}").rpartition("/")[2] + f" {it}"
             for it in os.listdir("/proc/self/fd") if os.path.exists(f"/proc/self/fd/{it}")))
"""
SLEEPS = "exec sleep 60"


class Case(unittest.TestCase):
    """Commands of worker 3, in a folder of their own."""

    timeout = None

    def setUp(self):
        calls.become_subreaper()
        signal.signal(signal.SIGCHLD, signal.SIG_DFL)
        for file in map(int, os.listdir("/proc/self/fd")):
            with suppress(OSError):  # as a runner does at its start
                os.set_inheritable(file, file < 3)
        self.room = tempfile.TemporaryDirectory()
        self.addCleanup(self.room.cleanup)
        self.run = os.path.realpath(self.room.name)
        self.family = Family()
        self.addCleanup(self.end_all)
        self.serial, self.ended = 0, {}

    def end_all(self):
        while numbers := self.family.others(()):
            for it in numbers:
                os.kill(it, signal.SIGKILL)
            calls.reap()
        os.close(self.family.file)

    def commands(self, *words, **more):
        settings = Settings(command=list(words), run=self.run, results=self.run, id="abc",
                            timeout=self.timeout, **more)
        return Starter(settings, 3)

    def is_free(self, found):
        """Returns whether a handle that is opened anew gets the lock of a command."""
        lock = locked(found.path, False)
        close_all([lock] if lock else [])
        return lock is not None

    def start(self, commands, text=b"pay"):
        self.serial += 1
        found = Command(commands, self.family, self.serial, 7)
        found.start(text, ())
        return found

    def end(self, found):
        """Waits for the end of the command's process; returns its status."""
        def is_reaped():
            self.ended.update(calls.reap()[0])
            return found.process in self.ended
        if found.status is None:
            until(is_reaped)
            found.status = self.ended[found.process]
        found.ended()
        return found.status

    def text(self, name):
        with open(f"{self.run}/{name}") as file:
            return file.read()

    def written(self, name):
        """Makes a file, and returns its path."""
        with open(f"{self.run}/{name}", "w", encoding="ascii"):
            return f"{self.run}/{name}"

    def files(self):
        return sorted(it for it in os.listdir(self.run) if it[-4:] != ".txt")


class Spawned(Case):
    """Commands without a timeout."""

    def test_it_ends_and_leaves_nothing(self):
        found = self.start(self.commands("sh", "-c", "exit 3"))
        self.assertEqual(self.end(found), 3)
        self.assertIs(found.rest(()), Rest.NOTHING)
        self.assertFalse(os.path.exists(f"{self.run}/command.3.1"))

    def test_its_words_and_surroundings(self):
        for words, shown in ((["{}", "x"], "['a  b', 'x']"), (["x"], "['x', 'a  b']")):
            found = self.start(self.commands(sys.executable, "-c", SHOWS, *words), b"a  b")
            self.end(found)
            self.assertEqual(self.text(f"out.3.{self.serial}").splitlines()[0],
                             f"{shown} a  b 7 abc True")

    def test_its_files(self):
        held = os.open(self.run, os.O_RDONLY)  # a file of the runner, which no command gets
        self.end(self.start(self.commands(sys.executable, "-I", "-S", "-c", SHOWS)))
        os.close(held)
        files = self.text("out.3.1").splitlines()[1]
        wanted = ["command.3.1 0", "command.3.1 50", "err.3.1 2", "out.3.1 1"]
        self.assertEqual(files, str(wanted))

    def test_signals_are_not_ignored(self):
        self.end(self.start(self.commands("sh", "-c", "cat /proc/$$/status")))
        ignored, = (it for it in self.text("out.3.1").splitlines() if it.startswith("SigIgn:"))
        for number in calls.IGNORED_BY_PYTHON:  # and exec would hand that on
            self.assertFalse(int(ignored.split()[1], 16) >> number - 1 & 1)

    def test_outputs_are_there_from_the_first_byte(self):
        found = self.start(self.commands("sh", "-c", "echo out; echo err >&2; sleep 60"))
        until(lambda: (self.text("out.3.1"), self.text("err.3.1")) == ("out\n", "err\n"))
        mode = stat.S_IMODE(os.stat(f"{self.run}/out.3.1").st_mode)
        self.assertEqual(mode, 0o600)
        os.kill(found.process, signal.SIGKILL)
        self.assertEqual(self.end(found), -9)

    def test_the_lock_is_held_by_the_command(self):
        found = self.start(self.commands("sh", "-c", SLEEPS))
        os.close(found.locks.pop())
        self.assertFalse(found.starter.free(1))
        os.kill(found.process, signal.SIGKILL)
        self.end(found)
        self.assertTrue(found.starter.free(1))
        self.assertTrue(found.starter.free(1))  # a missing file counts as free

    def test_what_holds_the_lock_is_seen(self):
        script = "sleep 60 & echo $! > left.txt"
        found = self.start(self.commands("sh", "-c", f"cd {self.run}; {script}"))
        self.end(found)
        self.assertIs(found.rest(()), Rest.SEEN)
        os.kill(int(self.text("left.txt")), signal.SIGKILL)
        until(lambda: found.rest(calls.reap() and ()) is Rest.NOTHING)

    def leave_unseen(self):
        """Starts a command that leaves a process which has closed all of the command's files."""
        script = ("import os, subprocess, sys\n"
                  "it = subprocess.Popen(['sleep', '60'], stdin=subprocess.DEVNULL)\n"
                  f"open({self.run!r} + '/left.txt', 'w').write(str(it.pid))\n")
        found = self.start(self.commands(sys.executable, "-c", script))
        self.end(found)
        return found, int(self.text("left.txt"))

    def test_what_is_unseen_has_the_lock_taken_again(self):
        found, number = self.leave_unseen()
        for _ in range(2):
            self.assertIs(found.rest(()), Rest.UNSEEN)
            self.assertFalse(self.is_free(found))
        os.kill(number, signal.SIGKILL)
        until(lambda: found.rest(calls.reap() and ()) is Rest.NOTHING)
        self.assertEqual(self.files(), [])

    def test_a_missing_lock_is_made_again(self):
        found, _ = self.leave_unseen()
        os.unlink(found.path)
        self.assertIs(found.rest(()), Rest.UNSEEN)
        self.assertFalse(self.is_free(found))

    def test_one_that_holds_the_lock_hides_nobody(self):
        script = ("import subprocess\n"
                  "subprocess.Popen(['sleep', '60'], stdin=subprocess.DEVNULL)\n"
                  "subprocess.Popen(['sleep', '60'], close_fds=False)\n")
        found = self.start(self.commands(sys.executable, "-c", script))
        self.end(found)
        self.assertIs(found.rest(()), Rest.UNSEEN)
        self.assertEqual(found.locks, [])

    def test_one_that_has_opened_the_lock_anew_holds_none(self):
        script = ("import subprocess\n"
                  "subprocess.Popen(['sleep', '60'], close_fds=False)\n")
        anew = "subprocess.Popen(['sleep', '60'], stdin=open('/dev/fd/50'))\n"
        for more, rest in (("", Rest.SEEN), (anew, Rest.UNSEEN)):
            found = self.start(self.commands(sys.executable, "-c", script + more))
            self.end(found)
            self.assertIs(found.rest(()), rest)
            self.assertEqual(found.locks, [])

    def test_a_lock_in_which_a_command_has_written_serves_no_other(self):
        commands = self.commands("sh", "-c", "cat; echo secret > /dev/stdin")
        for serial in (1, 2):
            found = self.start(commands)
            self.end(found)
            self.assertEqual(self.text(f"out.3.{serial}"), "")
            self.assertIs(found.rest(()), Rest.NOTHING)

    def test_a_file_with_the_name_of_a_lock_is_not_replaced(self):
        commands = self.commands("true")
        found = self.start(commands)
        self.end(found)
        self.assertIs(found.rest(()), Rest.NOTHING)
        lock = locked(self.written("command.3.2"), True)
        with self.assertRaisesRegex(NotStarted, "it is locked by another process"):
            self.start(commands)
        os.close(lock)

    def test_outputs_that_something_may_write_serve_no_other_command(self):
        sleep = frozenset({os.path.basename(os.path.realpath("/bin/sleep"))})
        for may_leave, error, rest in ((sleep, None, Rest.NOTHING),
                                       (frozenset(), OSError(12, "no memory"), Rest.UNSEEN)):
            self.family.may_leave = may_leave
            found, _ = self.leave_unseen()
            former = os.stat(f"{self.run}/out.3.{self.serial}")
            with mock.patch.object(self.family, "rest", return_value=[], side_effect=error):
                self.assertIs(found.rest(()), rest)
            self.serial += 1
            Command(found.starter, self.family, self.serial, 7).start(b"pay", ())
            following = os.stat(f"{self.run}/out.3.{self.serial}")
            self.assertFalse(os.path.samestat(former, following))

    def test_a_named_program_may_be_left(self):
        self.family.may_leave = frozenset({os.path.basename(os.path.realpath("/bin/sleep"))})
        found, _ = self.leave_unseen()
        self.assertIs(found.rest(()), Rest.NOTHING)

    def test_what_an_earlier_command_left_belongs_to_that(self):
        first, number = self.leave_unseen()
        second = self.start(self.commands("true"))
        self.end(second)
        self.assertIs(second.rest(()), Rest.NOTHING)
        self.assertIs(first.rest(()), Rest.UNSEEN)

    def test_a_signal_for_an_earlier_command_spares_what_may_be_of_a_later_one(self):
        first, number = self.leave_unseen()
        second, later = self.leave_unseen()
        first.until = second.before
        found = [it.number for it in first.left(())]
        self.assertEqual(found, [number, later])  # it counts for both, since nobody can tell
        self.assertEqual([it.number for it in first.left((), True)], [number])
        self.assertEqual([it.number for it in second.left((), True)], [later])

    def test_the_workers_process_belongs_to_no_command(self):
        worker = calls.spawn([b"sleep", b"60"], {})
        found = Command(self.commands("true"), self.family, 1, 7)
        found.start(b"pay", [worker])
        self.end(found)
        self.assertIs(found.rest([worker]), Rest.NOTHING)

    def test_who_cannot_be_looked_at_is_left(self):
        found = self.start(self.commands("true"))
        self.end(found)
        file, self.family.file = self.family.file, -1
        self.assertIs(found.rest(()), Rest.UNSEEN)
        self.family.file = file
        self.assertIs(found.rest(()), Rest.NOTHING)

    def test_a_lock_that_cannot_be_tried_is_not_free(self):
        found = self.start(self.commands("true"))
        self.end(found)
        os.rename(found.path, f"{self.run}/moved.txt")
        os.symlink(found.path, found.path)  # which can't be opened
        self.assertIs(found.rest(()), Rest.SEEN)
        os.rename(f"{self.run}/moved.txt", found.path)
        self.assertIs(found.rest(()), Rest.NOTHING)

    def test_the_signal_of_the_timer_ends_a_command(self):
        signal.signal(signal.SIGALRM, signal.SIG_DFL if self.timeout is None else signal.SIG_IGN)
        self.addCleanup(signal.signal, signal.SIGALRM, signal.SIG_DFL)
        found = self.start(self.commands("sh", "-c", SLEEPS))
        os.kill(found.process, signal.SIGALRM)
        self.assertEqual(self.end(found), -signal.SIGALRM)

    def test_empty_outputs_serve_the_next_command(self):
        commands = self.commands("sh", "-c", "[ $AMO_JOB = quiet ] || echo $AMO_JOB")
        numbers = []
        for text in (b"quiet", b"quiet", b"loud", b"quiet"):
            found = self.start(commands, text)
            numbers.append(os.stat(f"{self.run}/out.3.{self.serial}").st_ino)
            self.end(found)
            found.rest(())
        self.assertEqual(numbers[0], numbers[1])
        self.assertEqual(numbers[0], numbers[2])
        self.assertNotEqual(numbers[2], numbers[3])
        self.assertEqual(self.text("out.3.3"), "loud\n")
        commands.remove()
        self.assertEqual(self.files(), ["out.3.3"])

    def test_an_output_that_somebody_has_stays_with_its_attempt(self):
        commands = self.commands("sh", "-c", "[ $AMO_LINE = 8 ] || sleep 60 & exit 0")
        first = self.start(commands)
        self.end(first)
        self.assertIs(first.rest(()), Rest.SEEN)
        second = Command(commands, self.family, 2, 8)
        second.start(b"pay", ())
        paths = [f"{self.run}/out.3.{it}" for it in (1, 2)]
        self.assertFalse(os.path.samefile(*paths))

    def test_the_file_of_a_lock_serves_the_next_command(self):
        commands, numbers = self.commands("sh", "-c", SLEEPS), []
        for _ in range(3):
            found = self.start(commands)
            numbers.append(os.stat(found.path).st_ino)
            os.close(found.locks.pop())
            self.assertFalse(self.is_free(found))  # the command alone has it
            os.kill(found.process, signal.SIGKILL)
            self.end(found)
            self.assertIs(found.rest(()), Rest.NOTHING)
            self.assertTrue(found.path not in self.files())
            self.assertEqual([it for it in self.files() if "command" in it], ["command.3.0"])
        self.assertEqual(len(set(numbers)), 1)
        commands.remove()
        self.assertEqual(self.files(), [])

    def test_a_lock_that_somebody_has_stays_with_its_attempt(self):
        commands = self.commands("sh", "-c", "if [ $AMO_JOB = leaves ]; then sleep 60 & fi")
        first = self.start(commands, b"leaves")
        self.end(first)
        self.assertIs(first.rest(()), Rest.SEEN)
        second = self.start(commands)
        self.assertNotEqual(os.stat(first.path).st_ino, os.stat(second.path).st_ino)
        self.end(second)
        self.assertIs(second.rest(()), Rest.NOTHING)
        self.assertFalse(self.is_free(first))

    def test_a_spare_file_that_was_moved_or_exchanged_serves_nobody(self):
        commands = self.commands("sh", "-c", SLEEPS)
        for change in (lambda path: None, lambda path: os.rename(path, f"{self.run}/moved.txt"),
                       lambda path: os.replace(self.written("other.txt"), path)):
            found = self.start(commands)
            os.close(found.locks.pop())
            self.assertFalse(self.is_free(found))
            os.kill(found.process, signal.SIGKILL)
            self.end(found)
            self.assertIs(found.rest(()), Rest.NOTHING)
            change(f"{self.run}/command.3.0")
        self.assertFalse(self.is_free(self.start(commands)))

    def test_what_a_killed_runner_left_is_removed(self):
        self.written("command.3.0")
        commands = self.commands("true")
        commands.remove()
        self.assertEqual(self.files(), [])

    def test_an_output_of_another_run_is_neither_written_nor_removed(self):
        # The first command has to make its outputs; the second one would reuse those of the first.
        for texts in ((b"pay",), (b"quiet", b"pay")):
            self.serial = 0
            commands = self.commands("sh", "-c", "[ $AMO_JOB = quiet ] || echo $AMO_JOB")
            for text in texts[:-1]:
                found = self.start(commands, text)
                self.end(found)
                self.assertIs(found.rest(()), Rest.NOTHING)
            for kind in OUTPUTS:
                path = self.written(f"{kind}.3.{len(texts)}")
                with open(path, "w", encoding="ascii") as file:
                    file.write("another run's\n")
            with self.assertRaisesRegex(NotStarted, f"{self.run}/out.3.{len(texts)}`: file exists;"
                                                    " move it away, .* \\(no line was lost\\)"):
                self.start(commands, texts[-1])
            for kind in OUTPUTS:
                self.assertEqual(self.text(f"{kind}.3.{len(texts)}"), "another run's\n")
                os.unlink(f"{self.run}/{kind}.3.{len(texts)}")
            self.assertEqual(self.files(), [])

    def test_an_output_that_was_moved_is_made_anew(self):
        commands = self.commands("true")
        found = self.start(commands)
        self.end(found)
        found.rest(())
        os.rename(f"{self.run}/out.3.1", f"{self.run}/moved.txt")
        self.end(self.start(commands))
        self.assertIn("out.3.2", self.files())


    def test_a_short_command_has_ended_with_its_start(self):
        commands, found = self.commands("sh", "-c", "exit 3"), []

        def is_short():
            found.append(self.start(commands))
            status = found[-1].status
            self.assertEqual((self.end(found[-1]), found[-1].rest(())), (3, Rest.NOTHING))
            return status is not None

        until(is_short)
        self.assertEqual(calls.reap(), ({}, False))
        self.assertIsNone(self.start(self.commands("sh", "-c", SLEEPS)).status)

    def test_the_end_of_another_child_is_not_lost(self):
        rings, blocked = [], [signal.SIGCHLD]
        signal.signal(signal.SIGCHLD, lambda *_: rings.append(1))
        for words in (["true"], ["sh", "-c", SLEEPS]):
            signal.pthread_sigmask(signal.SIG_BLOCK, blocked)
            other = calls.spawn([b"true"], {})
            os.waitid(os.P_PID, other, os.WEXITED | os.WNOWAIT)
            found = self.start(self.commands(*words))
            rings.clear()
            signal.pthread_sigmask(signal.SIG_UNBLOCK, blocked)
            self.assertTrue(rings)
            self.ended.update(calls.reap()[0])
            self.assertEqual(self.ended[other], 0)
            if found.status is None and found.process not in self.ended:
                os.kill(found.process, signal.SIGKILL)
            self.end(found)


class NotBegun(Case):
    """Commands that aren't started: each way leaves nothing running."""

    def refused(self, commands):
        """Returns why a command isn't started. Nothing of it may be left."""
        with self.assertRaises(NotStarted) as raised:
            self.start(commands)
        self.assertEqual(self.files(), [])
        self.assertEqual(self.family.others(()), [])
        return str(raised.exception)

    def test_a_program_that_cannot_be_executed(self):
        with open(f"{self.run}/text.txt", "w") as file:
            file.write("no program\n")
        for name, number in (("./there-is-none", errno.ENOENT), (self.run, errno.EACCES),
                             ("there-is-none", errno.ENOENT),
                             (f"{self.run}/text.txt", errno.EACCES)):
            why = self.refused(self.commands(name))
            problem = os.strerror(number)
            self.assertEqual(why, f"{problem[0].lower()}{problem[1:]} (no line was lost); correct"
                             " the command, and start again with --command-changed")
        os.chmod(f"{self.run}/text.txt", 0o700)
        self.assertIn("exec format error", self.refused(self.commands(f"{self.run}/text.txt")))

    def test_a_lock_that_another_process_has(self):
        path = f"{self.run}/command.3.1"
        with open(path, "w") as file:
            fcntl.flock(file, fcntl.LOCK_EX)
            with self.assertRaises(NotStarted) as raised:
                self.start(self.commands("true"))
        self.assertIn("it is locked by another process", str(raised.exception))
        self.assertTrue(os.path.exists(path))

    def test_files_that_cannot_be_made(self):
        for kind in OUTPUTS:
            self.serial = 0
            os.mkdir(f"{self.run}/{kind}.3.1")
            with self.assertRaises(NotStarted) as raised:
                self.start(self.commands("true"))
            self.assertIn(f"`{self.run}/{kind}.3.1`: file exists", str(raised.exception))
            os.rmdir(f"{self.run}/{kind}.3.1")
            self.assertEqual(self.files(), [])

    def test_a_system_without_processes(self):
        commands = self.commands("true")
        begin = commands.call

        def refuse(given):
            begin(given)  # which makes the lock and the outputs
            calls.reap()
            commands.given.failed = starter.NO_FILE
            return -errno.EAGAIN

        commands.call = refuse
        with self.assertRaises(NotStarted) as raised:
            self.start(commands)
        self.assertIn("allow more processes", str(raised.exception))
        self.assertEqual(self.files(), [])

    def test_children_that_cannot_be_seen(self):
        with mock.patch.object(self.family, "others", side_effect=OSError(5, "Input/output error")):
            with self.assertRaises(NotStarted):
                self.start(self.commands("true"))
        self.assertEqual(self.files(), [])


class Timed:
    """With a timeout the kernel ends a command too."""

    timeout = 100.0


class TimedCommand(Timed, Spawned):
    """Commands with a timeout."""

    def test_the_kernel_ends_a_command_whose_runner_does_not(self):
        commands = self.commands("sh", "-c", SLEEPS, grace=0.0)
        commands.given.timer[:] = [0, 0, 0, 1000]
        self.assertEqual(self.end(self.start(commands)), -signal.SIGALRM)


class TimedNotBegun(Timed, NotBegun):
    """Commands with a timeout that aren't started."""


if __name__ == "__main__":
    unittest.main()
