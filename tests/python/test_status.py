"""How lines are counted and listed, how old a doubt is, and what pasted commands record."""

import contextlib
import io
import itertools
import json
import os
import shlex
import subprocess
import tempfile
import time
import types
import unittest
from unittest import mock

from package import ROOT, until

from amo_jobs import calls, processes, run_folder, status
from amo_jobs.settings import Settings
from amo_jobs.statuses import KINDS, Status
from amo_watch import texts

NONE = dict.fromkeys(KINDS, 0)


class Counts(unittest.TestCase):
    def test_the_status_is_the_one_of_the_page(self):
        for kinds in itertools.chain.from_iterable(
                itertools.combinations(KINDS, count) for count in range(len(KINDS) + 1)):
            found = {**NONE, **dict.fromkeys(kinds, 3)}
            wanted = 0
            if "doubt" in kinds or "running" in kinds:
                wanted = 2
            elif "open" in kinds:
                wanted = 69
            elif "failed" in kinds or "untouched" in kinds:
                wanted = 1
            self.assertEqual(status.status_of(found, Status.LEFT), wanted, kinds)

    def test_open_lines_of_status_are_later(self):
        self.assertEqual(status.status_of({**NONE, "open": 1}, Status.LATER), 75)

    def test_the_counts_are_a_sentence(self):
        found = {"lines": 21, **dict(zip(KINDS, range(1, 7)))}
        self.assertEqual(status.counted(found), "21 lines: 1 done, 2 failed, 3 in doubt, 4 running,"
                                                " 5 untouched, 6 open")

    def test_the_end_is_expected_by_the_pace(self):
        def hour(seconds):
            return time.strptime(f"01:{seconds // 60:02}:{seconds % 60:02}", "%H:%M:%S")

        with mock.patch.object(status.time, "time", return_value=1000.0), \
                mock.patch.object(status.time, "localtime", lambda it: hour(int(it) - 1000)):
            self.assertEqual(status.outlook(2.5, 100), ", 2.5 a second, over at 01:00:40")
            self.assertEqual(status.outlook(1234.5, 1), ", 1.23e+03 a second, over at 01:00:00")

    def test_without_a_pace_or_lines_no_end_is_expected(self):
        self.assertEqual([status.outlook(0, 9), status.outlook(2, 0), status.outlook(2, -1)],
                         ["", "", ""])

    def test_the_pace_is_the_sum_of_the_runners(self):
        with tempfile.TemporaryDirectory() as run:
            starts = f"\ncrew 1000 900 {'0' * 36}"
            for number, text in ((1, "1000 50"), (2, f"{'1090 20':32}{starts}{starts}"),
                                 (3, "damaged\n"), (5, f"{'':32}{starts}")):
                with open(f"{run}/pace.{number}", "w", encoding="ascii") as file:
                    file.write(text)
            for number in range(1, 6):
                self.sign(run, number, 999.0)
            with mock.patch.object(status.time, "time", return_value=1100.0):
                self.assertEqual(status.pace_of(run, [1, 2, 3, 4, 5]), 0.5 + 2)

    def test_the_pace_of_an_earlier_runner_does_not_count(self):
        # 50 commands have ended since 1000. The crew of that time has ended, and a runner of number
        # 1 was started at 4690. It has no end yet. Then one ends.
        with tempfile.TemporaryDirectory() as run, \
                mock.patch.object(status.time, "time", return_value=4700.0):
            with open(f"{run}/pace.1", "w", encoding="ascii") as file:
                file.write("1000 50")
            self.assertEqual(status.pace_of(run, [1]), 0)  # nobody has signed the file
            self.sign(run, 1, 4690.0)
            self.assertEqual(status.pace_of(run, [1]), 0)
            with open(f"{run}/pace.1", "w", encoding="ascii") as file:
                file.write("4690 1")
            self.assertEqual(status.pace_of(run, [1]), 0.1)

    def sign(self, run, number, time):
        """Makes the file that a runner writes when it begins, as of this time."""
        with open(f"{run}/runner.{number}", "w", encoding="ascii"):
            os.utime(f"{run}/runner.{number}", (time, time))


class Lists(unittest.TestCase):
    FOUND = {"intents": [
        {"state": "running", "intent": "1.2", "line": 7, "text": "a"},
        {"state": "running", "intent": "2.1", "line": 8, "text": "b\t"},
        {"state": "doubt", "intent": "3.4", "line": 9, "text": "c"}]}

    def test_lines_in_these_states_are_listed_with_their_processes(self):
        held = {"1.2": ["process 5 (pay)", "process 6 (curl)"], "2.1": []}
        with mock.patch.object(status, "holders", return_value=held) as asked:
            self.assertEqual(list(status.listed("/run", self.FOUND, KINDS)), [
                "running 1.2, line 7: a -- process 5 (pay), process 6 (curl)",
                "running 2.1, line 8: b\\t -- its runner is at work, or a process of another user",
                "doubt 3.4, line 9: c"])
            asked.assert_called_once_with("/run", ["1.2", "2.1"])
            asked.return_value = {}
            self.assertEqual(list(status.listed("/run", self.FOUND, ["doubt"])),
                             ["doubt 3.4, line 9: c"])
            asked.assert_called_with("/run", [])

    def holders(self, *names):
        """Returns the processes that hold attempts 1.2 and 1.3, of which one has these files as its
        standard input and output."""
        with tempfile.TemporaryDirectory() as run:
            files = [open(f"{run}/{it}", "w+", encoding="ascii") for it in names]
            words = ["sleep", "60"]
            with subprocess.Popen(words, stdin=files[0], stdout=files[-1]) as process:
                for it in files:
                    it.close()
                try:
                    # the kernel shows the words a moment after it has begun the program
                    until(lambda: calls.words_of(process.pid))
                    return status.holders(run, ["1.2", "1.3"]), process.pid
                finally:
                    process.kill()

    def test_a_process_that_holds_a_lock_is_found(self):
        found, process = self.holders("command.1.2", "other")
        self.assertEqual(found, {"1.2": [f"process {process} (sleep 60)"], "1.3": []})

    def test_a_runner_isnt_listed(self):
        found, _ = self.holders("command.1.2", "runner.1")
        self.assertEqual(found, {"1.2": [], "1.3": []})

    def test_words_that_tell(self):
        for words, wanted in [
                (["/usr/bin/curl", "-s", "url"], "curl -s url"),
                (["/bin/sh", "/home/pay.sh", "x"], "pay.sh x"),
                (["bash", "-c", "sleep 5; pay"], "bash -c sleep 5; pay"),
                (["sh", "-eu", "/home/pay"], "pay"),
                (["python3.11", "-B", "/srv/pay.py", "1"], "pay.py 1"),
                (["python3", "-c", "import a/b"], "python3 -c import a/b"),
                (["python3", "-m", "a/b"], "python3 -m a/b"),
                (["perl", "-ne", "s/a/b/"], "perl -ne s/a/b/"),
                (["zsh"], "zsh"), ([""], ""), (["a\nb"], "a\\nb"),
                (["x" * 60], "x" * 60), (["x" * 61], "x" * 58 + "..")]:
            self.assertEqual(processes.words_that_tell(words), wanted)


class Ages(unittest.TestCase):
    def test_a_time_is_shown_by_its_two_largest_units(self):
        for seconds, wanted in [
                (0, "0 s"), (59, "59 s"), (60, "1 min"), (61, "1 min 1 s"), (3600, "1 h"),
                (3659, "1 h"), (3660, "1 h 1 min"), (86399, "23 h 59 min"), (86400, "1 d"),
                (90000, "1 d 1 h"), (100 * 86400 + 59, "100 d")]:
            self.assertEqual(status.lasting(seconds), wanted)

    def test_a_time_has_the_offset_of_its_zone(self):
        self.addCleanup(time.tzset)
        with mock.patch.dict(os.environ, {"TZ": "XST-5:30"}):
            time.tzset()
            self.assertEqual(status.dated(0), "1970-01-01 05:30:00 +0530")
        self.assertEqual(status.dated(None), "at a time that is not known")

    def test_an_age_may_be_unknown_or_ahead_of_the_clock(self):
        self.assertEqual(status.how_old({"ended": None, "age": None}),
                         "ended at a time that is not known")
        with mock.patch.object(status, "dated", lambda it: f"DATE{it}"):
            self.assertEqual(status.how_old({"ended": 9, "age": None}),
                             "recorded as over DATE9, ahead of the clock")
            self.assertEqual(status.how_old({"ended": 9, "age": 3725}),
                             "recorded as over DATE9, 1 h 2 min ago")

    def test_the_printed_command_finds_what_a_command_has_left(self):
        one, another = "1" * 32, "1" * 31 + "2"
        with subprocess.Popen(["sleep", "60"], env={"AMO_RUN_ID": one}) as left, \
                subprocess.Popen(["sleep", "60"], env={"AMO_RUN_ID": another}) as other:
            try:
                until(lambda: calls.words_of(left.pid) and calls.words_of(other.pid))
                script = status.NOTES.format(one).splitlines()[-1]
                ran = subprocess.run(["bash", "-c", script], stdout=subprocess.PIPE, text=True)
                found = [it.split() for it in ran.stdout.splitlines()]
                self.assertIn([str(left.pid), "sleep", "60"], found)
                self.assertNotIn([str(other.pid), "sleep", "60"], found)
            finally:
                left.kill()
                other.kill()

    def test_the_end_of_an_output_is_shown_line_by_line(self):
        with tempfile.TemporaryDirectory() as room:
            path = f"{room}/out.1.2"
            self.assertEqual(texts.outputs_of([room], "1.2"), [])
            for data, wanted in [
                    (b"", ""), (b"a\n\x1b[2J\n", f"{path}, 7 bytes:\n  | a\n  | \\x1b[2J\n"),
                    (b"1\n2\n3\n4\n5\n6\n7",
                     f"{path}, 13 bytes:\n  | 3\n  | 4\n  | 5\n  | 6\n  | 7\n"),
                    (b"y" * 3000, f"{path}, 3000 bytes:\n  | {'y' * 1000}\n")]:
                with open(path, "wb") as file:
                    file.write(data)
                found = map(status.shown, texts.outputs_of([room], "1.2"))
                lines = [f"#   {it}\n" for it in wanted.splitlines()]
                self.assertEqual("".join(found), "".join(lines))


class Outputs(unittest.TestCase):
    """Which folders have the output of a run."""

    RUN = "1" * 32

    def folders(self, room, results):
        for name in ("run", "others", f"results/{self.RUN}", f"results/{'2' * 32}"):
            os.makedirs(f"{room}/{name}", exist_ok=True)
        for name, text in (("id", f"{self.RUN}\n"), ("command", json.dumps(
                {"command": ["pay"], **results}))):
            with open(f"{room}/run/{name}", "w", encoding="ascii") as file:
                file.write(text)
        return run_folder.folders_of_outputs(f"{room}/run")

    def test_a_folder_that_other_runs_may_use_has_no_output_of_this_one(self):
        with tempfile.TemporaryDirectory() as room:
            # The folder of --results before it had a part for each run; the run's own path before
            # `forget`, where tomorrow's run stands; and the part of another run.
            for it in ("results", "others", f"results/{'2' * 32}"):
                found = self.folders(room, {"results": f"{room}/{it}"})
                self.assertEqual(found, [f"{room}/run"], it)
            self.assertEqual(self.folders(room, {}), [f"{room}/run"])

    def test_the_part_of_this_run_has_its_output(self):
        with tempfile.TemporaryDirectory() as room:
            part = f"{room}/results/{self.RUN}"
            self.assertEqual(self.folders(room, {"results": part}), [f"{room}/run", part])


class Answers(unittest.TestCase):
    """What is printed of an answer that was recorded."""

    def said(self, run, verdict):
        settings = Settings("answer", run=run, words=["1.1", "7", "rent", verdict])
        program = types.SimpleNamespace(more=[], call=lambda *_: b"")
        with contextlib.redirect_stdout(io.StringIO()) as said:
            self.assertEqual(status.answer(settings, program), Status.DONE)
        return said.getvalue()

    def test_a_line_of_a_run_that_was_put_away_is_taken_by_no_crew(self):
        done = "recorded: line 7 is done, and never run again: rent\n"
        with tempfile.TemporaryDirectory() as run:
            self.assertEqual(self.said(run, "done"), done)
            self.assertEqual(self.said(run, "not-done"), "recorded: line 7 is open again: rent\n")
            with open(f"{run}/forgotten", "w", encoding="ascii"):
                self.assertEqual(self.said(run, "done"), done)
                self.assertEqual(self.said(run, "not-done"), "recorded: line 7 is open, and no crew"
                                 " takes it, since its run is put away; to run it, put it on a new"
                                 " list: rent\n")


class Pasted(unittest.TestCase):
    """What `doubts` prints of three attempts, and a worker that keeps the answers that it gets."""

    TEXTS = ["rent 700 to O'Neil; touch broken", "pay $(touch broken) > broken ANSWER", "-rf"]
    ATTEMPTS = [{"intent": f"1.{k}", "line": k, "text": text, "time": 1, "ended": 2, "age": 3}
                for k, text in enumerate(TEXTS, 1)]

    def setUp(self):
        room = tempfile.TemporaryDirectory()
        self.addCleanup(room.cleanup)
        self.room, self.given = room.name, f"{room.name}/given"
        with open(f"{self.room}/worker", "w", encoding="utf-8") as file:
            file.write('#!/bin/sh\nwhile [ "$1" != --from ]; do shift; done\n'
                       f'cat "$2" >> {self.given}\n')
        os.chmod(f"{self.room}/worker", 0o755)

    def printed(self):
        """Returns what `doubts` prints, with the output of one command."""
        os.mkdir(f"{self.room}/run")
        with open(f"{self.room}/run/out.1.1", "w", encoding="ascii") as file:
            file.write("it's `touch broken`\n")
        settings = Settings("doubts", run=f"{self.room}/run", names=[
            "--worker-program", f"{self.room}/worker", "tonight.txt"])
        program = types.SimpleNamespace(more=[], told=lambda *_: self.ATTEMPTS)
        with mock.patch("sys.argv", [f"{ROOT}/amo_jobs"]), \
                contextlib.redirect_stdout(io.StringIO()) as said:
            self.assertEqual(status.doubts(settings, program), Status.DONE)
        return said.getvalue()

    def paste(self, text):
        """Pastes a text into an interactive bash; returns its status and its messages."""
        words = ["bash", "--norc", "--noprofile", "-i"]
        more = {"HISTFILE": "/dev/null", "PS1": ""}
        ran = subprocess.run(words, input=text, text=True, capture_output=True, cwd=self.room,
                             env={**os.environ, **more})
        return ran.returncode, ran.stderr

    def test_the_text_as_it_stands_records_nothing(self):
        text = self.printed()
        _, said = self.paste(text)
        self.assertEqual(said.count("answer `ANSWER`: it isn't valid; write done if it happened,"
                                    " not-done if it surely did not"), len(self.TEXTS), said)
        self.assertFalse(os.path.exists(self.given))
        self.assertFalse(os.path.exists(f"{self.room}/broken"))

    def test_a_command_with_the_answer_put_in_records_that_answer_alone(self):
        commands = [it for it in self.printed().splitlines() if " answer " in it]
        self.assertEqual(len(commands), len(self.TEXTS))
        for verdict, it in zip(("done", "not-done", "done"), commands):
            self.assertEqual(self.paste(it)[0], Status.WORDS)
            self.assertEqual(self.paste(it[:-len("ANSWER")] + verdict)[0], Status.DONE)
        with open(self.given, encoding="utf-8") as file:
            self.assertEqual(file.read(), f"1.1\t1\t{self.TEXTS[0]}\tdone\n"
                             f"1.2\t2\t{self.TEXTS[1]}\tnot-done\n1.3\t3\t-rf\tdone\n")

    def test_the_sentence_on_the_answer_stands_below_all_doubts(self):
        lines = self.printed().splitlines()
        self.assertEqual(lines[-3], "# Put done in place of ANSWER if it happened, not-done if it"
                                    " surely did not happen.")
        program, worker = map(shlex.quote, (f"{ROOT}/amo_jobs", f"{self.room}/worker"))
        self.assertEqual(lines[-4], f"  {program} answer --worker-program {worker}"
                                    " tonight.txt -- 1.3 3 -rf ANSWER")


if __name__ == "__main__":
    unittest.main()
