"""How far a crew is: the pace of the last minute, and the line on a terminal."""

import tempfile
import types
import unittest
from unittest import mock

import package  # noqa: F401

from amo_jobs import progress
from amo_jobs.messages import Screen
from amo_jobs.settings import Settings
from amo_jobs.statuses import KINDS, Status


class Paces(unittest.TestCase):
    def test_ends_of_more_than_a_minute_ago_do_not_count(self):
        recent = progress.Recent(100)
        self.assertEqual(recent.pace(110, 40), 4)
        self.assertEqual(recent.pace(160, 40), 40 / 60)  # the first minute is over now
        self.assertEqual(recent.pace(165, 46), 46 / 65)  # what is known of the time 60 s ago
        self.assertEqual(recent.pace(170, 46), 6 / 60)
        self.assertEqual(recent.pace(230, 46), 0)

    def test_a_pace_of_less_than_a_second_is_not_exaggerated(self):
        self.assertEqual(progress.Recent(100).pace(100.1, 3), 3)

    def test_what_is_kept_does_not_grow(self):
        recent = progress.Recent(0)
        for k in range(1, 1000):
            recent.pace(k / 2, k)
        self.assertLessEqual(len(recent.seen), 122)


class Bars(unittest.TestCase):
    def shown(self, ended, seconds):
        """Returns what is shown of a crew, after the first look, when so many have ended."""
        with tempfile.TemporaryDirectory() as room:
            with open(f"{room}/list", "w", encoding="ascii") as file:
                file.write("a\n" * 1000)
            program = types.SimpleNamespace(status=lambda run: {**dict.fromkeys(KINDS, 0),
                                                                "done": 100})
            state = types.SimpleNamespace(ended=0, running=lambda: [1, 2])
            clock, texts = [1000.0], []
            with mock.patch.object(progress, "monotonic", lambda: clock[0]), \
                    mock.patch.object(Screen, "show", texts.append):
                it = progress.Progress(Settings(jobs=f"{room}/list", run=room), program, state)
                it.show()
                for second, count in zip(seconds, ended):
                    clock[0], state.ended = 1000.0 + second, count
                    it.show()
            return texts

    def test_lines_that_the_run_does_not_know_are_open(self):
        # The crew was stopped before its first round, or before the round that reads new lines.
        for known, wanted in ((0, Status.LEFT), (3, Status.LEFT), (5, Status.DONE)):
            found = {**dict.fromkeys(KINDS, 0), "done": known, "lines": known, "intents": []}
            program = types.SimpleNamespace(status=lambda run, found=found: found)
            with tempfile.NamedTemporaryFile("w") as file, \
                    mock.patch.object(Screen, "tell") as tell:
                file.write("a\n" * 5)
                file.flush()
                state = types.SimpleNamespace(taken=0)
                it = progress.Progress(Settings(jobs=file.name, run="."), program, state)
                self.assertEqual(it.conclude(None), wanted)
            self.assertRegex(tell.call_args[0][0], f"^5 lines: {known} done, .* {5 - known} open")

    def test_the_end_says_what_to_do_about_each_line_that_is_not_done(self):
        it = types.SimpleNamespace(settings=Settings(names=["l"]))
        found = {**dict.fromkeys(KINDS, 0), "done": 9}
        with mock.patch("sys.argv", ["amo_jobs"]):
            self.assertEqual(progress.Progress.next_steps(it, found), [])
            found.update(open=1, failed=1, doubt=1)
            self.assertEqual(progress.Progress.next_steps(it, found), [
                "for the open lines start the crew again",
                "see the failed lines: amo_jobs status l --lines failed",
                "see the doubts: amo_jobs doubts l"])

    def test_the_pace_is_that_of_the_last_minute(self):
        found = self.shown([300, 300, 360], [60, 120, 180])
        self.assertEqual(found[0], "100 of 1000 lines, 2 running")
        self.assertTrue(found[1].startswith("400 of 1000 lines, 2 running, 5 a second, over at "))
        self.assertEqual(found[2], "400 of 1000 lines, 2 running")  # nothing ended for a minute
        self.assertTrue(found[3].startswith("460 of 1000 lines, 2 running, 1 a second, over at "))


if __name__ == "__main__":
    unittest.main()
