"""Whether a crew goes on, begins, moves or is refused, by the row that it finds."""

import os
import tempfile
import unittest
from unittest import mock

import package  # noqa: F401

from amo_jobs import run_folder
from amo_jobs.mark import Mark, Row
from amo_jobs.messages import End
from amo_jobs.settings import Settings

ONE, OTHER = "1" * 32, "2" * 32


class Joined(unittest.TestCase):
    def ways(self, row, run="", new_run=""):
        """Returns the calls that a crew makes that finds this row, and the id that it gets."""
        mark = None if row is Row.NO_MARK else Mark(run, "/old")
        settings = Settings(mark="/l.run-is", run="/l.run", asked="l", new_run=new_run)
        made = []

        def noting(name):
            return lambda *_: made.append(name) or OTHER

        with mock.patch.multiple(
                run_folder, begun=noting("begun"), enter=noting("enter"), row_of=lambda *_: row,
                rejoined=noting("rejoined"), sync_folder=noting("sync")), \
                mock.patch.object(Mark, "read", lambda _: mark):
            found = run_folder.joined(settings, None)
        return made, found

    def refused(self, *given):
        with self.assertRaises(End) as held:
            self.ways(*given)
        return held.exception.text

    def test_a_list_without_a_mark_begins(self):
        self.assertEqual(self.ways(Row.NO_MARK), (["begun"], OTHER))

    def test_the_runs_own_folder_goes_on_and_its_mark_is_synced(self):
        self.assertEqual(self.ways(Row.GOES_ON, ONE), (["enter", "sync"], OTHER))

    def test_a_moved_folder_is_joined_anew(self):
        self.assertEqual(self.ways(Row.MOVED, ONE), (["rejoined"], OTHER))

    def test_every_other_row_is_refused(self):
        for row in (Row.MISSING, Row.NO_ID, Row.OTHER_ID, Row.COPY):
            self.assertIn(f"--new-run {ONE}", self.refused(row, ONE))
            self.assertIn(f"--new-run {ONE}", self.refused(row, ONE, OTHER))

    def test_the_id_of_the_run_gives_it_up(self):
        for row in (Row.MISSING, Row.NO_ID, Row.OTHER_ID, Row.COPY):
            self.assertEqual(self.ways(row, ONE, ONE), (["rejoined"], OTHER))
        self.assertEqual(self.ways(Row.OLD_MARK, "1", "1"), (["rejoined"], OTHER))

    def test_a_mark_of_no_run_is_refused_whatever_is_given_up(self):
        self.refused(Row.NO_RUN, "")
        self.refused(Row.NO_RUN, "", ONE)

    def test_the_runs_own_folder_goes_on_whatever_is_given_up(self):
        self.assertEqual(self.ways(Row.GOES_ON, ONE, ONE), (["enter", "sync"], OTHER))


class Renamed(unittest.TestCase):
    """A list beside the mark of another one, whose run knows two lines."""

    def setUp(self):
        room = tempfile.TemporaryDirectory()
        self.addCleanup(room.cleanup)
        self.room = room.name
        os.mkdir(f"{self.room}/run")
        self.put("run/jobs", "a\nb\n")
        self.put("old.run-is", f"{ONE}\n{self.room}/run\n")

    def put(self, name, text):
        with open(f"{self.room}/{name}", "w", encoding="ascii") as file:
            file.write(text)

    def check(self, text):
        self.put("new", text)
        jobs = f"{self.room}/new"
        run_folder.check_not_renamed(Settings(jobs=jobs, asked="new", mark=f"{jobs}.run-is"))

    def is_refused(self, text):
        with self.assertRaises(End) as held:
            self.check(text)
        self.assertIn(f"mv {self.room}/old.run-is {self.room}/new.run-is", held.exception.text)

    def test_the_lines_of_a_missing_list_are_refused(self):
        self.is_refused("a\nb\n")
        self.is_refused("a\nb\nc\n")

    def test_the_lines_of_a_list_whose_name_another_one_has_are_refused(self):
        self.put("old", "c\n")  # tonight's, in the place of yesterday's
        self.is_refused("a\nb\n")

    def test_other_lines_and_a_list_that_is_still_there_are_nothing_to_refuse(self):
        self.check("a\nc\n")
        self.put("old", "a\nb\nc\n")
        self.check("a\nb\n")

    def test_a_run_of_another_user_is_left_out(self):
        with mock.patch.object(run_folder, "bytes_of", side_effect=[b"a\n", PermissionError]):
            self.check("a\n")


if __name__ == "__main__":
    unittest.main()
