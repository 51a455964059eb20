"""Which folder belongs to a list: the table of docs/guide/operating.md, row by row, with its
refusals."""

import os
import tempfile
import unittest
from unittest import mock

import package  # noqa: F401

from amo_jobs.mark import FIRST_VERSION, Mark, Row, has_id, is_gone, refusal, row_of
from amo_jobs.settings import Settings
from amo_jobs.statuses import Status

ONE, OTHER = "1" * 32, "2" * 32


class InRoom(unittest.TestCase):
    """A test with a folder of its own."""

    def setUp(self):
        held = tempfile.TemporaryDirectory()
        self.addCleanup(held.cleanup)
        self.room = os.path.realpath(held.name)

    def make_run(self, name, run):
        """Makes a run's folder, and returns its path."""
        os.makedirs(f"{self.room}/{name}")
        if run is not None:
            self.write(f"{name}/id", f"{run}\n")
        return f"{self.room}/{name}"

    def write(self, name, text):
        with open(f"{self.room}/{name}", "w", encoding="utf-8") as file:
            file.write(text)


class Rows(InRoom):
    def test_a_list_without_a_mark_is_the_doors(self):
        self.assertIs(row_of(None, self.make_run("run", OTHER)), Row.NO_MARK)

    def test_the_folder_that_the_mark_names_goes_on(self):
        run = self.make_run("run", ONE)
        self.assertIs(row_of(Mark(ONE, run), run), Row.GOES_ON)

    def test_another_path_of_that_folder_goes_on(self):
        run = self.make_run("run", ONE)
        os.symlink(run, f"{self.room}/link")
        self.assertIs(row_of(Mark(ONE, run), f"{self.room}/link"), Row.GOES_ON)

    def test_a_missing_folder_is_missing(self):
        run = f"{self.room}/run"
        self.assertIs(row_of(Mark(ONE, run), run), Row.MISSING)

    def test_a_folder_without_an_id_has_none(self):
        run = self.make_run("run", None)
        self.assertIs(row_of(Mark(ONE, run), run), Row.NO_ID)

    def test_a_folder_of_another_run_has_another_id(self):
        run = self.make_run("run", OTHER)
        self.assertIs(row_of(Mark(ONE, run), run), Row.OTHER_ID)

    def test_a_folder_whose_old_path_is_gone_was_moved(self):
        run = self.make_run("new", ONE)
        self.assertIs(row_of(Mark(ONE, f"{self.room}/old"), run), Row.MOVED)

    def test_a_folder_whose_old_path_is_taken_may_be_a_copy(self):
        run, old = self.make_run("new", ONE), self.make_run("old", None)
        self.assertIs(row_of(Mark(ONE, old), run), Row.COPY)

    def test_a_folder_whose_old_place_is_gone_too_may_be_a_copy(self):
        run = self.make_run("new", ONE)
        self.assertIs(row_of(Mark(ONE, f"{self.room}/unmounted/old"), run), Row.COPY)

    def test_marks_of_the_first_version_and_of_no_run_have_rows_of_their_own(self):
        run = self.make_run("run", ONE)
        self.assertIs(row_of(Mark(FIRST_VERSION, run), run), Row.OLD_MARK)
        self.assertIs(row_of(Mark("", ""), run), Row.NO_RUN)

    def test_a_path_is_gone_only_if_the_folder_above_is_there(self):
        self.assertTrue(is_gone(f"{self.room}/gone"))
        self.assertFalse(is_gone(self.room))
        self.assertFalse(is_gone(f"{self.room}/unmounted/gone"))

    def test_a_folder_that_cant_be_read_has_no_id_to_see(self):
        run = self.make_run("run", ONE)
        self.assertTrue(has_id(run, ONE))
        self.assertFalse(has_id(run, OTHER))
        with mock.patch("builtins.open", side_effect=PermissionError(13, "no")):
            self.assertFalse(has_id(run, ONE))


class Marks(InRoom):
    def read(self, text):
        self.write("list.run-is", text)
        return Mark.read(f"{self.room}/list.run-is")

    def test_a_mark_has_an_id_and_a_path(self):
        self.assertEqual(self.read(f"{ONE}\n/a b/run\n"), Mark(ONE, "/a b/run"))

    def test_one_line_alone_is_a_mark_of_the_first_version(self):
        self.assertEqual(self.read("x.run\n"), Mark(FIRST_VERSION, f"{self.room}/x.run"))
        self.assertEqual(self.read("/x.run\n"), Mark(FIRST_VERSION, "/x.run"))

    def test_anything_else_is_no_mark(self):
        for text in ("", "\n", f"{ONE}\nrun\n", f"{ONE[1:]}\n/run\n", f"{ONE.upper()}g\n/run\n"):
            self.assertEqual(self.read(text), Mark("", ""), text)

    def test_a_missing_file_is_none(self):
        self.assertIsNone(Mark.read(f"{self.room}/list.run-is"))

    def test_a_mark_is_made_once_and_read_again(self):
        path = f"{self.room}/list.run-is"
        self.assertTrue(Mark(ONE, "/run").make(path))
        self.assertFalse(Mark(OTHER, "/run").make(path))
        self.assertEqual(Mark.read(path), Mark(ONE, "/run"))
        self.assertEqual(os.listdir(self.room), ["list.run-is"])


class Refusals(InRoom):
    def text_of(self, row, mark, new_run=""):
        given = Settings(asked="my list", jobs="/l/my list", mark="/l/my list.run-is",
                         run=f"{self.room}/given", new_run=new_run)
        with mock.patch("sys.argv", ["./amo_jobs"]):
            end = refusal(row, mark, given)
        self.assertEqual(end.status, Status.REFUSED)
        return end.text

    def test_a_missing_folder_may_not_be_mounted_or_was_forgotten(self):
        self.assertEqual(
            self.text_of(Row.MISSING, Mark(ONE, "/old")),
            f"list `my list`: its run {ONE} isn't in `{self.room}/given`, which is missing, and was"
            " in `/old`; mount its file system if that isn't mounted, or go on with a `forget` that"
            " was cut off: ./amo_jobs forget 'my list'. To give that run up and run every line"
            f" again: --new-run {ONE}")

    def test_the_old_path_is_left_out_if_it_is_the_given_one(self):
        text = self.text_of(Row.NO_ID, Mark(ONE, f"{self.room}/given"))
        self.assertIn(f"isn't in `{self.room}/given`, which has no id; mount", text)

    def test_a_run_that_is_where_the_mark_says_is_named(self):
        run = self.make_run("own", ONE)
        self.assertEqual(
            self.text_of(Row.OTHER_ID, Mark(ONE, run)),
            f"list `my list`: its run {ONE} is in `{run}`, and `{self.room}/given` has another id;"
            f" go on there: --run {run}. To give that run up and run every line again:"
            f" --new-run {ONE}")

    def test_a_copy_names_both_folders(self):
        self.assertEqual(
            self.text_of(Row.COPY, Mark(ONE, "/old")),
            f"list `my list`: its run {ONE} is in `/old`, and `{self.room}/given` has the same id,"
            " so one of them may be a copy, which would run lines again; go on in the other:"
            f" --run /old. If you are sure that `{self.room}/given` is the one that ran last:"
            f" --new-run {ONE}")

    def test_an_id_that_names_another_run_is_shown(self):
        self.assertTrue(self.text_of(Row.MISSING, Mark(ONE, "/old"), OTHER).endswith(
            f": --new-run {ONE} (it is --new-run {OTHER} now, which names another run)"))

    def test_a_mark_of_the_first_version_shows_the_way_to_a_new_list(self):
        text = self.text_of(Row.OLD_MARK, Mark("1", "/o l/d"))
        self.assertIn("./amo_jobs status --lines open --run '/o l/d' prints", text)
        self.assertTrue(text.endswith("--new-run 1"))

    def test_a_mark_of_no_run_has_no_way_to_a_new_run(self):
        self.assertNotIn("--new-run", self.text_of(Row.NO_RUN, Mark("", "")))


if __name__ == "__main__":
    unittest.main()
