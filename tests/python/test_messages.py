"""Texts that are shown to the operator: errors of the system, and what isn't printable."""

import errno
import pathlib
import unittest
from unittest import mock

import package  # noqa: F401

from amo_jobs import messages
from amo_jobs.messages import REMEDIES, End, lowered, reason, refused, signal_name, visible
from amo_jobs.statuses import Status


class Texts(unittest.TestCase):
    def test_a_printable_text_stays(self):
        self.assertEqual(visible("rent 700 to Ada, \\ é 賃"), "rent 700 to Ada, \\ é 賃")

    def test_controls_are_escaped(self):
        self.assertEqual(visible("a\x1b[2Jb\tc\nd\x7f"), "a\\x1b[2Jb\\tc\\nd\\x7f")

    def test_what_isnt_utf_8_is_escaped(self):
        self.assertEqual(visible(b"\xff".decode("utf-8", "surrogateescape")), "\\udcff")
        self.assertEqual(visible("\u202e"), "\\u202e")

    def test_a_visible_text_is_visible(self):
        self.assertEqual(visible(visible("\x00\\n")), visible("\x00\\n"))

    def test_a_refusal_is_visible_and_has_its_status(self):
        end = refused("list `\n`: no")
        self.assertIsInstance(end, End)
        self.assertEqual((end.status, end.text), (Status.REFUSED, "list `\\n`: no"))


class Confirmations(unittest.TestCase):
    def test_what_nobody_reads_is_said_to_be_recorded(self):
        gone = BrokenPipeError(errno.EPIPE, "Broken pipe")
        with mock.patch.object(messages, "print", side_effect=gone, create=True), \
                mock.patch.object(messages, "drop_output") as dropped:
            with self.assertRaises(End) as raised:
                messages.confirm("recorded")
        dropped.assert_called_once_with()
        self.assertEqual(raised.exception.status, Status.WRITE)
        self.assertIn("broken pipe; all was recorded before that", raised.exception.text)


class Reasons(unittest.TestCase):
    def test_an_error_is_lowered(self):
        self.assertEqual(lowered(OSError(errno.EIO, "Input/output error")), "input/output error")
        self.assertEqual(lowered(OSError("Odd")), "odd")

    def test_a_reason_has_object_problem_and_remedy(self):
        error = FileNotFoundError(errno.ENOENT, "No such file or directory", "/a\nb")
        self.assertEqual(reason(error), "`/a\\nb`: no such file or directory; check the path")

    def test_each_form_of_a_path_is_named(self):
        for path in ("/p", b"/p", pathlib.Path("/p")):
            self.assertTrue(reason(OSError(errno.EIO, "Broken", path)).startswith("`/p`: "))

    def test_a_call_without_a_path_is_a_call_of_the_system(self):
        self.assertEqual(reason(OSError(errno.EAGAIN, "Try again")),
                         "a call of the system: try again; allow more processes, or end some, then"
                         " start again")
        self.assertEqual(reason(OSError(errno.EIO, "Broken", 7)),
                         "a call of the system: broken; check the disk")

    def test_a_signal_without_a_name_has_its_number(self):
        self.assertEqual([signal_name(it) for it in (15, 35)], ["SIGTERM", "signal 35"])

    def test_a_closed_pipe_is_standard_output(self):
        self.assertEqual(reason(BrokenPipeError(errno.EPIPE, "Broken pipe")),
                         "standard output: broken pipe; correct that, then start again")

    def test_an_error_without_a_remedy_gets_the_general_one(self):
        self.assertNotIn(errno.ENXIO, REMEDIES)
        self.assertTrue(reason(OSError(errno.ENXIO, "No such device")).endswith(
            "; correct that, then start again"))

    def test_other_exceptions_are_their_text_or_their_name(self):
        self.assertEqual(reason(ValueError("embedded null\n")), "embedded null\\n")
        self.assertEqual(reason(MemoryError()), "MemoryError")


if __name__ == "__main__":
    unittest.main()
