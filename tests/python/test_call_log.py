"""The log of calls: its lines, and what happens if it can't be written."""

import os
import pathlib
import subprocess
import sys
import tempfile
import unittest

import package

from amo_jobs.call_log import line_text
from amo_jobs.statuses import Status

NOTE = "from amo_jobs.call_log import note; note('gone', 7); print('goes on')"
# printf '%s' 'rent 700 to Ada' | sha256sum
DIGEST = "67e2ac717acc186c85618d3c4654b778e6dd36c5a49d9a45e680c91f803f9fc1"


def noted(path: str) -> subprocess.CompletedProcess:
    """Has a process write a line into the log of this path."""
    words = [sys.executable, "-B", "-c", NOTE]
    return subprocess.run(words, cwd=f"{package.ROOT}/python", capture_output=True, text=True,
                          env={**os.environ, "AMO_CALLS": path}, check=False)


class CallLog(unittest.TestCase):
    def test_a_line_with_a_text_shows_its_length_and_digest(self):
        self.assertEqual(line_text(b"perform 3 5 rent 700 to Ada"), f"perform 3 5 15 {DIGEST}")

    def test_a_line_without_a_text_is_whole(self):
        self.assertEqual(line_text(b"over"), "over")

    def test_a_line_begins_with_its_line_feed_and_ends_with_a_dot(self):
        with tempfile.TemporaryDirectory() as room:
            path = pathlib.Path(room, "calls")
            path.write_text("\ngone 6 .")
            self.assertEqual(noted(str(path)).stdout, "goes on\n")
            self.assertEqual(path.read_text(), "\ngone 6 .\ngone 7 .")

    def test_a_log_that_cannot_be_written_ends_the_process(self):
        for path in ("/dev/full", "/nowhere/calls"):
            ran = noted(path)
            self.assertEqual((ran.returncode, ran.stdout), (Status.WRITE, ""))
            self.assertIn("`AMO_CALLS`: cannot be written: no ", ran.stderr)
