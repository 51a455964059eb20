"""Tests how ./test waits for the crates that `rt ci` proves."""

from __future__ import annotations

import os
import subprocess
import tempfile
import unittest

ROOT = os.path.dirname(os.path.dirname(os.path.dirname(os.path.realpath(__file__))))
# Defines `await` of ./test, and calls it for a crate. The folder has the output of `rt ci`.
SCRIPT = 'eval "$(sed -n "/^await()/,/^}/p" "$1/test")"; cd "$2" && room=$2 && await amo_kk'
PROVED = "== amo_kk\nrt: amo_kk proved\n"
KEPT = "rt: amo_kk is kept: an earlier run on this machine proved the same files\n"
NEITHER = "rt: amo_kk NOT PROVED\nrt: amo_kk_tests proved\nrt: amo_kk: its tests are proved\n"


class Await(unittest.TestCase):
    def status(self, printed: str) -> int:
        """Returns the status of `await amo_kk` if `rt ci` has ended, and printed this before."""
        with tempfile.TemporaryDirectory() as room:
            with open(f"{room}/proved", "w", encoding="utf-8") as file:
                file.write(f"{printed}rt ci has ended\n")
            words = ["bash", "-c", SCRIPT, "await", ROOT, room]
            return subprocess.run(words, timeout=60).returncode

    def test_a_crate_that_was_proved_now(self) -> None:
        self.assertEqual(self.status(PROVED), 0)

    def test_a_crate_that_an_earlier_run_proved(self) -> None:
        self.assertEqual(self.status(KEPT), 0)

    def test_a_crate_without_a_proof_at_the_end(self) -> None:
        self.assertEqual(self.status(NEITHER), 1)


if __name__ == "__main__":
    unittest.main()
