"""The list of files with their subjects: tools/modules/subjects.py, on small files that are made up."""

import os
import sys
import tempfile
import unittest

from package import ROOT

sys.path.insert(0, f"{ROOT}/tools/modules")

import subjects

# The text of each file, and its subject.
FILES = {
    "rule.rt": ("//! The rule. It\n//! holds.\nuse std;\n", "The rule."),
    "Lists.antt": ("-- Lists of\n-- jobs, in order. Each once.\nuse A\n", "Lists of jobs, in order."),
    "locks.py": ('"""Locks of a run.\n\nBegin with `Lock`."""\n', "Locks of a run."),
    "calls.c": ("/* Calls that\n   fail. All of them. */\nint x;\n", "Calls that fail."),
    "amo.h": ("/* The calls\n * of C. */\n", "The calls of C."),
    "look": ("#!/usr/bin/env bash\n# Builds amo. Then runs it.\nset -u\n", "Builds amo."),
    "times": ('#!/usr/bin/env python3\n"""Measures. Prints."""\n', "Measures."),
    "long.rt": (f"//! Tries {'all ' * 25}of it: each call; each end.\n", f"Tries {'all ' * 25}of it."),
    "plain.rt": ("use std;\n", ""),
    "data": ("# no program\n", ""),
    "page.md": ("# A page\n", ""),
}


class Subjects(unittest.TestCase):
    """Files of each kind in one folder."""

    def setUp(self) -> None:
        room = tempfile.TemporaryDirectory()
        self.addCleanup(room.cleanup)
        self.root = room.name
        for name, (text, _) in FILES.items():
            self.put(f"tools/{name}", text)

    def put(self, path: str, text: str) -> None:
        """Writes a file."""
        os.makedirs(os.path.dirname(f"{self.root}/{path}"), exist_ok=True)
        with open(f"{self.root}/{path}", "w", encoding="utf-8") as held:
            held.write(text)

    def test_the_subject_is_the_first_sentence(self) -> None:
        for name, (_, wanted) in FILES.items():
            self.assertEqual(subjects.subject(f"{self.root}/tools/{name}"), wanted, name)

    def test_a_file_without_a_subject_has_no_row(self) -> None:
        rows = subjects.rows_of(self.root, "tools")
        self.assertEqual(len(rows), 2 + sum(1 for _, wanted in FILES.values() if wanted))
        self.assertIn("- [rule.rt](../../tools/rule.rt): The rule.", rows)

    def test_proofs_of_functions_are_left_out(self) -> None:
        self.put("crates/amo_two/proofs/Two.antt", "-- Two is two.\n")
        self.put("crates/amo_two/proofs/two/f/Answers.antt", "-- Answers.\n")
        self.put("crates/amo_two/out/two.rt", "//! Built.\n")
        self.assertEqual(list(subjects.paths_in(f"{self.root}/crates/amo_two")), ["proofs/Two.antt"])


if __name__ == "__main__":
    unittest.main()
