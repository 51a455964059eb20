"""The part in C: how it is built, and that it holds under the sanitizers."""

import os
import shutil
import subprocess
import sys
import tempfile
import unittest
from unittest import mock

import package
from amo_jobs import library
from amo_jobs.messages import End
from amo_jobs.statuses import Status

STRICT = ["-Werror", "-pedantic", "-g", "-O1", "-fsanitize=address,undefined",
          "-fno-sanitize-recover=all"]
TESTS = ["test_command", "test_processes"]
# Takes the built part in C, and then runs these tests over it.
RUNS = """
import os, sys, unittest
del os.environ["LD_PRELOAD"]  # so that no command has it
import package
from amo_jobs import library
library.BUILT = sys.argv[1]
unittest.main(None, argv=sys.argv[1:])
"""


class Built(unittest.TestCase):
    """A copy of the package, in which nothing is built."""

    def setUp(self):
        room = tempfile.TemporaryDirectory()
        self.addCleanup(room.cleanup)
        self.room = room.name
        os.mkdir(f"{self.room}/amo_jobs")
        shutil.copy(library.SOURCE, f"{self.room}/amo_jobs")
        here = f"{self.room}/amo_jobs"
        out = f"{self.room}/out"
        paths = {"SOURCE": f"{here}/calls.c", "FOLDER": out, "BUILT": f"{out}/calls.so"}
        patch = mock.patch.multiple(library, **paths)
        patch.start()
        self.addCleanup(patch.stop)

    def out(self):
        return os.listdir(f"{self.room}/out")

    def test_it_is_built_once(self):
        path = library.built()
        self.assertEqual(self.out(), [os.path.basename(path)])
        with mock.patch.object(library, "build", side_effect=AssertionError):
            self.assertEqual(library.built(), path)

    def test_another_source_is_built_anew(self):
        path = library.built()
        with open(library.SOURCE, "a") as file:
            file.write("/* */\n")
        self.assertNotEqual(library.built(), path)
        self.assertEqual(len(self.out()), 2)

    def test_two_that_build_at_once_end_with_the_same(self):
        build = library.build

        def both(path):
            build(path)
            shutil.copy(path, library_path)  # the other one was sooner

        library_path = library.built()
        os.unlink(library_path)
        with mock.patch.object(library, "build", both):
            self.assertEqual(library.built(), library_path)
        self.assertEqual(self.out(), [os.path.basename(library_path)])

    def test_without_a_compiler_the_message_says_what_to_install(self):
        for compiler, why in (("there-is-none", "no such file"), ("false", "status 1")):
            with mock.patch.dict(os.environ, {"CC": compiler}):
                with self.assertRaises(End) as raised:
                    library.built()
            self.assertEqual(raised.exception.status, Status.BUILD)
            self.assertIn(f"`{compiler}`: it can't build the part of amo_jobs in C: {why}",
                          raised.exception.text)
            self.assertIn("install a C compiler", raised.exception.text)
            self.assertEqual(self.out(), [])

    def test_a_release_builds_nothing(self):
        os.mkdir(library.FOLDER)
        library.build(library.BUILT)
        with mock.patch.object(library, "built", side_effect=AssertionError):
            self.assertTrue(library.library.__wrapped__().amo_start)


class Sanitized(unittest.TestCase):
    """The tests of commands and processes over a part in C that checks each access."""

    def test_no_access_is_wrong(self):
        with tempfile.TemporaryDirectory() as room:
            with mock.patch.object(library, "OPTIONS", library.OPTIONS[:-1] + STRICT):
                library.build(f"{room}/calls.so")
            found = subprocess.run(["cc", "-print-file-name=libasan.so"], stdout=subprocess.PIPE,
                                   encoding="utf-8").stdout.strip()
            words = [sys.executable, "-B", "-c", RUNS, f"{room}/calls.so", *TESTS]
            more = {"LD_PRELOAD": found, "ASAN_OPTIONS": "detect_leaks=0"}
            ran = subprocess.run(words, cwd=f"{package.ROOT}/tests/python",
                                 env={**os.environ, **more}, stdin=subprocess.DEVNULL,
                                 stdout=subprocess.PIPE, stderr=subprocess.STDOUT, encoding="utf-8")
        self.assertEqual(ran.returncode, 0, ran.stdout[-3000:])


if __name__ == "__main__":
    unittest.main()
