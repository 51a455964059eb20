"""The places that have the version: tools/modules/versions.py."""

import os
import re
import shutil
import subprocess
import sys
import tempfile
import unittest

import package

sys.path.insert(0, f"{package.ROOT}/tools/modules")

import versions

CARGO = '[package]\nname = "amo"\nversion = "0.1.0"\n[dependencies]\n' \
        'amo-sys = { path = "../amo-sys", version = "=0.1.0" }\n'


class Places(unittest.TestCase):
    """A copy of the files that have the version, with a crate and a manual page."""

    def setUp(self):
        room = tempfile.TemporaryDirectory()
        self.addCleanup(room.cleanup)
        self.room = room.name
        for path in ["VERSION", *(it[0] for it in versions.files(package.ROOT))]:
            name = os.path.relpath(path, package.ROOT) if os.path.isabs(path) else path
            self.put(name, versions.read(f"{package.ROOT}/{name}"))
        self.put("rust/amo/Cargo.toml", CARGO)
        self.put("man/amo.1", '.TH AMO 1 2026-11-30 "amo 0.1.0" "User commands"\n')

    def put(self, name, text):
        os.makedirs(os.path.dirname(f"{self.room}/{name}"), exist_ok=True)
        with open(f"{self.room}/{name}", "w", encoding="utf-8") as file:
            file.write(text)

    def test_the_places_of_the_repository_agree(self):
        self.assertEqual(versions.wrong_places(package.ROOT), [])

    def test_each_place_is_changed_and_nothing_else(self):
        versions.write(self.room, "7.8.9-dev")
        self.assertEqual(versions.wrong_places(self.room), [])
        said = subprocess.run(["grep", "-rhoF", "7.8.9-dev", self.room], stdout=subprocess.PIPE,
                              text=True, check=True).stdout
        files = len(list(versions.files(self.room)))
        self.assertEqual(len(said.split()), files + 2)  # VERSION, and two places of Cargo.toml

    def test_a_place_with_another_version_is_found(self):
        versions.write(self.room, "7.8.9")
        for path, _, _ in versions.files(self.room):
            with self.subTest(path):
                text = versions.read(path)
                self.put(os.path.relpath(path, self.room), text.replace("7.8.9", "7.8.8", 1))
                self.assertEqual(len(versions.wrong_places(self.room)), 1)
                self.put(os.path.relpath(path, self.room), text)

    def test_a_file_that_lost_its_version_is_found(self):
        self.put("CITATION.cff", "title: amo\n")
        self.assertIn("it has no version", "".join(versions.wrong_places(self.room)))

    def test_each_program_reads_the_version_from_the_file(self):
        """The programs of a copy print the version of that copy."""
        for name in ("amo", "amo_show", "amo_worker", "amo_jobs", "amo_share"):
            shutil.copy(f"{package.ROOT}/{name}", self.room)
        shutil.copytree(f"{package.ROOT}/python", f"{self.room}/python",
                        ignore=shutil.ignore_patterns("out", "__pycache__"))
        os.makedirs(f"{self.room}/tools")
        shutil.copy(f"{package.ROOT}/tools/launch", f"{self.room}/tools")
        versions.write(self.room, "7.8.9")
        for name in ("amo", "amo_show", "amo_worker", "amo_jobs", "amo_share"):
            said = subprocess.run([f"{self.room}/{name}", "--version"], stdout=subprocess.PIPE,
                                  stdin=subprocess.DEVNULL, text=True, check=True).stdout
            self.assertEqual(said, f"{name} 7.8.9\n")

    def test_each_past_version_has_left_a_run(self):
        text = versions.read(f"{package.ROOT}/CHANGELOG.md")
        past = re.findall(r"^## (\d.*)$", text, re.M)[1:]
        self.assertEqual(past[-1], "0.1.0")
        for it in past:
            path = f"{package.ROOT}/tools/releases/past/{it}/expected"
            self.assertTrue(os.path.isfile(path), f"{path}: call tools/releases/keep_run")

    def test_a_word_that_is_no_version_is_refused(self):
        for word in ("1.2", "v1.2.3", "1.2.3-", "1.2.3 4", ""):
            self.assertIsNone(versions.VERSION.fullmatch(word))


if __name__ == "__main__":
    unittest.main()
