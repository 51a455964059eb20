"""How a release is packed and tried: the modules of tools/releases."""

import io
import os
import re
import subprocess
import sys
import tarfile
import tempfile
import unittest
import zipfile
from unittest import mock

import package

sys.path[:0] = [f"{package.ROOT}/tools/releases", f"{package.ROOT}/tools/modules"]

import follow
import forms
import roots
import tree
import trials

PAGE = """# A page

```console installed
$ echo one; echo two
one
two
```

```console run
$ false
```

```console installed
$ date
.., at ..
```
"""


class Room(unittest.TestCase):
    def setUp(self):
        room = tempfile.TemporaryDirectory()
        self.addCleanup(room.cleanup)
        self.room = room.name

    def put(self, name, text, mode=0o644, time=1):
        path = f"{self.room}/{name}"
        os.makedirs(os.path.dirname(path), exist_ok=True)
        with open(path, "w", encoding="utf-8") as file:
            file.write(text)
        os.chmod(path, mode)
        os.utime(path, (time, time))
        return path

    def read(self, name):
        with open(f"{self.room}/{name}", "rb") as file:
            return file.read()


class Followed(Room):
    def test_only_the_blocks_of_an_installed_program_are_followed(self):
        self.assertEqual(follow.steps_of(PAGE), [("echo one; echo two", ["one", "two"]),
                                                 ("date", [".., at .."])])

    def test_two_dots_stand_for_any_text_and_nothing_else_does(self):
        self.assertTrue(follow.fits([".., line 2: a.b"], "1.2, line 2: a.b\n"))
        self.assertFalse(follow.fits([".., line 2: a.b"], "1.2, line 2: axb\n"))
        self.assertFalse(follow.fits(["one"], "one\ntwo\n"))
        self.assertFalse(follow.fits(["one", "two"], "one\n"))

    def test_another_output_fails_and_so_does_a_page_without_steps(self):
        good = self.put("good.md", "```console installed\n$ echo one\none\n```\n")
        other = self.put("other.md", "```console installed\n$ echo two\none\n```\n")
        none = self.put("none.md", "no steps\n")
        with mock.patch("builtins.print"):
            self.assertEqual([follow.main(it) for it in (good, other, none)], [0, 1, 1])


class Packed(Room):
    """The same files, written at other times and by another umask."""

    def two(self):
        for which, time, mode in (("one", 1000, 0o600), ("two", 2000, 0o644)):
            self.put(f"{which}/amo-1/b", "b\n", mode, time)
            self.put(f"{which}/amo-1/a/run", "#!/bin/sh\n", mode | 0o100, time)
            tree.settle(f"{self.room}/{which}/amo-1")
            tree.write_sums(f"{self.room}/{which}/amo-1")

    def test_an_archive_has_the_same_bytes(self):
        self.two()
        for which in ("one", "two"):
            forms.make_archive(f"{self.room}/{which}/amo-1", f"{self.room}/{which}.tar.gz", 3000)
            subprocess.run(["tar", "-czf", f"{self.room}/{which}.plain", "-C",
                            f"{self.room}/{which}", "amo-1"], check=True)
        self.assertEqual(self.read("one.tar.gz"), self.read("two.tar.gz"))
        self.assertNotEqual(self.read("one.plain"), self.read("two.plain"))

    def test_a_package_has_the_same_bytes(self):
        for which, time in (("one", 1000), ("two", 2000)):
            self.put(f"{which}/usr/share/b", "b\n", time=time)
            self.put(f"{which}/DEBIAN/control", "Package: b\nVersion: 1\nArchitecture: all\n"
                     "Maintainer: A <a@b.example>\nDescription: b\n", time=time)
            os.chmod(f"{self.room}/{which}/DEBIAN", 0o755)
            forms.build_package(f"{self.room}/{which}", f"{self.room}/{which}.deb", 3000)
        self.assertEqual(self.read("one.deb"), self.read("two.deb"))

    def test_the_sums_name_each_file_but_themselves(self):
        self.two()
        ran = subprocess.run(["sha256sum", "--check", "--strict", "SHA256SUMS"],
                             cwd=f"{self.room}/one/amo-1", stdout=subprocess.PIPE, text=True)
        self.assertEqual(ran.stdout, "a/run: OK\nb: OK\n")

    def test_a_development_version_comes_before_the_release(self):
        older = forms.debian_version("0.2.0-dev")
        newer = forms.debian_version("0.2.0")
        self.assertEqual(subprocess.run(["dpkg", "--compare-versions", older, "lt", newer],
                                        ).returncode, 0)

    def test_a_missing_file_is_named(self):
        with self.assertRaisesRegex(FileNotFoundError, "it is missing; build it"):
            tree.gather(f"{self.room}/none", "kit", f"{self.room}/into")


class Page(Room):
    """The steps of docs/guide/install.md, whose blocks no other test runs."""

    def setUp(self):
        super().setUp()
        with open(f"{package.ROOT}/docs/guide/install.md", encoding="utf-8") as file:
            self.page = file.read()

    def blocks(self, title):
        """Returns the blocks of a section that aren't run."""
        section = re.search(rf"^#+ {title}\n(.*?)(?=^## |\Z)", self.page, re.M | re.S)[1]
        return re.findall(r"^ *```sh not run:[^\n]*\n(.*?)^ *```$", section, re.M | re.S)

    def test_the_steps_for_a_unit_are_tried_in_a_root(self):
        steps = "".join(self.blocks("A unit of systemd")).splitlines()
        self.assertEqual(len(steps), 5)  # a user, two folders, an owner, a mode, another command
        with open(f"{package.ROOT}/tools/releases/in_root", encoding="utf-8") as file:
            tried = file.read()
        for step in steps:
            self.assertIn(f"  {step.strip()}", tried)

    def test_the_units_find_the_programs_of_an_unpacked_archive(self):
        self.put("amo-1.0/amo_jobs", "a program")
        os.makedirs(f"{self.room}/opt")
        forms.make_archive(f"{self.room}/amo-1.0",
                           f"{self.room}/amo-1.0-x86_64-linux.tar.gz", 1)
        steps = next(it for it in self.blocks("Install") if "-C /opt" in it)
        steps = steps.replace("VERSION", "1.0").replace("/opt", f"{self.room}/opt")
        subprocess.run(["sh", "-euc", steps], cwd=self.room, check=True)
        for name in ("payments", "payments@", "payments-watched"):
            with open(f"{package.ROOT}/examples/systemd/{name}.service", encoding="utf-8") as file:
                program = re.search(r"^ExecStart=(\S+)", file.read(), re.M)[1]
            self.assertTrue(os.path.exists(f"{self.room}{program}"), program)

    def test_the_sums_of_some_files_fit(self):
        for name in ("one", "two"):
            self.put(f"files/{name}", name)
        tree.write_sums(f"{self.room}/files")
        os.remove(f"{self.room}/files/one")
        calls = [it.partition("&& ")[2] for it in self.blocks("Who made it")]
        self.assertEqual(len(calls), 2)
        for call in calls:
            said = subprocess.run(["sh", "-c", call], cwd=f"{self.room}/files", check=True,
                                  stdout=subprocess.PIPE, text=True).stdout
            self.assertEqual(said, "two: OK\n")


class Kept(Room):
    def test_a_root_made_by_another_list_does_not_count(self):
        self.put("lists/apt", "python3\nsystemd\n")
        os.makedirs(f"{self.room}/kept/apt")
        with mock.patch.multiple(roots, LISTS=f"{self.room}/lists", KEPT=f"{self.room}/kept"):
            self.assertFalse(roots.is_kept("apt"))
            self.put("kept/apt.list", "python3\nsystemd\n")
            self.assertTrue(roots.is_kept("apt"))
            self.put("kept/apt.list", "python3\n")
            self.assertFalse(roots.is_kept("apt"))

    def test_a_root_that_was_made_in_part_does_not_count(self):
        """Its list is left of a root that was removed."""
        self.put("lists/apt", "python3\n")
        self.put("kept/apt.list", "python3\n")

        def make(words, **_):
            os.makedirs(words[-2])
            raise subprocess.CalledProcessError(1, words)

        with mock.patch.multiple(roots, LISTS=f"{self.room}/lists", KEPT=f"{self.room}/kept"):
            with mock.patch("subprocess.run", make):
                self.assertRaises(subprocess.CalledProcessError, roots.make, "apt")
            self.assertFalse(roots.is_kept("apt"))
            with mock.patch("subprocess.run", lambda words, **_: os.makedirs(words[-2])):
                roots.make("apt")
            self.assertTrue(roots.is_kept("apt"))


class Spoiled(Room):
    """Forms of a release, each with a mistake."""

    def test_a_wheel_lacks_one_file_and_keeps_the_modes_of_the_others(self):
        path = f"{self.room}/a.whl"
        with zipfile.ZipFile(path, "w") as wheel:
            for name, mode in (("amo/one", 0o755), ("amo/two", 0o644)):
                entry = zipfile.ZipInfo(name)
                entry.external_attr = mode << 16
                wheel.writestr(entry, name)
        trials.drop_from_wheel("amo/two")(path)
        with zipfile.ZipFile(path) as wheel:
            self.assertEqual([(it.filename, it.external_attr >> 16, wheel.read(it))
                              for it in wheel.infolist()], [("amo/one", 0o755, b"amo/one")])

    def test_an_archive_of_crates_lacks_one_file(self):
        path = f"{self.room}/a.tar.gz"
        with tarfile.open(path, "w:gz") as archive:
            for name in ("amo-1/lib/one.a", "amo-1/one.a"):
                entry = tarfile.TarInfo(name)
                entry.size = 3
                archive.addfile(entry, io.BytesIO(b"abc"))
        trials.drop_from_crates("lib/one.a")(path)
        with tarfile.open(path) as archive:
            self.assertEqual([(it.name, archive.extractfile(it).read()) for it in archive],
                             [("amo-1/one.a", b"abc")])

    def test_only_a_failure_of_the_last_case_counts_as_caught(self):
        case = "a_program_in_c_is_built"
        for failed in ("release: a program in c is built: FAILED\n",
                       "one\nrelease: a program in c is built: FAILED\ntwo\n"):
            self.assertTrue(trials.failed_case(failed, case))
        for other in ("release: a program in c is built: ok\n",
                      "release: no rust: FAILED\n", ""):
            self.assertFalse(trials.failed_case(other, case))


if __name__ == "__main__":
    unittest.main()
