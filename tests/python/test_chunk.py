"""Which folder of a chunk is the one that was made here: a copy is refused, and no other folder."""

import json
import os
import shutil
import tempfile
import unittest
from unittest import mock

import package  # noqa: F401

from amo_jobs import chunk
from amo_jobs.messages import End


class Copies(unittest.TestCase):
    def setUp(self):
        # On the disk: a file system in memory shows no generation.
        held = tempfile.TemporaryDirectory()
        self.addCleanup(held.cleanup)
        self.room = held.name
        sharing = chunk.Sharing(run=self.room, machine="m1", digest="d", chunk=2, lines=2)
        self.chunk = chunk.Chunk(sharing, None, 1)
        self.folder = self.chunk.folder
        os.mkdir(self.folder)
        for name in ("list", "id"):
            self.write(name, f"{name}\n")
        self.chunk.put_mark(self.folder, "m1.0")

    def write(self, name, text):
        with open(f"{self.folder}/{name}", "w", encoding="ascii") as file:
            file.write(text)

    def restore(self):
        """Puts a copy in the place of the folder, and returns the numbers of its list before and
        after that."""
        before = os.stat(f"{self.folder}/list").st_ino
        shutil.copytree(self.folder, f"{self.room}/copy")
        shutil.rmtree(self.folder)
        shutil.copytree(f"{self.room}/copy", self.folder)
        shutil.rmtree(f"{self.room}/copy")
        return before, os.stat(f"{self.folder}/list").st_ino

    def has_same_number(self):
        """Has the mark name the file that is there, as if the file had got the number of the lost
        one; returns the mark."""
        mark = {**self.chunk.note(), "file": os.stat(f"{self.folder}/list").st_ino}
        self.write("mark", json.dumps(mark))
        return mark

    def shows_generations(self):
        return chunk.generation_of(f"{self.folder}/list") != -1

    def test_a_copy_is_refused(self):
        before, after = self.restore()
        if before == after and not self.shows_generations():
            self.skipTest("a copy has the same number, and this file system shows no generation")
        with self.assertRaisesRegex(End, "or is a copy or a backup"):
            self.chunk.check()

    def test_a_copy_whose_file_has_the_same_number_is_refused(self):
        self.restore()
        mark = self.has_same_number()
        if not self.shows_generations():
            self.skipTest("this file system shows no generation of a file")
        with self.assertRaisesRegex(End, "or is a copy or a backup"):
            self.chunk.check()
        self.assertEqual(self.chunk.note(), mark)
        self.chunk.sharing.moved = True
        self.chunk.check()
        self.chunk.sharing.moved = False
        self.chunk.check()

    def test_no_change_of_the_only_folder_makes_it_a_copy(self):
        path = f"{self.folder}/list"
        changes = {
            "chmod": lambda: os.chmod(path, 0o640), "utime": lambda: os.utime(path, (1, 1)),
            "link": lambda: os.link(path, f"{self.room}/backup"),
            "unlink": lambda: os.unlink(f"{self.room}/backup"),
            "owner": lambda: os.chown(path, os.getuid(), os.getgid()),
            "renamed": lambda: (os.rename(path, f"{path}.1"), os.rename(f"{path}.1", path)),
            "folder renamed": lambda: (os.rename(self.folder, f"{self.folder}.1"),
                                       os.rename(f"{self.folder}.1", self.folder)),
        }
        for name, change in changes.items():
            change()
            with self.subTest(name):
                self.chunk.check()

    def test_a_generation_that_is_not_known_refuses_nothing(self):
        with mock.patch.object(chunk.fcntl, "ioctl", side_effect=OSError(25, "not supported")):
            self.chunk.check()
            self.chunk.put_mark(self.folder, "m1.1")  # as on another kernel
        self.chunk.check()
        mark = self.chunk.note()
        del mark["generation"]  # as an earlier version wrote it
        self.write("mark", json.dumps(mark))
        self.chunk.check()

    def test_another_machine_is_refused(self):
        self.chunk.sharing.machine = "m2"
        with self.assertRaisesRegex(End, "it was made elsewhere"):
            self.chunk.check()


if __name__ == "__main__":
    unittest.main()
