"""Pipes to and from a child: whole lines, full pipes, and ends."""

import os
import unittest

import package  # noqa: F401

from amo_jobs.pipes import Child, Reader, Writer


class Ends(unittest.TestCase):
    """Both ends of one pipe."""

    def setUp(self):
        reads, writes = os.pipe()
        self.reader, self.writer = Reader(reads), Writer(writes)
        self.addCleanup(self.writer.close)
        self.addCleanup(lambda: [os.close(it) for it in self.reader.files])

    def test_whole_lines_come_and_the_rest_waits(self):
        self.assertEqual(self.reader.lines(), [])
        self.writer.send(b"one\ntw")
        self.assertEqual(self.reader.lines(), [b"one"])
        self.writer.send(b"o\n\nthree")
        self.writer.close()
        self.assertEqual(self.reader.lines(), [b"two", b""])
        self.assertEqual(self.reader.lines(), [])
        self.assertEqual((self.reader.files, self.reader.rest), ([], b"three"))

    def test_a_full_pipe_loses_nothing(self):
        sent, found = b"x" * 99 + b"\n", []
        for _ in range(2000):
            self.writer.send(sent)
        self.assertTrue(self.writer.unsent)
        while self.writer.unsent:
            found += self.reader.lines()
            self.writer.send()
        found += self.reader.lines()
        self.assertEqual(found, [sent[:-1]] * 2000)

    def test_nothing_is_kept_for_a_reader_that_is_gone(self):
        os.close(self.reader.files.pop())
        for _ in range(2):
            self.writer.send(b"one\n")
            self.assertEqual((self.writer.files, self.writer.unsent), ([], b""))


class Started(unittest.TestCase):
    def test_a_child_reads_and_writes_its_pipes(self):
        child = Child(["sh", "-c", "read it; echo $it; echo $it >&2"], 0, (1, 2), {})
        child.input.send(b"pay\n")
        os.waitpid(child.process, 0)
        self.assertEqual([it.lines() for it in child.outputs], [[b"pay"], [b"pay"]])
        child.close()
        self.assertEqual([child.input.files, *(it.files for it in child.outputs)], [[], [], []])

    def test_a_child_that_cannot_be_started_leaves_no_pipe(self):
        before = os.listdir("/proc/self/fd")
        self.assertRaises(OSError, Child, ["/there/is/none"], 0, (1, 2), {})
        self.assertEqual(os.listdir("/proc/self/fd"), before)


if __name__ == "__main__":
    unittest.main()
