"""The rules of qa/power, without a guest: what the bank finds wrong, and what a cut leaves."""

from __future__ import annotations

import os
import random
import sys
import tempfile
import unittest

ROOT = os.path.dirname(os.path.dirname(os.path.dirname(os.path.realpath(__file__))))
sys.path.append(f"{ROOT}/qa/power")

import bank
import disk
import moments

COUNTS = '"failed":0,"untouched":0,"alive":[]'
# Of three lines the first is done, the second in doubt, and the third open.
STATE = ('@state {"lines":3,"done":1,"doubt":1,"running":0,"open":1,%s,"intents":[{"intent":"2.1",'
         '"line":2,"text":"job-2","state":"doubt"}]} open 3  .' % COUNTS)
DOUBTS = '@doubts [{"intent":"2.1","line":2,"text":"job-2"}] .'
BEGIN = ["@up 1 first .", "begun 1.1 1 .", "performed 1.1 1 .", "begun 2.1 2 ."]
BLOCK = bytes(range(1, 9)) * 512  # 4096 bytes


class Sure(random.Random):
    """Draws the first of each choice, so that the operator answers each doubt."""

    def choice(self, found):  # type: ignore[no-untyped-def]
        return found[0]


def after(*lines: str) -> bank.Bank:
    """Returns the bank after a first boot, and these lines of the second."""
    found = bank.Bank(3, Sure(1), False)
    found.boot_anew(1, bank.Dangers())
    for line in BEGIN:
        found.take(line)
    found.boot_anew(2, bank.Dangers())
    for line in ("@up 2 second .", *lines):
        found.take(line)
    return found


class Rules(unittest.TestCase):
    def shows(self, kind: str, *lines: str) -> None:
        """Checks that these lines break the rule of this kind, and no other."""
        self.assertEqual(list(bank.kinds(after(*lines).wrongs)), [kind])

    def test_a_healthy_run_is_not_wrong(self) -> None:
        found = after(STATE, DOUBTS, "@answered 0  .", "begun 1.2 2 .", "performed 1.2 2 .")
        self.assertEqual(found.wrongs, [])
        self.assertEqual(found.taken, {"2.1"})

    def test_the_answer_is_the_one_of_the_book(self) -> None:
        found = after()
        self.assertEqual(found.take(DOUBTS), "2.1\t2\tjob-2\tnot-done\n.\n")
        found = after("performed 2.1 2 .")
        self.assertEqual(found.take(DOUBTS), "2.1\t2\tjob-2\tdone\n.\n")

    def test_a_line_that_is_performed_twice_is_found(self) -> None:
        self.shows("performed twice", "performed 3.1 1 .")

    def test_a_line_that_is_performed_and_open_is_found(self) -> None:
        self.shows("performed and open", "performed 3.1 3 .", STATE)

    def test_a_line_that_is_done_without_its_effect_is_found(self) -> None:
        state = STATE.replace('"done":1,"doubt":1', '"done":2,"doubt":0')
        self.shows("done and not performed",
                   state.replace('{"intent":"2.1","line":2,"text":"job-2","state":"doubt"}', ""))

    def test_what_begins_after_it_was_listed_is_found(self) -> None:
        found = after(DOUBTS)
        found.listed[2] = "2.1"
        found.take("begun 1.2 2 .")
        self.assertEqual(list(bank.kinds(found.wrongs)), ["begun after it was listed"])

    def test_an_answer_that_is_lost_is_found(self) -> None:
        self.shows("answer lost", DOUBTS, "@answered 0  .", DOUBTS)

    def test_a_boot_id_that_comes_twice_is_found(self) -> None:
        self.shows("boot id twice", "@up 3 first .")

    def test_a_refusal_is_found(self) -> None:
        self.shows("refused", "@refused status 65 journal.1 is damaged .")

    def test_a_mount_is_refused_only_by_a_disk_that_fails_no_request(self) -> None:
        text = "@refused mount can't read superblock ."
        self.shows("refused", text)
        found = after()
        found.boot_anew(3, bank.Dangers(fails=True))
        found.take(text)
        self.assertEqual((found.wrongs, found.is_refused, found.is_stuck), ([], False, True))

    def test_a_torn_commit_of_ext4_is_mended_and_no_other_refusal(self) -> None:
        found = after()
        found.take("@refused mount [ 2.6] JBD2: journal transaction 103 on vda-8 is corrupt. .")
        self.assertEqual((found.wrongs, found.is_refused, found.is_stuck, found.needs_fsck),
                         ([], False, True, True))
        self.shows("refused", "@refused mount EXT4-fs (vda): bad geometry .")
        self.shows("refused", "@refused status 65 journal transaction 103 on vda-8 is corrupt .")

    def test_a_crew_goes_on_twice_after_a_disk_has_failed(self) -> None:
        found = after()
        found.boot_anew(3, bank.Dangers(fails=True))
        stuck = [found.take("@crew 73 journal.1 .") or found.is_stuck for _ in range(3)]
        self.assertEqual((stuck, found.wrongs), ([False, False, True], []))
        self.shows("crew ended with 73", "@crew 73 journal.1 .")

    def test_a_run_that_is_gone_is_found(self) -> None:
        self.shows("lost", "@state none .")

    def test_processes_of_two_boots_have_two_numbers(self) -> None:
        found = bank.Bank(3, Sure(1), False)
        for boot in (1, 2):
            found.boot_anew(boot, bank.Dangers())
            found.take("begin 7 1 run /data/run .")
        self.assertEqual(found.calls, ["begin 1000007 1 run /data/run", "gone 1000007",
                                       "begin 2000007 1 run /data/run"])


class Cuts(unittest.TestCase):
    def test_a_write_is_torn_at_sectors_and_not_in_the_superblock(self) -> None:
        sizes = [(at, len(data)) for at, data in disk.sectors_of(512, BLOCK[:2048], 512)]
        self.assertEqual(sizes, [(512, 512), (1024, 1024), (2048, 512)])

    def test_the_extremes_leave_nothing_and_all(self) -> None:
        loose = [(8192, BLOCK)]
        self.assertEqual(disk.left_of(loose, "none", Sure(1), 512), (8, []))
        count, stay = disk.left_of(loose, "all", Sure(1), 512)
        self.assertEqual((count, b"".join(data for _, data in stay)), (8, BLOCK))

    def test_a_front_leaves_the_first_sectors(self) -> None:
        for seed in range(20):
            _, stay = disk.left_of([(8192, BLOCK)], "front", random.Random(seed), 512)
            self.assertEqual([at for at, _ in stay], [8192 + 512 * it for it in range(len(stay))])

    def test_a_moment_after_a_fault_waits_for_the_fault(self) -> None:
        watch = moments.Watch(moments.of_control(Sure(1), True))
        watch.hear("performed 1.1 1 .", False)
        self.assertIsNone(watch.deadline)
        watch.hear("performed 1.2 2 .", True)
        self.assertIsNotNone(watch.deadline)

    def test_a_moment_waits_for_its_line_and_its_requests(self) -> None:
        watch = moments.Watch(moments.Moment("a line", "begun", 2, 2))
        for line in ("begun 1.1 1 .", "performed 1.1 1 ."):
            watch.hear(line)
            watch.serve()
        self.assertIsNone(watch.deadline)
        watch.hear("begun 1.2 2 .")
        watch.serve()
        self.assertIsNone(watch.deadline)
        watch.serve()
        self.assertIsNotNone(watch.deadline)


class Faults(unittest.TestCase):
    """A disk of two blocks that fails one request. What failed is neither read nor kept."""

    def made(self, fault: disk.Fault) -> disk.Disk:
        self.room = tempfile.TemporaryDirectory()
        self.addCleanup(self.room.cleanup)
        path = f"{self.room.name}/disk"
        with open(path, "wb") as file:
            file.truncate(2 * len(BLOCK))
        return disk.Disk(path, "ext4", fault)

    def left(self, fault: disk.Fault, *requests: bytes) -> tuple[list[int], bytes]:
        """Returns the error of each request, and the first bytes that a cut leaves. An empty one is
        a flush, and the others are writes."""
        made = self.made(fault)
        errors = [made.change(disk.WRITE if it else disk.FLUSH, 0, it, 0) for it in requests]
        kept = made.kept[:9]
        made.cut("none", Sure(1))
        return errors, kept

    def test_only_what_was_flushed_is_kept(self) -> None:
        self.assertEqual(self.left(disk.NO_FAULT, b"kept", b"", b"lost"),
                         ([0, 0, 0], b"kept" + bytes(5)))

    def test_a_flush_that_fails_keeps_nothing(self) -> None:
        self.assertEqual(self.left(("flush", 1), b"kept", b""), ([0, disk.EIO], bytes(9)))
        self.assertEqual(self.left(("flush", 1), b"kept", b"", b""),
                         ([0, disk.EIO, 0], b"kept" + bytes(5)))

    def test_a_write_that_fails_is_lost_though_the_next_flush_works(self) -> None:
        self.assertEqual(self.left(("write", 2), b"kept", b"lost", b""),
                         ([0, disk.EIO, 0], b"kept" + bytes(5)))

    def test_a_fault_of_an_append_meets_its_last_byte_alone(self) -> None:
        self.assertEqual(self.left(("append", 1), b"-no recor", b"+no recor", b"-intent 1",
                                   b"+intent 1", b""), ([0, 0, 0, disk.EIO, 0], b"-intent 1"))


if __name__ == "__main__":
    unittest.main()
