"""The table of exit statuses fits the pages and the sources of amo_worker."""

import glob
import re
import unittest

from package import ROOT

from amo_jobs.statuses import KINDS, Status

OF_WORKER = {"REGISTERS", "ANSWER", "FOLDER"}  # those that amo_jobs passes on from amo_worker


def read(path):
    with open(f"{ROOT}/{path}", encoding="utf-8") as file:
        return file.read()


def section(path, heading):
    """Returns the text of a page from a heading to the next heading."""
    return re.search(rf"^#+ {heading}\n(.*?)(?=^#|\Z)", read(path), re.M | re.S)[1]


def statuses_in(path, heading):
    """Returns the numbers of the first column of a table."""
    return [int(it) for it in re.findall(r"^\| (\d+) \|", section(path, heading), re.M)]


class Pages(unittest.TestCase):
    def test_operating_lists_each_status_once_and_no_other(self):
        self.assertEqual(statuses_in("docs/guide/operating.md", "Statuses"), sorted(Status))

    def test_protocol_lists_those_of_the_worker(self):
        listed = statuses_in("docs/protocol.md", "Ends")
        of_jobs_alone = {Status.FAILED, Status.DOUBTFUL, Status.BUILD}
        self.assertEqual(listed, sorted(set(Status) - of_jobs_alone))

    def test_the_help_of_amo_share_lists_statuses_that_exist(self):
        listed = re.search(r"^Statuses: (.*?)\n\n", read("python/amo_jobs/share.py"),
                           re.M | re.S)[1]
        for name, number in (("DONE", 0), ("FAILED", 1), ("DOUBTFUL", 2), ("REFUSED", 65),
                             ("LEFT", 69), ("LATER", 75)):
            self.assertEqual(Status[name], number)
            self.assertRegex(listed, rf"\b{number} ")

    def test_each_status_has_its_meaning_in_one_line(self):
        for line in re.findall(r"^    [A-Z]+ = .*", read("python/amo_jobs/statuses.py"), re.M):
            self.assertRegex(line, r"^    [A-Z]+ = \d+  # [a-z].{10,}")


class Worker(unittest.TestCase):
    def setUp(self):
        rows = re.findall(r"^status_of \(?(\w+).*= (\d+)$",
                          read("crates/amo_run_faults/specs/Statuses.antt"), re.M)
        self.rows = {name: int(number) for name, number in rows}

    def test_each_status_of_the_worker_is_in_the_table(self):
        self.assertGreater(len(self.rows), 20)
        self.assertLessEqual(set(self.rows.values()), set(Status))

    def test_the_meanings_fit_the_faults_of_the_worker(self):
        wanted = {"Refused": Status.REFUSED, "Left": Status.LEFT, "NoSuchNumber": Status.REGISTERS,
                  "Memory": Status.MEMORY, "Write": Status.WRITE, "Read": Status.READ,
                  "Later": Status.LATER, "NoAnswer": Status.ANSWER, "Door": Status.FOLDER}
        self.assertEqual({name: self.rows[name] for name in wanted}, wanted)

    def test_the_code_gives_the_statuses_that_are_defined(self):
        source = read("crates/amo_run_faults/src/error.rt")
        found = {int(it) for it in re.findall(r"=> (\d+),", source)}
        self.assertLessEqual(set(self.rows.values()), found)


class Sources(unittest.TestCase):
    def test_each_status_has_a_use_but_those_of_the_worker(self):
        used = set()
        for path in glob.glob(f"{ROOT}/python/amo_jobs/*.py"):
            with open(path, encoding="utf-8") as file:
                used |= set(re.findall(r"\bStatus\.([A-Z]+)\b", file.read()))
        self.assertEqual({it.name for it in Status} - used, OF_WORKER)

    def test_a_status_prints_as_a_number(self):
        self.assertEqual(f"(status {Status.LATER})", "(status 75)")

    def test_the_kinds_are_those_that_the_page_lists(self):
        rows = re.findall(r"^\| ([a-z ]+) \|", section(
            "docs/guide/operating.md", "What was it: done, failed, in doubt\\?"), re.M)
        self.assertEqual(["in doubt" if it == "doubt" else it for it in KINDS], rows[:6])


if __name__ == "__main__":
    unittest.main()
