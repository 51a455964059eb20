"""The starts of workers: how they are noted in `pace.P`, and which marks a report makes of them."""

import json
import os
import re
import tempfile
import unittest
from unittest import mock

import package
from test_report import NOW, Page, Program, schemas

from amo_jobs import calls
from amo_jobs.settings import Settings
from amo_watch import assets, charts, facts, page, timeline

# The first boot, and the second: when the machine was started, and an id.
ONE = NOW - 9000, "1a2b3c4d-0000-4000-8000-000000000001"
TWO = NOW - 640, "1a2b3c4d-0000-4000-8000-000000000002"
FRONT = f"{NOW - 1000}.250            7".rjust(32)  # the pace, which takes 32 bytes
LINE = re.compile(r"(\w+) (\d+) (\d+) (\S+)")


def line(what, second, boot=ONE):
    """Returns the bytes of a start, as docs/guide/operating.md describes them."""
    return f"\n{what} {second} {boot[0]} {boot[1]}"


def own_starts(text):
    """Returns the starts in a file `pace.P`, by the tests' own reading: kind, time, boot."""
    found = [LINE.fullmatch(it) for it in text[32:].split("\n")]
    return [(it[1], int(it[2]), it[4]) for it in found if it and len(it[4]) == 36]


class Folders(unittest.TestCase):
    def setUp(self):
        self.room = tempfile.TemporaryDirectory()
        self.run = self.room.name
        self.boot = f"{self.run}/boot"
        with open(self.boot, "w", encoding="ascii") as file:
            file.write(f"{TWO[1]}\n")
        for it in (mock.patch.dict(os.environ, AMO_TEST_BOOT_ID=self.boot),
                   mock.patch.object(calls.time, "time", lambda: NOW + 0.75),
                   mock.patch.object(calls.time, "clock_gettime", lambda _: 640.5)):
            it.start()
            self.addCleanup(it.stop)
        self.addCleanup(self.room.cleanup)

    def put(self, worker, text):
        with open(f"{self.run}/pace.{worker}", "w", encoding="ascii", newline="") as file:
            file.write(text)

    def text(self, worker=1):
        with open(f"{self.run}/pace.{worker}", encoding="ascii", newline="") as file:
            return file.read()


class Notes(Folders):
    def test_a_start_has_a_line_after_the_pace(self):
        calls.note_start(self.run, 1, "crew")
        calls.note_pace(self.run, 1, NOW - 3.5, 12)
        calls.note_start(self.run, 1, "worker")
        calls.note_pace(self.run, 1, NOW - 3.5, 123456789012)
        front = f"{NOW - 4}.500 123456789012"
        self.assertEqual(self.text(), f"{front:>32}{line('crew', NOW, TWO)}{line('worker', NOW, TWO)}")

    def test_a_pace_of_an_earlier_version_makes_room(self):
        self.put(1, "1764099990.5 3\n")
        calls.note_start(self.run, 1, "crew")
        self.assertEqual(self.text(), f"{'1764099990.5 3':14}\n{'':17}{line('crew', NOW, TWO)}")

    def test_nothing_is_raised_if_nothing_can_be_written(self):
        os.mkdir(f"{self.run}/pace.1")
        for run in (self.run, f"{self.run}/missing"):
            calls.note_start(run, 1, "crew")
            calls.note_pace(run, 1, NOW, 1)
        os.unlink(self.boot)
        calls.note_start(self.run, 2, "crew")
        calls.note_pace(self.run, 2, NOW, 1)
        self.assertEqual(own_starts(self.text(2)), [])
        self.assertEqual(self.text(2).split(), [f"{NOW}.000", "1"])

    def test_a_kill_at_any_byte_costs_no_other_start(self):
        self.assertEqual(self.lost_by_kills(calls.note_start), [])

    def test_a_note_that_ends_its_line_in_place_of_beginning_it_is_noticed(self):
        def note(run, worker, what):
            with open(f"{run}/pace.{worker}", "ab") as file:
                file.write(b" " * (32 - file.tell()) + f"{line(what, NOW, TWO)[1:]}\n".encode())

        first = 32 + len(line("crew", NOW, TWO))
        self.assertEqual(self.lost_by_kills(note), [
            cut for cut in range(33, first + len(line("runner", NOW, TWO))) if cut != first])

    def lost_by_kills(self, note):
        """Has a start noted, another one cut off at each byte, and one after that. Returns the
        places of cuts after which the first or the last one isn't read, or another one is."""
        self.put(1, "")
        note(self.run, 1, "crew")
        first = self.text()
        note(self.run, 1, "runner")
        both = self.text()
        lost = []
        for cut in range(len(both) + 1):
            self.put(1, both[:cut])
            note(self.run, 1, "worker")
            kinds = [what for _, what, *_ in timeline.starts_of(self.run)]
            wanted = [*(["crew"] if cut >= len(first) else []),
                      *(["runner"] if cut == len(both) else []), "worker"]
            lost += [cut] if kinds != wanted else []
        return lost


class Marks(Folders):
    """A run of two workers, 1,000 seconds long, in which the machine was started once more.

    Worked out by hand: the first attempt was begun at NOW - 1000, and the last one ended at NOW. The
    first crew began at that time, so its start needs no mark.
    """

    ROWS = [[1, 1, 1, NOW - 1000, "done", 0, NOW - 900, "done"],
            [2, 1, 2, NOW - 999, "doubt", None, NOW - 600, "doubt"],
            [1, 2, 3, NOW - 590, "done", 0, NOW, "done"]]

    def setUp(self):
        super().setUp()
        torn = line("runner", NOW - 450, TWO)
        self.put(1, FRONT + line("crew", NOW - 1000) + line("worker", NOW - 800)
                 + line("crew", NOW - 600, TWO) + line("runner", NOW - 500, TWO) + torn[:-1]
                 + line("crew", NOW - 400, TWO))
        self.put(2, FRONT + line("crew", NOW - 1000) + line("crew", NOW - 600, TWO)
                 + line("crew", NOW - 399, TWO) + line("odd", NOW - 300, TWO) + "\nrunner 1")
        self.put(3, "1764099000.5 3\n")  # of an earlier version
        with open(f"{self.run}/jobs", "w", encoding="ascii") as file:
            file.write("a\nb\nc\n")

    # When, which kind, and which workers.
    WANTED = [(NOW - 800, "worker", [1]), (NOW - 640, "machine", []), (NOW - 600, "crew", [1, 2]),
              (NOW - 500, "runner", [1]), (NOW - 400, "crew", [1]), (NOW - 399, "crew", [2])]
    WORDS = ["restart of worker 1 by the runner, since a worker was killed or had failed",
             "start of this machine", "start of workers 1, 2 by a crew, or by amo_jobs work",
             "restart of worker 1 by the crew, since a runner was killed",
             "start of worker 1 by a crew, or by amo_jobs work",
             "start of worker 2 by a crew, or by amo_jobs work"]

    def report(self, rows=None):
        """Returns the facts of a report, which its schema describes, and the page."""
        found = facts.facts_of(Settings(jobs=f"{self.run}/list", run=self.run),
                               Program(rows or self.ROWS, 3), "1.2.3")
        schema = schemas.read(f"{package.ROOT}/docs/report.schema.json")
        self.assertEqual(list(schemas.faults(schema, json.loads(json.dumps(found)))), [])
        return found, Page("".join(page.page_of(found)))

    def marks(self):
        """Returns the marks of the report, by their times."""
        found = sorted(self.report()[0]["timeline"]["marks"], key=lambda it: it["time"])
        return [(it["time"], it["kind"], it["workers"]) for it in found]

    def test_each_restart_and_each_boot_has_a_mark(self):
        self.assertEqual(self.marks(), self.WANTED)
        found, _ = self.report()
        self.assertEqual([it["what"] for it in sorted(
            found["timeline"]["marks"], key=lambda it: it["time"])], self.WORDS)
        self.assertEqual(found["timeline"]["more_marks"], 0)

    def test_a_reader_that_takes_torn_lines_is_noticed(self):
        with mock.patch.object(timeline, "LINE", re.compile(r"(\w+) (\d+) (\d+) (\S+)")):
            self.assertNotEqual(self.marks(), self.WANTED)

    def test_the_boot_of_the_report_has_a_mark_without_any_note(self):
        for worker in (1, 2):
            os.unlink(f"{self.run}/pace.{worker}")
        self.assertEqual(self.marks(), [(NOW - 640, "machine", [])])
        os.unlink(self.boot)
        self.assertEqual(self.marks(), [])

    def test_a_mark_stands_in_the_lanes_that_it_concerns(self):
        _, seen = self.report()
        lanes, open_lane = {}, None
        for tag, more in seen.tags:
            if tag == "div" and more.get("class") == "lane":
                open_lane = len(lanes) + 1
                lanes[open_lane] = []
            elif tag == "p":
                open_lane = None
            elif tag == "b" and open_lane:
                lanes[open_lane].append((more["class"], more["style"], more["title"]))
        places = {time: f"left:{round(100 * (time - NOW + 1000) / 1001, 2):g}%"
                  for time, _, _ in self.WANTED}
        for lane in (1, 2):
            self.assertEqual(sorted(lanes[lane], key=str), sorted(
                ((f"m-{kind}", places[time], words)
                 for (time, kind, workers), words in zip(self.WANTED, self.WORDS)
                 if lane in workers or not workers), key=str), lane)
        self.assertEqual(list(lanes), [1, 2])

    def test_each_mark_is_listed_in_order_with_its_letter(self):
        _, seen = self.report()
        text = "".join(seen.texts)
        part = text[text.index("Lines with a letter are marks:"):]
        self.assertEqual(re.findall(r"([MCRW]) (?:re)?start of", part), list("MCRW"))
        rows = re.findall(r"([MCRW]) \d{4}-\d\d-\d\d \d\d:\d\d:\d\d [+-]\d{4}: ((?:re)?start of"
                          r" [a-z ]*[\d, ]*\d|start of this machine)", part)
        self.assertEqual([it for it, _ in rows], list("WMCRCC"))
        self.assertEqual([words for _, words in rows], [
            "restart of worker 1", "start of this machine", "start of workers 1, 2",
            "restart of worker 1", "start of worker 1", "start of worker 2"])

    def test_marks_differ_by_more_than_their_colour(self):
        self.assertEqual(set(charts.SIGNS), set(timeline.MEANINGS))
        self.assertEqual(len(set(charts.SIGNS.values())), len(charts.SIGNS))
        styles = {kind: re.findall(rf"\.bars \.m-{kind}\{{([^}}]*)\}}", assets.RULES)
                  for kind in charts.SIGNS}
        self.assertEqual(len({str(it) for it in styles.values()}), len(styles), styles)
        self.assertFalse([it for it in styles.values() if "color" in str(it)])

    def test_too_many_marks_are_left_out_and_the_page_says_so(self):
        for count in (timeline.MOST_MARKS - 3, timeline.MOST_MARKS - 2):
            self.put(1, FRONT + line("crew", NOW - 600, TWO)
                     + "".join(line("runner", NOW - 900 + it, TWO) for it in range(count))
                     + line("worker", NOW - 5, TWO))
            self.put(2, "")
            found, seen = self.report()
            marks, more = found["timeline"]["marks"], found["timeline"]["more_marks"]
            self.assertEqual((len(marks), more), (min(count + 3, 300), max(count + 3 - 300, 0)))
            self.assertEqual([it["kind"] for it in marks[:3]], ["machine", "crew", "runner"])
            self.assertEqual("1 more marks of the timeline" in "".join(seen.texts), bool(more))
            self.assertEqual("worker" in {it["kind"] for it in marks}, not more)

    def test_a_run_without_restarts_has_no_mark(self):
        with mock.patch.object(calls.time, "clock_gettime", lambda _: 5000.0):
            self.put(1, FRONT + line("crew", NOW - 1000, (NOW - 5000, TWO[1])))
            self.put(2, FRONT + line("crew", NOW - 999, (NOW - 5000, TWO[1])))
            _, seen = self.report()
        self.assertIn("There is no mark.", "".join(seen.texts))


if __name__ == "__main__":
    unittest.main()
