"""The live view, the numbers for a monitor, and the reports of a crew to others."""

import json
import os
import random
import re
import shutil
import signal
import subprocess
import sys
import tempfile
import types
import unittest
from unittest import mock

import package

from amo_jobs.messages import Screen
from amo_jobs.settings import Settings
from amo_watch import chunks, commands, figures, live, metrics, news, snapshot, teller, view
from test_report import NOW, Program

sys.path.insert(0, f"{package.ROOT}/tools/modules")

import schemas

ROWS = [[1, 1, 1, NOW - 90, "done", 0, NOW - 50, "done"],
        [1, 2, 2, NOW - 49, "doubt", None, NOW - 20, "doubt"],
        [1, 3, 3, NOW - 19, "pending", None, None, "pending"],
        [2, 1, 4, NOW - 90, "done", 7, NOW - 10, "failed"]]
SAMPLE = re.compile(r'([a-z_]+)\{run="((?:[^"\\\n]|\\["\\n])*)"(?:,(\w+)="(\w+)")?\}'
                    r' (-?\d+(?:\.\d+)?)')


def found_of(rows, lines):
    found = snapshot.Snapshot()
    found.take(Program(rows, lines).said)
    return found


class Views(unittest.TestCase):
    def rows(self, width, height, shown=None, texts=None):
        facts = view.Facts(found_of(ROWS, 9), texts or {2: "rent", 3: "t\u00e4glich \x1b[2J"},
                           {"1.3": "sent"}, [1])
        return view.picture(facts, shown or view.View(), width, height)

    def test_each_row_fits_and_the_keys_are_in_the_last_one(self):
        for width, height in ((79, 24), (39, 10), (199, 50), (39, 4), (10, 1), (200, 2)):
            for shown in (view.View(), view.View(has_doubts=True)):
                rows = self.rows(width, height, shown, {3: "\u6f22" * 400})
                self.assertLessEqual(len(rows), height)
                for text, _ in rows:
                    self.assertLessEqual(sum(map(view.columns_of, text)), width, (text, width))
                    self.assertTrue(text.isprintable() or not text)
                self.assertEqual(rows[-1][0], view.KEYS[:width])

    def test_a_worker_has_its_line_its_age_and_its_last_output(self):
        texts = [it for it, _ in self.rows(100, 24)]
        self.assertIn(" 1 19 s, line 3: t\u00e4glich \\x1b[2J | sent", texts)
        self.assertIn(" 2 (no runner)", texts)
        self.assertIn("9 lines: 1 done 1 failed 1 in doubt 1 running or in doubt 5 open", texts)

    def test_the_last_output_has_room_beside_a_long_text(self):
        long = {2: "rent", 3: "\u6f22" * 400}
        for width in (39, 79, 199):
            row = next(it for it, _ in self.rows(width, 24, None, long) if "line 3" in it)
            self.assertTrue(row.endswith("\u6f22 | sent"), row)
            self.assertIn(sum(map(view.columns_of, row)), (width - 1, width))
        self.assertEqual(view.beside("a" * 30, "b" * 30, 20), "a" * 10 + " | " + "b" * 30)

    def test_each_size_has_both_paces_and_the_end(self):
        more = [[3, k, 9 + k, NOW - 9, "done", 0, NOW - 3, "done"] for k in range(1, 13)]
        found = found_of(ROWS + more, 21)  # 15 ends in the last minute, and 14 seen in 87 s
        texts = {size: [it for it, _ in view.picture(view.Facts(found, {}, {}, []), view.View(),
                                                     *size)] for size in ((39, 10), (79, 24))}
        self.assertRegex(texts[39, 10][3], r"^0\.25/s, all 0\.161/s, over \d\d:\d\d:\d\d$")
        self.assertRegex(texts[79, 24][2], r"^0\.25 a second in the last minute, 0\.161 over all;"
                                           r" over at \d\d:\d\d:\d\d, in 24 s$")
        self.assertLess(max(map(len, texts[39, 10])), 40)
        self.assertTrue(max(map(len, (view.ASKED, view.KEYS))) < 40)

    def test_the_bar_has_a_place_for_each_state(self):
        bar = view.bar(found_of(ROWS, 1000), 42)
        self.assertEqual(bar, "[#x?>" + "." * 36 + "]")
        self.assertEqual(view.bar(found_of([], 0), 6), "[    ]")

    def test_keys(self):
        shown = view.View()
        shown.take("d")
        self.assertTrue(shown.has_doubts)
        texts = [it for it, _ in self.rows(80, 24, shown)]
        self.assertIn("1.2, line 2, recorded 20 s ago: rent", texts)
        shown.take("s")
        self.assertEqual(self.rows(80, 24, shown)[-1], (view.ASKED, True))
        shown.take("q")  # any key but y
        self.assertEqual((shown.answer, shown.is_asking), (view.Answer.NONE, False))
        shown.take("s")
        shown.take("y")
        self.assertEqual(shown.answer, view.Answer.STOP)
        shown.take("q")
        self.assertEqual(shown.answer, view.Answer.QUIT)

    def test_nobody_is_stopped_who_only_has_the_number(self):
        with tempfile.TemporaryDirectory() as run:
            with open(f"{run}/crew", "w", encoding="ascii") as file:
                file.write(f"{os.getpid()}\n")
            watched = live.Live.__new__(live.Live)
            watched.settings = Settings(run=run)
            self.assertEqual(watched.crew(), 0)  # this process has not the file open
            self.assertEqual(watched.stop(), "no crew is at work in this folder")
            with open(f"{run}/crew", encoding="ascii"):
                self.assertEqual(watched.crew(), os.getpid())

    def test_the_process_that_has_signed_the_file_and_has_it_open_gets_term(self):
        with tempfile.TemporaryDirectory() as run:
            script = f"exec 3<>{run}/crew; echo $$ >&3; echo signed; exec sleep 1000"
            with subprocess.Popen(["sh", "-c", script], stdout=subprocess.PIPE) as child:
                child.stdout.readline()
                watched = live.Live.__new__(live.Live)
                watched.settings = Settings(run=run)
                self.assertEqual(watched.stop(), f"sent TERM to {child.pid}; commands go on")
                self.assertEqual(child.wait(60), -signal.SIGTERM)


class Paces(unittest.TestCase):
    """The pace of a run whose lines take a second each. It is worked out by hand."""

    def rates(self, rows, since=0.0):
        """Returns the rates of a run of 1,000 lines, whose runners began at this time."""
        found = found_of(rows, 1000)
        found.since = since
        return figures.rates_of(found)

    def crew(self, first, count, begun, code=0):
        """Returns attempts from this one on, begun from this time on, one after the other."""
        return [[1, first + k, first + k, begun + k, "done", code, begun + k + 1, "done"]
                for k in range(count)]

    def test_a_pause_lowers_no_pace_and_makes_no_end_later(self):
        for seconds in (5, 30, 300):
            rows = self.crew(1, 100, NOW - seconds - 3700)
            rows += self.crew(101, seconds, NOW - seconds)
            rows += [[1, 101 + seconds, 101 + seconds, NOW, "pending", None, None, "pending"]]
            found = self.rates(rows, NOW - seconds + 0.5)
            self.assertEqual((found["a_second"], found["last_minute"]), (1, 1), seconds)
            self.assertEqual(found["over_at"], NOW + 900 - seconds, seconds)

    def test_a_crew_that_was_killed_makes_no_pace_lower(self):
        # The next crew found the doubt an hour later, 10 seconds ago. Its first line took a second.
        rows = [*self.crew(1, 100, NOW - 3710),
                [1, 101, 101, NOW - 3610, "doubt", None, NOW - 10, "doubt"],
                *self.crew(102, 10, NOW - 10)]
        found = self.rates(rows, NOW - 10.0)
        self.assertEqual((found["a_second"], found["last_minute"]), (1, 1))
        without = self.rates(rows)  # as if nobody knew when the runners began
        self.assertEqual(without["last_minute"], round(11 / 60, 3))

    def test_the_minute_of_old_runners_is_a_minute(self):
        rows = self.crew(1, 300, NOW - 300)
        self.assertEqual(self.rates(rows, NOW - 300.0)["last_minute"], 1)
        self.assertEqual(self.rates(rows[:270], NOW - 300.0)["last_minute"], 0.5)

    def test_a_clock_that_was_set_back_divides_by_no_zero(self):
        self.assertEqual(self.rates(self.crew(1, 9, NOW - 8), NOW + 500.0)["last_minute"], 1)

    def test_each_short_attempt_between_pauses_counts_as_a_second(self):
        rows = [[1, k, k, NOW - 5 * k, "done", 0, NOW - 5 * k, "done"] for k in range(1, 11)]
        self.assertEqual(self.rates(rows)["a_second"], 1)
        self.assertEqual(self.rates([])["a_second"], 0)

    def test_times_in_any_order_are_put_together(self):
        draws = random.Random(7)
        for _ in range(300):
            found, seconds = snapshot.Snapshot(), set()
            for _ in range(draws.randint(1, 9)):
                begun, length = draws.randint(1, 40), draws.randint(0, 6)
                found.note_time(begun, length)
                seconds |= {*range(begun, begun + length + 1)}
            begins = [it for it in sorted(seconds) if it - 1 not in seconds]
            stops = [it for it in sorted(seconds) if it + 1 not in seconds]
            self.assertEqual((found.begins, found.stops), (begins, stops))

    def test_the_first_runner_that_is_alive_counts(self):
        with tempfile.TemporaryDirectory() as run:
            self.assertEqual(snapshot.began(run, []), 0)
            for worker, time in ((1, 900.0), (3, 1000.5), (4, 2000.0)):
                with open(f"{run}/runner.{worker}", "w", encoding="ascii"):
                    os.utime(f"{run}/runner.{worker}", (time, time))
            self.assertEqual(snapshot.began(run, [4, 3]), 1000.5)

    def test_a_live_view_looks_when_its_runners_began(self):
        reads, writes = os.pipe()
        with tempfile.TemporaryDirectory() as run, open(reads), open(writes, "w") as lines:
            with open(f"{run}/jobs", "w", encoding="ascii") as file:
                file.write("a\n" * 9)
            for worker, process, seconds in ((1, 0, 3000), (2, os.getpid(), 20)):
                with open(f"{run}/runner.{worker}", "w", encoding="ascii") as file:
                    file.write(f"{process}\n")
                os.utime(f"{run}/runner.{worker}", (NOW - seconds, NOW - seconds))
            watched = live.Live.__new__(live.Live)
            watched.settings, watched.found = Settings(run=run), snapshot.Snapshot()
            watched.texts, watched.lines = {}, live.Lines(run)
            watched.follower = types.SimpleNamespace(file=reads,
                                                     said=lambda: [Program(ROWS, 9).said])
            print("a line", file=lines, flush=True)
            with open(f"{run}/runner.1"), open(f"{run}/runner.2"):  # both are open, one is signed
                self.assertTrue(watched.read(60))
            self.assertEqual((watched.alive, watched.found.since), ([2], NOW - 20))
            # One attempt ended 10 seconds ago, and two ended before the runner began.
            self.assertEqual(figures.rates_of(watched.found)["last_minute"], round(1 / 20, 3))


class Numbers(unittest.TestCase):
    def samples(self, text):
        """Returns the numbers of a text, each by its name and its further label. The text has to be
        in the form that Prometheus describes."""
        found, kinds = {}, {}
        self.assertTrue(text.endswith("\n"))
        for line in text.splitlines():
            if line.startswith("# "):
                _, what, name, rest = line.split(" ", 3)
                self.assertNotIn((what, name), kinds)
                kinds[what, name] = rest
                continue
            parts = SAMPLE.fullmatch(line)
            self.assertTrue(parts, line)
            self.assertIn(kinds.get(("TYPE", parts[1])), ("gauge", "counter"), line)
            self.assertIn(("HELP", parts[1]), kinds)
            self.assertNotIn((parts[1], parts[4]), found)
            found[parts[1], parts[4]] = float(parts[5])
        return found

    def test_numbers_are_those_of_the_run(self):
        text = metrics.text_of(figures.figures_of(found_of(ROWS, 9)), metrics.Crew(3, True, None),
                               '/a "b"\\\n')
        self.assertIn('run="/a \\"b\\"\\\\\\n"', text)
        found = self.samples(text)
        for state, count in {"done": 1, "failed": 1, "doubt": 1, "pending": 1, "untouched": 0,
                             "open": 5}.items():
            self.assertEqual(found["amo_lines", state], count)
        self.assertEqual(found["amo_attempts", "done"], 2)
        self.assertEqual(found["amo_oldest_pending_seconds", None], 19)
        self.assertEqual(found["amo_oldest_doubt_seconds", None], 20)
        self.assertEqual(found["amo_runners_alive", None], 3)
        self.assertEqual(found["amo_crew_running", None], 1)
        self.assertNotIn(("amo_last_error_timestamp_seconds", None), found)

    def test_figures_of_two_runs_are_added(self):
        other = found_of([[1, 1, 1, NOW - 70, "doubt", None, NOW - 65, "doubt"],
                          [1, 2, 2, NOW - 60, "done", 0, NOW - 5, "done"]], 4)
        both = figures.added([figures.figures_of(it) for it in (found_of(ROWS, 9), other)])
        found = self.samples(metrics.text_of(both, metrics.Crew(2, True, None), "/share"))
        for state, count in {"done": 2, "failed": 1, "doubt": 2, "pending": 1, "untouched": 0,
                             "open": 7}.items():
            self.assertEqual(found["amo_lines", state], count)
        self.assertEqual(found["amo_attempts", "doubt"], 2)
        self.assertEqual(found["amo_oldest_doubt_seconds", None], 65)
        self.assertEqual(found["amo_oldest_pending_seconds", None], 19)
        # Ends in the last minute: 50, 20 and 10 s ago of the one run, 5 s ago of the other.
        self.assertEqual(found["amo_ends_per_second", None], round(4 / 60, 3))

    def test_only_chunks_of_this_machine_count(self):
        with tempfile.TemporaryDirectory() as room:
            for name, owner in (("chunk.1", "a"), ("chunk.2", "b"), ("chunk.3", "a"),
                                ("chunk.4", None), ("chunk.5.new", "a"), ("other", "a")):
                os.mkdir(f"{room}/{name}")
                notes = {"mark": "a", "owner": owner}
                for note in (it for it in notes if notes[it]):
                    with open(f"{room}/{name}/{note}", "w", encoding="ascii") as file:
                        json.dump({"mark": notes[note]}, file)
            settings = Settings(run=f"{room}/chunk.3", shared=room)
            it = chunks.OtherChunks(settings, chunks.Program("/missing", ""))
            self.assertEqual(list(it.names()), ["chunk.1"])
            it.program = Program(ROWS, 9)
            self.assertEqual([found.counts["open"] for found in it.figures()], [5])
            it.program, it.due = Program(ROWS[:1], 9), 0.0  # an operator has answered, or opened
            self.assertEqual([found.counts["open"] for found in it.figures()], [8])
            with open(f"{room}/chunk.1/over", "w", encoding="ascii"):
                it.program, it.due = None, 0.0  # all of it is done: nobody reads it again
            self.assertEqual(len(it.figures()), 1)

    @unittest.skipUnless(shutil.which("promtool"), "promtool isn't installed: prometheus has it")
    def test_promtool_accepts_numbers_and_rules(self):
        text = metrics.text_of(figures.figures_of(found_of(ROWS, 9)), metrics.Crew(3, True, 5.5),
                               "/a")
        subprocess.run(["promtool", "check", "metrics"], input=text.encode(), check=True,
                       capture_output=True)
        subprocess.run(["promtool", "check", "rules",
                        f"{package.ROOT}/examples/prometheus/alerts.yml"], check=True,
                       capture_output=True)

    def test_the_form_is_checked(self):
        for wrong in ("amo_lines 1\n", 'amo_lines{run="a"} 1\n',
                      "# TYPE a gauge\n# TYPE a gauge\n"):
            with self.assertRaises(AssertionError):
                self.samples(wrong)

    def test_a_file_is_replaced_as_a_whole_or_stays(self):
        with tempfile.TemporaryDirectory() as room:
            metrics.put(f"{room}/a", "one\n")
            inode = os.stat(f"{room}/a").st_ino
            metrics.put(f"{room}/a", "two\n")
            self.assertNotEqual(os.stat(f"{room}/a").st_ino, inode)
            self.assertEqual(os.listdir(room), ["a"])
            os.mkdir(f"{room}/folder")
            with self.assertRaises(OSError):
                metrics.put(f"{room}/folder", "three\n")
            self.assertEqual(sorted(os.listdir(room)), ["a", "folder"])


class Tellers(unittest.TestCase):
    def setUp(self):
        self.room = tempfile.TemporaryDirectory()
        self.said = []

    def tearDown(self):
        self.room.cleanup()

    def news(self, **more):
        settings = Settings(run=self.room.name, jobs="/list", workers=2, **more)
        return news.News(settings, Program(ROWS, 9), self.said.append)

    def events(self):
        schema = schemas.read(f"{package.ROOT}/docs/events.schema.json")
        with open(f"{self.room.name}/events", encoding="utf-8") as file:
            found = [json.loads(it) for it in file]
        for it in found:
            self.assertEqual(list(schemas.faults(schema, it)), [])
        return found

    def test_what_was_there_before_is_no_news(self):
        it = self.news(events=f"{self.room.name}/events")
        it.program = Program(ROWS[:2], 9)
        it.look()
        it.take(Program(ROWS[:2], 9).said)
        it.take(Program([ROWS[2], ROWS[3]], 9).said)
        it.hear("message", "line 4: attempt 2.1 failed with status 7")
        it.hear("end", 2)
        it.program = Program(ROWS[:4], 9)
        it.end()
        found = self.events()
        self.assertEqual([(it["event"], it.get("attempt")) for it in found], [
            ("attempt", "1.3"), ("attempt", "2.1"), ("message", None), ("end", None)])
        self.assertEqual((found[-1]["status"], found[-1]["counts"]["failed"]), (2, 1))

    def test_a_line_that_comes_into_doubt_is_told_once(self):
        it = self.news(notify=f'echo "$AMO_EVENT $AMO_LINE $AMO_ATTEMPT" >> {self.room.name}/told')
        it.program = Program(ROWS[:2], 9)
        it.look()
        it.take(Program(ROWS[:2], 9).said)
        it.take(Program([[2, 2, 5, NOW, "doubt", None, NOW, "doubt"]], 9).said)
        it.take(Program([[2, 3, 5, NOW, "doubt", None, NOW, "doubt"]], 9).said)
        it.hear("message", "crew: it got SIGTERM, so no further job is started")
        it.end()
        with open(f"{self.room.name}/told", encoding="ascii") as file:
            self.assertEqual(sorted(file), ["doubt 5 2.2\n", "end  \n", "stop  \n"])

    def test_a_doubt_that_is_recorded_before_the_first_line_is_told(self):
        # The attempts are of an earlier crew, and both ended in one second. This crew found 1.1 in
        # doubt, and 1.2 was so before.
        old = [[1, 1, 1, NOW - 90, "pending", None, None, "pending"],
               [1, 2, 2, NOW - 90, "doubt", None, NOW - 9, "doubt"]]
        rows = [[1, 1, 1, NOW - 90, "doubt", None, NOW - 9, "doubt"], old[1]]
        for is_followed in (True, False):  # a crew that ends at once is looked at once
            told = f"{self.room.name}/told{is_followed}"
            it = self.news(notify=f'echo "$AMO_EVENT $AMO_ATTEMPT" >> {told}')
            it.program = Program(old, 9)
            it.look()
            it.program = Program(rows, 9)
            if is_followed:
                it.take(it.program.said)
            it.end()
            with open(told, encoding="ascii") as file:
                self.assertEqual(sorted(file), ["doubt 1.1\n", "end \n"])

    def test_a_crew_that_never_began_tells_of_no_line(self):
        numbers = f"{self.room.name}/numbers"  # of the crew that has the folder
        it = self.news(notify=f'echo "$AMO_EVENT $AMO_DOUBT" >> {self.room.name}/told',
                       metrics=numbers)
        it.program = Program([[1, 2, 2, NOW - 90, "doubt", None, NOW - 9, "doubt"]], 9)
        self.assertEqual(it.files(), [])
        it.end()
        with open(f"{self.room.name}/told", encoding="ascii") as file:
            self.assertEqual(file.read(), "end 1\n")
        self.assertFalse(os.path.exists(numbers))

    def test_a_failure_is_reported_once(self):
        missing = f"{self.room.name}/missing/file"
        it = self.news(events=missing, metrics=missing, notify="exit 3")
        it.look()
        it.hear("message", "one")
        it.hear("message", "two")
        it.end()
        self.assertEqual(sorted(re.sub(r"`.*`", "X", text) for text in self.said), [
            "--events: X: no such file or directory; check the path; the crew goes on",
            "--metrics: X: no such file or directory; check the path; the crew goes on",
            "--notify: X: it has ended with 3; correct it (the crew goes on)"])

    def test_a_teller_that_cannot_be_forked_is_told_and_no_second_crew_goes_on(self):
        with mock.patch.object(teller.os, "fork", side_effect=BlockingIOError(11, "no more")), \
                mock.patch.object(teller.os, "_exit", side_effect=InterruptedError) as ended, \
                mock.patch.object(Screen, "tell") as said, self.assertRaises(InterruptedError):
            teller.begin([], lambda: None)
        ended.assert_called_once_with(0)
        self.assertIn("no more; allow more processes", said.call_args[0][0])
        self.assertTrue(said.call_args[0][0].endswith("; the crew goes on"))

    def test_a_crew_that_wants_nothing_told_has_no_teller(self):
        crew = mock.Mock()
        crew.run.return_value = 7
        self.assertEqual(commands.told(Settings(), Program([], 0), lambda: crew), 7)
        self.assertIsNone(Screen.also)


if __name__ == "__main__":
    unittest.main()
