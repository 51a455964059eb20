"""The report: its facts, its page, and the colours of the page."""

import html.parser
import json
import os
import re
import subprocess
import sys
import tempfile
import unittest

import package

from amo_jobs.messages import visible
from amo_jobs.settings import Settings
from amo_watch import assets, facts, figures, page, snapshot, texts
from contrast import contrast, LEAST, TEXTS

sys.path.insert(0, f"{package.ROOT}/tools/modules")

import schemas

NOW = 1764100000
ODD = ["plain", "<b>Ada</b> & \"co\"</section>", "<script>alert(1)</script>", "it's 'quoted'",
       "\u202eright to left", "\u05d0\u05d1", "esc \x1b[31m", "tab\there", "-rf", "$(touch x)",
       "back\\slash", "\u00a0", "\u00e9\u2028\x85", "\U0001f600", "!history", "`x`"]
VOID = {"meta", "input", "br"}


class Program:
    """A worker that prints these attempts."""

    path, more = "/amo/amo_worker", ["--id", "0" * 32]

    def __init__(self, rows, lines, **more):
        counts = {it: sum(row[7] == it for row in rows) for it in snapshot.COUNTS}
        counts["open"] += lines - sum(counts.values())
        self.said = {"format": 1, "time": NOW, "id": "0" * 32, "round": 2, "workers": 3,
                     "lines": lines, **counts, "attempts": rows, **more}

    def call(self, *_words):
        return json.dumps(self.said).encode() + b"\n"


class Page(html.parser.HTMLParser):
    """The elements and the texts of a page."""

    def __init__(self, text):
        super().__init__(convert_charrefs=True)
        self.open, self.tags, self.commands, self.heads, self.ids = [], [], [], [], set()
        self.texts = []
        self.feed(text)
        self.close()

    def handle_starttag(self, tag, attrs):
        self.tags.append((tag, dict(attrs)))
        self.ids |= {dict(attrs).get("id")} - {None}
        if tag not in VOID:
            self.open.append((tag, dict(attrs)))
        for found, kind in ((self.commands, "code"), (self.heads, "h3")):
            found += [""] if tag == kind else []

    def handle_endtag(self, tag):
        assert self.open.pop()[0] == tag, tag

    def handle_data(self, data):
        self.texts.append(data)
        kinds = [it[0] for it in self.open]
        for found, kind in ((self.commands, "code"), (self.heads, "h3")):
            if kind in kinds:
                found[-1] += data


class Reports(unittest.TestCase):
    def setUp(self):
        self.room = tempfile.TemporaryDirectory()
        self.run = self.room.name

    def tearDown(self):
        self.room.cleanup()

    def facts(self, rows, lines, **more):
        """Returns the facts of a run with these attempts, over a list of these lines."""
        with open(f"{self.run}/jobs", "w", encoding="utf-8") as file:
            file.write("".join(f"{it}\n" for it in lines))
        settings = Settings(jobs=f"{self.run}/list", run=self.run)
        return facts.facts_of(settings, Program(rows, len(lines), **more), "1.2.3")

    def page(self, *given, **more):
        found = self.facts(*given, **more)
        schema = schemas.read(f"{package.ROOT}/docs/report.schema.json")
        self.assertEqual(list(schemas.faults(schema, json.loads(json.dumps(found)))), [])
        text = "".join(page.page_of(found))
        return found, text, Page(text)

    def doubt(self, place):
        return [1, place, place, NOW - 90, "doubt", None, NOW - 60, "doubt"]

    def test_whatever_a_line_holds_is_shown_as_text(self):
        _, text, seen = self.page([self.doubt(k + 1) for k in range(len(ODD))], ODD)
        self.assertEqual(seen.heads, [f"Line {k}: {visible(it)}" for k, it in enumerate(ODD, 1)])
        self.assertEqual([it for it, _ in seen.tags].count("script"), 1)
        self.assertFalse(re.search("[\x00-\x08\x0b-\x1f\x7f-\x9f\u200e\u200f\u202a-\u202e"
                                   "\u2066-\u2069]", text))

    def test_a_command_that_is_copied_has_exactly_the_text(self):
        _, _, seen = self.page([self.doubt(k + 1) for k in range(len(ODD))], ODD)
        script = "".join(f"set -- {it}; printf '%s\\0' \"$@\"\n" for it in seen.commands)
        ran = subprocess.run(["bash", "-c", script], stdout=subprocess.PIPE, check=True,
                             env={"LC_ALL": "C.UTF-8"})
        self.assertEqual(ran.stdout.decode().split("\0")[:-1], [
            word for place, text in enumerate(ODD) for verdict in ("done", "not-done")
            for word in (f"{package.ROOT}/amo_jobs", "answer", f"{self.run}/list", "--",
                         f"1.{place + 1}", str(place + 1), text, verdict)])

    def test_the_page_needs_nothing_else(self):
        _, text, seen = self.page([self.doubt(1)], ["a"])
        self.assertFalse(re.search(r"https?:|@import|url\(|src=", text))
        self.assertNotIn("link", [it for it, _ in seen.tags])
        links = {dict(more).get("href", "#")[1:] for it, more in seen.tags if it == "a"}
        self.assertTrue(links and links <= seen.ids, links)
        policy = next(more["content"] for it, more in seen.tags if "http-equiv" in more)
        self.assertTrue(policy.startswith("default-src 'none'; "), policy)

    def test_what_has_printed_is_shown_at_its_end(self):
        with open(f"{self.run}/err.1.1", "w", encoding="utf-8") as file:
            file.write("".join(f"line {k} <i>\n" for k in range(1, 9)))
        found, text, _ = self.page([self.doubt(1)], ["a"])
        self.assertEqual(found["doubts"][0]["outputs"], [
            {"path": f"{self.run}/err.1.1", "size": 88,
             "end": [f"line {k} <i>" for k in range(4, 9)]}])
        self.assertIn("line 8 &lt;i&gt;", text)

    def test_counts_rates_and_ages_are_those_of_the_records(self):
        rows = [[1, 1, 1, NOW - 100, "done", 0, NOW - 90, "done"],
                [1, 2, 2, NOW - 90, "done", 3, NOW - 30, "failed"],
                [2, 1, 3, NOW - 80, "doubt", None, None, "doubt"],
                [2, 2, 4, NOW - 10, "pending", None, None, "pending"],
                [2, 3, 5, None, "unbegun", None, None, "open"],
                [3, 1, 6, NOW - 5, "untouched", 75, NOW + 5, "untouched"]]
        found, text, seen = self.page(rows, list("abcdefg"))
        self.assertEqual(found["counts"], {"done": 1, "failed": 1, "doubt": 1, "pending": 1,
                                           "untouched": 1, "open": 2})
        # No attempt whose end was seen was under way from 30 to 5 seconds ago: 80 seconds count.
        self.assertEqual(found["rates"], {
            "begun": NOW - 100, "ended": NOW + 5, "ends": 3, "a_second": round(3 / 80, 3),
            "last_minute": round(1 / 60, 3), "over_at": NOW + 3 * 60})
        self.assertEqual([it["age"] for it in found["failures"]], [30])
        self.assertEqual([it["age"] for it in found["doubts"] + found["untouched"]], [None, None])
        self.assertEqual([it["line"] for it in found["slowest"]], [2, 1, 6])
        self.assertEqual([(it["from"], it["count"]) for it in found["histogram"] if it["count"]],
                         [(8, 2), (32, 1)])
        self.assertIn("ended at a time that is not known", text)
        self.assertIn("no end is recorded", text)
        self.assertRegex(text, r"ended with status 3 [-0-9]{10} [:0-9]{8} [-+0-9]{5}, 30 s ago")
        self.assertEqual(len(seen.commands), 2 + 1 + 2 + 2 + 1)

    def test_the_last_minute_begins_with_the_runners(self):
        rows = [[1, 1, 1, NOW - 4000, "done", 0, NOW - 3900, "done"],
                *([1, k, k, NOW - 10, "done", 0, NOW - 7 + k, "done"] for k in range(2, 7))]
        with open(f"{self.run}/runner.1", "w", encoding="ascii") as file:  # a runner that is alive
            file.write(f"{os.getpid()}\n")
            file.flush()
            os.utime(f"{self.run}/runner.1", (NOW - 10, NOW - 10))
            found, text, _ = self.page(rows, list("abcdefghij"))
        # Over all 100 seconds count, and 9 of the last ones: five lines ended then.
        self.assertEqual((found["rates"]["a_second"], found["rates"]["last_minute"]),
                         (round(6 / 109, 3), 5 / 10))
        self.assertEqual(found["rates"]["over_at"], NOW + 8)
        self.assertIn("6 attempts have ended: 0.055 a second without doubts and pauses, and"
                      " 0.5 a second in the last minute.", text)

    def test_the_record_of_a_doubt_is_not_taken_for_the_end_of_its_command(self):
        rows = [[1, 1, 1, NOW - 9000, "doubt", None, NOW - 60, "doubt"],
                [1, 2, 2, NOW - 50, "done", 0, NOW - 40, "done"]]
        found, text, _ = self.page(rows, list("ab"))
        self.assertRegex(text, r"recorded as over [-0-9]{10} [:0-9]{8} [-+0-9]{5}, 1 min ago")
        self.assertEqual([it["seconds"] for it in found["doubts"]], [None])
        self.assertEqual([it["line"] for it in found["slowest"]], [2])
        self.assertEqual([(it["from"], it["count"]) for it in found["histogram"] if it["count"]],
                         [(8, 1)])

    def test_what_a_person_answered_is_listed(self):
        rows = [[1, 1, 1, NOW - 90, "done", 0, NOW - 80, "done"],
                [1, 2, 2, NOW - 80, "doubt", None, NOW - 70, "done"],
                [1, 3, 3, NOW - 70, "doubt", None, NOW - 60, "open"],
                [2, 1, 4, NOW - 90, "done", 1, NOW - 80, "failed"],
                [2, 2, 5, NOW - 80, "done", 1, NOW - 70, "done"],
                [2, 3, 6, NOW - 70, "untouched", 75, NOW - 60, "open"],
                [3, 1, 7, NOW - 70, "unbegun", None, NOW - 70, "open"],
                [3, 2, 8, NOW - 70, "untouched", 75, NOW - 60, "untouched"],
                [3, 3, 9, NOW - 60, "pending", None, None, "pending"]]
        found, text, seen = self.page(rows, list("abcdefghi"))
        self.assertEqual([(it["line"], it["answer"]) for it in found["answered"]],
                         [(2, "done"), (3, "not-done"), (5, "done"), (6, "not-done")])
        part = text[text.index('<section id="answered">'):text.index('<section id="timeline">')]
        self.assertEqual(re.findall("done, as answered|opened again|not started", part),
                         ["done, as answered", "opened again"] * 2)
        slowest = text[text.index('<section id="slowest">'):text.index('<section id="histogram">')]
        self.assertEqual(slowest.count("not started"), 1)
        self.assertNotIn(">open<", slowest)
        self.assertNotIn("Nobody has answered.", text)

    def test_a_long_list_of_answers_is_cut_and_the_page_says_so(self):
        count = facts.MOST_ROWS + 7
        rows = [[1, k, k, NOW - 90, "doubt", None, NOW - 60, "done"] for k in range(1, count + 1)]
        found, text, _ = self.page(rows, [str(k) for k in range(count)])
        self.assertEqual(len(found["answered"]), facts.MOST_ROWS)
        self.assertEqual([it for it in found["left_out"] if "answered" in it],
                         [f"7 more answered, after the first {facts.MOST_ROWS}"])

    def test_many_attempts_are_put_together_and_the_page_says_so(self):
        for count, is_put in ((facts.MOST_ROWS, False), (6000, True)):
            rows = [[1 + k % 4, 1 + k // 4, k + 1, NOW - count + k, "done", 1, NOW - count + k,
                     "failed"] for k in range(count)]
            found, text, seen = self.page(rows, [f"pay {k}" for k in range(count)])
            bars = [bar for lane in found["timeline"]["lanes"] for bar in lane["bars"]]
            self.assertEqual(sum(sum(it["counts"].values()) for it in bars), count)
            self.assertEqual(found["timeline"]["is_aggregated"], is_put)
            self.assertEqual(len(seen.heads), facts.MOST_ROWS)
            self.assertEqual("left_out" in seen.ids, is_put)
            self.assertEqual(f"{count - facts.MOST_ROWS} more failures" in text, is_put)

    def test_long_texts_are_cut_once_there_is_no_room(self):
        size = 99000
        fit = facts.MOST_TEXT // (3 * size)  # each stands in its head and in two commands
        lines = [f"{k} {'x' * size}" for k in range(fit + 8)]
        found, text, seen = self.page([self.doubt(k + 1) for k in range(len(lines))], lines)
        cut = [it for it in found["doubts"] if it["cut"]]
        self.assertTrue(8 <= len(cut) <= 9, len(cut))
        self.assertEqual({len(it["text"]) for it in cut}, {facts.SHORT})
        self.assertEqual(len(seen.commands), 2 * (len(lines) - len(cut)))
        self.assertTrue(any("the ends of" in it for it in found["left_out"]), found["left_out"])
        self.assertLess(len(text.encode()), 10_000_000)

    def test_no_page_is_larger_than_10_mb(self):
        # Each list is full, and each text is one that takes most room, with what was printed.
        kinds = [("doubt", None, "doubt"), ("done", 7, "failed"), ("untouched", 75, "untouched"),
                 ("pending", None, "pending")]
        count = 4 * (facts.MOST_ROWS + 50)
        rows = [[1 + k % 16, 1 + k // 16, k + 1, NOW - 90, kinds[k % 4][0], kinds[k % 4][1],
                 NOW - 60 if k % 4 < 3 else None, kinds[k % 4][2]] for k in range(count)]
        for row in rows:
            with open(f"{self.run}/err.{row[0]}.{row[1]}", "w", encoding="utf-8") as file:
                file.write("\"\x1b\U000e0001" * 300)
        for hostile in ("'", "\U000e0001"):
            found = self.facts(rows, [hostile * 400] * count)
            size = sum(len(it.encode()) for it in page.page_of(found))
            self.assertTrue(3_000_000 < size < 10_000_000, size)
            self.assertTrue(any("have printed" in it for it in found["left_out"]))

    def test_a_run_without_attempts_has_a_page(self):
        found, text, _ = self.page([], [], round=None, workers=None)
        self.assertEqual(found["rates"]["begun"], None)
        self.assertIn("No line was begun yet.", text)

    def test_a_schema_finds_what_is_wrong(self):
        found = json.loads(json.dumps(self.facts([self.doubt(1)], ["a"])))
        schema = schemas.read(f"{package.ROOT}/docs/report.schema.json")
        for change in (lambda it: it.pop("lines"), lambda it: it.update(more=1),
                       lambda it: it["counts"].update(done="1"),
                       lambda it: it["doubts"][0].update(state="odd"),
                       lambda it: it["doubts"][0].update(attempt="1"),
                       lambda it: it["doubts"][0].update(line=True),
                       lambda it: it["timeline"].update(lanes={})):
            wrong = json.loads(json.dumps(found))
            change(wrong)
            self.assertEqual(len(list(schemas.faults(schema, wrong))), 1, wrong)


class Snapshots(unittest.TestCase):
    def test_a_changed_attempt_takes_the_place_of_the_earlier_one(self):
        found = snapshot.Snapshot()
        found.take(Program([[1, 1, 2, 5, "pending", None, None, "pending"]], 3).said)
        self.assertEqual(found.counts["pending"], 1)
        fresh = found.take(Program([[1, 1, 2, 5, "done", 0, 9, "done"],
                                    [1, 2, 1, 9, "pending", None, None, "pending"]], 3).said)
        self.assertEqual([it.name for it in fresh], ["1.1", "1.2"])
        self.assertEqual([it.state for it in found.attempts.values()], ["done", "pending"])
        self.assertEqual([it.seconds for it in found.attempts.values()], [4, None])
        self.assertEqual([it.line for it in found.of("pending")], [1])
        self.assertEqual((found.begun, found.ended, found.timed, sum(found.ends.values())),
                         (5, 9, 1, 1))
        self.assertEqual({**found.outcomes}, {"pending": 1, "done": 1})
        self.assertEqual([it.line for it in found.of("done")], [2])
        found.take(Program([[1, 1, 2, 5, "done", 0, 9, "open"]], 3).said)  # an operator's answer
        self.assertEqual((found.timed, found.begins, found.stops), (1, [5], [9]))

    def test_a_line_of_another_version_is_refused(self):
        for line in (b"", b"{}", b"[]", b"lines 3 done 0", b'{"format": 2}'):
            with self.assertRaises(snapshot.End) as raised:
                snapshot.said_in(line, Program([], 0))
            self.assertEqual(raised.exception.status, 125)

    def test_a_word_for_bash_has_no_character_that_cant_be_seen(self):
        self.assertEqual(texts.quoted("a b"), "'a b'")
        self.assertEqual(texts.quoted("a\tb'\u202e\U000e0001"), "$'a\\x09b\\'\\u202e\\U000e0001'")

    def test_bash_reads_the_word_as_it_is(self):
        for word in ("it's", "$(touch x) `y`; !z | w", "\\", "a\tb\x1b\x7f", "\u202e9",
                     "\U000e0001", os.fsdecode(b"/a\xff0/\xc3\xa9")):
            script = f"printf %s {texts.quoted(word)}"
            self.assertTrue(script.isprintable(), script)
            ran = subprocess.run(["bash", "-c", script], stdout=subprocess.PIPE, check=True,
                                 env={"LC_ALL": "C.UTF-8"})
            self.assertEqual(os.fsdecode(ran.stdout), word)

    def test_a_line_is_found_by_its_number_while_the_list_grows(self):
        with tempfile.TemporaryDirectory() as run:
            with open(f"{run}/jobs", "wb") as file:
                file.write(b"one\n\ntw\xc3\xb6 \xff\n")
            lines = texts.Lines(run)
            self.assertEqual(lines.texts({3, 1}), {1: "one", 3: "tw\u00f6 \ufffd"})
            self.assertEqual(lines.texts({2}), {2: ""})
            with open(f"{run}/jobs", "ab") as file:
                file.write(b"four\nfive\n")
            self.assertEqual(lines.texts({5, 3}), {3: "tw\u00f6 \ufffd", 5: "five"})
            self.assertEqual(lines.texts({4, 9}), {4: "four"})
            self.assertEqual(lines.texts(set()), {})

    def test_no_end_is_expected_without_a_pace(self):
        self.assertEqual([figures.over_at(100, 9, 0), figures.over_at(100, 0, 2),
                          figures.over_at(100, 9, 2)], [None, None, 104])


class Colours(unittest.TestCase):
    def test_each_text_can_be_read(self):
        for colours in (assets.LIGHT, assets.DARK):
            for text in TEXTS:
                for ground in ("paper", "panel"):
                    found = contrast(colours[text], colours[ground])
                    self.assertGreaterEqual(found, LEAST, f"{text} on {ground}")

    def test_contrast_is_that_of_wcag(self):
        # Known pairs: black on white, and the grey that just passes.
        self.assertAlmostEqual(contrast("#000000", "#ffffff"), 21)
        self.assertAlmostEqual(contrast("#767676", "#ffffff"), 4.54, 2)
        self.assertLess(contrast("#777777", "#ffffff"), LEAST)

    def test_each_colour_of_the_style_is_one_of_the_palette(self):
        rules = assets.RULES
        self.assertFalse(re.search(r"#[0-9a-f]{3,8}\b|rgb|hsl", rules))
        self.assertEqual(set(re.findall(r"var\(--(\w+)\)", rules)), set(assets.LIGHT))
        self.assertEqual(set(assets.LIGHT), set(assets.DARK))
        texts_used = set(re.findall(r"(?<![-\w])color:var\(--(\w+)\)", rules))
        self.assertLessEqual(texts_used, set(TEXTS))


if __name__ == "__main__":
    unittest.main()
