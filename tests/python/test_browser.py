"""The report's page as Chromium shows it: its width, its colours, its keys and its commands."""

import os
import re
import tempfile
import unittest

import package  # noqa: F401

import browser
from amo_jobs.settings import Settings
from amo_watch import facts, page
from contrast import contrast, LEAST
from test_report import NOW, ODD, Page, Program

WIDTHS, COUNT = (1280, 400), 6000
# Each pair of colours of a text and its background, with an element that has it.
COLOURS = """(() => {
  document.querySelectorAll('details').forEach(it => { it.open = true });
  const found = {}, clear = it => /, 0\\)$/.test(getComputedStyle(it).backgroundColor);
  const note = (it, kind) => {
    let back = it;
    while (back.parentElement && clear(back)) back = back.parentElement;
    found[getComputedStyle(it, kind).color + '|' + getComputedStyle(back).backgroundColor] =
      it.tagName + '.' + it.className + (kind || '');
  };
  const texts = document.createTreeWalker(document.body, NodeFilter.SHOW_TEXT);
  while (texts.nextNode()) {
    const it = texts.currentNode.parentElement;
    if (texts.currentNode.data.trim() && it.checkVisibility()) note(it);
  }
  document.querySelectorAll('td').forEach(it => {
    if (!/^(none|normal)$/.test(getComputedStyle(it, '::before').content)) note(it, '::before');
  });
  return found;
})()"""
# The words in tables, but for the texts of lines, that stand in more than one row.
BROKEN = """[...document.querySelectorAll('th,td:not([data-name=Text])')].flatMap(cell => {
  const texts = document.createTreeWalker(cell, NodeFilter.SHOW_TEXT), found = [];
  while (texts.nextNode()) for (const word of texts.currentNode.data.matchAll(/[A-Za-z]+/g)) {
    const range = document.createRange();
    range.setStart(texts.currentNode, word.index);
    range.setEnd(texts.currentNode, word.index + word[0].length);
    if (range.getClientRects().length > 1) found.push(word[0]);
  }
  return found;
})"""
# Of the marks in the first lane: the letter, the form of the line, the letter's place, the window.
MARKED = """[...document.querySelector('.bars').querySelectorAll('b')].map(it => {
  const style = getComputedStyle(it), place = it.firstChild.getBoundingClientRect();
  return [it.innerText, style.borderLeftStyle, place.left, place.right, innerWidth];
})"""
FOCUSED = """(() => {
  const it = document.activeElement, style = getComputedStyle(it);
  return [[...document.querySelectorAll('*')].indexOf(it), it.tagName, style.outlineStyle,
          parseFloat(style.outlineWidth)];
})()"""
WIDER = "document.documentElement.scrollWidth - document.documentElement.clientWidth"


def hex_of(colour):
    """Returns a colour of a style, `rgb(1, 2, 3)`, as #010203."""
    return "#" + "".join(f"{int(it):02x}" for it in re.fullmatch(
        r"rgb\((\d+), (\d+), (\d+)\)", colour).groups())


def low(pairs):
    """Returns the elements whose text has too little contrast."""
    return [name for pair, name in pairs.items()
            if contrast(*map(hex_of, pair.split("|"))) < LEAST]


@unittest.skipUnless(browser.PROGRAM, "chromium isn't installed: apt-get install chromium")
class Browsers(unittest.TestCase):
    @classmethod
    def setUpClass(cls):
        cls.room = tempfile.TemporaryDirectory()
        cls.browser = browser.Browser()
        lines = [*ODD, "x" * 9000, *(f"pay {k}" for k in range(COUNT))]
        kinds = [("done", 0, "done"), ("doubt", None, "doubt"), ("done", 7, "failed"),
                 ("untouched", 75, "untouched"), ("pending", None, "pending")]
        rows = []
        for k in range(COUNT):
            outcome, code, state = kinds[k % 5] if k < 40 else kinds[0]
            ended = None if outcome == "pending" else NOW - COUNT + k + k % 9
            rows.append([1 + k % 4, 1 + k // 4, k + 1, NOW - COUNT + k, outcome, code, ended,
                         state])
        cls.few, cls.few_text = cls.write("few", rows[:30], lines[:60])
        cls.many, _ = cls.write("many", rows, lines)

    @classmethod
    def tearDownClass(cls):
        cls.browser.close()
        cls.room.cleanup()

    @classmethod
    def write(cls, name, rows, lines, more=""):
        """Writes a page; returns its path and its text."""
        run = f"{cls.room.name}/{name}"
        os.mkdir(run)
        with open(f"{run}/jobs", "w", encoding="utf-8") as file:
            file.write("".join(f"{it}\n" for it in lines))
        with open(f"{run}/pace.1", "w", encoding="ascii") as file:  # marks at the very end
            file.write(" " * 32 + "".join(f"\n{kind} {NOW + 1} {NOW + 1} {'0' * 36}"
                                          for kind in ("crew", "runner", "worker")))
        settings = Settings(jobs=f"{run}/list", run=run)
        found = facts.facts_of(settings, Program(rows, len(lines)), "1.2.3")
        text = "".join(page.page_of(found)).replace("</body>", f"{more}</body>")
        with open(f"{run}/page.html", "w", encoding="utf-8") as file:
            file.write(text)
        return f"{run}/page.html", text

    def each_way(self, path):
        """Shows the page in each width, light and dark."""
        for width in WIDTHS:
            for is_dark in (False, True):
                self.browser.show(path, width, is_dark=is_dark)
                yield f"{width}, {'dark' if is_dark else 'light'}"

    def test_no_page_is_wider_than_its_window(self):
        for path in (self.few, self.many):
            for way in self.each_way(path):
                self.assertEqual(self.browser.value(WIDER), 0, way)
                self.assertEqual(self.browser.value(BROKEN), [], way)

    def test_each_mark_is_a_letter_and_a_line_within_its_window(self):
        for way in self.each_way(self.few):
            found = self.browser.value(MARKED)
            self.assertEqual([it[0] for it in found], list("MCRW"), way)
            self.assertEqual(len({it[1] for it in found}), 4, (way, found))
            self.assertTrue(all(0 < left < right <= width for *_, left, right, width in found),
                            (way, found))

    def test_a_page_that_is_wider_is_found(self):
        wide = '<p style="width:2000px">x</p>'
        narrow = '<table><tr><th style="overflow-wrap:anywhere">Attempts</th><td>' + "x " * 999
        path, _ = self.write("wide", [], ["a"], f"{wide}{narrow}</td></tr></table>")
        self.browser.show(path, 400)
        self.assertGreater(self.browser.value(WIDER), 0)
        self.assertIn("Attempts", self.browser.value(BROKEN))

    def test_each_text_has_enough_contrast(self):
        grounds = set()
        for way in self.each_way(self.few):
            pairs = self.browser.value(COLOURS)
            self.assertEqual(low(pairs), [], way)
            self.assertGreater(len(pairs), 8, way)
            grounds |= {it.split("|")[1] for it in pairs}
        self.assertEqual(len(grounds), 4, grounds)  # two of the light page, two of the dark one

    def test_a_text_with_too_little_contrast_is_found(self):
        path, _ = self.write("pale", [], ["a"], '<p class="pale" style="color:#777">x</p>')
        self.browser.show(path, 1280)
        self.assertEqual(low(self.browser.value(COLOURS)), ["P.pale"])

    def test_the_keyboard_reaches_all_in_order_and_shows_where_it_is(self):
        self.browser.show(self.few, 1280)
        wanted = self.browser.value(
            "[...document.querySelectorAll('a,input,button,code.command,summary')].filter("
            "it => it.checkVisibility()).map(it => [...document.querySelectorAll('*')]"
            ".indexOf(it))")
        found = []
        for _ in wanted:
            self.browser.press_tab()
            place, name, style, width = self.browser.value(FOCUSED)
            found.append(place)
            self.assertTrue(style != "none" and width >= 2, (name, style, width))
        self.assertEqual(found, wanted)
        self.assertEqual(found, sorted(found))
        self.assertGreater(len(found), 20)

    def test_a_command_is_copied_as_it_is(self):
        self.browser.show(self.few, 400)
        found = self.browser.value(
            "[...document.querySelectorAll('code.command')].map(it => {"
            "const range = getSelection(); range.selectAllChildren(it); return range.toString()})")
        self.assertEqual(found, Page(self.few_text).commands)
        self.assertGreater(len(found), 20)

    def test_a_head_sorts_and_the_field_hides(self):
        self.browser.show(self.few, 1280)
        seconds = "[...document.querySelectorAll('td[data-name=Seconds]')].map(it => +it.innerText)"
        before = self.browser.value(seconds)
        self.browser.value("document.querySelectorAll('#slowest th button')[3].click()")
        self.assertEqual(self.browser.value(seconds), sorted(before))
        self.browser.value("(() => { const it = document.querySelector('input');"
                           "it.value = 'ADA'; it.dispatchEvent(new Event('input')) })()")
        shown = self.browser.value("[...document.querySelectorAll('article')].filter("
                                   "it => it.checkVisibility()).map(it => it.innerText)")
        self.assertTrue(shown and all("ada" in it.lower() for it in shown), shown)


if __name__ == "__main__":
    unittest.main()
