"""The parts of tools/pages: blocks, old names, numbers that are measured, paragraphs that stand
twice, pictures."""

import ast
import glob
import os
import re
import subprocess
import sys
import tempfile
import unittest
import xml.etree.ElementTree as tree

from package import ROOT

sys.path.insert(0, f"{ROOT}/tools/modules")

import blocks
import drawing
import moved
import pictures
import repeats
import sizes


PAGE, MANUAL = "docs/protocol.md", "man/source/amo.1.txt"


class Blocks(unittest.TestCase):
    """The marks of blocks, and the commands in them."""

    def test_a_good_mark_is_refused(self):
        for mark in ("rust", "rust crates/a/src/lib.rt", "console run", "sh stores/etcd",
                     "sh not run: needs root", "console not run: an hour"):
            found = list(blocks.unmarked(PAGE, f"```{mark}\n$ ls\n```\n"))
            self.assertEqual(found, [], mark)
        self.assertEqual(list(blocks.unmarked(PAGE, "```text\na $ b\n```\n")), [])
        installed = "```console installed\n$ ls\n```\n"
        self.assertEqual(list(blocks.unmarked(blocks.INSTALLED, installed)), [])

    def test_a_wrong_mark_is_taken(self):
        for mark in ("", "console", "sh", "bash", "console installed", "console not run: ",
                     "sh not run:", "text"):
            found = list(blocks.unmarked(PAGE, f"```{mark}\n$ ls\n```\n"))
            self.assertEqual(len(found), 1, mark)

    def test_an_indented_block_is_taken(self):
        self.assertEqual(len(list(blocks.unmarked(PAGE, "It:\n\n    ls\n    ls\n\nEnd\n"))), 1)
        self.assertEqual(list(blocks.unmarked(PAGE, "10. It is\n    long.\n\n    \nEnd\n")), [])

    def test_an_example_of_a_manual_page_needs_no_mark(self):
        for above, count in (("{run}", 0), ("{run 0 2}", 0), ("{not run: needs\nroot}", 0),
                             ("{text}", 0), ("It:", 1), ("{run 0}", 1), ("{run 0 0 0}", 1),
                             ("{not run}", 1), ("{run 0 }", 1), ("{options}", 1)):
            found = list(blocks.unmarked(MANUAL, f"# It\n\n{above}\n\n    amo\n    amo run\n"))
            self.assertEqual(len(found), count, above)

    def test_commands_are_cut_elsewhere(self):
        page = "1. It\n\n   ```console run\n   $ one \\\n     two\n   a\n     b\n   $ three\n   ```\n"
        self.assertEqual(list(blocks.steps(PAGE, page)),
                         [blocks.Step("one \\\n  two", ["a", "  b"]), blocks.Step("three", [])])
        self.assertEqual(blocks.without(page), "1. It\n\n\n")

    def test_a_command_of_a_manual_page_has_another_status(self):
        found = list(blocks.steps(MANUAL, "{run 2 0}\n\n    one \\\n      two\n    three\n\n"
                                          "{run}\n\n    four\n\n{text}\n\n    five\n"))
        self.assertEqual([(it.command.split("\n", 1)[1], it.status) for it in found],
                         [("one \\\n  two", 2), ("three", 0), ("four", 0)])

    def test_a_command_that_does_not_end_is_awaited(self):
        call = "import followed; followed.LONGEST = 0.1; print(followed.ended('sleep 100', '.'))"
        ran = subprocess.run([sys.executable, "-B", "-c", call], stdout=subprocess.PIPE, timeout=50,
                             cwd=f"{ROOT}/tools/modules", encoding="utf-8", check=True)
        self.assertIn("it runs for longer than 0.1 seconds", ran.stdout)


class Moved(unittest.TestCase):
    """Names of pages that have moved."""

    def test_an_old_name_is_passed_over(self):
        old = moved.STUBS[0]
        texts = [("tools/a", f"one\nread {old}, `it`\n"), ("CHANGELOG.md", old), (old, old),
                 ("docs/decisions/001-a.md", old), ("tools/b", f"x{os.path.basename(old)}\n")]
        self.assertEqual(list(moved.named(texts)), [f"tools/a:2: {os.path.basename(old)}"])

    def test_a_stub_is_a_page(self):
        for path in moved.STUBS:
            with open(f"{ROOT}/{path}", encoding="utf-8") as file:
                self.assertTrue(file.read().startswith("This page has moved: ["), path)


class Sizes(unittest.TestCase):
    """Numbers of pages, next to sources that are made up."""

    def setUp(self):
        held = tempfile.TemporaryDirectory()
        self.addCleanup(held.cleanup)
        self.room = held.name

    def write(self, path, text):
        """Writes a file, and makes its folder."""
        os.makedirs(os.path.dirname(f"{self.room}/{path}"), exist_ok=True)
        with open(f"{self.room}/{path}", "w", encoding="utf-8") as file:
            file.write(text)

    def test_empty_lines_and_comments_count_as_code(self):
        self.write("crates/a/src/lib.rt", "//! It.\n\nfn a() {} // here\n    // there\n}\n")
        self.assertEqual(sizes.lines_of(f"{self.room}/crates/a/src/lib.rt", "//"), 2)

    def test_a_number_that_is_off_by_a_twentieth_is_refused(self):
        self.assertTrue(sizes.is_near(105, 100))
        self.assertTrue(sizes.is_near(95, 100))
        self.assertFalse(sizes.is_near(106, 100))
        self.assertFalse(sizes.is_near(94, 100))
        self.assertFalse(sizes.is_near(0, 1))

    def test_a_wrong_row_or_one_that_is_missing_is_taken(self):
        rows = [sizes.Row("code", 10, 2000), sizes.Row("proofs", 4, 300)]
        self.assertEqual(sizes.faults(sizes.table(rows), rows), [])
        self.assertEqual(len(sizes.faults("| code | 10 | 2,000 |\n", rows)), 1)
        wrong = "| code | 10 | 2,200 |\n| proofs | 4 | 300 |\n"
        self.assertEqual(len(sizes.faults(wrong, rows)), 1)

    def test_a_count_of_definitions_that_no_theorem_has_is_taken(self):
        rows = [sizes.Row("one rests on", 28, 158), sizes.Row("two rests on", 530, 2540)]
        text = "It rests on 158 lines in 28 definitions, and the other on 2,540 lines in 530"
        self.assertEqual(sizes.wrong_counts(f"{text} definitions.", rows), [])
        self.assertEqual(len(sizes.wrong_counts("158 lines in 530 definitions", rows)), 1)

    def test_a_wrong_number_of_lines_of_a_file_or_folder_is_taken(self):
        self.write("two/a", "1\n2\n")
        self.write("two/below/b", "1\n2\n3\n")
        file, folder = f"{self.room}/two/a", f"{self.room}/two"
        self.assertEqual(sizes.wrong_lines(f"`{file}`, 2 lines; [`{folder}`](../x), 5 lines"), [])
        self.assertEqual(len(sizes.wrong_lines(f"`{file}`, 3 lines; [`{folder}`](x), 4 lines")), 2)

    def test_a_limit_that_the_page_lacks_is_taken(self):
        self.write("crates/a/src/limits.rt", "pub const MAX_JOBS: u32 = 4096;\n"
                   "pub const MOST_MOVES: u64 = 100_000;\npub const USUAL: u64 = 7;\n")
        page = "## Limits\n\nUp to 4096 jobs, and 100,000 moves.\n\n## Next\n\n100,000\n"
        self.assertEqual(sizes.missing_limits(page, self.room), [])
        self.assertEqual(len(sizes.missing_limits(page.replace("100,000 m", "m"), self.room)), 1)


def literals(path):
    """Returns the texts of a Python module; what is filled in later is a line feed in them."""
    with open(path, encoding="utf-8") as file:
        nodes = list(ast.walk(ast.parse(file.read())))
    plain = [it.value for it in nodes if isinstance(it, ast.Constant) and isinstance(it.value, str)]
    return plain + ["".join(part.value if isinstance(part, ast.Constant) else "\n"
                            for part in it.values) for it in nodes if isinstance(it, ast.JoinedStr)]


def pieces(message):
    """Returns the parts of a message that stand in a source: not its numbers, nor what is left
    out."""
    return [it for it in re.split(r" ?\.\. ?|\d+|[,;] ", message) if len(it) > 5]


class Messages(unittest.TestCase):
    """The questions by message, next to the sources of the programs."""

    def setUp(self):
        self.texts = [it for path in glob.glob(f"{ROOT}/python/amo_jobs/*.py")
                      for it in literals(path)]
        for path in glob.glob(f"{ROOT}/crates/*/src/*.rt"):
            with open(path, encoding="utf-8") as file:
                self.texts.append(file.read())

    def is_printed(self, message):
        """Returns true if each piece of a message stands in a source."""
        return all(any(piece in it for it in self.texts) for piece in pieces(message))

    def test_the_page_has_a_message_that_no_program_prints(self):
        with open(f"{ROOT}/docs/guide/operating.md", encoding="utf-8") as file:
            table = re.search(r"^## Questions by message\n(.*?)^## ", file.read(), re.M | re.S)[1]
        messages = re.findall(r"^\| `([^`]+)`", table, re.M)
        self.assertGreater(len(messages), 12)
        self.assertEqual([it for it in messages if not self.is_printed(it)], [])

    def test_a_message_that_is_not_there_is_found(self):
        self.assertFalse(self.is_printed("another crew, process 29885, sleeps in this folder"))


class Repeats(unittest.TestCase):
    """Paragraphs of 30 words, which are numbers here."""

    def words(self, first, count):
        """Returns so many words, from this number on."""
        return " ".join(str(it) for it in range(first, first + count))

    def test_thirty_words_that_stand_twice_are_taken(self):
        pages = {"a": f"# One\n\n{self.words(0, 40)}\n", "b": f"begun {self.words(5, 30)}\nended\n"}
        found = repeats.repeats(pages)
        self.assertEqual([(it.page, it.first) for it in found], [("b", "a")])
        self.assertEqual(repeats.repeats({"a": pages["a"], "b": self.words(5, 29)}), [])

    def test_the_target_of_a_link_hides_a_repeat(self):
        link = f"[{self.words(0, 15)}](there.md) {self.words(15, 15)}"
        self.assertEqual(len(repeats.repeats({"a": link, "b": link.replace("there", "here")})), 1)

    def test_code_and_rows_of_tables_are_prose(self):
        for text in ("```\n{}\n```\n", "| {} |\n", "    {}\n"):
            page = text.format(self.words(0, 40))
            self.assertEqual(repeats.repeats({"a": page, "b": page}), [])


class Pictures(unittest.TestCase):
    """The pictures are XML, and every word of theirs lies within them."""

    def test_a_line_of_text_is_cut_off(self):
        for name, draw in pictures.PICTURES.items():
            top = tree.fromstring(draw())
            width = float(top.get("width"))
            for it in top.iter("{http://www.w3.org/2000/svg}text"):
                long = drawing.LETTER * len(it.text)
                before = {"start": 0, "middle": 0.5, "end": 1}[it.get("text-anchor")] * long
                start = float(it.get("x")) - before
                self.assertGreaterEqual(start, 0, (name, it.text))
                self.assertLessEqual(start + long, width, (name, it.text))

    def test_a_length_has_more_than_one_decimal(self):
        shown = [drawing.number(it) for it in (7, 7.25, 7.0, 0.04)]
        self.assertEqual(shown, ["7", "7.2", "7", "0"])

    def test_a_picture_that_is_not_there_is_current(self):
        with tempfile.TemporaryDirectory() as room:
            self.assertFalse(pictures.is_current(room, "life"))
            pictures.write(room)
            self.assertTrue(pictures.is_current(room, "life"))
            with open(pictures.path_of(room, "life"), "a", encoding="utf-8") as file:
                file.write("\n")
            self.assertFalse(pictures.is_current(room, "life"))


if __name__ == "__main__":
    unittest.main()
