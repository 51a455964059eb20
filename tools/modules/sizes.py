"""Counts the lines of the code, the definitions and the proofs, and what theorems rest on.

`rows` is where to start reading. A line counts if it is neither empty nor a comment alone.
"""

from __future__ import annotations

import glob
import os
import re
from typing import NamedTuple

import statements
from definitions import Tree

# The theorems whose definitions are counted.
THEOREMS = [
    ("amo_program_safety", "programs_and_commands_perform_each_line_at_most_once"),
    ("amo_program_safety", "programs_and_commands_run_by_journals_alone"),
    ("amo_safety_by_journals", "lines_are_performed_once_by_journals_alone"),
    ("amo_kk", "history_is_a_run"),
]
# Each part with its files, and how a comment begins there.
PARTS = [
    ("code with its contracts (`src`)", ["crates/*/src/**/*.rt"], "//"),
    ("definitions (`specs`)", ["crates/*/specs/**/*.antt"], "--"),
    ("proofs (`proofs`)", ["crates/*/proofs/**/*.antt"], "--"),
    ("tests in `tests/`", ["tests/*/src/**/*.rattle"], "//"),
    ("Python of `amo_jobs` and `amo_share`", ["python/amo_jobs/*.py"], "#"),
    ("C of `amo_jobs`", ["python/amo_jobs/*.c"], "//"),
]
# The declaration of a limit that a page shows.
LIMIT = re.compile(r"^pub const (MAX_\w+|MOST_MOVES|MOST_ROUNDS): \w+ = ([\d_]+);", re.M)


class Row(NamedTuple):
    """A row of the table: what was counted, how many files or definitions, and how many lines."""

    what: str
    amount: int
    lines: int


def lines_of(path: str, comment: str) -> int:
    """Returns how many lines of a file are neither empty nor a comment alone."""
    with open(path, encoding="utf-8", errors="replace") as file:
        lines = [it.strip() for it in file]
    return sum(1 for it in lines if it and not it.startswith(comment))


def parts(root: str) -> list[Row]:
    """Returns a row for each of PARTS."""
    found = []
    for what, patterns, comment in PARTS:
        files = [it for pattern in patterns
                 for it in glob.glob(f"{root}/{pattern}", recursive=True)]
        found.append(Row(what, len(files), sum(lines_of(it, comment) for it in files)))
    return found


def mutants(root: str) -> list[Row]:
    """Returns a row for the mutants that the prover rejects, and one for those that it accepts."""
    found = []
    for what, end in (("mutants that the prover rejects", "edit"),
                      ("equivalent mutants that it accepts", "twin")):
        files = glob.glob(f"{root}/crates/*/wrong-bodies/*.{end}")
        found.append(Row(what, len(files), sum(lines_of(it, "#") for it in files)))
    return found


def theorems(root: str) -> list[Row]:
    """Returns a row for each of THEOREMS: the definitions that it rests on, and their lines."""
    tree, found = Tree(root), []
    for crate, theorem in THEOREMS:
        last = statements.list_of(statements.rests_on(tree, crate, theorem))
        sums = [it for it in last if it.startswith("in all:")]
        numbers = re.findall(r"\d+", sums[0])
        found.append(Row(f"`{theorem}` rests on", int(numbers[0]), int(numbers[1])))
    return found


def rows(root: str) -> list[Row]:
    """Returns all rows."""
    return [*parts(root), *mutants(root), *theorems(root)]


def table(found: list[Row]) -> str:
    """Returns the rows as a table of a page."""
    head = ["| what | files, or definitions | lines |", "|---|---|---|"]
    return "\n".join([*head, *(f"| {it.what} | {it.amount:,} | {it.lines:,} |" for it in found)])


def read(text: str) -> dict[str, tuple[int, int]]:
    """Returns the two numbers of each row of such a table that stands in a text."""
    found = re.findall(r"^\| (.+?) \| ([\d,]+) \| ([\d,]+) \|$", text, re.M)
    return {what: (number(count), number(lines)) for what, count, lines in found}


def number(text: str) -> int:
    """Returns the number that a text with commas says."""
    return int(text.replace(",", ""))


def is_near(said: int, measured: int) -> bool:
    """Returns true if a number of a page is within a twentieth of the measured one."""
    return abs(said - measured) * 20 <= measured


def faults(text: str, found: list[Row]) -> list[str]:
    """Returns what is wrong in a page with the table, or with a count of definitions."""
    said, wrong = read(text), []
    for row in found:
        pair = said.get(row.what)
        if pair is None:
            wrong.append(f"the row `{row.what}` is missing; copy the table that tools/sizes prints")
        elif not (is_near(pair[0], row.amount) and is_near(pair[1], row.lines)):
            wrong.append(f"{row.what}: it is {row.amount:,} and {row.lines:,} now; copy the table"
                         " that tools/sizes prints")
    return wrong


def wrong_counts(text: str, found: list[Row]) -> list[str]:
    """Returns each `N lines in M definitions` of a text that is of none of the theorems."""
    pairs = re.findall(r"([\d,]+) lines in ([\d,]+) definitions", text)
    return [f"{lines} lines in {count} definitions: no theorem of tools/sizes has so many"
            for lines, count in pairs
            if not any(is_near(number(lines), it.lines) and is_near(number(count), it.amount)
                       for it in found)]


def files_in(path: str) -> list[str]:
    """Returns a file, or the files of a folder and its folders; none if there is no such path."""
    inside = glob.glob(f"{path}/**", recursive=True)
    return [it for it in (path, *inside) if os.path.isfile(it)]


def all_lines(path: str) -> int:
    """Returns how many lines a file has, or the files of a folder."""
    found = 0
    for it in files_in(path):
        with open(it, encoding="utf-8", errors="replace") as file:
            found += sum(1 for _ in file)
    return found


def wrong_lines(text: str) -> list[str]:
    """Returns each path of a text, from the top of the repository, whose number of lines is wrong.
    A text says it as `PATH`, N lines; the path may be a link."""
    pairs = re.findall(r"`([\w./-]+)`(?:\]\([^)]*\))?, ([\d,]+) lines", text)
    return [f"{path}: it has {all_lines(path)} lines, and not {lines}" for path, lines in pairs
            if not is_near(number(lines), all_lines(path))]


def missing_limits(text: str, root: str) -> list[str]:
    """Returns each limit of runs and plans that the section on limits of a page doesn't have."""
    section = re.search(r"^## Limits\n(.*?)(?=^## |\Z)", text, re.M | re.S)
    shown = {number(it) for it in re.findall(r"\d[\d,]*", section[1])} if section else set()
    wrong = []
    for path in sorted(glob.glob(f"{root}/crates/*/src/limits.rt")):
        with open(path, encoding="utf-8") as file:
            found = LIMIT.findall(file.read())
        wrong += [f"{name}: the limit {value} is missing below `## Limits`" for name, value in found
                  if int(value.replace("_", "")) not in shown]
    return wrong
