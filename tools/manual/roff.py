"""Writes texts in roff, with the macros of man(7). tools/man begins with `pages.page_of`.

In a text, words between backquotes are shown bold. Placeholders among them, which are in capitals,
are shown in italics. Text between two pairs of asterisks is bold too. A name before a section in
brackets, such as amo_jobs(1), is bold.
"""

from __future__ import annotations

import re
import textwrap
from typing import Iterable

WIDTH = 76  # columns of a line; mandoc finds fault with more than 80
SENTENCE_END = re.compile(r"(?:(?<=[.!?])|(?<=[.!?]\*\*))\s+(?=[A-Z`*0-9(\"'])")
CODE = re.compile(r"`([^`]+)`|\*\*([^*]+)\*\*|\b([a-z][\w.-]*)(\(\d\))")
# Capitals that are no placeholders: names of variables, signals and what else is written so.
LITERAL = {"JSON", "HTML", "SVG", "TOML", "KILL", "PATH", "CC"}
PLACE = re.compile(r"(?<![\w-])([A-Z][A-Z-]*|P\.S)(?![\w-])")
IN_CODE = [("-", r"\-"), ("'", r"\(aq"), ("^", r"\(ha"), ("~", r"\(ti")]


def escaped(text: str, in_code: bool = False) -> str:
    """Returns the text as roff shows it. Code keeps its characters, so that it can be copied."""
    text = text.replace("\\", r"\e")
    for plain, named in IN_CODE if in_code else IN_CODE[2:]:
        text = text.replace(plain, named)
    return text


def code(text: str, places: Iterable[str] | None = None) -> str:
    """Returns code in bold, and its placeholders in italics. Without `places`, all words in
    capitals are placeholders but those in LITERAL."""
    parts = []
    for at, part in enumerate(PLACE.split(text)):
        is_place = at % 2 == 1 and (part not in LITERAL if places is None else part in places)
        if part:
            parts.append(rf"\f{'I' if is_place else 'B'}{escaped(part, True)}\fR")
    return "".join(parts)


def words(text: str) -> str:
    """Returns code within a text. Its words are never hyphenated, so that they can be copied."""
    return " ".join(rf"\%{code(it)}" for it in text.split(" "))


def inline(text: str) -> str:
    """Returns a text with its code and its strong words marked."""
    parts, at = [], 0
    for found in CODE.finditer(text):
        parts.append(escaped(text[at:found.start()]))
        if found[1]:
            parts.append(words(found[1]))
        elif found[2]:
            parts.append(rf"\fB{escaped(found[2])}\fR")
        else:
            parts.append(rf"\%\fB{escaped(found[3], True)}\fR{found[4]}")
        at = found.end()
    return "".join([*parts, escaped(text[at:])])


def guarded(line: str) -> str:
    """Returns a line that roff doesn't take as a request."""
    return rf"\&{line}" if line.startswith((".", "'")) else line


def filled(text: str) -> list[str]:
    """Returns the lines of a paragraph. Each sentence begins a line, as mandoc wants it."""
    lines = []
    for sentence in SENTENCE_END.split(" ".join(text.split())):
        lines += textwrap.wrap(inline(sentence), WIDTH, break_long_words=False,
                               break_on_hyphens=False)
    return [guarded(it) for it in lines]


def example(lines: Iterable[str]) -> list[str]:
    """Returns the lines of an example, which are shown as they are."""
    shown = [guarded(escaped(it, True)) or r"\&" for it in lines]
    return [".PP", ".RS 4", ".EX", *shown, ".EE", ".RE"]


def item(term: str, texts: Iterable[str]) -> list[str]:
    """Returns an item: a term, and paragraphs on it."""
    first, *more = texts
    lines = [".TP", guarded(term), *filled(first)]
    for it in more:
        lines += [".IP", *filled(it)]
    return lines


def call(usage: str) -> list[str]:
    """Returns a way to call a program, as the synopsis shows it."""
    program, _, rest = usage.partition(" ")
    words = re.sub(r"(?<![\w.-])(--?[a-z][\w-]*|[a-z][\w.|-]*)", lambda it: code(it[0]), rest)
    words = PLACE.sub(lambda it: rf"\fI{escaped(it[0], True)}\fR", words)
    return [f".SY {program}", *textwrap.wrap(words, WIDTH, break_long_words=False,
                                              break_on_hyphens=False), ".YS"]
