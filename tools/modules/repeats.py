"""Finds what stands twice in the pages: three lines of prose or more.

`repeats` is where to start reading. Blocks of code don't count, nor do the rows of tables.
"""

from __future__ import annotations

import re
from typing import Iterator, NamedTuple

import blocks

# Two to three lines of a page have 30 words.
WORDS = 30
LINK = re.compile(r"\]\([^)\s]*\)")


class Repeat(NamedTuple):
    """A page, another place that has the same words before it, and how they begin."""

    page: str
    first: str
    words: str


def paragraphs(text: str) -> Iterator[list[str]]:
    """Yields the words of each paragraph and list item, without the targets of links."""
    for part in re.split(r"\n\s*\n|\n(?=\s*(?:[-|]|\d+\.) )", blocks.without(text)):
        if not part.startswith("    ") and not part.lstrip().startswith(("|", "#")):
            yield re.findall(r"[\w']+", LINK.sub("]", part).lower())


def repeats(pages: dict[str, str]) -> list[Repeat]:
    """Returns each paragraph that has as many words in a row as an earlier one has."""
    places: dict[tuple[str, ...], str] = {}
    found = []
    for page, text in pages.items():
        for words in paragraphs(text):
            rows = [tuple(words[k:k + WORDS]) for k in range(len(words) - WORDS + 1)]
            old = next((it for it in rows if it in places), None)
            if old:
                found.append(Repeat(page, places[old], " ".join(old[:12])))
            places.update({it: page for it in rows if it not in places})
    return found
