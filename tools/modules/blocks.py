"""The blocks of a page, and how each is marked. Begin with `unmarked`.

In a page a block is a fence, and its mark follows the three backquotes. Commands stand in fences
with these marks alone:

    console run               tools/pages runs the commands, and compares what they print
    console installed         tools/release does so, on the page on how to install
    console not run: REASON   nobody runs them; `sh` may stand in the place of `console`
    sh FILE                   they are a part of this file

Any other fence has the name of its language, or `text`. In the source of a manual page a block is
indented by four blanks, and the part above it is its mark in braces: {run}, {run STATUS..} with the
status of each command, {not run: REASON}, or {text}.
"""

from __future__ import annotations

import re
from typing import Iterator, NamedTuple, Optional

FENCE = re.compile(r"^( *)```([^`\n]*)\n(.*?)^\1```$", re.M | re.S)
INDENTED = re.compile(r"(?:\A|\n)\n {4,}(\S.*)")
SHELLS = ("console", "sh", "bash", "shell")
MARK = re.compile(r"console run|(?:console|sh) not run: \S.*|sh \S+/\S+")
INSTALLED = "docs/guide/install.md"  # whose blocks tools/release follows
OF_MANUAL = re.compile(r"run(?: \d+)*|not run: \S.*|text", re.S)
# How a line of a block begins that is a command.
COMMAND = re.compile(r"^ *(?:\$ |\./)", re.M)


class Block(NamedTuple):
    """A block: its mark, and its lines without their indentation."""

    mark: str
    body: str


class Step(NamedTuple):
    """A command that is run, and what is compared: what it prints, or its status."""

    command: str
    printed: Optional[list[str]] = None
    status: Optional[int] = None


def is_manual(page: str) -> bool:
    """Returns whether a page is the source of a manual page."""
    return page.endswith(".txt")


def fences(text: str) -> list[Block]:
    """Returns the fences of a page."""
    return [Block(mark, re.sub(rf"^{indent}", "", body, flags=re.M))
            for indent, mark, body in FENCE.findall(text)]


def without(text: str) -> str:
    """Returns a page without its fences."""
    return FENCE.sub("", text)


def examples(text: str) -> list[Block]:
    """Returns the blocks of the source of a manual page."""
    parts = ["", *re.split(r"\n{2,}", text.strip("\n"))]
    return [Block(above[1:-1] if re.fullmatch(r"\{.*\}", above, re.S) else "",
                  re.sub("^    ", "", part, flags=re.M) + "\n")
            for above, part in zip(parts, parts[1:]) if part.startswith("    ")]


def unmarked(page: str, text: str) -> Iterator[str]:
    """Yields what is wrong with the marks of a page's blocks."""
    found = examples(text) if is_manual(page) else fences(text)
    for it in found:
        first = it.body.split("\n")[0]
        if not is_marked(page, it):
            yield (f"`{first}`: the mark of its block is `{it.mark}`; mark the block as"
                   " tools/modules/blocks.py says: run, or why it isn't run")
        elif it.mark == "console run" and not first.startswith("$ "):
            yield f"`{first}`: it isn't a command; begin it with $"
    for first in () if is_manual(page) else INDENTED.findall(without(text)):
        yield f"`{first}`: its block is indented, and has no mark; make it a fence with a mark"


def is_marked(page: str, it: Block) -> bool:
    """Returns whether a block of a page has a mark that it may have."""
    language, *more = it.mark.split(" ")
    if is_manual(page):
        is_counted = language != "run" or len(more) in (0, len(list(commands(it.body, ""))))
        return OF_MANUAL.fullmatch(it.mark) is not None and is_counted
    if language in SHELLS:
        is_followed = page == INSTALLED and it.mark == "console installed"
        return is_followed or MARK.fullmatch(it.mark) is not None
    return language != "" and not (language == "text" and COMMAND.search(it.body))


def commands(body: str, start: str) -> Iterator[list[str]]:
    """Yields each command of a block, with the lines below it. A command begins with this text, and
    goes on in the next line if its line ends with a backslash."""
    found: list[list[str]] = []
    for line in body.splitlines():
        if found and len(found[-1]) == 1 and found[-1][0].endswith("\\"):
            found[-1][0] += f"\n{line}"
        elif line.startswith(start):
            found.append([line[len(start):]])
        elif found:
            found[-1].append(line)
    yield from found


def steps(page: str, text: str) -> Iterator[Step]:
    """Yields the commands of a page that are run, in their order."""
    if not is_manual(page):
        for it in fences(text):
            if it.mark == "console run":
                yield from (Step(first, more) for first, *more in commands(it.body, "$ "))
        return
    for it in examples(text):
        word, *statuses = it.mark.split(" ")
        if word == "run":
            found = [first for first, *_ in commands(it.body, "")]
            for command, status in zip(found, map(int, statuses or ["0"] * len(found))):
                yield Step(f'PATH="$PWD:$PATH"\n{command}', status=status)
