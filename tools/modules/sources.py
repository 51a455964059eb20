"""The public items of a crate, with their comments, as its sources have them in the layout of
`rt fmt`: each item begins on a line of its own, and its body ends at a brace below its first
letter."""

from __future__ import annotations

import functools
import os
import re
from typing import Iterator, NamedTuple

COMMENT = re.compile(r"(\s*)(///|//!)(?: (.*))?$")
ITEM = re.compile(r"(\s*)(?:pub(?:\([^)]*\))? )?(?:ghost )?(?:const )?(?:unsafe )?"
                  r"(?:extern \"C\" )?(fn|struct|enum|trait|type|const|impl) ?(.*)")
NAME = re.compile(r"\w+")
MODEL = re.compile(r"impl(?:<.*>)? Model for (\w+)")
IMPL = re.compile(r"impl(?:<.*>)? (?!Model )(?:\w+::)*\w+(?:<.*>)? for (\w+)")
GHOST = re.compile(r"    ghost (?!use )")
WITH_MEMBERS = ("struct", "enum", "trait")
MEMBER = re.compile(r"pub (?:ghost )?\w+:|[A-Z]\w*(?:\(|,$|$| \{)|type |ghost \w+:")
FENCE = "```"


class Member(NamedTuple):
    """A field or a variant, with its comment."""
    doc: list[str]
    text: str


class Item(NamedTuple):
    """An item of a source file. `text` is its signature with its contract, `last` its last line;
    `owner` is the type of the impl or the trait that it stands in."""
    file: str
    line: int
    last: int
    kind: str
    name: str
    owner: str
    is_pub: bool
    doc: list[str]
    text: list[str]
    members: list[Member]

    @property
    def path(self) -> str:
        """Returns the name as callers write it."""
        return f"{self.owner}::{self.name}" if self.owner else self.name


class Block(NamedTuple):
    """A block of code in a comment: the lines of the program, and their place."""
    file: str
    line: int
    item: str
    code: list[str]


@functools.lru_cache(maxsize=None)
def read(path: str) -> list[str]:
    """Returns the lines of a file, as they were when this was first asked. Change nothing there."""
    with open(path, encoding="utf-8") as file:
        return file.read().split("\n")


def files_of(folder: str) -> list[str]:
    """Returns the sources of a crate, the root file first."""
    found = [os.path.join(place, name) for place, _, names in os.walk(f"{folder}/src")
             for name in names if name.endswith(".rt")]
    return sorted(found, key=lambda it: (os.path.basename(it) != "lib.rt", it))


def comment_of(line: str) -> tuple[str, str] | None:
    """Returns the mark and the text of a line of a doc comment; None for another line."""
    found = COMMENT.match(line)
    return (found[2], found[3] or "") if found else None


def is_item(line: str) -> bool:
    return bool(ITEM.match(line)) and not COMMENT.match(line)


def name_in(text: str) -> str:
    """Returns the name with which a text begins; empty if it begins otherwise."""
    found = NAME.match(text)
    return found[0] if found else ""


def comment_above(lines: list[str], at: int) -> list[str]:
    """Returns the doc comment above the line at this index, past attributes."""
    while at > 0 and lines[at - 1].strip().startswith("#["):
        at -= 1
    found: list[str] = []
    while at > 0 and (comment := comment_of(lines[at - 1])) and comment[0] == "///":
        found.insert(0, comment[1])
        at -= 1
    return found


def attributes_above(lines: list[str], at: int) -> list[str]:
    """Returns the `derive` attributes directly above the line at this index."""
    first = at
    while first > 0 and lines[first - 1].strip().startswith("#["):
        first -= 1
    return [line.strip() for line in lines[first:at] if line.strip().startswith("#[derive(")]


def head_of(lines: list[str]) -> list[str]:
    """Returns the comment at the head of a file."""
    found = []
    for line in lines:
        comment = comment_of(line)
        if not comment or comment[0] != "//!":
            break
        found.append(comment[1])
    return found


def signature(lines: list[str], at: int, indent: str) -> tuple[list[str], int]:
    """Returns the text of the item at this index without its body, and the index of its last
    line."""
    text = [lines[at]]
    while not re.search(r"(?:^|\s)\{(?:\})?$|;$", text[-1]) and at + len(text) < len(lines):
        text.append(lines[at + len(text)])
    after = at + len(text) - 1
    is_whole = text[-1].endswith((";", "{}"))
    while not is_whole and after + 1 < len(lines) and lines[after] != f"{indent}}}":
        after += 1
    shown = [line for line in text if line.strip() not in ("{", "{}")]
    shown[-1] = re.sub(r" \{(?:\})?$", "", shown[-1])
    return [line.removeprefix(indent) for line in shown], after


def members_of(lines: list[str], at: int, last: int, indent: str) -> list[Member]:
    """Returns the variants or public fields between two lines."""
    found = []
    inner = f"{indent}    "
    for index in range(at + 1, last):
        text = lines[index].removeprefix(inner)
        is_one = lines[index].startswith(inner) and MEMBER.match(text)
        if is_one:
            found.append(Member(comment_above(lines, index), text.rstrip(",")))
    return found


def items_of(path: str, root: str) -> Iterator[Item]:
    """Yields the items of a source file, in their order."""
    lines = read(path)
    owner, end = "", -1  # the type of the impl or the trait, and the index of its last line
    for at, line in enumerate(lines):
        found = ITEM.match(line) if is_item(line) else None
        if not found or len(found[1]) != (4 if at <= end else 0):
            continue
        indent, kind, rest = found.groups()
        text, last = signature(lines, at, indent)
        if kind == "impl":
            owner, end = owner_of(rest), last
            continue
        is_inside = at <= end
        is_pub = line.lstrip().startswith("pub ") or is_inside and owner.startswith("trait ")
        members = members_of(lines, at, last, indent) if kind in WITH_MEMBERS else []
        yield Item(os.path.relpath(path, root), at + 1, last + 1, kind, name_in(rest),
                   owner if is_inside else "", is_pub, comment_above(lines, at), text, members)
        if kind == "trait":
            owner, end = f"trait {name_in(rest)}", last


def owner_of(rest: str) -> str:
    """Returns the type of an impl; for an impl of a trait `impl TRAIT for TYPE`."""
    plain = re.sub(r"^<(?:[^<>]|<[^<>]*>)*>", "", rest).split(" {")[0].strip()
    return f"impl {plain}" if " for " in plain else re.sub(r"<.*", "", plain)


def exported(folder: str) -> tuple[set[str], set[str]]:
    """Returns the names that the root file of a crate exports, and its public modules. A program
    exports none."""
    path = f"{folder}/src/lib.rt"
    text = re.sub(r"//.*", "", "\n".join(read(path))) if os.path.isfile(path) else ""
    names: set[str] = set()
    for path in re.findall(r"^pub use ([^;]*);", text, re.M):
        last = path.split("{", 1)[1] if "{" in path else path.split("::")[-1]
        names.update(re.findall(r"\w+", last))
    return names, set(re.findall(r"^pub mod (\w+);", text, re.M))


@functools.lru_cache(maxsize=None)
def public_items(folder: str, root: str) -> list[Item]:
    """Returns the items of a crate that its users can name. Change nothing there."""
    names, modules = exported(folder)
    found = []
    for path in files_of(folder):
        module = os.path.relpath(path, f"{folder}/src").removesuffix(".rt").split(os.sep)
        for it in items_of(path, root):
            owner = it.owner.removeprefix("trait ")
            is_shown = module == ["lib"] or module[0] in modules and len(module) == 1
            if it.is_pub and (is_shown or (owner or it.name) in names):
                found.append(it._replace(owner=owner))
    return found


def models(folder: str, root: str) -> dict[str, Item]:
    """Returns for each type of a crate that has one its `impl Model`: its lines say the value as
    which contracts see the type, and what always holds of it."""
    found: dict[str, Item] = {}
    for path in files_of(folder):
        lines = read(path)
        for at, begun in ((at, MODEL.match(line)) for at, line in enumerate(lines)):
            if begun:
                last = lines.index("}", at)
                body = [line.removeprefix("    ") for line in lines[at + 1:last]
                        if line.strip() and not comment_of(line) and "ghost use" not in line]
                found[begun[1]] = Item(os.path.relpath(path, root), at + 1, last + 1, "impl",
                                       begun[1], "", True, [], body, [])
    return found


def ghosts(lines: list[str]) -> list[str]:
    """Returns the definitions for contracts among the lines of an impl."""
    found, is_open = [], False
    for line in lines:
        if is_open or GHOST.match(line):
            found.append(line)
            is_open = not line.endswith("};")
    return found


def impls(folder: str, root: str) -> list[Item]:
    """Returns each impl of a trait in a crate that gives definitions to contracts, with these. The
    item has the name of the type."""
    found = []
    for path in files_of(folder):
        lines = read(path)
        for at, begun in ((at, IMPL.match(line)) for at, line in enumerate(lines)):
            last = lines.index("}", at) if begun and lines[at].endswith("{") else at
            given = ghosts(lines[at + 1:last])
            if begun and given:
                found.append(Item(os.path.relpath(path, root), at + 1, last + 1, "impl", begun[1],
                                  "", True, [], [lines[at], *given, "}"], []))
    return found


def blocks_of(path: str, root: str) -> Iterator[Block]:
    """Yields the programs in the comments of a source: the blocks whose fence names no language."""
    lines = read(path)
    code: list[str] = []
    fence, begun = "", 0  # the line that opened a block, and its number
    for at, line in enumerate(lines):
        comment = comment_of(line)
        words = comment[1] if comment else ""
        if not comment:
            fence = ""
        elif words.startswith(FENCE) and not fence:
            code, fence, begun = [], words, at + 2
        elif words.startswith(FENCE):
            if fence == FENCE:
                yield Block(os.path.relpath(path, root), begun, item_below(lines, at), code)
            fence = ""
        elif fence:
            code.append(words)


def item_below(lines: list[str], at: int) -> str:
    """Returns the name of the item whose comment has this line; `head` for the file's own."""
    comment = comment_of(lines[at])
    if comment and comment[0] == "//!":
        return "head"
    below = (ITEM.match(line) for line in lines[at:] if is_item(line))
    return next((name_in(found[3]) or "impl" for found in below if found), "end")
