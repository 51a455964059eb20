"""Prints the public items of a crate: signatures, clauses, fields, variants and methods.

`listed` is where to start reading. Comments, bodies and private parts are left out, and white
space is folded, so the text stays the same if files are laid out anew.
"""

from __future__ import annotations

import glob
import os
import re

TOKEN = re.compile(r"//[^\n]*|\"(?:\\.|[^\"\\])*\"|b?'(?:\\.[^'\n]*|[^\\'\n])'|'?\w+|\s+|::|.",
                   re.S)
KINDS = ("fn", "struct", "enum", "trait", "impl", "mod", "use", "const", "static", "type", "ghost")
TO_SEMICOLON = ("use", "const", "static", "type", "ghost")
CLAUSES = ("requires", "ensures", "decreases")
KEPT_MARKS = ("derive", "error")  # the attributes that who uses an item sees
OPENS, CLOSES = "([{", ")]}"


class Item:
    """An item of a source: its attributes, whether it is public, its head and its body."""

    def __init__(self, words: list[str]):
        self.marks, words = marks_of(words)
        self.is_public = words[:1] == ["pub"] and solid(words)[1:2] != ["("]
        self.words = words
        plain = solid(words)
        self.kind = next((it for it in plain if it in KINDS), "")
        at = plain.index(self.kind) if self.kind else 0
        self.name = plain[at + 1] if self.kind and at + 1 < len(plain) else ""
        opens = body_at(words) if self.kind not in TO_SEMICOLON else None
        self.head = words if opens is None else words[:opens]
        self.body = None if opens is None else words[opens + 1:-1]

    def signature(self) -> str:
        return folded([*self.marks, *self.head])


def words_of(text: str) -> list[str]:
    """Returns the tokens of a source without its comments; white space is one space."""
    found = (it for it in TOKEN.findall(text) if not it.startswith("//"))
    return [" " if it.isspace() else it for it in found]


def solid(words: list[str]) -> list[str]:
    return [it for it in words if it != " "]


def folded(words: list[str]) -> str:
    """Returns the text of these tokens in one line, as if no line had been broken."""
    text = re.sub(r"\s+", " ", "".join(words)).strip().rstrip(";")
    text = re.sub(r"([(\[]) ", r"\1", text)
    text = re.sub(r",? ([)\]])", r"\1", text).replace(", }", " }")
    return re.sub(r",( where|$)", r"\1", text)


def end_of(words: list[str], at: int) -> int:
    """Returns the place of the bracket that closes the one at this place."""
    depth = 0
    for place in range(at, len(words)):
        depth += (words[place] in OPENS) - (words[place] in CLOSES)
        if depth == 0:
            return place
    raise ValueError("a bracket is not closed")


def body_at(words: list[str]) -> int | None:
    """Returns the place of the brace that opens the body. Braces of clauses don't count."""
    at, is_clause = 0, False
    while at < len(words):
        if words[at] == "{" and not is_clause:
            return at
        is_clause = (is_clause or words[at] in CLAUSES) and words[at] != "{"
        at = end_of(words, at) + 1 if words[at] in OPENS else at + 1
    return None


def marks_of(words: list[str]) -> tuple[list[str], list[str]]:
    """Returns the attributes that are kept, and the words after all attributes."""
    kept: list[str] = []
    while True:
        while words[:1] == [" "]:
            words = words[1:]
        if words[:1] != ["#"]:
            return kept, words
        opens = words.index("[")
        end = end_of(words, opens)
        if solid(words[opens:])[1] in KEPT_MARKS:
            kept += [*words[:end + 1], " "]
        words = words[end + 1:]


def items_of(words: list[str]) -> list[Item]:
    """Returns the items of a module, an impl or a trait."""
    found, start, at, kind, is_clause = [], 0, 0, "", False
    while at < len(words):
        it = words[at]
        if not kind and it == "#":
            is_inner = words[at + 1] == "!"
            at = end_of(words, words.index("[", at)) + 1
            start = at if is_inner else start
            continue
        kind = kind or (it if it in KINDS else "")
        is_block = it == "{" and not is_clause and kind not in TO_SEMICOLON
        is_clause = (is_clause or it in CLAUSES) and it != "{"
        at = end_of(words, at) if it in OPENS else at
        if is_block or it == ";":
            found.append(Item(words[start:at + 1]))
            start, kind = at + 1, ""
        at += 1
    return [it for it in found if it.kind]


def parts_of(words: list[str]) -> list[list[str]]:
    """Returns the parts between the commas of a struct's or an enum's body."""
    parts, depth = [[]], 0
    for at, it in enumerate(words):
        opens = it in OPENS or it == "<"
        closes = it in CLOSES or it == ">" and words[at - 1] not in ("-", "=")
        depth += opens - closes
        if it == "," and depth == 0:
            parts.append([])
        else:
            parts[-1].append(it)
    return [it for it in parts if solid(it)]


class Crate:
    """A crate's sources: the items of each module, by the module's path."""

    def __init__(self, name: str, root: str):
        self.name, self.folder = name, f"{root}/crates/{name}/src"
        self.modules: dict[tuple[str, ...], list[Item]] = {}
        for file in sorted(glob.glob(f"{self.folder}/**/*.rt", recursive=True)):
            path = os.path.relpath(file, self.folder)[:-3].split(os.sep)
            path = [] if path in (["lib"], ["main"]) else [it for it in path if it != "mod"]
            with open(file, encoding="utf-8") as held:
                self.modules[tuple(path)] = items_of(words_of(held.read()))

    def blocks_of(self, name: str) -> list[Item]:
        """Returns the impls of a type."""
        every = (it for items in self.modules.values() for it in items if it.kind == "impl")
        return [it for it in every if type_of(it) == name]


def type_of(block: Item) -> str:
    """Returns the name of the type that an impl is of."""
    head = solid(block.head)[1:]
    head = head[past_angles(head):] if head[:1] == ["<"] else head
    head = head[head.index("for") + 1:] if "for" in head else head
    cut = next((at for at, it in enumerate(head) if it in ("<", "where", ",")), len(head))
    return head[cut - 1]


def past_angles(words: list[str]) -> int:
    depth = 0
    for at, it in enumerate(words):
        depth += (it == "<") - (it == ">" and words[at - 1] != "-")
        if depth == 0:
            return at + 1
    return len(words)


def leaves_of(item: Item) -> list[tuple[list[str], str]]:
    """Returns the paths that a `use` names, each with the name that it gets."""
    text = re.sub(r"^(pub(\s*\([^)]*\))?\s+)?(ghost\s+)?use\s+", "", folded(item.words))
    before, _, inside = text.partition("{")
    found = []
    for it in inside.rstrip("} ").split(",") if inside else [""]:
        path, _, other = f"{before}{it.strip()}".partition(" as ")
        steps = [step.strip() for step in path.split("::")]
        if steps[-1]:
            found.append((steps, other.strip() or steps[-1]))
    return found


class World:
    """All crates of the repository, read when they are asked for."""

    def __init__(self, root: str):
        self.root, self.crates = root, {}

    def crate(self, name: str) -> Crate | None:
        if name not in self.crates:
            there = os.path.isdir(f"{self.root}/crates/{name}/src")
            self.crates[name] = Crate(name, self.root) if there else None
        return self.crates[name]

    def find(self, crate: Crate, module: tuple[str, ...], steps: list[str]
             ) -> tuple[Crate, Item] | None:
        """Returns the item that a path means in a module, and its crate."""
        first, rest = steps[0], steps[1:]
        if not rest:
            return self.find_name(crate, module, first)
        if first in ("crate", "self"):
            return self.find(crate, () if first == "crate" else module, rest)
        if (*module, first) in crate.modules:
            return self.find(crate, (*module, first), rest)
        other = self.crate(first)
        return other and self.find(other, (), rest)

    def find_name(self, crate: Crate, module: tuple[str, ...], name: str
                  ) -> tuple[Crate, Item] | None:
        for it in crate.modules[module]:
            if it.name == name and it.kind not in ("use", "impl", "mod"):
                return crate, it
        for it in crate.modules[module]:
            for steps, called in leaves_of(it) if it.kind == "use" else ():
                if called == name:
                    return self.find(crate, module, steps)
        return None

    def exports(self, crate: Crate, module: tuple[str, ...] = (), before: str = ""
                ) -> list[tuple[str, Crate, Item]]:
        """Returns what a module hands out: the path below the crate, and the item."""
        found = []
        for it in crate.modules[module]:
            if it.kind == "use" and it.is_public:
                for steps, called in leaves_of(it):
                    got = self.find(crate, module, steps)
                    if got is None:
                        raise ValueError(f"{crate.name}: nothing is found at {'::'.join(steps)}")
                    found.append((before + called, *got))
            elif it.kind == "mod" and it.is_public:
                found += self.exports(crate, (*module, it.name), f"{before}{it.name}::")
            elif it.is_public or (it.kind, it.name) == ("fn", "main"):
                found.append((before + it.name, crate, it))
        return found


def part_text(words: list[str]) -> str:
    marks, words = marks_of(words)
    return folded([*marks, *words])


def clauses_of(item: Item) -> list[str]:
    """Returns the signature of a function, and a line for each of its clauses."""
    cuts = [at for at, it in enumerate(item.head) if it in CLAUSES]
    ends = [*cuts, len(item.head)]
    signature = folded([*item.marks, *item.head[:ends[0]]])
    clauses = [folded(item.head[at:end]) for at, end in zip(cuts, ends[1:])]
    return [re.sub(r"( where|,)$", "", signature), *(f"    {it}" for it in clauses)]


def members_of(block: Item, is_all: bool) -> list[list[str]]:
    """Returns the lines of each member of a trait or an impl: all of them, or the public ones."""
    found = []
    seen = [it for it in items_of(block.body or []) if is_all or it.is_public]
    for it in seen:
        if it.kind == "fn":
            found.append(clauses_of(it))
        elif it.kind in ("type", "ghost", "const") and it.name != "use":
            found.append([folded(it.words)])
    return found


def members_in(block: Item) -> list[list[str]]:
    """Returns the lines of each member of an impl that is seen: the public ones, and of an impl of
    a trait its types and clauses. `view` and `invariant` name private fields, so they are left
    out."""
    if "for" not in solid(block.head):
        return members_of(block, False)
    kept = [it for it in items_of(block.body or []) if it.kind in ("type", "ghost")]
    return [[folded(it.words)] for it in kept if it.name not in ("use", "view", "invariant")]


def blocks_of(blocks: list[Item]) -> list[str]:
    """Returns the lines of the impls of a type. Those with one head are shown as one, so a method
    may move from one to another."""
    found: dict[str, list[list[str]]] = {}
    for it in blocks:
        found.setdefault(folded(it.head), []).extend(members_in(it))
    lines = []
    for head in sorted(found):
        if found[head] or " for " in head:
            lines.append(f"  {head}")
            lines += [f"    {line}" for member in sorted(found[head]) for line in member]
    return lines


def shown(crate: Crate, item: Item) -> list[str]:
    """Returns the lines of a public item."""
    if item.kind == "fn":
        return clauses_of(item)
    lines = [item.signature()]
    if item.kind == "trait":
        return lines + [f"  {it}" for part in members_of(item, True) for it in part]
    if item.kind == "enum":
        lines += [f"  {part_text(it)}" for it in parts_of(item.body or [])]
    if item.kind == "struct":
        parts = [part_text(it) for it in parts_of(item.body or [])]
        public = [f"  {it}" for it in parts if re.match(r"(#.*\] )?pub ", it)]
        lines += public + ["  .."] * (len(public) < len(parts))
    return lines + blocks_of(crate.blocks_of(item.name))


def listed(root: str, names: list[str]) -> list[str]:
    """Returns the lines of all public items of these crates. An item that one of these crates hands
    on from another one of them is named once more, and not shown again."""
    world, lines = World(root), []
    for name in names:
        crate = world.crate(name)
        lines.append(f"== {name}")
        for called, home, item in sorted(world.exports(crate), key=lambda it: it[0]):
            if home is not crate and home.name in names:
                lines.append(f"{called}: as {home.name}")
            else:
                first, *more = shown(home, item)
                lines += [f"{called}: {first}", *more]
    return lines
