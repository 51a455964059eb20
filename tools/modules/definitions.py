"""Reads definitions, and finds the names in them.

`Tree` is where to start reading. A definition is found by the tokens of the text that names it. A
name counts if its file defines or imports it, so a bound variable of such a name counts too; that
is rare. A constructor leads to its type. A Rust type that contracts see as another one (`ghost
Value`) leads to that one, and its private fields count for nothing. The parameters of a `module`
aren't read.
"""

from __future__ import annotations

import dataclasses
import functools
import os
import re
from typing import Iterator, NamedTuple, Union

STRING = r'"(?:\\.|[^"\\])*"'
TOKEN = re.compile(r"(?<=[\w'?)\]}])\.\w[\w'?]*|\w[\w'?]*(?:::\w+)*|[^\w\s()\[\]{};,.]+|\S")
NAME = r"[^\s:(){}]+"
IMPORT = re.compile(r"^ *(?:ghost )?use ((?:\w+\.)*\w+)(?:\.\{([^}]*)\}| as (\w+))", re.M)
USE = re.compile(r"^(?:pub(?:\([^)]*\))? )?use ([^;{]*?)(?:\{([^}]*)\})?;", re.M)
MARKS = r"(?:(?:abbrev|unfoldable) )?(?:pub )?"
# The head of a definition: a type with its kind, or a function with its type.
HEAD = re.compile(rf"( *)(?:{MARKS}(data|record) ({NAME})|{MARKS}({NAME}) :(?= |$))")
OUTER = re.compile(r"(use|module|infix[lr]?|pub mod) ")
MEMBER = re.compile(rf" +(?:pub )?((?:{NAME} )+): ")
ITEM = re.compile(r"(?:pub(?:\([^)]*\))? )?(const|static|enum|struct|trait|type) (\w+)")
PART = re.compile(r"^    (?:pub(?:\([^)]*\))? )?(?:ghost )?(\w+)(?=:|,| ?[({])", re.M)
MODEL = re.compile(r"impl(?:<.*>)? Model for (\w+)")
CODE_OF_RUST = ".rt"


@dataclasses.dataclass(eq=False)
class Definition:
    """A definition: its file, its first line, its text, and the comment directly above it."""

    source: "Source"
    kind: str
    name: str
    first: int
    lines: list[str]
    comment: list[str]
    members: list[str] = dataclasses.field(default_factory=list)

    def place(self) -> str:
        return f"{self.source.path}:{self.first}"

    def names(self) -> set[str]:
        """Returns its name, and those of its constructors."""
        return {self.name, *self.members} if self.kind in ("data", "enum") else {self.name}

    def fields(self) -> list[str]:
        return self.members if self.kind in ("record", "struct") else []

    @functools.cached_property
    def words(self) -> list[str]:
        """Returns the tokens that may name other definitions."""
        is_rust, lines = self.source.is_rust, self.lines
        if is_rust:
            lines = [it for it in lines if not it.lstrip().startswith("#[")]
        return TOKEN.findall(code_of(lines, "//" if is_rust else "--"))


class Foreign(NamedTuple):
    """A name of the toolchain, and the module that has it."""

    module: str
    name: str


Named = Union[Definition, Foreign]


class Import(NamedTuple):
    """A name as another module has it."""

    module: str
    name: str


class Lost(Exception):
    """Something that is named isn't found."""


def code_of(lines: list[str], mark: str) -> str:
    """Returns the text without comments, and with empty strings."""
    kept = re.compile(rf"({STRING})|{mark}.*")
    return kept.sub(lambda it: '""' if it[1] else "", "\n".join(lines))


def trimmed(lines: list[str]) -> list[str]:
    """Returns the lines without the empty ones at the end."""
    end = len(lines)
    while end and not lines[end - 1].strip():
        end -= 1
    return lines[:end]


class Source:
    """A file: its definitions, and the names that it imports."""

    def __init__(self, path: str, text: str):
        self.path, self.text = path, text
        self.is_rust = path.endswith(CODE_OF_RUST)
        self.lines = text.split("\n")
        self.imports, self.modules = imports_of(text)
        self.uses = uses_of(text) if self.is_rust else {}
        self.definitions = list(items_in(self) if self.is_rust else definitions_in(self))
        self.names = {it.name: it for it in self.definitions}
        if not self.is_rust:
            self.names |= {name: it for it in self.definitions for name in it.names()}
        self.models = dict(models_in(self)) if self.is_rust else {}

    @functools.cached_property
    def operators(self) -> list[str]:
        """Returns the names in sight that are operators."""
        return [it for it in [*self.names, *self.imports] if not is_word(it)]

    def crate(self) -> str:
        return self.path.split("/")[1]

    def module(self) -> list[str]:
        """Returns the path of a Rust source's module below its crate."""
        steps = self.path[:-len(CODE_OF_RUST)].split("/")[3:]
        return [] if steps in (["lib"], ["main"]) else [it for it in steps if it != "mod"]


def imports_of(text: str) -> tuple[dict[str, Import], dict[str, str]]:
    """Returns the names that a file imports from definitions, and its short names of modules."""
    names: dict[str, Import] = {}
    modules: dict[str, str] = {}
    for module, inside, alias in IMPORT.findall(text):
        if alias:
            modules[alias] = module
        for it in filter(None, map(str.strip, inside.split(","))):
            name, _, other = it.partition(" as ")
            names[other.strip() or name] = Import(module, name)
    return names, modules


def uses_of(text: str) -> dict[str, list[str]]:
    """Returns the names that a Rust source uses, each with its path."""
    found = {}
    for before, inside in USE.findall(text):
        for it in inside.split(",") if inside else [""]:
            path, _, other = f"{before}{it.strip()}".partition(" as ")
            steps = path.strip().split("::")
            found[other.strip() or steps[-1]] = steps
    return found


def definitions_in(source: Source) -> Iterator[Definition]:
    """Yields the definitions of a file of definitions, in order."""
    current: Definition | None = None
    comment: list[str] = []
    depth = 0
    for number, line in enumerate(source.lines, 1):
        depth = depth_after(line, depth)
        head = HEAD.match(line)
        if OUTER.match(line):
            yield from finished(current)
            current, comment = None, []
        elif head and len(head[1]) == depth:
            yield from finished(current)
            current, comment = begun(source, head, number, comment), []
        elif line.startswith(" " * depth + "--"):
            comment.append(line)
        else:
            if current:
                current.lines += [*comment, line]
            comment = []
    yield from finished(current)


def depth_after(line: str, depth: int) -> int:
    """Returns how far definitions are indented from this line on: those of a module with
    parameters are."""
    is_inner = not line.strip() or line.startswith((" ", "--"))
    return depth if is_inner else 2 * line.startswith("module ")


def begun(source: Source, head: re.Match[str], number: int, comment: list[str]) -> Definition:
    """Returns a definition that begins with this line."""
    name = head[3] or head[4]
    return Definition(source, head[2] or "function", name, number, [head.string], comment)


def finished(it: Definition | None) -> Iterator[Definition]:
    """Yields a definition, if there is one, once its lines are complete."""
    if it:
        it.lines = trimmed(it.lines)
        if it.kind != "function":
            heads = filter(None, map(MEMBER.match, it.lines[1:]))
            it.members = [name for head in heads for name in head[1].split()]
        yield it


def items_in(source: Source) -> Iterator[Definition]:
    """Yields the types, traits and constants of a Rust source."""
    for at, line in enumerate(source.lines):
        head = ITEM.match(line)
        if head:
            end = end_of_item(source.lines, at)
            first, comment = above(source.lines, at)
            lines = source.lines[first:end]
            members = PART.findall("\n".join(lines)) if head[1] in ("enum", "struct") else []
            yield Definition(source, head[1], head[2], first + 1, lines, comment, members)


def models_in(source: Source) -> Iterator[tuple[str, Definition]]:
    """Yields the types that contracts see as another one, each with the line that names this."""
    owner = ""
    for number, line in enumerate(source.lines, 1):
        head = MODEL.match(line)
        owner = head[1] if head else "" if line.startswith("}") else owner
        if owner and line.lstrip().startswith("ghost Value = "):
            comment = source.names[owner].comment if owner in source.names else []
            yield owner, Definition(source, "model", owner, number, [line], comment)


def end_of_item(lines: list[str], at: int) -> int:
    """Returns the place after an item's last line."""
    depth = 0
    for place in range(at, len(lines)):
        code = code_of([lines[place]], "//")
        depth += sum(code.count(it) for it in "([{") - sum(code.count(it) for it in ")]}")
        if depth == 0 and code.rstrip().endswith((";", "}")):
            return place + 1
    raise Lost(f"{lines[at].strip()}: the item doesn't end; close its brackets")


def above(lines: list[str], at: int) -> tuple[int, list[str]]:
    """Returns the place of an item's first attribute, and the comment above that."""
    while at and lines[at - 1].startswith("#["):
        at -= 1
    first = at
    while first and lines[first - 1].startswith("//"):
        first -= 1
    return at, lines[first:at]


def contract_in(source: Source, name: str) -> Definition:
    """Returns the contract of a public function: its text up to the body."""
    head = re.compile(rf"pub fn {re.escape(name)}\b")
    at = next((at for at, line in enumerate(source.lines) if head.match(line)), None)
    if at is None:
        raise Lost(f"{source.path}: it has no `pub fn {name}`; name a theorem of that file")
    first, comment = above(source.lines, at)
    end = next((it for it in range(at, len(source.lines)) if source.lines[it].startswith("{")), at)
    return Definition(source, "contract", name, at + 1, source.lines[at:end], comment)


class Tree:
    """The sources of the repository, read when they are asked for."""

    def __init__(self, root: str):
        self.root = root
        self.sources: dict[str, Source | None] = {}
        self.found: dict[Definition, list[tuple[str, Named]]] = {}

    def source(self, path: str) -> Source | None:
        if path not in self.sources:
            whole, found = f"{self.root}/{path}", None
            if os.path.isfile(whole):
                with open(whole, encoding="utf-8") as held:
                    found = Source(path, held.read())
            self.sources[path] = found
        return self.sources[path]

    def has_crate(self, name: str) -> bool:
        return os.path.isdir(f"{self.root}/crates/{name}")

    def rust(self, crate: str, module: list[str]) -> Source | None:
        """Returns the source of a Rust module."""
        folder = f"crates/{crate}/src"
        stem = "/".join([folder, *module]) if module else f"{folder}/lib"
        return self.source(f"{stem}.rt") or self.source(f"{stem}/mod.rt")

    def imported(self, module: str, name: str) -> Named:
        """Returns what a module of definitions, or of declared Rust items, has under a name."""
        steps = module.split(".")
        if steps[0] != "Rattle" or not self.has_crate(steps[1]):
            return Foreign(module, name)
        crate, folder, *rest = steps[1:]
        if rest[0] == "declared":
            return self.declared(crate, rest[1:], name)
        source = self.source(f"crates/{crate}/{folder}/{'/'.join(rest)}.antt")
        if source is None or name not in source.names:
            raise Lost(f"{module}: it has no `{name}`; correct the import")
        return source.names[name]

    def declared(self, crate: str, steps: list[str], name: str) -> Definition:
        """Returns the Rust type or constant of a declared name; a variant leads to its type."""
        cut = next((at for at, it in enumerate(steps) if it[0].isupper()), len(steps))
        owner = steps[cut] if steps[cut:] and steps[cut] != "TheConstants" else name
        source = self.rust(crate, steps[:cut])
        if source is None or owner not in source.names:
            raise Lost(f"crates/{crate}/src: {'::'.join(steps[:cut])} has no `{owner}`; correct it")
        return source.names[owner]

    def by_path(self, source: Source, steps: list[str]) -> Named | None:
        """Returns the Rust item that a path means in a source, or None if it means no type, trait
        or constant."""
        first, *rest = steps
        if first in source.names and first not in source.uses:
            return source.models.get(first) or source.names[first]
        if first in source.uses and source.uses[first] != steps:
            return self.by_path(source, [*source.uses[first], *rest])
        return self.below(source, steps) if rest else None

    def below(self, source: Source, steps: list[str]) -> Named | None:
        """Returns the Rust item at a path that begins with a crate or a module."""
        first, *rest = steps
        crate, module = source.crate(), source.module()
        if first == "crate" or self.has_crate(first):
            crate, module = crate if first == "crate" else first, []
        elif first in ("self", "super"):
            module = module if first == "self" else module[:-1]
        elif self.rust(crate, [*module, first]):
            module = [*module, first]
        else:
            return Foreign("::".join(steps[:-1]), steps[-1])
        for end in range(len(rest) - 1, -1, -1):
            other = self.rust(crate, [*module, *rest[:end]])
            if other:
                return self.by_path(other, [rest[end]])
        return None

    def named(self, source: Source, name: str) -> Named | None:
        """Returns what a name means in a source, or None if it is bound or built in."""
        if name in source.imports:
            return self.imported(*source.imports[name])
        if source.is_rust:
            return self.by_path(source, name.split("::"))
        return source.names.get(name)

    def found_in(self, definition: Definition) -> list[tuple[str, Named]]:
        """Returns what a definition names, each with the word for it. Fields are left out."""
        if definition not in self.found:
            self.found[definition] = list(found_in(self, definition))
        return self.found[definition]

    def with_field(self, source: Source, field: str) -> list[Definition]:
        """Returns the types in sight that have this field."""
        seen = [self.named(source, it) for it in [*source.names, *source.imports]]
        return [it for it in dict.fromkeys(seen)
                if isinstance(it, Definition) and field in it.fields()]


@functools.lru_cache(maxsize=None)
def is_word(name: str) -> bool:
    return re.fullmatch(r"\w[\w'?]*", name) is not None


def is_operator_in(name: str, words: list[str]) -> bool:
    """Returns true if all parts of an operator stand among the tokens."""
    return all(it in words for part in name.split("◌") for it in TOKEN.findall(part))


def found_in(tree: Tree, definition: Definition) -> Iterator[tuple[str, Named]]:
    """Yields what the words of a definition name, and then what its operators name."""
    source, words = definition.source, definition.words
    for before, word in zip(["", *words], words):
        if word[0] == "." and before in source.modules:
            yield before + word, tree.imported(source.modules[before], word[1:])
        elif is_word(word.replace("::", "")):
            named = tree.named(source, word)
            if named is not None:
                yield word, named
    for it in source.operators:
        named = tree.named(source, it) if is_operator_in(it, words) else None
        if named is not None:
            yield it, named
