"""Finds what the contract of a theorem rests on: the definitions that it names, and so on.

`rests_on` is where to start reading; `definitions.py` states how names are found. A field leads to
the types in sight that have it, if no type that is listed has it. Otherwise the type of the value
is listed, since something that is listed names it.
"""

from __future__ import annotations

import collections
import itertools
from typing import Callable, Iterator, TypeVar

from definitions import Definition, Foreign, Lost, Tree, contract_in

T = TypeVar("T")


def post_order(roots: list[T], below: Callable[[T], list[T]]) -> list[T]:
    """Returns all that the roots lead to, each after what it leads to, unless that leads back."""
    seen: set[T] = set()
    done: list[T] = []

    def visit(one: T) -> None:
        if one not in seen:
            seen.add(one)
            for it in below(one):
                visit(it)
            done.append(one)

    for it in roots:
        visit(it)
    return done


class Statement:
    """A contract, the definitions that it rests on, and what of the toolchain these name."""

    def __init__(self, tree: Tree, contract: Definition):
        self.tree, self.contract = tree, contract
        self.below: dict[Definition, list[Definition]] = {}
        self.foreign: set[Foreign] = set()
        due = [contract]
        while due:
            self.follow(due)
            due = self.lacking()

    def follow(self, due: list[Definition]) -> None:
        """Adds these definitions, and all that they lead to."""
        while due:
            one = due.pop()
            if one not in self.below:
                found = dict.fromkeys(it for _, it in self.tree.found_in(one))
                self.foreign |= {it for it in found if isinstance(it, Foreign)}
                self.below[one] = [it for it in found if isinstance(it, Definition)]
                due += self.below[one]

    def lacking(self) -> list[Definition]:
        """Returns the types that are named by a field alone, since no listed type has it. Each
        becomes one of those that the definition with the field names."""
        known = {field for it in self.below for field in it.fields()}
        found: list[Definition] = []
        for one, named in self.below.items():
            fields = {it[1:] for it in one.words if it[0] == "." and it[1:]}
            for field in sorted(fields - known):
                more = self.tree.with_field(one.source, field)
                named += [it for it in more if it not in named]
                found += more
        return found

    def definitions(self) -> list[Definition]:
        """Returns the definitions, each after those that it names. A file's stay together, as far
        as no file names one that names it."""
        def paths_below(path: str) -> list[str]:
            those = [it for it in self.below if it.source.path == path]
            return list(dict.fromkeys(it.source.path for one in those for it in self.below[one]))

        paths = post_order([self.contract.source.path], paths_below)
        rank = {it: at for at, it in enumerate(paths)}

        def place(it: Definition) -> tuple[int, int]:
            return rank[it.source.path], it.first

        order = post_order(sorted(self.below, key=place),
                           lambda one: sorted(self.below[one], key=place))
        return [it for it in order if it is not self.contract]


def rests_on(tree: Tree, crate: str, theorem: str) -> Statement:
    """Returns the contract of a theorem of a crate, and what it rests on."""
    source = tree.source(f"crates/{crate}/src/laws.rt")
    if source is None:
        raise Lost(f"crate `{crate}`: it has no src/laws.rt; name a crate that has theorems")
    return Statement(tree, contract_in(source, theorem))


def number_of(count: int, what: str) -> str:
    return f"{count} {what}{'s' * (count != 1)}"


def counted(those: list[Definition]) -> str:
    """Returns how many definitions these are, and how many lines they have."""
    lines = number_of(sum(len(it.lines) for it in those), "line")
    comments = number_of(sum(len(it.comment) for it in those), "line")
    return f"{number_of(len(those), 'definition')}, {lines}; above them {comments} of comments"


def list_of(statement: Statement) -> list[str]:
    """Returns the list: a line for each definition, the sums, and the toolchain's names."""
    those = statement.definitions()
    crates: dict[str, list[Definition]] = {}
    for it in those:
        crates.setdefault(it.source.crate(), []).append(it)
    shown = [f"{it.place()}: {it.name}: {number_of(len(it.lines), 'line')}" for it in those]
    contract = statement.contract
    shown.append(f"{contract.place()}: the contract: {number_of(len(contract.lines), 'line')}")
    most = sorted(crates, key=lambda it: (-sum(len(one.lines) for one in crates[it]), it))
    shown += ["", *(f"{it}: {counted(crates[it])}" for it in most), f"in all: {counted(those)}", ""]
    for module, names in itertools.groupby(sorted(statement.foreign), lambda it: it.module):
        shown.append(f"of the toolchain: {module}: {', '.join(it.name for it in names)}")
    return shown


def text_of(statement: Statement) -> list[str]:
    """Returns the text of the definitions, and of the contract after them."""
    those = [*statement.definitions(), statement.contract]
    shown: list[str] = []
    known = collections.Counter(name for it in those for name in it.names())
    for path, group in itertools.groupby(those, lambda it: it.source.path):
        ones = list(group)
        notes = [note for it in ones for note in misleading(statement.tree, it, known)]
        shown += [f"==== {path}", *dict.fromkeys(notes), ""]
        for it in ones:
            shown += [*it.comment, *it.lines, ""]
    return shown


def misleading(tree: Tree, definition: Definition, known: collections.Counter[str]
               ) -> Iterator[str]:
    """Yields a note for each name of another file's definition that several definitions have, or
    that has another name there."""
    imports = definition.source.imports
    for word, it in tree.found_in(definition):
        if isinstance(it, Definition) and it.source is not definition.source:
            name = imports[word].name if word in imports else it.name
            if name != word or known[name] > 1:
                yield f"==  {word}: {name} in {it.place()}"
