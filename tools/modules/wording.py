"""The words of the contracts on the pages of docs/api: the lines that bring them into a caller's
file, the crates that they come from, and the text of their definitions.

`Vocabulary` is where to start reading; `definitions.py` states how names are found.
"""

from __future__ import annotations

import re

import sources
from definitions import Definition, Foreign, Tree, imports_of

ROW = re.compile(r"^(\w+)[^:#\n]*:(.*)$", re.M)
USED = re.compile(r"^use (\w+)::", re.M)
EXPORT = re.compile(r"^pub use (\w+)::([^;]*);", re.M)
TYPES = ("struct", "enum", "trait", "type")


def anchor(heading: str) -> str:
    """Returns the anchor of a heading, as a viewer makes it."""
    return re.sub(r"[^\w\- ]", "", heading.lower()).replace(" ", "-")


def module_of(path: str) -> str:
    """Returns the name of a file as `ghost use` has it; for a source of Rust its path."""
    if path.endswith(".rt"):
        return path
    return "Rattle." + path.removeprefix("crates/").removesuffix(".antt").replace("/", ".")


def block(lines: list[str], language: str) -> str:
    return "\n".join([f"```{language}", *lines, "```"])


class Vocabulary:
    """The public items of some crates, and the definitions that the page of each must show: those
    that its contracts and the programs in its comments name, and those that a page of a crate above
    it names."""

    def __init__(self, root: str, crates: list[str]):
        self.tree, self.root = Tree(root), root
        self.items = {it: sources.public_items(f"{root}/crates/{it}", root) for it in crates}
        self.public = {it: {one.name for one in self.items[it] if not one.owner} for it in crates}
        self.models = {it: sources.models(f"{root}/crates/{it}", root) for it in crates}
        self.impls = {it: [one for one in sources.impls(f"{root}/crates/{it}", root)
                           if self.is_public(it, one.name)] for it in crates}
        self.exported = {it: self.exports(it) for it in crates}
        self.rows = dict(ROW.findall("\n".join(sources.read(f"{root}/crates.txt"))))
        self.shown: dict[str, list[Definition]] = {}
        self.programs = {it: self.comments(it) for it in crates}
        self.stated = {it: self.contracts(it) for it in crates}
        due = {it: [*self.stated[it], *self.views(it), *self.imported(it)] for it in crates}
        for crate in reversed(crates):
            reached = self.reached(crate, due[crate])
            for it in self.named(reached):
                if it.source.crate() in due and it.source.crate() != crate:
                    due[it.source.crate()].append(it)
            self.shown[crate] = [it for it in reached if self.is_shown(crate, it)]

    def contracts(self, crate: str) -> list[Definition]:
        """Returns the public items of a crate, each as a text in which names are found."""
        return [self.text(it.file, it.name, it.line, [*it.text, *(one.text for one in it.members)])
                for it in self.items[crate]]

    def views(self, crate: str) -> list[Definition]:
        """Returns what the public types of a crate say of the value as which contracts see them,
        and what their traits give to contracts."""
        those = [it for it in self.models[crate].values() if self.is_public(crate, it.name)]
        return [self.text(it.file, it.name, it.line, it.text)
                for it in [*those, *self.impls[crate]]]

    def comments(self, crate: str) -> str:
        """Returns the comments of a crate's page, with the programs in them."""
        head = sources.head_of(sources.read(sources.files_of(f"{self.root}/crates/{crate}")[0]))
        return "\n".join([*head, *(line for it in self.items[crate] for line in it.doc)])

    def imported(self, crate: str) -> list[Definition]:
        """Returns the definitions that the programs in a crate's comments bring in."""
        names = imports_of(self.programs[crate])[0].values()
        found = [self.tree.imported(it.module, it.name) for it in names]
        return [it for it in found if isinstance(it, Definition)]

    def text(self, file: str, name: str, line: int, lines: list[str]) -> Definition:
        source = self.tree.source(file)
        assert source is not None, file
        return Definition(source, "contract", name, line, lines, [])

    def is_public(self, crate: str, name: str) -> bool:
        return name in self.public[crate]

    def is_shown(self, crate: str, it: Definition) -> bool:
        """Returns true for what stands in the section on definitions: all but the public items."""
        is_item = it.source.is_rust and self.is_public(crate, it.name)
        return not is_item and it.kind not in ("contract", "model")

    def named(self, those: list[Definition]) -> list[Definition]:
        """Returns the definitions of the repository that these name."""
        found = dict.fromkeys(it for one in those for _, it in self.tree.found_in(one))
        return [it for it in found if isinstance(it, Definition)]

    def reached(self, crate: str, due: list[Definition]) -> list[Definition]:
        """Returns these definitions and all of the same crate that they lead to. A public type
        leads no further, since its own section says what it has."""
        found: dict[Definition, None] = {}
        due = list(due)
        while due:
            one = due.pop()
            is_item = one.source.is_rust and one.kind in (*TYPES, "const")
            if one in found or one.source.crate() != crate:
                continue
            found[one] = None
            if not (is_item and self.is_public(crate, one.name)):
                due += self.named([one])
        return list(found)

    def imports(self, crate: str) -> list[str]:
        """Returns the lines that bring the words of a crate's contracts into a caller's file."""
        found: dict[str, set[str]] = {}
        for text in self.stated[crate]:
            for word, _ in self.tree.found_in(text):
                it = text.source.imports.get(word)
                if it:
                    other = "" if it.name == word else f" as {word}"
                    found.setdefault(it.module, set()).add(it.name + other)
        return [f"ghost use {module}.{{{', '.join(sorted(found[module]))}}};"
                for module in sorted(found, key=self.place)]

    def place(self, module: str) -> tuple[int, str]:
        """Returns the place of an import in a file: those of lower crates come first."""
        names = list(self.rows)
        crate = module.split(".")[1]
        return names.index(crate) if crate in names else -1, module

    def needed(self, crate: str) -> list[str]:
        """Returns the crates that a caller lists: this one, those of the repository whose types,
        traits or words its public items or the programs in its comments name, and those of the
        toolchain whose words the items name."""
        texts = [*self.stated[crate], *(self.text(it.file, it.name, it.line, it.text[:1])
                                        for it in self.impls[crate])]
        used = {it for it in USED.findall(self.programs[crate]) if self.tree.has_crate(it)}
        own = {it.source.crate() for it in [*self.named(texts), *self.imported(crate)]}
        own = (own | used) - {crate}
        modules = {it.module for text in texts for _, it in self.tree.found_in(text)
                   if isinstance(it, Foreign)}
        kit = {it.split(".")[1] for it in modules if it.startswith("Rattle.")}
        names = list(self.rows)
        of_kit = sorted(kit & set(self.rows.get(crate, "").split()))
        return [crate, *sorted(own, key=names.index, reverse=True), *of_kit]

    def exports(self, crate: str) -> dict[str, str]:
        """Returns the names of other crates that a crate exports too, each with its own crate."""
        found = {}
        source = self.tree.source(f"crates/{crate}/src/lib.rt")
        for owner, names in EXPORT.findall(source.text if source else ""):
            for name in re.findall(r"\w+", names) if self.tree.has_crate(owner) else []:
                it = self.tree.by_path(source, [name]) if source else None
                found[name] = it.source.crate() if isinstance(it, Definition) else owner
        return found

    def twins(self, crate: str) -> list[str]:
        """Returns a row for each two crates that export the same items, if one is this crate or a
        caller of this crate lists both."""
        shared: dict[tuple[str, str], list[str]] = {}
        needed = set(self.needed(crate))
        for other in self.items:
            for name, home in self.exported[other].items():
                if crate in (other, home) or {other, home} <= needed:
                    shared.setdefault((other, home), []).append(name)
        return [f"- {', '.join(f'`{it}`' for it in names)}: of {self.page_link(home)}, and exported"
                f" by {self.page_link(other)}" for (other, home), names in shared.items()]

    def page_link(self, crate: str) -> str:
        return f"[{crate}]({self.page_of(crate)})" if crate in self.items else f"`{crate}`"

    def page_of(self, crate: str) -> str:
        return f"{crate}.md"

    def link(self, it: Definition) -> str:
        """Returns the target of a link to a definition: its section, or its file if its crate has
        no page."""
        crate = it.source.crate()
        if crate not in self.items:
            return f"../../{it.source.path}"
        is_item = it.source.is_rust and self.is_public(crate, it.name)
        heading = it.name if is_item else module_of(it.source.path)
        return f"{self.page_of(crate)}#{anchor(heading)}"

    def others(self, crate: str, those: list[Definition]) -> str:
        """Returns the names of other crates that these definitions name, each with a link."""
        found = sorted({(it.name, it.source.crate(), self.link(it)) for it in self.named(those)
                        if it.source.crate() != crate})
        twins = self.exported[crate]
        return ", ".join(f"[`{name}`]({target}) of `{home}`"
                         + " (exported here too)" * (twins.get(name) == home)
                         for name, home, target in found)

    def value(self, view: Definition) -> Definition | None:
        """Returns the definition of the value as which contracts see a type."""
        first = self.text(view.source.path, view.name, view.first, view.lines[:1])
        found = [it for it in self.named([first]) if not it.source.is_rust]
        return found[0] if found else None

    def meanings(self, crate: str) -> list[str]:
        """Returns a part for each file with definitions that the page must show."""
        files: dict[str, list[Definition]] = {}
        for it in sorted(self.shown[crate], key=lambda it: (it.source.path, it.first)):
            files.setdefault(it.source.path, []).append(it)
        return [part for path in files for part in self.file_part(crate, path, files[path])]

    def file_part(self, crate: str, path: str, those: list[Definition]) -> list[str]:
        language = "rust" if path.endswith(".rt") else "antt"
        lines: list[str] = []
        for it in those:
            head = outer(it)
            lines += [head, *text_of(it), ""] if head and head not in lines else [*text_of(it), ""]
        others = self.others(crate, those)
        return [f"### `{module_of(path)}`\n", block(lines[:-1], language) + "\n",
                *([f"Names of other crates: {others}.\n"] if others else [])]


def text_of(it: Definition) -> list[str]:
    return [*it.comment, *it.lines]


def outer(it: Definition) -> str:
    """Returns the line of the module with parameters around a definition; empty if none is."""
    if not it.lines[0].startswith(" "):
        return ""
    above = (line for line in reversed(it.source.lines[:it.first]) if line.startswith("module "))
    return next(above, "")
