"""Makes a manual page from its source in man/source and the help texts. Begin with `page_of`.

The first line of a source has the page and its purpose, as `amo_jobs(1): run a command ..`, and the
second one its date. Empty lines separate the parts, which are

    # HEADING, ## HEADING      a section, and a part of a section
    - TERM: TEXT               an item of a list; lines of more text begin with two blanks
    * TEXT                     a point of a list
    four blanks and a line     an example
    {run}, {run STATUS..}, {not run: REASON}, {text}
                               whether tools/pages runs the commands of the example below, or why it
                               doesn't, or that it has none; nothing of the page
    {synopsis}                 the ways to call the program, as its help prints them
    {commands}                 the commands, with what the help prints on each
    {arguments}                the arguments, with what the help prints on each
    {options NAME..}           the options that just these commands have, with their defaults
    {file PATH}                an example that is a file of the repository, without the comments at
                               its head

In {options ..}, `every` stands for the options that all commands have, and `program` for those of
the program as a whole. An item `- --halt: TEXT` after it adds a paragraph to that option.
"""

from __future__ import annotations

import collections
import itertools
import os
import re
from typing import Iterator, NamedTuple

import roff
from helps import Argument, Command, Option, REQUIRED

ROOT = os.path.dirname(os.path.dirname(os.path.dirname(os.path.realpath(__file__))))
HEAD = re.compile(r"(\w+)\((\d)\): (.*)\ndate: (\d{4}-\d\d-\d\d)\n")
ITEM = re.compile(r"^- (.+?): (.*(?:\n  .*)*)", re.M)
POINT = re.compile(r"^\* (.*(?:\n  .*)*)", re.M)
MARKS = ("run", "not", "text")  # of examples, for tools/pages
CHAPTERS = {"1": "User commands", "5": "File formats"}


class Wrong(ValueError):
    """A source that can't be a page."""


class Source(NamedTuple):
    """A source: the page's name and chapter, its purpose, its date, and its parts."""
    name: str
    chapter: str
    purpose: str
    date: str
    parts: list[str]


def source_of(text: str) -> Source:
    head = HEAD.match(text)
    if not head:
        raise Wrong("its first lines must be `NAME(CHAPTER): PURPOSE` and `date: YYYY-MM-DD`")
    parts = [it.strip("\n") for it in re.split(r"\n{2,}", text[head.end():]) if it.strip()]
    return Source(head[1], head[2], head[3], head[4], parts)


# ---- which commands have which options

def common_names(commands: list[Command]) -> set[str]:
    """Returns the names of the options that all commands have, the program as a whole left out."""
    named = [{it.names[-1] for it in command.options} for command in commands if command.name]
    return set.intersection(*named) if named else set()


def groups_of(commands: list[Command]) -> dict[frozenset[str], list[Option]]:
    """Returns the options by the commands that have them, in the order of the help. If all commands
    have an option, the form that most of them print is that of `every`."""
    forms: dict[Option, list[str]] = {}
    for command in commands:
        for it in command.options:
            forms.setdefault(it, []).append(command.name or "program")
    every = common_names(commands)
    usual = {name: max((it for it in forms if it.names[-1] == name),
                       key=lambda it: len(forms[it])) for name in every}
    groups: dict[frozenset[str], list[Option]] = collections.defaultdict(list)
    for option, names in forms.items():
        is_usual = usual.get(option.names[-1]) == option
        groups[frozenset(["every"] if is_usual else names)].append(option)
    return groups


# ---- the parts of a page

def sentence(text: str) -> str:
    """Returns a text of a help as a sentence."""
    text = text[:1].upper() + text[1:]
    return text if text.endswith(".") else f"{text}."


def marked(text: str, place: str) -> str:
    """Returns a text of a help with backquotes around its options, its paths, the answers of an
    operator, and this placeholder."""
    if "`" in text:
        return text
    names = r"(?<![\w-])(?:--[a-z][\w-]*|docs/[\w.]+\w|done or not-done|not-done)(?![\w-])"
    if place:
        names += rf"|(?<![\w-]){re.escape(place)}(?![\w-])"
    return re.sub(names, lambda it: f"`{it[0]}`".replace(" or ", "` or `"), text)


def option_item(option: Option, more: list[str]) -> list[str]:
    """Returns an option with its text, its default and what the source adds."""
    place = {option.value} if option.value else set()
    term = ", ".join(roff.code(f"{it} {option.value}".strip() if it.startswith("--") else it, place)
                     for it in option.names)
    text = sentence(marked(option.text, option.value))
    if option.default == REQUIRED:
        text += " This option is required."
    elif option.default:
        text += f" Default: {marked(option.default, option.value)}."
    return roff.item(term, [text, *more])


def arguments_of(commands: list[Command]) -> Iterator[list[str]]:
    """Yields each argument with its text, and its commands if another command has the name too."""
    forms: dict[Argument, list[str]] = {}
    for command in commands:
        for it in command.arguments:
            forms.setdefault(it, []).append(command.name)
    for argument, names in forms.items():
        is_alone = sum(it.name == argument.name for it in forms) == 1
        term = roff.code(argument.name)
        if not is_alone:
            term += f" (of {', '.join(map(roff.code, names))})"
        yield roff.item(term, [sentence(marked(argument.text, ""))])


class Page:
    """A page in the making: its source, and the commands of its program."""

    def __init__(self, source: Source, commands: list[Command]):
        self.source, self.commands = source, commands
        self.groups = groups_of(commands)
        self.lines: list[str] = []

    def add(self, part: str, following: str) -> bool:
        """Adds a part. Returns whether it took the part that follows too."""
        if part.startswith("{"):
            return self.insert(part, following)
        if part.startswith("## "):
            self.lines.append(f".SS {roff.inline(part[3:])}")
        elif part.startswith("# "):
            self.lines.append(f".SH {part[2:].upper()}")
        elif part.startswith("    "):
            self.lines += roff.example(it[4:] for it in part.splitlines())
        elif part.startswith("- "):
            for term, text in self.items(part):
                self.lines += roff.item(roff.inline(term), [text])
        elif part.startswith("* "):
            for text in POINT.findall(part):
                self.lines += [r".IP \(bu 2", *roff.filled(text)]
        else:
            is_first = self.lines[-1].startswith((".SH", ".SS"))
            self.lines += [*([] if is_first else [".PP"]), *roff.filled(part)]
        return False

    def items(self, part: str) -> list[tuple[str, str]]:
        """Returns the items of a list."""
        found = ITEM.findall(part)
        if "".join(f"- {term}: {text}\n" for term, text in found) != f"{part}\n":
            raise Wrong(f"`{part[:40]}`: it isn't a list of items `- TERM: TEXT`")
        return found

    def insert(self, part: str, following: str) -> bool:
        """Adds what a directive stands for. Returns whether it took the part that follows too."""
        word, *names = part.strip("{}").split()
        if word == "synopsis":
            for usage in dict.fromkeys(it for command in self.commands for it in command.usages):
                if usage.split()[1:] != ["COMMAND"]:
                    self.lines += roff.call(usage)
        elif word == "commands":
            for it in self.commands[1:]:
                self.lines += roff.item(roff.code(it.name), [sentence(it.about)])
        elif word == "arguments":
            self.lines += [line for it in arguments_of(self.commands) for line in it]
        elif word == "file":
            with open(f"{ROOT}/{names[0]}", encoding="utf-8") as file:
                self.lines += roff.example(itertools.dropwhile(
                    lambda it: it.startswith("#"), file.read().splitlines()))
        elif word == "options":
            return self.add_options(names, following)
        elif word not in MARKS:
            raise Wrong(f"`{part}`: it is no directive; see tools/manual/pages.py")
        return False

    def add_options(self, names: list[str], following: str) -> bool:
        """Adds the options of a group, each with what the part that follows adds to it."""
        options = self.groups.pop(frozenset(names), None)
        if not options:
            raise Wrong(f"`{{options {' '.join(names)}}}`: no option is of just these commands, or"
                        " it stands here twice")
        more: dict[str, list[str]] = collections.defaultdict(list)
        for term, text in self.items(following) if following.startswith("- --") else ():
            more[term].append(text)
        for option in options:
            self.lines += option_item(option, more.pop(option.names[-1], []))
        if more:
            raise Wrong(f"`{', '.join(more)}`: it is no option of `{' '.join(names)}`")
        return following.startswith("- --")


def page_of(text: str, programs: dict[str, list[Command]], version: str) -> str:
    """Returns the manual page that a source stands for."""
    source = source_of(text)
    page = Page(source, programs.get(source.name, []))
    page.lines += [f'.\\" Written by tools/man from man/source/{source.name}.{source.chapter}.txt.',
                   f".TH {source.name.upper()} {source.chapter} {source.date} \"amo {version}\""
                   f" \"{CHAPTERS[source.chapter]}\"",
                   ".ad l", ".SH NAME", rf"{source.name} \- {roff.escaped(source.purpose)}"]
    is_taken = False
    for part, following in zip(source.parts, [*source.parts[1:], ""]):
        is_taken = False if is_taken else page.add(part, following)
    if page.groups:
        lost = "; ".join(f"{{options {' '.join(sorted(names))}}}" for names in page.groups)
        raise Wrong(f"it shows these options nowhere: {lost}")
    return "\n".join([*page.lines, ""])
