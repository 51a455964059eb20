"""Reads what the programs print by --help: their commands, arguments and options. tools/man begins
with `programs_of`.

tests/outside/help.expected holds these texts, and tools/outside compares them with the programs.
The texts have three forms: amo_jobs and amo_share print that of Python's argparse, amo_worker that
of clap, and amo and amo_show a page of docs/help.
"""

from __future__ import annotations

import re
from typing import Iterator, NamedTuple

PROGRAMS = ("amo", "amo_show", "amo_jobs", "amo_share", "amo_worker")
PART = re.compile(r"^== (\w+)(?: (\w+))? --help: status 0\n(.*?)(?=^== |\Z)", re.M | re.S)
OPTION = re.compile(r"(?<![\w-])--?[a-z][\w-]*")
# How a help text shows a default, or that an option must be given.
DEFAULTS = re.compile(r" ?(?:\(default: (.*)\)|\[default: (.*)\]|\((required|must be given)\))$")
REQUIRED = "required"
HELP = "print the help"


class Option(NamedTuple):
    """An option: its names, the placeholder of its value, what the help prints, and its default."""
    names: tuple[str, ...]
    value: str
    text: str
    default: str


class Argument(NamedTuple):
    """An argument that is given by its place."""
    name: str
    text: str


class Command(NamedTuple):
    """A command of a program; of the program as a whole, the name is empty."""
    program: str
    name: str
    usages: tuple[str, ...]
    about: str
    arguments: tuple[Argument, ...]
    options: tuple[Option, ...]


def parted(text: str) -> tuple[str, str]:
    """Returns a help text without its default, and the default."""
    found = DEFAULTS.search(text)
    if not found:
        return text, ""
    return text[:found.start()], REQUIRED if found[3] else found[1] or found[2]


def option_of(names: str, value: str, text: str) -> Option:
    return Option(tuple(names.split(", ")), value, *parted(text))


# ---- the form of argparse

def between(text: str, first: str, ends: str) -> list[str]:
    """Returns the lines after the line `first`, up to one that matches `ends`."""
    found = re.search(rf"^{first}\n(.*?)(?=^(?:{ends})$|\Z)", text, re.M | re.S)
    return found[1].splitlines() if found else []


def argparse_options(text: str) -> Iterator[Option]:
    """Yields the options of a text. The usage line shows which of them take a value."""
    usage = text.split("\n", 1)[0]
    values = dict(re.findall(r"(?<![\w-])(--[\w-]+) ([A-Z][A-Z-]*)", usage))
    for line in between(text, "options:", "two examples:"):
        names = re.match(r"(?:-h, )?--[\w-]+", line)
        if not names:
            raise ValueError(f"help text: `{line}` has no option; compare it with tools/outside")
        value = values.get(names[0], "")
        yield option_of(names[0], value, line[names.end():].strip().removeprefix(f"{value} "))


def argparse_command(program: str, name: str, text: str) -> Command:
    """Returns a command of amo_jobs or amo_share. The head of a help may have rows, each a call and
    what it does; else the second line says that."""
    rows = [(" ".join(usage.split()), what) for usage, what in
            re.findall(rf"^  ({program}\b.*)\n {{4,}}(\S.*)$", text, re.M)]
    of_name = [what for usage, what in rows if name and usage.split()[1] == name]
    places = [it.partition(" ") for it in between(text, "positional arguments:", "options:")]
    arguments = tuple(Argument(it, what) for it, _, what in places if not it.startswith("{"))
    return Command(program, name, tuple(usage for usage, _ in rows),
                   of_name[0] if of_name else text.split("\n", 2)[1], arguments,
                   tuple(argparse_options(text)))


# ---- the form of clap

def clap_command(program: str, name: str, text: str) -> Command:
    """Returns a command of amo_worker."""
    usage = re.search(r"^Usage: (.*)$", text, re.M)
    arguments = re.findall(r"^  [<\[](\w+)[>\]] +(.*)$", text, re.M)
    options = re.findall(r"^ +((?:-h, )?--[\w-]+)(?: <(\w+)>)? {2,}(.*)$", text, re.M)
    return Command(program, name, (re.sub(r"[<>]", "", usage[1]) if usage else "",),
                   text.split("\n", 1)[0], tuple(Argument(*it) for it in arguments),
                   tuple(option_of(*it) for it in options))


# ---- the form of docs/help

def page_commands(program: str, text: str) -> Iterator[Command]:
    """Yields amo or amo_show as a whole, and then its commands. A command that has two rows has
    an option in the second one."""
    whole = [Option(("-h", "--help"), "", HELP, "")]
    if "--version prints the version" in text:
        whole.append(Option(("--version",), "", "print the version", ""))
    rows = re.findall(rf"^  \./({program} .*?) {{2,}}(.*)$", text, re.M)
    usages = tuple(usage for usage, _ in rows)
    yield Command(program, "", usages, text.split("\n", 1)[0].partition(": ")[2], (), tuple(whole))
    for name in dict.fromkeys(usage.split()[1] for usage in usages):
        own = [row for row in rows if row[0].split()[1] == name]
        options = tuple(Option((it,), "", about, "") for usage, about in own
                        for it in OPTION.findall(usage))
        words = re.findall(r" ([A-Z]+)(?= |$)", own[0][0].partition(" <")[0])
        yield Command(program, name, tuple(usage for usage, _ in own), own[0][1],
                      tuple(Argument(it, "") for it in words), options)


def programs_of(text: str) -> dict[str, list[Command]]:
    """Returns the commands of each program, that for the whole program first, from the text of
    tests/outside/help.expected."""
    found: dict[str, list[Command]] = {it: [] for it in PROGRAMS}
    for program, name, part in PART.findall(text):
        if part.startswith("usage: "):
            found[program].append(argparse_command(program, name, part))
        elif re.search(r"^Usage: ", part, re.M):
            found[program].append(clap_command(program, name, part))
        else:
            found[program] += page_commands(program, part)
    lacking = [it for it in PROGRAMS if not found[it]]
    if lacking:
        raise ValueError(f"help texts: {', '.join(lacking)}: they are missing; see tools/outside")
    return found
