"""The index of the pages in docs/api: which crates have a page, what each crate is, and what each
theorem states.

`text_of` is where to start reading.
"""

from __future__ import annotations

import glob
import os
import re
from typing import NamedTuple

import sources
from wording import Vocabulary, anchor

NAME = "README"  # of the index among the pages
TESTS = "_tests"
ROW = re.compile(r"^(\w+)[^:#\n]*:")
CLAUSE = re.compile(r"(?:^|\s)(?:requires|ensures)\b")
# A sentence ends before a capital letter, or before a name between backquotes.
SENTENCE = re.compile(r"(.*?\.)(?=\s+[A-Z`]|$)")
STATES = re.compile(r"^States that (.)")
HEAD = """# Contracts and theorems, crate by crate

*Made by `tools/api` from the sources; don't edit it.* A crate's page has each public item with its
contract, its comment and its mutants, and the definitions that the contracts name. A *function*
counts here if it is public and has a contract; a method of a public trait counts too. A *theorem*
is a public function that has a contract and does nothing: the contract is what is proved. A
*mutant* is a wrong body that the prover rejects ([how](../dev/wrong-bodies.md)). A crate without a
link has no public item with a contract, and none that gives a meaning to the contracts of a trait.
[The overview](../assurance/overview.md) says what all of it comes to, and
[testing](../assurance/testing.md) what no contract states. [Each file](files.md) is listed with its
subject.

## The crates
"""
TABLE = """| crate | subject | functions | theorems | mutants |
|---|---|---|---|---|"""
PROMISES = """## What is proved, promise by promise

Each theorem is proved over the definitions that its page shows, for all values of what it names.
[The model](../assurance/model.md) explains the definitions in words. The contracts of functions
state what the code does that runs.

**Read the comment and the statement on the page before you rely on a theorem.** Below stands the
first sentence of its comment alone, and premises may stand after it. Those of the first theorem are
in [the assumptions](../assurance/assumptions.md#the-first-theorem).
"""


class Section(NamedTuple):
    """A section of crates.txt: its title, and its crates without those of tests."""
    title: str
    crates: list[str]


def sections(root: str) -> list[Section]:
    """Returns the sections of crates.txt that have crates, in order."""
    found: list[Section] = []
    for line in sources.read(f"{root}/crates.txt"):
        row = ROW.match(line)
        if line.startswith("# "):
            found.append(Section(line[2:], []))
        elif row and not row[1].endswith(TESTS):
            found[-1].crates.append(row[1])
    return [it for it in found if it.crates]


def paged(root: str) -> list[str]:
    """Returns the crates that have a page, in the order of crates.txt: those with a contract that
    users of the crate can name."""
    return [name for it in sections(root) for name in it.crates if has_contract(root, name)]


def has_contract(root: str, name: str) -> bool:
    """Returns true if a public item of a crate has a contract, or gives a meaning to the contracts
    of a trait."""
    folder = f"{root}/crates/{name}"
    items = sources.public_items(folder, root)
    types = {it.name for it in items if not it.owner}
    return any(map(is_stated, items)) or any(it.name in types for it in sources.impls(folder, root))


def is_stated(it: sources.Item) -> bool:
    """Returns true if an item is a function with a contract."""
    return it.kind == "fn" and any(map(CLAUSE.search, it.text))


def is_theorem(it: sources.Item) -> bool:
    return it.kind == "fn" and it.file.endswith("laws.rt")


def mutants_of(root: str, name: str) -> list[str]:
    """Returns the files of a crate's mutants."""
    return sorted(glob.glob(f"{root}/crates/{name}/wrong-bodies/*.edit"))


def head_of(folder: str) -> list[str]:
    """Returns the comment at the head of a crate's root file."""
    return sources.head_of(sources.read(sources.files_of(folder)[0]))


def first_sentence(doc: list[str]) -> str:
    """Returns the first sentence of a comment."""
    first = " ".join(doc[:doc.index("")] if "" in doc else doc)
    found = SENTENCE.match(first)
    return found[1] if found else first


def promise(doc: list[str]) -> str:
    """Returns the first sentence of a theorem's comment, without the words `States that`."""
    sentence = first_sentence(doc)
    stated = STATES.sub(lambda it: it[1].upper(), sentence)
    return stated if stated == sentence else stated.replace(", and that ", ", and ")


def row(root: str, name: str, words: Vocabulary) -> str:
    """Returns the row of a crate."""
    items = words.items.get(name, [])
    shown = f"[`{name}`]({words.page_of(name)})" if name in words.items else f"`{name}`"
    stated = [it for it in items if is_stated(it) and not is_theorem(it)]
    wrong = len(mutants_of(root, name))
    # a page lists its mutants; those of a crate without one have a folder alone
    is_apart = wrong and name not in words.items
    link = f"[{wrong}](../../crates/{name}/wrong-bodies)" if is_apart else str(wrong)
    counts = f"{len(stated)} | {sum(map(is_theorem, items))} | {link}"
    what = first_sentence(head_of(f"{root}/crates/{name}")).rstrip(".")
    return f"| {shown} | {what} | {counts} |"


def promises(words: Vocabulary, name: str) -> list[str]:
    """Returns the rows of a crate's theorems, below its name; nothing if it has none."""
    those = [it for it in words.items[name] if is_theorem(it)]
    rows = [f"- [`{it.name}`]({words.page_of(name)}#{anchor(it.name)}): {promise(it.doc)}"
            for it in those]
    return [f"### `{name}`\n", *rows, ""] if rows else []


def text_of(root: str, words: Vocabulary) -> str:
    """Returns the text of the index."""
    parts = [HEAD]
    for it in sections(root):
        parts += [f"### {it.title.capitalize()}\n", TABLE,
                  *(row(root, name, words) for name in it.crates), ""]
    parts += [PROMISES, *(part for name in words.items for part in promises(words, name))]
    return "\n".join(parts).rstrip() + "\n"
