"""Which mutants a run of `./test` tries.

All mutants of a crate were tried when its line was written to tests/mutants_tried.txt. A crate has a
line for each logic of the toolchain by which they were tried. The line has that logic, and a digest of
the logic and of the crate's code, definitions, proofs and mutants, without comments. If no line of the
crate fits, a run tries all of them. Else the crate has its turn in every sixth run, and then a run
tries the mutants of a quarter of its functions: to begin with a crate costs as much as many mutants.
The number of commits decides which crates and functions.
"""

from __future__ import annotations

import hashlib
import os
import re
import subprocess

import edits

# A crate has its turn once in so many runs, and each of its functions once in PARTS.
EVERY = 6
PARTS = 24
TRIED = "tests/mutants_tried.txt"
# A string or a character stays; a comment goes.
TOKENS = {
    ".rt": re.compile(r"(\"(?:\\.|[^\"\\])*\"|'(?:\\.|[^'\\])')|//[^\n]*", re.DOTALL),
    ".antt": re.compile(r"(\"(?:\\.|[^\"\\])*\"|'(?:\\.|[^'\\])')|(?<!\S)--(?!\S)[^\n]*"),
}


def without_comments(text: str, ending: str) -> str:
    """Returns the lines of a source that have more than a comment, without their comments."""
    kept = TOKENS[ending].sub(lambda it: it[1] or "", text)
    return "\n".join(line.rstrip() for line in kept.split("\n") if line.strip())


def files_in(folder: str) -> list[str]:
    """Returns the paths of all files below a folder, sorted."""
    found = (f"{place}/{name}" for place, _, names in os.walk(folder) for name in names)
    return sorted(found)


def digest(crate) -> str:
    """Returns the digest of the toolchain's logic, and of a crate's code, definitions, proofs and mutants."""
    total = hashlib.sha256(logic_of(crate.kit).encode())
    for part in ("src", "specs", "proofs", edits.FOLDER):
        for path in files_in(f"{crate.folder}/{part}"):
            with open(path, encoding="utf-8") as held:
                text = held.read()
            ending = os.path.splitext(path)[1]
            kept = without_comments(text, ending) if ending in TOKENS else text
            total.update(f"{os.path.relpath(path, crate.folder)}\0{kept}\0".encode())
    return total.hexdigest()[:32]


def logic_of(kit: str) -> str:
    """Returns the logic of the toolchain in this folder: the checksum by which its prover names it."""
    with open(f"{kit}/KIT-ID", encoding="utf-8") as held:
        return held.read().split()[2]


def lines_of(root: str) -> dict[tuple[str, str], str]:
    """Returns the digest at which all mutants of each crate were tried, by the crate's name and the
    toolchain's logic."""
    try:
        with open(f"{root}/{TRIED}", encoding="utf-8") as held:
            lines = [it.split() for it in held if it.strip() and not it.startswith("#")]
    except FileNotFoundError:
        return {}
    return {(name, logic): fits for name, logic, fits in lines}


def tried(root: str) -> set[tuple[str, str]]:
    """Returns each crate's name with each digest at which all its mutants were tried."""
    return {(name, fits) for (name, _), fits in lines_of(root).items()}


def write(root: str, crates: list) -> None:
    """Records that all mutants of these crates were tried as they are now, with their toolchain."""
    lines = lines_of(root) | {(it.name, logic_of(it.kit)): digest(it) for it in crates}
    rows = [f"{name} {logic} {lines[name, logic]}" for name, logic in sorted(lines)]
    head = ("# Each crate, the logic of a toolchain, and a digest of both when all mutants of the crate\n"
            "# were tried by that logic (tools/wrong_bodies --write).")
    with open(f"{root}/{TRIED}", "w", encoding="utf-8") as held:
        held.write("\n".join([head, *rows]) + "\n")


def turn(root: str) -> int:
    """Returns which turn it is: the number of commits, modulo PARTS."""
    call = ["git", "-C", root, "rev-list", "--count", "HEAD"]
    said = subprocess.run(call, capture_output=True, text=True, check=False).stdout.strip()
    return int(said) % PARTS if said.isdigit() else 0


def keys_of(bodies: list) -> dict[int, str]:
    """Returns a name for each body, by its place. Bodies that change a common function have one
    name."""
    names: dict[str, str] = {}
    for body in bodies:
        functions = [f"{it.file}:{it.name}" for it in body.functions]
        merged = {names.get(it, it) for it in functions}
        one = min(merged, default="")
        names = {it: one if name in merged else name for it, name in names.items()}
        names.update({it: one for it in functions})
    return {at: names[f"{it.functions[0].file}:{it.functions[0].name}"] if it.functions else ""
            for at, it in enumerate(bodies)}


def drawn(text: str, count: int) -> int:
    """Returns a number below `count` that hangs on the text alone."""
    return int(hashlib.sha256(text.encode()).hexdigest(), 16) % count


def chosen(crate, bodies: list, part: int) -> list:
    """Returns the bodies of the functions whose turn it is, and those that can't be applied."""
    keys = keys_of(bodies)
    first = drawn(f"{crate.name}'s turn", EVERY)
    turn_of = lambda key: first + EVERY * drawn(f"{crate.name} {key}", PARTS // EVERY)
    return [it for at, it in enumerate(bodies) if it.trouble or turn_of(keys[at]) == part]
