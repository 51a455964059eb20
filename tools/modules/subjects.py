"""The page docs/api/files.md: each file of code, definitions, lemmas, tests and tools, with the first
sentence of its comment.

`text_of` is where to start reading.
"""

from __future__ import annotations

import ast
import itertools
import os
import re
from typing import Iterator

import index
import sources

NAME = "files"  # of the page
HEAD = """# Each file and its subject

*Made by `tools/api` from the first sentence of each file; don't edit it.* Search this page for a word of
what you look for. [ARCHITECTURE](../../ARCHITECTURE.md) explains how the parts fit together. The proofs of
functions aren't listed: the proof of the function F in the file src/M.rt stands in the folder proofs/M/F.
"""
# The folders beside those of crates.
FOLDERS = ("python", "rust", "stores", "examples/c", "tests", "tools", "bench", "qa")
MOST_WORDS = 25  # of a sentence that is shown whole
LEFT_OUT = ("out", "__pycache__", "target", "wrong-bodies", "past")
MARKS = {".rt": "//! ", ".rattle": "//! ", ".rs": "//! ", ".antt": "-- ", ".sh": "# ", "": "# "}
C_COMMENT = re.compile(r"\s*/\*(.*?)\*/", re.DOTALL)


def text_of(root: str) -> str:
    """Returns the text of the page."""
    parts = [HEAD]
    for section in index.sections(root):
        parts += [f"## {section.title.capitalize()}\n"]
        parts += [part for name in section.crates for part in rows_of(root, f"crates/{name}")]
    tests = sorted(it for it in os.listdir(f"{root}/crates") if it.endswith(index.TESTS))
    parts += ["## Tests, and all beside the crates\n"]
    for folder in (*(f"crates/{it}" for it in tests), *FOLDERS):
        parts += rows_of(root, folder)
    return "\n".join(parts).rstrip() + "\n"


def rows_of(root: str, folder: str) -> list[str]:
    """Returns the rows of the files of a folder, below its name; nothing if no file has a subject."""
    rows = [f"- [{path}](../../{folder}/{path}): {what}" for path in paths_in(f"{root}/{folder}")
            if (what := subject(f"{root}/{folder}/{path}"))]
    return [f"### {folder}\n", *rows, ""] if rows else []


def paths_in(folder: str) -> Iterator[str]:
    """Yields the path of each file in a folder, sorted, without the proofs of functions."""
    for place, below, names in os.walk(folder):
        is_of_crate = os.path.basename(folder).startswith("amo") and place == f"{folder}/proofs"
        below[:] = [] if is_of_crate else sorted(it for it in below if it not in LEFT_OUT)
        for name in sorted(names):
            yield os.path.relpath(f"{place}/{name}", folder)


def subject(path: str) -> str:
    """Returns the first sentence of the comment at the head of a file, or nothing if it has none. A
    long sentence ends at its first colon or semicolon."""
    first = "" if os.path.islink(path) else head_of(path).split("\n\n")[0]
    sentence = index.first_sentence([" ".join(first.split())]).replace("|", "\\|")
    is_long = len(sentence.split()) > MOST_WORDS
    return re.split(r"[:;] ", sentence)[0].rstrip(".") + "." if is_long else sentence


def head_of(path: str) -> str:
    """Returns the comment at the head of a file, without its marks."""
    ending = os.path.splitext(path)[1]
    if ending not in (*MARKS, ".py", ".c", ".h"):
        return ""
    lines = sources.read(path)
    is_program = bool(lines) and lines[0].startswith("#!")
    if ending == ".py" or is_program and "python" in lines[0]:
        return ast.get_docstring(ast.parse("\n".join(lines))) or ""
    if ending in (".c", ".h"):
        found = C_COMMENT.match("\n".join(lines))
        return re.sub(r"^ \*", "", found[1], flags=re.MULTILINE) if found else ""
    if not ending and not is_program:
        return ""
    mark = MARKS[ending]
    rest = itertools.takewhile(lambda it: it.startswith(mark), lines[1:] if is_program else lines)
    return "\n".join(it[len(mark):] for it in rest)
