"""Old names of pages. For one version each is a stub: one line that leads to the new page.

Begin with `named`.
"""

from __future__ import annotations

import os
import re
import subprocess
from typing import Iterable, Iterator

NAMES = """DECISIONS EMBEDDING FORMATS HOST JOBS MACHINES MODEL PROCESSES REFERENCE RESEARCH STORES
    TRUST WATCH assurance/contracts""".split()
STUBS = [f"docs/{it}.md" for it in NAMES]
# Files that report what was, so that they may name a stub.
PAST = re.compile(rf"CHANGELOG\.md|docs/decisions/.*|{'|'.join(STUBS)}")
NAME = re.compile(rf"\b(?:{'|'.join(os.path.basename(it) for it in NAMES)})\.md\b")


def files() -> Iterator[tuple[str, str]]:
    """Yields each file of the repository, with its text. The present folder is its top."""
    listed = subprocess.run(["git", "ls-files", "-z"], stdout=subprocess.PIPE, check=True).stdout
    for path in listed.decode().split("\0")[:-1]:
        with open(path, encoding="utf-8", errors="replace") as file:
            yield path, file.read()


def named(texts: Iterable[tuple[str, str]]) -> Iterator[str]:
    """Yields each line of these files that names a stub, as FILE:LINE and the name."""
    for path, text in texts:
        if PAST.fullmatch(path):
            continue
        for found in NAME.finditer(text):
            line = text.count("\n", 0, found.start()) + 1
            yield f"{path}:{line}: {found[0]}"
