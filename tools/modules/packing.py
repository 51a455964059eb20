"""The parts that all makers of packages share. Begin with `read`."""

from __future__ import annotations

import glob
import os
import shlex
import subprocess
import tempfile
from typing import Iterator, List, Tuple

import crates as listing

ROOT = os.path.dirname(os.path.dirname(os.path.dirname(os.path.realpath(__file__))))
ARCHIVE = f"{ROOT}/crates/amo_c/out/libamo_c.a"
# Old names of pages, for one version; each is one line that leads to the new page.
MOVED = ("JOBS", "MACHINES", "PROCESSES", "STORES", "FORMATS")
# The pages that each package of the programs has, as patterns of the repository.
PAGES = (*(f"docs/guide/{it}.md" for it in ("install", "commands", "operating", "watching",
                                            "machines", "processes", "stores", "python", "rust")),
         *(f"docs/{it}.md" for it in ("protocol", "formats", "comparison", "performance", *MOVED)),
         "docs/pictures/*.svg", "docs/help/*.txt", "docs/*.schema.json")


class Wrong(Exception):
    """Why no package can be made."""


def read(path: str) -> bytes:
    """Returns the content of a file; a relative path is one of the repository."""
    try:
        with open(os.path.join(ROOT, path), "rb") as file:
            return file.read()
    except FileNotFoundError:
        raise Wrong(f"`{path}`: it is missing; build it: ./test, or rt ci") from None


def run(words: List[str]) -> str:
    """Returns what a command prints that is run at the top of the repository."""
    ran = subprocess.run(words, cwd=ROOT, stdin=subprocess.DEVNULL, capture_output=True, text=True)
    if ran.returncode:
        raise Wrong(f"`{shlex.join(words)}`: status {ran.returncode}; correct this:\n{ran.stderr}")
    return ran.stdout


def heap() -> str:
    """Returns the path of the toolchain's archive that libamo_c.a needs."""
    found = listing.kit()  # type: ignore[no-untyped-call]
    if not found:
        raise Wrong(listing.NO_KIT)
    return f"{found}/c/liblibc_c.a"


def licences() -> Iterator[Tuple[str, bytes]]:
    """Yields the licences of the toolchain's crates that are linked, by name."""
    with tempfile.TemporaryDirectory() as folder:
        run([f"{ROOT}/tools/releases/parts.py", "licences", folder])
        for path in sorted(glob.glob(f"{folder}/**", recursive=True)):
            if os.path.isfile(path):
                yield os.path.relpath(path, folder), read(path)


def version() -> str:
    """Returns the version of the repository."""
    return read("VERSION").decode().strip()


def moment() -> int:
    """Returns the time that each packed file has, in seconds since 1970: SOURCE_DATE_EPOCH, or else
    the time of the last commit."""
    return int(os.environ.get("SOURCE_DATE_EPOCH") or run(["git", "log", "-1", "--format=%ct"]))
