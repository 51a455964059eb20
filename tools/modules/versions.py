"""The places of the repository that have its version, beside the file VERSION."""

from __future__ import annotations

import glob
import re
from typing import Iterator, List, Tuple

# A file or a pattern of files, and the text around the version. The group is the version.
PLACES = {
    "CHANGELOG.md": r"^## (.*)$",
    "CITATION.cff": r"^version: (.*)$",
    "README.md": r"^- \*\*Version ([^:*]+):\*\*",
    "docs/formats.md": r"prints a line such as `amo ([^`]+)`",
    "man/*.[1-8]": r'^\.TH .*"amo ([^"]+)"',
    "rust/*/Cargo.toml": r'^(?:version|amo-sys) = .*?"=?(\d[^"]*)"',
}
# The files of which a version has all such places; of the others it has the first.
ALL = ("rust/*/Cargo.toml",)
VERSION = re.compile(r"\d+\.\d+\.\d+(?:-[a-z][0-9a-z.]*)?")


def files(root: str) -> Iterator[Tuple[str, str, bool]]:
    """Yields each file of PLACES with its text around the version, and whether all such places
    count. A pattern may match no file."""
    for pattern, around in PLACES.items():
        for path in sorted(glob.glob(f"{root}/{pattern}")):
            yield path, around, pattern in ALL


def read(path: str) -> str:
    """Returns the text of a file."""
    with open(path, encoding="utf-8") as file:
        return file.read()


def versions_in(text: str, around: str, takes_all: bool) -> List[re.Match[str]]:
    """Returns where a text has the version."""
    found = list(re.finditer(around, text, re.M))
    return found if takes_all else found[:1]


def wrong_places(root: str) -> List[str]:
    """Returns what is wrong: each place that has another version than VERSION, and each file that
    has none."""
    version, wrong = read(f"{root}/VERSION").strip(), []
    for path, around, takes_all in files(root):
        found = versions_in(read(path), around, takes_all)
        wrong += [f"`{path}`: it has the version {it[1]}, and VERSION has {version}"
                  for it in found if it[1] != version]
        wrong += [] if found else [f"`{path}`: it has no version"]
    return wrong


def write(root: str, version: str) -> List[str]:
    """Writes a version to all places, and returns the files."""
    changed = [f"{root}/VERSION"]
    with open(changed[0], "w", encoding="ascii") as file:
        file.write(f"{version}\n")
    for path, around, takes_all in files(root):
        text = read(path)
        for it in reversed(versions_in(text, around, takes_all)):
            text = f"{text[:it.start(1)]}{version}{text[it.end(1):]}"
        with open(path, "w", encoding="utf-8") as file:
            file.write(text)
        changed.append(path)
    return changed
