"""Gathers the files of a release in a folder, from a repository in which all is built."""

from __future__ import annotations

import glob
import hashlib
import os
import shutil
import subprocess
import sys
from typing import Iterator, List, Tuple

from packing import PAGES

PLAN_PROGRAMS = ("amo", "amo_show", "amo_worker")  # these are built; the others are in Python
PROGRAMS = (*PLAN_PROGRAMS, "amo_jobs", "amo_share")
SUMS = "SHA256SUMS"
# The files that are copied: a pattern in the repository, and the folder that gets it. A pattern of
# OPTIONAL may match nothing.
COPIED = [
    *((it, "") for it in (*PROGRAMS, "VERSION", "CHANGELOG.md", "CITATION.cff",
                          "tools/releases/README")),
    *((f"crates/{it}/out/{it}", "programs") for it in PLAN_PROGRAMS),
    ("python/amo_jobs/*.py", "python/amo_jobs"),
    ("python/amo_watch/*.py", "python/amo_watch"),
    ("stores/*", "stores"),
    ("tools/launch", "tools"),
    *((it, os.path.dirname(it)) for it in PAGES),
    ("examples/systemd/*", "examples/systemd"),
    ("examples/prometheus/*", "examples/prometheus"),
    ("examples/lines/*", "examples/lines"),
    *((f"examples/c/{it}", "c") for it in ("amo.h", "crew.c")),
]
OPTIONAL = [
    ("man/*.1", "man/man1"),
    ("man/*.5", "man/man5"),
    ("completions/*", "completions"),
]


def version_of(root: str) -> str:
    """Returns the version of a repository or a release."""
    with open(f"{root}/VERSION", encoding="ascii") as file:
        return file.read().strip()


def gather(root: str, kit: str, into: str) -> None:
    """Copies and builds the files of a release. `kit` is the folder of the toolchain.

    Raises FileNotFoundError if a file is missing, and CalledProcessError if a call fails.
    """
    for pattern, folder in [*COPIED, *OPTIONAL]:
        found = sorted(filter(os.path.isfile, glob.glob(f"{root}/{pattern}")))
        if not found and (pattern, folder) not in OPTIONAL:
            raise FileNotFoundError(f"`{root}/{pattern}`: it is missing; build it, or correct"
                                    " COPIED in tools/releases/tree.py")
        for path in found:
            copy(path, f"{into}/{folder}")
    build_calls(root, f"{into}/python/out")
    join_archives([f"{root}/crates/amo_c/out/libamo_c.a", f"{kit}/c/liblibc_c.a"], f"{into}/c")
    fill(f"{root}/packaging/amo.pc.in", f"{into}/c/amo.pc", VERSION=version_of(root),
         PREFIX="${pcfiledir}", INCLUDE="${prefix}", LIB="${prefix}")
    subprocess.run([f"{root}/tools/releases/parts.py", "licences", f"{into}/licences"], check=True)
    settle(into)
    write_sums(into)


def copy(path: str, folder: str) -> None:
    """Copies a file into a folder, which is made if it is missing."""
    os.makedirs(folder, exist_ok=True)
    shutil.copy(path, folder)


def build_calls(root: str, folder: str) -> None:
    """Builds the part of amo_jobs in C, as a clone does."""
    os.makedirs(folder)
    call = "import sys; from amo_jobs.library import build; build(sys.argv[1])"
    subprocess.run([sys.executable, "-B", "-c", call, f"{os.path.abspath(folder)}/calls.so"],
                   cwd=f"{root}/python", check=True)


def join_archives(archives: List[str], folder: str) -> None:
    """Joins static libraries to libamo.a, with no time and no owner in it."""
    steps = ["CREATE libamo.a", *(f"ADDLIB {it}" for it in archives), "SAVE", "END"]
    for number, path in enumerate(archives):
        shutil.copy(path, f"{folder}/{number}.a")
        steps[1 + number] = f"ADDLIB {number}.a"
    subprocess.run(["ar", "-M"], input="\n".join(steps), cwd=folder, text=True, check=True)
    for number in range(len(archives)):
        os.remove(f"{folder}/{number}.a")
    subprocess.run(["ranlib", "-D", "libamo.a"], cwd=folder, check=True)


def fill(source: str, target: str, **values: str) -> None:
    """Writes a file with values in place of words such as @VERSION@."""
    with open(source, encoding="utf-8") as file:
        text = file.read()
    for name, value in values.items():
        text = text.replace(f"@{name}@", value)
    os.makedirs(os.path.dirname(target), exist_ok=True)
    with open(target, "w", encoding="utf-8") as file:
        file.write(text)


def paths_in(folder: str) -> Iterator[str]:
    """Yields each path below a folder, folders too, in one order."""
    for place, folders, names in os.walk(folder):
        folders.sort()
        yield from (f"{place}/{name}" for name in sorted([*folders, *names]))


def settle(folder: str) -> None:
    """Gives each file the mode 644, or 755 if it may be executed, and each folder 755."""
    os.chmod(folder, 0o755)
    for path in paths_in(folder):
        if not os.path.islink(path):
            os.chmod(path, 0o755 if os.stat(path).st_mode & 0o100 else 0o644)


def sum_of(path: str) -> str:
    """Returns the SHA-256 of a file."""
    with open(path, "rb") as file:
        return hashlib.sha256(file.read()).hexdigest()


def rows_of(folder: str) -> List[Tuple[str, str]]:
    """Returns each file below a folder but SHA256SUMS, with its sum, in the order of names."""
    names = (os.path.relpath(it, folder) for it in paths_in(folder) if os.path.isfile(it))
    return [(it, sum_of(f"{folder}/{it}")) for it in sorted(names) if not it.startswith(SUMS)]


def write_sums(folder: str) -> None:
    """Writes the sums of all files below a folder into its file SHA256SUMS."""
    with open(f"{folder}/{SUMS}", "w", encoding="utf-8") as file:
        file.writelines(f"{digest}  {name}\n" for name, digest in rows_of(folder))
