"""Tries the packages of a release in roots, several at once. Beside them stand packages with a
mistake each, which the same cases must refuse. Begin with `all_of`."""

from __future__ import annotations

import concurrent.futures
import functools
import glob
import os
import re
import shutil
import subprocess
import tarfile
import tempfile
import time
import zipfile
from typing import Callable, Iterator, List, NamedTuple

import roots
from forms import HOME, LIBRARIES, build_package, debian_version
from tree import copy, version_of

HERE = os.path.dirname(os.path.realpath(__file__))
ROOT = os.path.dirname(os.path.dirname(HERE))
NEWER = "99.0.0"  # the version of the package that apt upgrades to
COUNTS = re.compile(r"(\d+) passed, (\d+) failed")
# The cases of each root, in this order.
CASES = {
    "apt": ["no_compiler", "apt_installs_it", "versions", "plans", "the_pages_first_steps",
            "a_crew_that_is_killed", "a_list_that_is_shared", "past_versions",
            "its_units_are_valid", "a_stop_waits_for_the_commands",
            "an_upgrade_leaves_a_unit_alone", "removal_leaves_nothing"],
    "c": ["no_rust", "a_program_in_c_is_built"],
    "python": ["no_compiler", "the_wheel_is_installed"],
    "rust": ["the_crates_are_built"],
}
# The tools that try the wheel and the crates, with what they need.
TOOLS = ("tools/try_wheel", "tools/try_rust", "tools/wheels/*", "tools/c/crews.py",
         "examples/python/*")
# The Debian packages, by their folders, with the place of each in the folder /srv of a root.
DEBS = {"amo": "forms/amo_*.deb", "libamo-dev": "forms/libamo-dev_*.deb",
        "newer": "newer/amo_*.deb"}


class Files(NamedTuple):
    """What is tried: the gathered files, the folder with the forms, and their time."""

    tree: str
    forms: str
    epoch: int


class Spoiled(NamedTuple):
    """A package with a mistake: what is wrong, the package, how it is spoiled, and the root with
    the cases. The last case must fail, and no other. `package` is a folder of DEBS, whose files
    `spoil` changes, or the name of another form, as a pattern."""

    name: str
    package: str
    spoil: Callable[[str], None]
    root: str
    cases: List[str]


class Result(NamedTuple):
    """How many cases of a trial passed and failed, and what is to be printed."""

    passed: int
    failed: int
    said: str


# ---- the mistakes

def add(path: str, text: str) -> Callable[[str], None]:
    """Returns a mistake: a text at the end of this file of the package."""
    def spoil(folder: str) -> None:
        with open(f"{folder}/{path}", "a", encoding="utf-8") as file:
            file.write(text)
    return spoil


def change(path: str, old: str, new: str) -> Callable[[str], None]:
    """Returns a mistake: another text in place of one in this file of the package."""
    def spoil(folder: str) -> None:
        with open(f"{folder}/{path}", encoding="utf-8") as file:
            text = file.read()
        with open(f"{folder}/{path}", "w", encoding="utf-8") as file:
            file.write(text.replace(old, new))
    return spoil


def drop(path: str) -> Callable[[str], None]:
    """Returns a mistake: this file is missing in the package."""
    return lambda folder: os.remove(f"{folder}/{path}")


def drop_from_wheel(name: str) -> Callable[[str], None]:
    """Returns a mistake: this file is missing in the wheel."""
    def spoil(path: str) -> None:
        with zipfile.ZipFile(path) as old, zipfile.ZipFile(f"{path}.new", "w") as new:
            for entry in (it for it in old.infolist() if it.filename != name):
                new.writestr(entry, old.read(entry))
        os.replace(f"{path}.new", path)
    return spoil


def drop_from_crates(name: str) -> Callable[[str], None]:
    """Returns a mistake: this file is missing in the archive of the crates."""
    def spoil(path: str) -> None:
        with tarfile.open(path) as old, tarfile.open(f"{path}.new", "w:gz") as new:
            for entry in (it for it in old.getmembers() if not it.name.endswith(f"/{name}")):
                new.addfile(entry, old.extractfile(entry))
        os.replace(f"{path}.new", path)
    return spoil


KILL = """
for it in /proc/[0-9]*; do
    tr '\\000' ' ' <"$it/cmdline" | grep -q 'amo_jobs ' && kill -KILL "${it#/proc/}"
done
exit 0
"""
UNIT = "usr/lib/systemd/system/amo-crew@.service"
SPOILED = [
    Spoiled("a package that leaves a file behind", "amo",
            add("DEBIAN/postinst", f"touch /{HOME}/left\n"), "apt",
            ["apt_installs_it", "removal_leaves_nothing"]),
    Spoiled("a package of another version", "amo", add(f"{HOME}/VERSION", "-other\n"), "apt",
            ["apt_installs_it", "versions"]),
    Spoiled("a package without the part in C", "amo", drop(f"{HOME}/python/out/calls.so"), "apt",
            ["apt_installs_it", "the_pages_first_steps"]),
    Spoiled("a unit without its program", "amo", change(UNIT, "/usr/bin/", "/opt/amo/"), "apt",
            ["apt_installs_it", "its_units_are_valid"]),
    Spoiled("a unit that kills its commands", "amo",
            change(UNIT, "KillMode=mixed", "KillMode=control-group"), "apt",
            ["apt_installs_it", "a_stop_waits_for_the_commands"]),
    Spoiled("an upgrade that kills the crew", "newer", add("DEBIAN/postinst", KILL), "apt",
            ["apt_installs_it", "an_upgrade_leaves_a_unit_alone"]),
    Spoiled("an amo.pc without the library", "libamo-dev",
            change(f"{LIBRARIES}/pkgconfig/amo.pc", " -lamo", ""), "c",
            ["a_program_in_c_is_built"]),
    Spoiled("a wheel without its library", "*.whl", drop_from_wheel("amo/libamo.so"), "python",
            ["the_wheel_is_installed"]),
    Spoiled("crates without their library", "amo-rust-*", drop_from_crates("lib/libamo_c.a"),
            "rust", ["the_crates_are_built"]),
]


# ---- the trials

def all_of(names: List[str], files: Files) -> Iterator[Result]:
    """Tries the packages in these roots, and then those with a mistake. As many trials run at once
    as there are processors. Yields their results in one order."""
    if not names:
        return
    make_newer(files)
    calls = [functools.partial(try_packages, name, files) for name in names]
    calls += [functools.partial(try_spoiled, it, files) for it in SPOILED if it.root in names]
    with concurrent.futures.ThreadPoolExecutor(os.cpu_count()) as pool:
        yield from pool.map(lambda it: it(), calls)


def newer_of(files: Files) -> str:
    """Returns the folder of the package that apt upgrades to; its file stands beside it."""
    return f"{files.tree}.packages/newer"


def make_newer(files: Files) -> None:
    """Makes the package that apt upgrades to: the same programs with a later version."""
    newer, version = newer_of(files), version_of(files.tree)
    shutil.copytree(f"{files.tree}.packages/amo", newer, symlinks=True)
    change("DEBIAN/control", f"Version: {debian_version(version)}", f"Version: {NEWER}")(newer)
    change(f"{HOME}/VERSION", version, NEWER)(newer)
    drop("DEBIAN/md5sums")(newer)
    build_package(newer, f"{newer}.deb", files.epoch)


def prepare(files: Files, srv: str) -> None:
    """Puts into the folder /srv of a root what the cases need."""
    for name in ("in_root", "cases", "follow.py"):
        copy(f"{HERE}/{name}", srv)
    copy(f"{ROOT}/VERSION", f"{srv}/here")
    shutil.copytree(f"{ROOT}/examples/plans", f"{srv}/here/examples/plans")
    shutil.copytree(f"{ROOT}/tools/releases/past", f"{srv}/here/tools/releases/past")
    for path in glob.glob(f"{files.forms}/amo*") + glob.glob(f"{files.forms}/libamo*"):
        copy(path, f"{srv}/forms")
    for pattern in TOOLS:
        for path in filter(os.path.isfile, glob.glob(f"{ROOT}/{pattern}")):
            copy(path, f"{srv}/here/{os.path.dirname(pattern)}")
    os.makedirs(f"{srv}/newer")
    shutil.copy(f"{newer_of(files)}.deb", f"{srv}/newer/amo_{NEWER}_amd64.deb")
    with open(f"{srv}/newer/VERSION", "w", encoding="ascii") as file:
        file.write(f"{NEWER}\n")


def call(name: str, room: str, cases: List[str]) -> Result:
    """Runs cases in a root, and returns what came of them."""
    try:
        said = roots.run(name, room, ["bash", "/srv/in_root", *cases])
    except subprocess.TimeoutExpired:
        return Result(0, 1, f"release: FAILED: it took more than {roots.LONGEST} seconds\n")
    text, _, last = said.rstrip("\n").rpartition("\n")
    found = COUNTS.fullmatch(last)
    if not found:
        return Result(0, 1, f"{said}\nrelease: FAILED: it broke off\n")
    return Result(int(found[1]), int(found[2]), f"{text}\n")


def try_packages(name: str, files: Files) -> Result:
    """Tries the packages in a root."""
    with tempfile.TemporaryDirectory(prefix="amo-root-") as room:
        prepare(files, f"{room}/srv")
        begun = time.monotonic()
        passed, failed, said = call(name, room, CASES[name])
    said = re.sub(r"^release: ", f"release: root {name}: ", said, flags=re.M)
    took = f"release: root {name}: {time.monotonic() - begun:.0f} seconds\n"
    return Result(passed, failed, said + took)


def put_spoiled(it: Spoiled, files: Files, room: str) -> None:
    """Puts a package with a mistake in the place of the right one."""
    if it.package not in DEBS:
        it.spoil(*glob.glob(f"{room}/srv/forms/{it.package}"))
        return
    folder = f"{room}/{it.package}"
    shutil.copytree(f"{files.tree}.packages/{it.package}", folder, symlinks=True)
    it.spoil(folder)
    for path in glob.glob(f"{folder}/DEBIAN/md5sums"):
        os.remove(path)
    build_package(folder, *glob.glob(f"{room}/srv/{DEBS[it.package]}"), files.epoch)


def try_spoiled(it: Spoiled, files: Files) -> Result:
    """Tries a package with a mistake. It passes if the last case alone has failed; otherwise what
    was printed is returned too."""
    with tempfile.TemporaryDirectory(prefix="amo-root-") as room:
        prepare(files, f"{room}/srv")
        put_spoiled(it, files, room)
        passed, failed, said = call(it.root, room, it.cases)
    caught = failed == 1 and passed == len(it.cases) - 1 and failed_case(said, it.cases[-1])
    text = f"release: {it.name}, a wrong use: {'ok, caught' if caught else 'FAILED'}\n"
    return Result(int(caught), int(not caught), text + ("" if caught else said))


def failed_case(said: str, case: str) -> bool:
    """Returns whether a case failed, by what was printed."""
    return f"release: {case.replace('_', ' ')}: FAILED" in said
