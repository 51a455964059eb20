"""Makes the forms of a release from the gathered files: an archive and two Debian packages."""

from __future__ import annotations

import email.utils
import gzip
import os
import re
import shutil
import subprocess
from typing import Dict, List

from tree import PROGRAMS, copy, fill, paths_in, settle, version_of, write_sums

HOME = "usr/lib/amo"  # the release as a package has it: the programs find the rest there
LIBRARIES = "usr/lib/x86_64-linux-gnu"
DOCS = "usr/share/doc"
PYTHON = "#!/usr/bin/env python3"  # a package names Debian's own Python instead
# A folder of a release, and its place in a package, if that isn't HOME.
PLACES = [
    ("man", "usr/share/man"),
    ("examples", f"{DOCS}/amo/examples"),
    ("licences", f"{DOCS}/amo/licences"),
]


def debian_version(version: str) -> str:
    """Returns the version as Debian sorts it: 0.2.0~dev comes before 0.2.0."""
    return version.replace("-", "~")


def make_forms(root: str, tree: str, forms: str, epoch: int) -> None:
    """Makes each form of the gathered `tree` in the folder `forms`, with this time, and their sums.

    Raises CalledProcessError if a call fails.
    """
    os.makedirs(forms, exist_ok=True)
    version = version_of(tree)
    make_archive(tree, f"{forms}/amo-{version}-x86_64-linux.tar.gz", epoch)
    packing = f"{tree}.packages"
    for name, lay in (("amo", lay_amo), ("libamo-dev", lay_library)):
        folder = f"{packing}/{name}"
        lay(root, tree, folder)
        make_package(root, name, folder, version, epoch)
        build_package(folder, f"{forms}/{name}_{debian_version(version)}_amd64.deb", epoch)
    make_others(root, forms, epoch)
    write_sums(forms)


def make_archive(tree: str, path: str, epoch: int) -> None:
    """Packs a folder in one order, with this time and no owner."""
    words = ["tar", "--create", "--format=ustar", "--sort=name", f"--mtime=@{epoch}", "--owner=0",
             "--group=0", "--numeric-owner", "-C", os.path.dirname(tree), os.path.basename(tree)]
    packed = subprocess.run(words, stdout=subprocess.PIPE, check=True).stdout
    with open(path, "wb") as file:
        file.write(gzip.compress(packed, 9, mtime=0))


def make_others(root: str, forms: str, epoch: int) -> None:
    """Has the tools of the wheel and the crates make them."""
    for tool in ("wheel", "rust_crates"):
        subprocess.run([f"{root}/tools/{tool}", os.path.abspath(forms)], check=True,
                       env={**os.environ, "SOURCE_DATE_EPOCH": str(epoch)})


# ---- the packages

def lay_amo(root: str, tree: str, folder: str) -> None:
    """Lays out the files of the package amo."""
    places = dict(PLACES)
    for name in sorted(os.listdir(tree)):
        if name in places and os.path.isdir(f"{tree}/{name}"):
            shutil.copytree(f"{tree}/{name}", f"{folder}/{places[name]}")
        elif name in ("programs", "python", "stores", "tools"):
            shutil.copytree(f"{tree}/{name}", f"{folder}/{HOME}/{name}")
    for name in (*PROGRAMS, "VERSION"):
        copy(f"{tree}/{name}", f"{folder}/{HOME}")
    shutil.copytree(f"{tree}/docs/help", f"{folder}/{HOME}/docs/help")
    shutil.copytree(f"{tree}/docs", f"{folder}/{DOCS}/amo/docs",
                    ignore=shutil.ignore_patterns("help"))
    copy(f"{tree}/CHANGELOG.md", f"{folder}/{DOCS}/amo")
    copy(f"{tree}/examples/systemd/amo-crew@.service", f"{folder}/usr/lib/systemd/system")
    fill(f"{root}/packaging/debian/amo.lintian-overrides",
         f"{folder}/usr/share/lintian/overrides/amo")
    lay_programs(folder)
    lay_completions(f"{tree}/completions", folder)
    compress_pages(f"{folder}/usr/share/man")


def lay_programs(folder: str) -> None:
    """Makes the links in /usr/bin, names Debian's Python, and corrects the paths of the units."""
    os.makedirs(f"{folder}/usr/bin")
    for name in PROGRAMS:
        os.symlink(f"../lib/amo/{name}", f"{folder}/usr/bin/{name}")
    for path in paths_in(f"{folder}/{HOME}"):
        if os.path.isfile(path) and not path.endswith(".so"):
            replace_first(path, PYTHON, "#!/usr/bin/python3")
    units = f"{folder}/{DOCS}/amo/examples/systemd"
    for name in os.listdir(units):
        replace_first(f"{units}/{name}", "/opt/amo/", "/usr/bin/")


def replace_first(path: str, old: str, new: str) -> None:
    """Replaces the first such text of a file, if it has one."""
    with open(path, "rb") as file:
        text = file.read()
    if old.encode() in text:
        with open(path, "wb") as file:
            file.write(text.replace(old.encode(), new.encode(), 1))


def lay_completions(source: str, folder: str) -> None:
    """Puts the completions of bash and zsh where these shells look for them."""
    for name in os.listdir(source) if os.path.isdir(source) else []:
        if name.startswith("_"):
            copy(f"{source}/{name}", f"{folder}/usr/share/zsh/vendor-completions")
            continue
        place = f"{folder}/usr/share/bash-completion/completions"
        copy(f"{source}/{name}", place)
        first = name.removesuffix(".bash")
        os.rename(f"{place}/{name}", f"{place}/{first}")
        for program in (it for it in PROGRAMS if it != first):
            os.symlink(first, f"{place}/{program}")


def compress_pages(folder: str) -> None:
    """Compresses the man pages, with no time and no name in them."""
    for path in [it for it in paths_in(folder) if os.path.isfile(it)]:
        compress(path)


def compress(path: str) -> None:
    """Compresses a file to a file with the ending .gz."""
    with open(path, "rb") as file:
        text = file.read()
    with open(f"{path}.gz", "wb") as made:
        made.write(gzip.compress(text, 9, mtime=0))
    os.remove(path)


def lay_library(root: str, tree: str, folder: str) -> None:
    """Lays out the files of the package libamo-dev."""
    copy(f"{tree}/c/amo.h", f"{folder}/usr/include")
    copy(f"{tree}/c/libamo.a", f"{folder}/{LIBRARIES}")
    copy(f"{tree}/c/crew.c", f"{folder}/{DOCS}/libamo-dev/examples")
    fill(f"{root}/packaging/amo.pc.in", f"{folder}/{LIBRARIES}/pkgconfig/amo.pc", PREFIX="/usr",
         INCLUDE="${prefix}/include", LIB="${prefix}/lib/x86_64-linux-gnu",
         VERSION=version_of(tree))
    shutil.copytree(f"{tree}/licences", f"{folder}/{DOCS}/libamo-dev/licences")


def glibc_of(root: str) -> str:
    """Returns the C library that a release needs, as its README says."""
    with open(f"{root}/tools/releases/README", encoding="utf-8") as file:
        found = re.search(r"glibc ([0-9.]*[0-9])", file.read())
    return found[1] if found else ""


def make_package(root: str, name: str, folder: str, version: str, epoch: int) -> None:
    """Adds to a package what Debian asks for: control, copyright, changelog and sums."""
    source, docs = f"{root}/packaging/debian", f"{folder}/{DOCS}/{name}"
    values = {"VERSION": debian_version(version), "DATE": email.utils.formatdate(epoch),
              "GLIBC": glibc_of(root)}
    fill(f"{source}/copyright", f"{docs}/copyright", **values)
    fill(f"{source}/changelog", f"{docs}/changelog", **values)
    compress(f"{docs}/changelog")
    settle(folder)
    files = [it for it in paths_in(folder) if os.path.isfile(it) and not os.path.islink(it)]
    size = sum(-(-os.path.getsize(it) // 1024) for it in files)
    control = f"{folder}/DEBIAN"
    fill(f"{source}/{name}.control", f"{control}/control", SIZE=str(size), **values)
    write_md5(folder, files)
    for step in ("postinst", "postrm"):
        if os.path.exists(f"{source}/{name}.{step}"):
            shutil.copy(f"{source}/{name}.{step}", f"{control}/{step}")
            os.chmod(f"{control}/{step}", 0o755)


def write_md5(folder: str, files: List[str]) -> None:
    """Writes the sums by which dpkg --verify looks for changed files."""
    said = subprocess.run(["md5sum", *(os.path.relpath(it, folder) for it in files)], cwd=folder,
                          stdout=subprocess.PIPE, text=True, check=True).stdout
    with open(f"{folder}/DEBIAN/md5sums", "w", encoding="utf-8") as file:
        file.write(said)


def build_package(folder: str, path: str, epoch: int) -> None:
    """Packs the files of a package, each with this time."""
    for it in paths_in(folder):
        os.utime(it, (epoch, epoch), follow_symlinks=False)
    os.utime(folder, (epoch, epoch))
    given: Dict[str, str] = {**os.environ, "SOURCE_DATE_EPOCH": str(epoch)}
    subprocess.run(["dpkg-deb", "--root-owner-group", "-Zxz", "--threads-max=1", "--build", folder,
                    path], stdout=subprocess.DEVNULL, env=given, check=True)
