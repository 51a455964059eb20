"""Builds the guest: the kernel of a Debian package, and an archive of all files that it needs.

Begin with `build`. Nothing is fetched: `missing` says which package isn't installed.
"""

from __future__ import annotations

import glob
import os
import re
import shutil
import subprocess
import tempfile
from typing import Dict, List, NamedTuple, Optional

HERE = os.path.dirname(os.path.realpath(__file__))
TOP = os.path.dirname(os.path.dirname(HERE))
PYTHON = "/usr/bin/python3"
PARALLEL = "/usr/bin/parallel"
WORKER = f"{TOP}/crates/amo_worker/out/amo_worker"
BASE = ("virtio_ring", "virtio", "virtio_pci", "virtio_blk", "virtio_console")
# Modules of the guest's file systems. The kernels of Debian have ext4 built in.
OF_FILE_SYSTEM: Dict[str, tuple] = {"ext4": (), "xfs": ("xfs",), "btrfs": ("btrfs",)}
# Of a program that the guest needs, the Debian package that has it.
PACKAGES = {"qemu-system-x86_64": "qemu-system-x86", "busybox": "busybox-static", "cc": "gcc",
            "mkfs.ext4": "e2fsprogs", "mkfs.xfs": "xfsprogs", "mkfs.btrfs": "btrfs-progs"}


class Guest(NamedTuple):
    """A guest that is built, by the paths of its kernel and its archive."""

    kernel: str
    archive: str
    release: str
    modules: Dict[str, List[str]]  # which a guest with this file system loads, in this order


def kernels(root: str) -> List[str]:
    """Returns the releases of the kernels below this folder that have modules, oldest first."""
    found = [it.rpartition("vmlinuz-")[2] for it in glob.glob(f"{root}/boot/vmlinuz-*")]
    numbers = {it: [int(part) for part in re.findall("[0-9]+", it)] for it in found}
    return sorted((it for it in found if os.path.isdir(f"{root}/lib/modules/{it}/kernel")),
                  key=lambda it: numbers[it])


def missing(root: str, file_systems: List[str], worker: str) -> Optional[str]:
    """Returns what the guest lacks, with the remedy; None if it can be built."""
    programs = "qemu-system-x86_64 busybox cc".split() + [f"mkfs.{it}" for it in file_systems]
    for name in programs:
        if not shutil.which(name):
            return f"`{name}`: it is missing; apt-get install {PACKAGES[name]}"
    if not kernels(root):
        return (f"`{root}/boot`: no kernel with modules is there; apt-get install"
                " linux-image-cloud-amd64, or unpack that package and name the folder: --boot")
    if not os.access(PYTHON, os.X_OK):
        return f"`{PYTHON}`: it is missing; apt-get install python3"
    if not os.access(worker, os.X_OK):
        return f"`{worker}`: it isn't built; run ./amo_worker --help"
    return None


class Tree:
    """The files of the guest, in a folder of this machine."""

    def __init__(self, root: str):
        self.root = root
        for name in "bin proc sys dev tmp data modules usr".split():
            os.makedirs(f"{root}/{name}")

    def put(self, source: str, name: str) -> None:
        """Copies a file to this name in the guest."""
        path = f"{self.root}/{name.lstrip('/')}"
        os.makedirs(os.path.dirname(path), exist_ok=True)
        shutil.copyfile(source, path)
        os.chmod(path, 0o755)

    def put_program(self, source: str, name: str) -> None:
        """Copies a program or library with the libraries that it is linked to."""
        self.put(source, name)
        ran = subprocess.run(["ldd", source], stdout=subprocess.PIPE, stderr=subprocess.DEVNULL,
                             text=True, check=False)
        for path in re.findall(r"(/[^ ]+) \(0x", ran.stdout):
            self.put(path, path)

    def pack(self, path: str) -> None:
        """Packs all files into an archive that the kernel unpacks."""
        with open(path, "wb") as file:
            subprocess.run("find . | busybox cpio -o -H newc", shell=True, cwd=self.root,
                           stdout=file, stderr=subprocess.DEVNULL, check=True)


def modules_of(folder: str, names: List[str]) -> Dict[str, str]:
    """Returns the paths of these modules and of those below them, the lowest first."""
    paths = {os.path.basename(it)[:-len(".ko")]: it
             for it in glob.glob(f"{folder}/**/*.ko", recursive=True)}
    found: Dict[str, str] = {}
    for name in names:
        if name not in found and name in paths:
            with open(paths[name], "rb") as file:
                below = re.search(rb"\0depends=([^\0]*)", file.read())
            lower = below[1].decode().split(",") if below else []
            found.update(modules_of(folder, [it for it in lower if it and it not in found]))
            found[name] = paths[name]
    return found


def put_amo(tree: Tree, worker: str) -> None:
    """Puts Python, amo_jobs and amo_worker into the guest, in the places that a release has."""
    ran = subprocess.run([PYTHON, "-I", "-S", f"{HERE}/guest/compiled.py", tree.root, TOP],
                         stdout=subprocess.PIPE, text=True, check=True)
    for path in ran.stdout.split():
        tree.put_program(path, path)
    tree.put_program(os.path.realpath(PYTHON), "bin/python3")
    for name in ("amo_jobs", "VERSION"):
        tree.put(f"{TOP}/{name}", f"amo/{name}")
    tree.put_program(worker, "amo/amo_worker")
    code = "import sys; sys.path.insert(0, sys.argv[1]); from amo_jobs.library import build;" \
           " build(sys.argv[2])"
    built = f"{tree.root}.calls"
    subprocess.run([PYTHON, "-I", "-S", "-c", code, f"{TOP}/python", built], check=True)
    tree.put_program(built, "amo/python/out/calls.so")


def put_own(tree: Tree) -> None:
    """Puts what this folder has for the guest."""
    for name, place in (("init", "init"), ("mistaken_worker", "amo/mistaken_worker"),
                        ("joined.py", "amo/joined.py")):
        tree.put(f"{HERE}/guest/{name}", place)
    tree.put(f"{TOP}/bench/worker_flock", "amo/worker_flock")
    options = "cc -std=gnu11 -O2 -Wall -Wextra -Werror".split()
    subprocess.run([*options, "-static", "-o", f"{tree.root}/bin/pay", f"{HERE}/guest/pay.c"],
                   check=True)
    os.symlink("pay", f"{tree.root}/bin/say")
    subprocess.run([*options, "-shared", "-fPIC", "-o", f"{tree.root}/amo/syncs.so",
                    f"{HERE}/guest/syncs.c"], check=True)


def put_parallel(tree: Tree) -> None:
    """Puts GNU parallel with Perl, and the modules that a small call of it loads."""
    code = 'END { print join("\\n", "", values %INC, @DynaLoader::dl_shared_objects) } do shift'
    with tempfile.TemporaryDirectory() as room:
        ran = subprocess.run(["perl", "-e", code, PARALLEL, "--resume", "--joblog", f"{room}/log",
                              "-j2", "true", ":::", "1"], stdout=subprocess.PIPE, text=True,
                             check=True, env={**os.environ, "HOME": room})
    for path in ran.stdout.split():
        tree.put_program(path, path)
    tree.put_program("/usr/bin/perl", "bin/perl")


def has_parallel() -> bool:
    return os.access(PARALLEL, os.X_OK) and shutil.which("perl") is not None


def put_busybox(tree: Tree) -> None:
    """Puts busybox with a link for each of its commands."""
    busybox = shutil.which("busybox") or ""
    tree.put_program(busybox, "bin/busybox")
    ran = subprocess.run([busybox, "--list"], stdout=subprocess.PIPE, text=True, check=True)
    for name in ran.stdout.split():
        if name != "busybox":
            os.symlink("busybox", f"{tree.root}/bin/{name}")
    os.symlink("../bin", f"{tree.root}/usr/bin")


def build(room: str, root: str, worker: str, with_parallel: bool) -> Guest:
    """Builds the guest in the folder `room`, with the newest kernel below `root`."""
    release = kernels(root)[-1]
    tree = Tree(f"{room}/guest")
    put_busybox(tree)
    put_amo(tree, worker)
    put_own(tree)
    if with_parallel:
        put_parallel(tree)
    modules = {}
    for fs, own in OF_FILE_SYSTEM.items():
        found = modules_of(f"{root}/lib/modules/{release}", [*BASE, *own])
        modules[fs] = list(found)
        for name, path in found.items():
            tree.put(path, f"modules/{name}.ko")
    tree.pack(f"{room}/archive")
    return Guest(f"{root}/boot/vmlinuz-{release}", f"{room}/archive", release, modules)
