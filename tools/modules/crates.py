"""The crates of the repository, as crates.txt lists them, and how rattle checks one."""

import functools
import os
import re
import shutil
import subprocess

PARTS = ("src", "specs", "proofs")
NO_KIT = ("`rt`: it is not on the path; install the toolchain, see 'Build and run' in"
          " README.md")


def kit():
    """Returns the toolchain's folder, or None where `rt` is not on the path."""
    found = shutil.which("rt")
    return found and os.path.dirname(os.path.dirname(os.path.realpath(found)))


def files_of(folder):
    """Yields the files of a crate that a check reads."""
    for part in PARTS:
        for place, folders, names in os.walk(f"{folder}/{part}"):
            folders.sort()
            yield from (f"{place}/{name}" for name in sorted(names))


@functools.lru_cache(maxsize=None)
def lines_of(folder, ending):
    """Returns how many lines the files with this ending have, as they were when this was first
    asked."""
    total = 0
    for file in files_of(folder):
        if file.endswith(ending):
            with open(file, "rb") as held:
                total += held.read().count(b"\n")
    return total


class Crate:
    """A crate with the crates that it stands on: those of the repository, and the names of the
    toolchain's."""

    def __init__(self, kit, root, name, is_static, deps, of_kit):
        self.kit, self.name, self.deps, self.of_kit = kit, name, deps, of_kit
        self.folder = f"{root}/crates/{name}"
        self.is_program = os.path.isfile(f"{self.folder}/src/main.rt")
        self.is_static = is_static
        self.rlib = f"{self.folder}/out/rlib/{name}.rlib"

    def below(self):
        """Returns the repository's crates below this one, each after those that it stands on."""
        found = []
        for dep in self.deps:
            found += [it for it in [*dep.below(), dep] if it not in found]
        return found

    def words(self, jobs):
        """Returns the words of each call of the prover on this crate, in a folder that holds its
        files, with so many processes."""
        words = ["--crate-name", self.name, "src/main.rt" if self.is_program else "src/lib.rt"]
        for name in ["std", *self.of_kit]:
            words += ["--extern", f"{name}={self.kit}/rlibs/{name}.rlib"]
        words += ["-L", f"dependency={self.kit}/rlibs"]
        for dep in self.deps:
            words += ["--extern", f"{dep.name}={dep.rlib}"]
        for dep in self.below():
            words += ["-L", f"dependency={os.path.dirname(dep.rlib)}"]
        words += ["--antt-project", f"{self.kit}/rattle/logic/antt-project.json"]
        return [*words, "--logic-built", f"{self.kit}/logic_built", "--jobs", str(jobs), "--links", f"{self.name}="]

    def check(self, kept):
        """Returns the command of a check of this crate over what earlier checks kept."""
        return [f"{self.kit}/bin/rattle", "check", *self.words(1), "--incremental", kept]

    def make(self, jobs):
        """Returns the command that proves this library from nothing, and writes it with all that is
        stated and no proof of it: so whoever stands on it reads less."""
        return [f"{self.kit}/bin/rattle", "build", *self.words(jobs), "--statements", "-o", self.rlib]

    def build(self, made, kept):
        """Proves the crate over the libraries that are made, and compiles it: a program, which is
        linked, or a static library. It makes it next to its place, so that a half-written one is
        never there. Returns the status."""
        compiled = f"{made}.new.o" if self.is_program else f"{made}.new"
        words = [f"{self.kit}/bin/rattle", "build", *self.words(1), "--incremental", kept]
        words += ["--crate-type", "staticlib"] * self.is_static
        words += ["--toolchain", f"{self.kit}/toolchain", "--backend", "llvm", "-o", compiled]
        status = subprocess.run(words, cwd=self.folder, stdin=subprocess.DEVNULL).returncode
        if status == 0 and self.is_program:
            words = ["--target", "x86_64-unknown-linux-gnu", "--toolchain", f"{self.kit}/toolchain", "-o", f"{made}.new", compiled]
            words += [f"{self.kit}/c/libos_c.a", f"{self.kit}/c/liblibc_c.a"]
            status = subprocess.run([f"{self.kit}/bin/rattle-link", *words], stdin=subprocess.DEVNULL).returncode
            os.remove(compiled)
        if status == 0:
            os.replace(f"{made}.new", made)
        return status

    def size(self):
        return sum(lines_of(self.folder, it) for it in (".rt", ".antt"))

    def work(self):
        """Returns the work of a check next to those of other crates, in lines of code, as measured.
        Lines of proof count for little. The first use of a large library of the toolchain's counts
        as much as hundreds of lines."""
        return lines_of(self.folder, ".rt") + self.loaded(self.of_kit) // 200_000

    def loaded(self, names):
        """Returns the bytes of these libraries of the toolchain's."""
        archives = [f"{self.kit}/rlibs/{it}.rlib/toolchain/checked.a" for it in names]
        return sum(os.path.getsize(it) for it in archives if os.path.isfile(it))

    def need(self):
        """Returns the most memory that a check is likely to take, in bytes, by lines of code and of
        proof, as measured."""
        own = 1_000_000 * lines_of(self.folder, ".rt") + 200_000 * lines_of(self.folder, ".antt")
        below = 80_000 * sum(lines_of(it.folder, ".rt") for it in self.below())
        loaded = self.loaded({name for it in [self, *self.below()] for name in it.of_kit})
        return 1_000_000_000 + own + below + min(5 * loaded, 2_500_000_000)

    def is_current(self):
        """Returns whether the library that stands in out/ was written after each file that it was
        made of had come there, and after the libraries below it. The folder's time is that of its
        making; a file's that at which the system saw it."""
        try:
            made = time_of(self.rlib)
            return os.path.isfile(f"{self.rlib}/format") and all(os.stat(it).st_ctime_ns < made for it in files_of(self.folder))
        except OSError:
            return False

    def is_made(self):
        """Returns whether the library is current, and so are those below it, and none is older than
        one that it stands on."""
        return self.is_current() and all(it.is_made() and time_of(it.rlib) <= time_of(self.rlib) for it in self.deps)

    def is_over(self):
        """Returns whether each library below is made."""
        return all(it.is_made() for it in self.deps)

    def is_stale(self):
        """Returns whether there is a library, and a source has changed since."""
        return os.path.isdir(self.rlib) and not self.is_current()

    def is_kept(self):
        """Returns whether `rt lib` made the library, so that `rt` takes it as made."""
        return os.path.isfile(f"{self.folder}/out/rlib/stamp")

    def has_kept(self):
        """Returns whether proofs of the crate were kept, from which the next ones go on."""
        return os.path.isdir(f"{self.folder}/out/incremental")


def copy_of(kept, to):
    """Returns a copy of the files that a check kept. A check replaces a file there, and writes into
    none. So a link does for a proof, if the copy is on the same file system."""

    def copy(one, other):
        try:
            (os.link if one.endswith(".oantt") else shutil.copy2)(one, other)
        except OSError:
            shutil.copy2(one, other)

    return shutil.copytree(kept, to, copy_function=copy)


def time_of(file):
    return os.stat(file).st_mtime_ns


def free_memory():
    with open("/proc/meminfo", encoding="ascii") as held:
        return next(1024 * int(it.split()[1]) for it in held if it.startswith("MemAvailable:"))


def crates_of(kit, root):
    """Returns all crates of crates.txt, lowest first."""
    with open(f"{root}/crates.txt", encoding="utf-8") as held:
        rows = [it.partition("#")[0].strip() for it in held]
    listed, static = {}, set()
    for row in filter(None, rows):
        head, _, uses = row.partition(":")
        name, *kinds = head.split()
        listed[name] = re.split(r"[\s,]+", uses.strip()) if uses.strip() else []
        if "staticlib" in kinds:
            static.add(name)
    made = {}

    def make(name):
        if name not in made:
            deps = [make(it) for it in listed[name] if it in listed]
            made[name] = Crate(kit, root, name, name in static, deps, [it for it in listed[name] if it not in listed])
        return made[name]

    return sorted(map(make, listed), key=lambda it: len(it.below()))
