#!/usr/bin/env python3
"""Does the steps of a release that need crates.txt and the toolchain, in this file's repository.

  parts.py cut              leaves of its crates those that a release is built of
  parts.py compile          proves the programs over the libraries that `rt ci` made, and compiles
                            them anew
  parts.py licences FOLDER  puts into FOLDER the licences of the toolchain's crates that are linked,
                            and LIST, which names each
"""

import os
import re
import shutil
import sys
import tempfile

sys.dont_write_bytecode = True
ROOT = os.path.dirname(os.path.dirname(os.path.dirname(os.path.realpath(__file__))))
sys.path.insert(0, f"{ROOT}/tools/modules")

import crates as listing

BUILT = ("amo", "amo_show", "amo_worker", "amo_c")
# The name of each licence, and words that stand in no other.
LICENCES = (("Apache-2.0", "Apache License"), ("MIT", "Permission is hereby granted, free of charge"))
HEAD = """\
The crates of the toolchain that are linked into the programs and into c/libamo_c.a, and the files of their licences, each beside
this one in a folder of the crate's name. If a crate has two files, its own page in the toolchain states which one holds for which
part. For crates with `none` the toolchain has no licence. It has none either for its C files, libos_c.a, which is linked into the
programs, and liblibc_c.a, which stands in c/ too, and for the files that its linker adds to each program, such as crti.o and
libgcc.a. The C library, libc.so.6, is not part of this: the programs load that of the machine.

"""


def cut(kit):
    every = listing.crates_of(kit, ROOT)
    kept = {it.name for top in every if top.name in BUILT for it in [*top.below(), top]}
    for name in set(os.listdir(f"{ROOT}/crates")) - kept:
        shutil.rmtree(f"{ROOT}/crates/{name}")
    with open(f"{ROOT}/crates.txt", encoding="utf-8") as held:
        rows = [it for it in held if re.match(r"\w*", it)[0] in kept]
    with open(f"{ROOT}/crates.txt", "w", encoding="utf-8") as file:
        file.writelines(rows)
    return 0


def compile_programs(kit):
    for crate in (it for it in listing.crates_of(kit, ROOT) if it.name in BUILT and it.is_program):
        with tempfile.TemporaryDirectory(prefix="compile-") as kept:
            if crate.build(f"{crate.folder}/out/{crate.name}", kept) != 0:
                return 1
    return 0


def linked(kit):
    """Returns the toolchain's crates below what is built, by name: those that crates name, and
    those that these stand on."""
    found = {"std"} | {name for top in listing.crates_of(kit, ROOT) if top.name in BUILT for it in [*top.below(), top] for name in it.of_kit}
    left = list(found)
    while left:
        with open(f"{kit}/rlibs/{left.pop()}.rlib/format", encoding="utf-8") as held:
            new = {it.split()[1] for it in held if it.startswith("dep ")} - found
        found |= new
        left += new
    return sorted(found)


def licence_of(file):
    with open(file, encoding="utf-8") as held:
        text = held.read()
    return next((name for name, words in LICENCES if words in text), "another")


def put_licences(kit, folder):
    rows = []
    for crate in linked(kit):
        files = sorted(it for it in os.listdir(f"{kit}/rattle/{crate}") if re.match(r"LICEN[CS]E|COPYING|NOTICE", it))
        for it in files:
            os.makedirs(f"{folder}/{crate}", exist_ok=True)
            shutil.copyfile(f"{kit}/rattle/{crate}/{it}", f"{folder}/{crate}/{it}")
        found = ", ".join(f"{licence_of(f'{kit}/rattle/{crate}/{it}')} ({it})" for it in files)
        rows.append(f"{crate}: {found or 'none'}\n")
    with open(f"{folder}/LIST", "w", encoding="utf-8") as file:
        file.writelines([HEAD, *rows])
    return 0


CALLS = {"cut": cut, "compile": compile_programs, "licences": put_licences}


def main(words):
    kit = listing.kit()
    if kit is None:
        sys.exit(f"parts: {listing.NO_KIT}")
    return CALLS[words[0]](kit, *words[1:])


if __name__ == "__main__":
    sys.exit(main(sys.argv[1:]))
