#!/usr/bin/env python3
"""Proves and builds the C library, crates/amo_c/out/libamo_c.a, unless it is current.

  archive.py

It is current if it is newer than its sources and the libraries below it. The libraries below are
taken as `rt ci` or `tools/build` left them, and made if one is missing or older than its sources.
`rt lib` would prove those of `rt ci` again, and take them away meanwhile from other processes that
read them.
"""

import os
import subprocess
import sys
import tempfile

sys.dont_write_bytecode = True
ROOT = os.path.dirname(os.path.dirname(os.path.dirname(os.path.realpath(__file__))))
sys.path.insert(0, f"{ROOT}/tools/modules")

import crates as listing


def is_current(crate, archive):
    if not os.path.isfile(archive) or not crate.is_over():
        return False
    made = listing.time_of(archive)
    sources = all(os.stat(it).st_ctime_ns < made for it in listing.files_of(crate.folder))
    return sources and all(listing.time_of(it.rlib) < made for it in crate.below())


def main():
    kit = listing.kit()
    if kit is None:
        sys.exit(f"archive: {listing.NO_KIT}")
    crate = next(it for it in listing.crates_of(kit, ROOT) if it.name == "amo_c")
    archive = f"{crate.folder}/out/lib{crate.name}.a"
    if is_current(crate, archive):
        return 0
    if not crate.is_over():
        status = subprocess.run([f"{ROOT}/tools/build", "--once", *[it.name for it in crate.deps]], stdin=subprocess.DEVNULL).returncode
        if status != 0:
            return status
    os.makedirs(os.path.dirname(archive), exist_ok=True)
    with tempfile.TemporaryDirectory(prefix="archive-") as kept:
        return crate.build(archive, kept)


if __name__ == "__main__":
    sys.exit(main())
