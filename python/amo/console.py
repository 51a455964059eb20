"""The programs of the package as commands: amo, amo_show, amo_worker, amo_jobs and amo_share."""

from __future__ import annotations

import os
import sys
from functools import partial

from amo.version import PROGRAMS


def amo_jobs() -> int:
    """Does what amo_jobs does, and returns its status."""
    _find_modules()
    from amo_jobs import cli
    return cli.main(sys.argv[1:])


def amo_share() -> int:
    """Does what amo_share does, and returns its status."""
    _find_modules()
    from amo_jobs import share
    return share.main(sys.argv[1:])


def _become(name: str) -> None:
    os.execv(f"{PROGRAMS}/{name}", [name, *sys.argv[1:]])


amo, amo_show, amo_worker = (partial(_become, it) for it in ("amo", "amo_show", "amo_worker"))


def _find_modules() -> None:
    sys.dont_write_bytecode = True
    sys.path.insert(0, f"{PROGRAMS}/python")
