"""How a process of multiprocessing has what its parent has: by a fork, or by imports of its own."""

from __future__ import annotations

import multiprocessing
import os
import sys

_IMPORTER = os.getpid()  # a child that is forked later has another number


def is_starting() -> bool:
    """Returns whether multiprocessing starts this process now, and imports its modules anew."""
    return bool(getattr(multiprocessing.current_process(), "_inheriting", False))


def is_forked() -> bool:
    """Returns whether the modules of this process were imported before it was forked."""
    return os.getpid() != _IMPORTER and sys.modules["__main__"].__name__ != "__mp_main__"


def is_variable(*objects: object) -> bool:
    """Returns whether this is a process of multiprocessing, and one of its modules has one of these
    objects as a variable."""
    if multiprocessing.parent_process() is None and not is_starting():
        return False
    return any(value is it for module in list(sys.modules.values()) for it in objects
               for value in list(getattr(module, "__dict__", {}).values()))
