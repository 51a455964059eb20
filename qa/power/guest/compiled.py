"""Puts Python's library, amo_jobs and the tests' own worker, compiled, below the folder ROOT.
Prints the libraries in C that they need.

  compiled.py ROOT TOP

The guest's own Python must run this, so that the compiled files fit it.
"""

import importlib
import os
import pkgutil
import py_compile
import sys

# Modules of Python's library that are imported only when they are needed.
LAZY = ("encodings.utf_8 encodings.latin_1 encodings.ascii traceback json.decoder hashlib subprocess"
        " tempfile").split()
MODE = py_compile.PycInvalidationMode.UNCHECKED_HASH


def put(source: str, path: str) -> None:
    """Compiles a module to this path."""
    os.makedirs(os.path.dirname(path), exist_ok=True)
    py_compile.compile(source, f"{path}c", doraise=True, invalidation_mode=MODE)


def main(root: str, top: str) -> None:
    sys.path[:0] = [f"{top}/python", f"{top}/tools/worker"]
    own = [f"amo_jobs.{it.name}" for it in pkgutil.iter_modules([f"{top}/python/amo_jobs"])]
    for name in [*own, "stand_in", *LAZY]:
        importlib.import_module(name)
    for module in list(sys.modules.values()):
        path = getattr(module, "__file__", None) or ""
        if path.startswith(f"{top}/"):
            put(path, f"{root}/amo{path[len(top):]}")
        elif path.endswith(".py"):
            put(path, root + path)
        elif path and "_hashlib" not in path:  # it is slow to load, and hashlib does without
            print(path)


if __name__ == "__main__":
    main(*sys.argv[1:])
