"""Makes the packages of python/ importable in a test, which imports this first."""

import os
import sys
import time

sys.dont_write_bytecode = True
ROOT = os.path.dirname(os.path.dirname(os.path.dirname(os.path.realpath(__file__))))
sys.path.insert(0, f"{ROOT}/python")
SECONDS = 600  # for a loaded machine


def until(is_so):
    """Waits for something, far longer than a loaded machine needs for it."""
    end = time.monotonic() + SECONDS
    while not is_so():
        if time.monotonic() > end:
            raise AssertionError("it never is so")
        time.sleep(0.005)
