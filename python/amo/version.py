"""The version of this package, and the folder of its programs."""

from __future__ import annotations

import os

_HERE = os.path.dirname(os.path.realpath(__file__))
# The programs with what they need, as in an unpacked release; in a clone, the clone.
PROGRAMS = f"{_HERE}/programs"
if not os.path.isdir(PROGRAMS):
    PROGRAMS = os.path.dirname(os.path.dirname(_HERE))

with open(f"{PROGRAMS}/VERSION", encoding="ascii") as _file:
    VERSION = _file.read().strip()
