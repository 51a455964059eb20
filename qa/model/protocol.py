"""The protocol of a run as a whole. The search is the C++ program in the folder `protocol`.

Runners, workers, commands, what commands leave behind, an operator, kills, and power cuts are
interleaved in every way. Workers don't ask for clearance here, so locks, boot id and registers must
suffice. The program also looks for states from which no way without faults leads to the end.
"""

from __future__ import annotations

import functools
import os
import shutil
import subprocess
import tempfile
from typing import List, NamedTuple, Optional

from search import Case, Found, control, design

QUESTION = "Is a line performed at most once, and never after it was listed as in doubt?"
SOURCE = os.path.join(os.path.dirname(os.path.realpath(__file__)), "protocol", "protocol.cpp")
COMPILER = "c++"


class Bounds(NamedTuple):
    """The limits of a search. A number that is None is no limit."""
    workers: int = 2
    lines: int = 1
    intents: int = 4  # for which a journal has room
    kills: Optional[int] = None
    cuts: Optional[int] = None
    not_done_answers: int = 1  # of operators
    unbegun_answers: int = 1  # of runners
    untouched_ends: int = 0  # of commands that report no effect
    round_workers: int = 2  # most of one round

    def words(self) -> List[str]:
        """Returns the words that give these bounds to the program."""
        compiled_in = ("workers", "lines", "intents")
        return [f"{name.replace('_', '-')}={value}" for name, value in self._asdict().items()
                if value is not None and name not in compiled_in]


class Broken(Exception):
    """The program can't be compiled, or didn't come to its end."""


def missing() -> Optional[str]:
    """Returns what has to be installed; None if nothing is missing."""
    if shutil.which(COMPILER):
        return None
    return (f"compiler `{COMPILER}`: it is missing, so the protocol isn't searched; install a C++"
            " compiler, on Debian with: apt-get install g++")


@functools.lru_cache(maxsize=None)
def room() -> tempfile.TemporaryDirectory:
    """Returns a folder for programs, which goes when this process ends."""
    return tempfile.TemporaryDirectory(prefix="qa-model-")


@functools.lru_cache(maxsize=None)
def compiled(workers: int, lines: int, intents: int) -> str:
    """Compiles the program, and returns its path."""
    path = f"{room().name}/protocol-{workers}-{lines}-{intents}"
    sizes = [f"-DMODEL_WORKERS={workers}", f"-DMODEL_LINES={lines}", f"-DMODEL_INTENTS={intents}"]
    if subprocess.run([COMPILER, "-O2", "-std=c++17", *sizes, "-o", path, SOURCE]).returncode:
        raise Broken(f"program `{SOURCE}`: it doesn't compile; correct what `{COMPILER}` reports")
    return path


def found_in(text: str) -> Found:
    """Returns what the program has printed: lines of a name and its value."""
    lines = [line.partition(" ") for line in text.splitlines()]
    values = {name: value for name, _, value in lines}
    trace = tuple(value for name, _, value in lines if name == "step")
    return Found(int(values["states"]), values["exhausted"] == "yes", values.get("violation", ""),
                 trace)


def find(words: str, bounds: Bounds) -> Found:
    """Runs the program with these words, within these bounds."""
    program = compiled(bounds.workers, bounds.lines, bounds.intents)
    command = [program, *words.split(), *bounds.words()]
    ran = subprocess.run(command, stdout=subprocess.PIPE, text=True)
    if ran.returncode not in (0, 1):
        raise Broken(f"program `{program}`: it ended with {ran.returncode}; see its message, or"
                     " give it more memory")
    return found_in(ran.stdout)


CALM, KILL, CUT = Bounds(kills=0, cuts=0), Bounds(kills=1, cuts=0), Bounds(kills=0, cuts=1)
KILL_ALONE = KILL._replace(not_done_answers=0, unbegun_answers=0)
TWO_LINES = KILL_ALONE._replace(lines=2)
# Each control with the rule that is left out, and the faults that its violation needs.
CONTROLS = [
    ("folder-never-synced", "nobody syncs the folder of a journal that was made", CUT),
    ("maker-syncs-folder", "only the maker of a journal syncs its folder",
     KILL_ALONE._replace(cuts=1)),
    ("round-not-exclusive", "a round is begun without the round's lock", CALM),
    ("shared-lock-late", "the round's lock is taken after header and registers were read", CALM),
    ("pending-opens", "an attempt without an outcome leaves its line open", CALM),
    ("one-opened-opens", "one opened attempt opens a line, whatever the others are", CALM),
    ("first-journal-only", "a round is begun from journal 1 alone", CALM),
    ("no-runner-lock", "a doubt is listed without the runner's lock", KILL),
    ("no-journal-lock", "a doubt is listed without the journal's lock", KILL),
    ("command-without-lock", "a command doesn't get its lock", CALM),
    ("command-lock-unasked", "nobody tries the command's lock", KILL),
    ("one-descriptor", "a process that a command leaves behind doesn't have its lock", CALM),
    ("old-handle", "a runner answers when the command itself ends", CALM),
    ("no-boot-id", "registers of an earlier boot are used", CUT),
    ("seat-by-number", "a seat follows from the worker's number alone", CALM),
    ("one-write", "an append is one write, which may be torn", CUT),
    ("end-not-cut", "recovery leaves a cut-off append", KILL),
    ("lock-file", "a lock file, which its holder removes, guards a number", KILL_ALONE),
    ("no-guard", "nothing guards a number", KILL),
    ("perform-before-sync", "a line is handed over before its intent is synced", CUT),
    ("answer-names-line", "an answer names the line, and not the attempt", CALM),
    ("any-attempt-answered", "an attempt is answered that isn't final", CALM),
    ("listed-unrecovered", "an attempt is listed before its journal is recovered",
     KILL_ALONE._replace(kills=2, cuts=1)),
    ("dead-worker-heard", "a runner doesn't drop the words of a dead worker", KILL),
]


def designs() -> List[Case]:
    """Returns the searches that must find nothing."""
    return [
        design("design", "all rules", find, "symmetry", KILL, Bounds()),
        design("power-cut", "all rules", find, "symmetry", CUT, Bounds(kills=1, cuts=1)),
        design("failed-answered", "a line whose command failed may be answered", find,
               "symmetry failed", CUT, Bounds()),
        design("untouched-again", "operators begin lines again whose commands had no effect", find,
               "symmetry", CUT._replace(untouched_ends=1),
               Bounds(kills=1, cuts=1, untouched_ends=1)),
        design("two-lines", "two lines in a round", find, "symmetry",
               TWO_LINES._replace(kills=0), TWO_LINES._replace(cuts=1)),
        design("one-seat", "two lines in a round of one worker", find, "symmetry",
               TWO_LINES._replace(kills=0, round_workers=1),
               TWO_LINES._replace(cuts=1, round_workers=1)),
        design("three-workers", "three workers", find, "symmetry", None,
               KILL_ALONE._replace(workers=3, cuts=1)),
        design("leftovers-stay", "a process that a command leaves behind need not end", find,
               "symmetry immortal", TWO_LINES._replace(kills=0), TWO_LINES),
    ]


def cases() -> List[Case]:
    """Returns the designs and the controls."""
    waits = control("runner-waits", "a runner waits until nothing of a command is left", find,
                    "symmetry immortal runner-waits", TWO_LINES)
    controls = [control(name, what, find, f"safety-only {name}", bounds)
                for name, what, bounds in CONTROLS]
    return designs() + controls + [waits]
