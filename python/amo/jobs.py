"""Runs a command for each line of a list, at most once, by the program amo_jobs. Begin with `run`.

>>> import tempfile
>>> folder = tempfile.TemporaryDirectory(dir=".")
>>> tonight = f"{folder.name}/tonight.txt"
>>> with open(tonight, "w") as file:
...     _ = file.write("rent 700 to Ada\\nrent 650 to Ben\\n")
>>> run(tonight, ["echo", "pay", "{}"], workers=2, report=lambda line: None)
<Ended.DONE: 0>
>>> status(tonight).done, doubts(tonight)
(2, [])

The crew of `run` is a process of its own, which keeps a journal on the disk. It goes on if this
process is killed. `programs/docs/guide/commands.md` in this package describes the program, which is
tested; the logic of its workers is proved.
"""

from __future__ import annotations

import enum
import json
import os
import signal
import subprocess
import sys
from typing import Any, Callable, Collection, Dict, List, NamedTuple, Optional, Sequence, Union

from amo.version import PROGRAMS

__all__ = ["run", "Ended", "Refused", "status", "Status", "Attempt", "doubts", "Doubt", "answer",
           "STORES"]
Path = Union[str, "os.PathLike[str]"]

STORES = f"{PROGRAMS}/stores"  # the claim programs of amo_share


class Ended(enum.IntEnum):
    """How a crew has ended."""

    DONE = 0  # each line is done
    FAILED = 1  # no line is open, and some failed or stand untouched
    DOUBTFUL = 2  # some lines are in doubt or running
    STOPPED = 69  # it was stopped in order, and lines are open


class Refused(RuntimeError):
    """A call that amo_jobs refuses, or can't perform. The text is its message, and `status` the
    status by which it ended."""

    def __init__(self, status: int, text: str):
        super().__init__(text or f"amo_jobs: it ended with status {status}")
        self.status = status

    def __reduce__(self) -> tuple[Any, ...]:  # a process of a pool sends it
        return type(self), (self.status, str(self))


class Attempt(NamedTuple):
    """An attempt at a line, which is in doubt, running or untouched."""

    name: str  # such as 3.17: worker 3, its 17th attempt
    line: int  # from 1
    text: str  # of the line
    state: str  # doubt, running or untouched


class Status(NamedTuple):
    """How the lines of a list stand."""

    lines: int
    done: int
    failed: int
    doubt: int
    running: int
    untouched: int
    open: int
    alive: List[int]  # the numbers of the workers that are alive
    attempts: List[Attempt]  # those in doubt, running or untouched


class Doubt(NamedTuple):
    """An attempt that is in doubt for good: nothing of its command runs on this machine any more.
    **A request that it has sent may still arrive.** Find out with the receiver what became of it,
    before you give the answer."""

    name: str  # such as 3.17
    line: int  # from 1
    text: str  # of the line
    started: Optional[int]  # seconds since 1970, if that is known
    ended: Optional[int]  # seconds since 1970, if that is known
    age: Optional[int]  # seconds since it ended; None if that isn't known, or ahead of the clock


def print_error(line: str) -> None:
    """Prints a line on standard error."""
    print(line, file=sys.stderr, flush=True)


def run(jobs: Path, command: Sequence[str], *, workers: int, folder: Optional[Path] = None,
        timeout: Optional[float] = None, untouched: Collection[int] = (),
        options: Sequence[str] = (), report: Callable[[str], None] = print_error) -> Ended:
    """Runs the command for each open line of the list `jobs`, by so many workers. Returns when the
    crew has ended.

    The command gets the text of its line in place of each word {}, or else as its last word.
    `folder` is the folder of the run, `timeout` the seconds that a command may take, and
    `untouched` the statuses by which it reports that it did nothing. `options` are more options of
    `amo_jobs crew`. `report` gets each line that the crew reports.

    An interrupt (Ctrl-C) has the crew start no further command; the next one is passed on to the
    commands. Once the crew has ended, KeyboardInterrupt is raised. Raises Refused if the crew is
    refused, and OSError.
    """
    words = ["--workers", str(workers), *_folder(folder), *options]
    words += ["--timeout", str(timeout)] if timeout is not None else []
    words += ["--untouched", ",".join(map(str, untouched))] if untouched else []
    with subprocess.Popen([*_program("crew"), *words, _list(jobs), "--", *command], text=True,
                          errors="replace", stdin=subprocess.DEVNULL, stdout=subprocess.DEVNULL,
                          stderr=subprocess.PIPE, start_new_session=True) as crew:
        last = _reported(crew, report)
    if crew.returncode not in list(Ended):
        raise Refused(crew.returncode, last)
    return Ended(crew.returncode)


def status(jobs: Path, *, folder: Optional[Path] = None, options: Sequence[str] = ()) -> Status:
    """Returns how the lines of a list stand. Raises Refused and OSError."""
    found = json.loads(_called("status", ["--json", *_folder(folder), *options, _list(jobs)],
                               (0, 1, 2, 75)))
    attempts = [Attempt(it["intent"], it["line"], it["text"], it["state"])
                for it in found["intents"]]
    counts = {it: found[it] for it in Status._fields if it not in ("attempts",)}
    return Status(**counts, attempts=attempts)


def doubts(jobs: Path, *, folder: Optional[Path] = None,
           options: Sequence[str] = ()) -> List[Doubt]:
    """Returns the attempts that are in doubt for good. Raises Refused and OSError."""
    found = json.loads(_called("doubts", ["--json", *_folder(folder), *options, _list(jobs)]))
    return [Doubt(it["intent"], it["line"], it["text"], it["time"], it["ended"], it["age"])
            for it in found]


def answer(jobs: Path, doubt: Union[Doubt, Attempt], done: bool, *, quiet: Optional[int] = None,
           now: bool = False, folder: Optional[Path] = None, options: Sequence[str] = ()) -> None:
    """Records what you found out about an attempt: its line was performed, or it wasn't and is open
    again.

    If it wasn't, the attempt must have ended `quiet` seconds ago (60 if you don't give it), since a
    request may arrive late; `now` doesn't wait. Raises Refused if the answer comes too early, with
    the status 75, or isn't taken; OSError; and TypeError if `done` is neither True nor False.
    """
    if not isinstance(done, bool):  # None, from a lookup that found nothing, is no answer
        raise TypeError(f"done `{done}`: it isn't an answer; give True or False once you know")
    words = [*_folder(folder), *options, *(["--now"] if now else [])]
    words += ["--quiet", str(quiet)] if quiet is not None else []
    _called("answer", [*words, "--", _list(jobs), doubt.name, str(doubt.line), doubt.text,
                       "done" if done else "not-done"])


def _program(what: str) -> List[str]:
    return [sys.executable, "-I", "-S", f"{PROGRAMS}/amo_jobs", what]


def _folder(folder: Optional[Path]) -> List[str]:
    return ["--run", os.path.abspath(folder)] if folder is not None else []


def _list(jobs: Path) -> str:
    return os.path.abspath(jobs)


def _called(what: str, words: List[str], good: Collection[int] = (0,)) -> str:
    """Returns what a command of amo_jobs prints. Raises Refused for each other status."""
    ended = subprocess.run([*_program(what), *words], capture_output=True, text=True,
                           errors="replace", stdin=subprocess.DEVNULL, start_new_session=True)
    if ended.returncode not in good:
        raise Refused(ended.returncode, ended.stderr.strip())
    return ended.stdout


def _reported(crew: "subprocess.Popen[str]", report: Callable[[str], None]) -> str:
    """Waits until the crew has ended, and hands on what it reports and each interrupt. Returns the
    last line. Raises KeyboardInterrupt at the end if there was one."""
    last, interrupts = "", 0
    while crew.returncode is None:
        try:
            for line in crew.stderr or ():
                last = line.rstrip("\n")
                report(last)
            crew.wait()
        except KeyboardInterrupt:
            interrupts += 1
            crew.send_signal(signal.SIGINT)
    if interrupts:
        raise KeyboardInterrupt
    return last
