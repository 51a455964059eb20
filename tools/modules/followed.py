"""Runs the commands of a page in a folder of its own. Begin with `room` and `wrong`.

The folder has links to the programs and to the folders of the repository that pages name, and
copies of what the reader of the page is assumed to have (tests/pages): a list, and commands.
"""

from __future__ import annotations

import os
import re
import shutil
import signal
import subprocess
import sys
import tempfile
from contextlib import contextmanager, suppress
from typing import Iterator, NamedTuple, Optional

ROOT = os.path.dirname(os.path.dirname(os.path.dirname(os.path.realpath(__file__))))
sys.path[:0] = [f"{ROOT}/python", f"{ROOT}/tools/releases"]

from amo_jobs import calls
from blocks import Step
from follow import fits

LINKED = ("amo", "amo_jobs", "amo_share", "amo_show", "amo_worker", "crates", "examples", "stores",
          "tools")
# Each program is built by its first call, which prints that.
FIRST = ("./amo check < examples/plans/three_jobs.toml",
         "./amo_show explain < examples/plans/three_jobs.toml", "./amo_worker --help",
         "cd python && python3 -c 'from amo_jobs.library import library; library()'")
LONGEST = 600  # seconds of a command
# A crew prints such a line at once, and then one every half a minute.
PROGRESS = re.compile(r"amo_jobs: \d+ of \d+ lines, \d+ running")


class Ended(NamedTuple):
    """What a command has printed, and its status."""

    printed: str
    status: int


def build() -> None:
    """Has the programs built, if they aren't."""
    for it in FIRST:
        subprocess.run(["bash", "-c", it], cwd=ROOT, stdin=subprocess.DEVNULL,
                       stdout=subprocess.DEVNULL)


@contextmanager
def room() -> Iterator[str]:
    """Makes the folder of a page, and removes it at the end."""
    calls.become_subreaper()
    with tempfile.TemporaryDirectory() as folder:
        shutil.copytree(f"{ROOT}/tests/pages", folder, dirs_exist_ok=True)
        for it in LINKED:
            os.symlink(f"{ROOT}/{it}", f"{folder}/{it}")
        yield folder


def ended(command: str, folder: str) -> Ended:
    """Runs a command of bash in a folder, and waits until all that it has started is gone."""
    with tempfile.TemporaryFile() as output:
        process = subprocess.Popen(["bash", "-c", command], cwd=folder, start_new_session=True,
                                   stdin=subprocess.DEVNULL, stdout=output, stderr=output)
        try:
            status = process.wait(LONGEST)
        except subprocess.TimeoutExpired:
            os.killpg(process.pid, signal.SIGKILL)
            process.wait()
            return Ended(f"pages: it runs for longer than {LONGEST} seconds\n", -signal.SIGKILL)
        with suppress(ChildProcessError):  # raised once there is no child
            while True:
                os.wait()
        output.seek(0)
        printed = output.read().decode("utf-8", "replace")
    # as the shell of a terminal reports it
    return Ended(printed + ("Killed\n" if status == -signal.SIGKILL else ""), status)


def lasting(printed: str) -> str:
    """Returns what a command has printed, of the lines on a crew's progress the first one alone."""
    kept: list[str] = []
    for line in printed.splitlines(True):
        if not (PROGRESS.match(line) and any(map(PROGRESS.match, kept))):
            kept.append(line)
    return "".join(kept)


def wrong(step: Step, folder: str) -> Optional[str]:
    """Runs a command of a page in a folder. Returns what differs from the page; None if nothing
    does."""
    # `look` proves nothing, and prints what `amo` prints
    found = ended(re.sub(r"^\./look\b", "./amo", step.command), folder)
    printed = lasting(found.printed)
    if step.printed is not None and not fits(step.printed, printed):
        return f"{step.command}: it prints\n{printed}"
    if step.status is not None and found.status != step.status:
        return f"{step.command}: it ends with {found.status}, and prints\n{printed}"
    return None
