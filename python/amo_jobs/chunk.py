"""A chunk of a shared list, and its folder on this machine. Begin with `Chunk.take`."""

from __future__ import annotations

import fcntl
import json
import os
import re
import shlex
import shutil
import subprocess
import sys
import time
from contextlib import suppress
from dataclasses import dataclass, field
from typing import Any, Dict, List, Optional, Tuple

from amo_jobs.files import content, place, sync_folder
from amo_jobs.messages import End, refused, visible
from amo_jobs.status import counted, status_of
from amo_jobs.statuses import Status
from amo_jobs.worker import HERE, Program

SHORTEST, LONGEST, PATIENCE = 0.1, 4.0, 20.0  # seconds
GET_GENERATION = 0x80087601  # FS_IOC_GETVERSION of ioctl
# The mark of a chunk's list. It names no run, so no crew that is started by hand takes the list.
NO_RUN = "whichever machine has this chunk,\nand amo_share alone works it"


@dataclass
class Sharing:
    """The settings of one call of amo_share, and what it has found. A value here is the default of
    its option."""

    is_status: bool = False
    name: str = ""  # the list's name in the store
    claim: List[str] = field(default_factory=list)  # the claim program
    chunk: int = 0  # lines of a chunk
    workers: int = 0
    crew: List[str] = field(default_factory=list)  # more options for amo_jobs
    metrics: str = ""  # a file of numbers
    moved: bool = False
    machine_id: str = "/etc/machine-id"
    jobs: str = ""
    run: str = ""
    worker_program: str = ""
    file_system: str = ""
    command: List[str] = field(default_factory=list)
    texts: List[bytes] = field(default_factory=list)  # the lines of the list
    lines: int = 0  # how many there are
    digest: str = ""  # of the list and the size of a chunk
    machine: str = ""  # the id of this machine
    lock: Optional[int] = None  # the handle of the folder's lock
    signals: List[int] = field(default_factory=list)  # those that came


def tell(text: str) -> None:
    """Prints a message, unless it is empty."""
    with suppress(OSError):
        os.write(2, f"amo_share: {visible(text)}\n".encode("utf-8", "replace") if text else b"")


def pause(sharing: Sharing, seconds: float) -> float:
    """Waits for some seconds, and returns how long to wait the next time. Ends the program if a
    signal came."""
    time.sleep(seconds)
    if sharing.signals:
        raise End(Status.LEFT, "stopped by a signal: chunks are left; start it again to go on")
    return min(2 * seconds, LONGEST)


def ask(sharing: Sharing, verb: str, *words: str) -> Optional[List[str]]:
    """Returns the mark and the digest that the claim program prints; an empty list if it prints
    nothing; None if it ends in any other way, which it reports itself."""
    with suppress(subprocess.TimeoutExpired):
        ended = subprocess.run([*sharing.claim, verb, sharing.name, *words], timeout=PATIENCE,
                               stdin=subprocess.DEVNULL, stdout=subprocess.PIPE,
                               start_new_session=True)
        if ended.returncode == 0 and re.fullmatch(rb"([!-~]+ [0-9a-f]{64}\n)?", ended.stdout):
            return ended.stdout.decode().split()
    return None


def new_mark() -> str:
    """Returns a new mark: the machine's name, and random digits."""
    name = re.sub("[^A-Za-z0-9-]", "-", os.uname().nodename)[:40]
    return f"{name}.{os.urandom(16).hex()}"


def generation_of(path: str) -> int:
    """Returns the generation of a file; -1 if the file system shows none. No change of the file
    changes it, and a later file that gets the same number has another one. Raises OSError."""
    with open(path, "rb") as file, suppress(OSError):
        return int.from_bytes(fcntl.ioctl(file, GET_GENERATION, bytes(8))[:4], "little")
    return -1


class Chunk:
    """A chunk, and its folder here."""

    def __init__(self, sharing: Sharing, program: Program, number: int):
        self.sharing, self.program, self.number = sharing, program, number
        self.folder = f"{sharing.run}/chunk.{number}"
        self.first = (number - 1) * sharing.chunk + 1
        self.last = min(number * sharing.chunk, sharing.lines)
        self.title = f"chunk {number}, lines {self.first} to {self.last}"

    def note(self, name: str = "mark") -> Dict[str, Any]:
        """Returns what a note in the folder holds: `mark` is the folder's own mark, and `owner` the
        mark that has the chunk."""
        return content(f"{self.folder}/{name}", True) or {}

    def make(self) -> None:
        """Makes the chunk's folder under another name, with its mark last, and renames it. So a
        folder that exists has its lines, its run and its mark, and all of them are on the disk
        before the store is asked. A folder that was left half made was never asked for."""
        sharing, half = self.sharing, f"{self.folder}.new"
        shutil.rmtree(half, ignore_errors=True)
        os.mkdir(half, 0o700)
        place(f"{half}/list.run-is", NO_RUN)
        place(f"{half}/list", os.fsdecode(b"\n".join(sharing.texts[self.first - 1:self.last])))
        self.program.call("door", half, "--workers", str(sharing.workers), "--into", f"{half}/list")
        self.put_mark(half, new_mark())
        os.rename(half, self.folder)
        sync_folder(sharing.run)

    def put_mark(self, folder: str, mark: str) -> None:
        """Writes the mark, and where it was made: on which machine, and in a folder in which file,
        whose number and generation no copy has."""
        where = {"machine": self.sharing.machine, "file": os.stat(f"{folder}/list").st_ino,
                 "generation": generation_of(f"{folder}/list")}
        chunk = [self.number, self.sharing.digest]
        place(f"{folder}/mark", json.dumps({"mark": mark, "chunk": chunk, **where}))

    def id(self) -> str:
        """Returns the id of the chunk's run, which amo_jobs compares with that of the folder."""
        found: str = content(f"{self.folder}/id") or ""
        if not found:
            raise refused(f"folder `{self.folder}`: it has no `id`, so amo 0.1.0 made it, or a file"
                          " of it is missing; go on with that version, or put the file back")
        return found

    def check(self) -> None:
        """Refuses a folder that was made on another machine, or that is a copy: a chunk that is run
        in two places is performed twice."""
        it, sharing, path = self.note(), self.sharing, f"{self.folder}/list"
        self.id()
        if it.get("chunk") != [self.number, sharing.digest]:
            raise refused(f"folder `{self.folder}`: it has no mark of this chunk; leave it as it"
                          " is, and find out which list it belongs to")
        known = {it.get("generation", -1), generation_of(path)} - {-1}
        if len(known) > 1 or [it["machine"], it["file"]] != [sharing.machine, os.stat(path).st_ino]:
            if not sharing.moved:
                raise refused(f"folder `{self.folder}`: it was made elsewhere, or is a copy or a"
                              " backup, which would run lines again; if it is the only one:"
                              " --moved")
            self.put_mark(self.folder, it["mark"])

    def take(self) -> bool:
        """Takes the chunk, unless another machine has it; returns whether it is this machine's, as
        it was recorded, or as the store answers."""
        if os.path.isdir(self.folder):
            self.check()  # once more, since it may have come here after the start
        else:
            self.make()
        mark: str = self.note()["mark"]
        if not self.note("owner"):
            place(f"{self.folder}/owner", json.dumps({"mark": self.claim(mark)}))
        return bool(self.note("owner")["mark"] == mark)

    def claim(self, mark: str) -> str:
        """Returns the mark that has the chunk in the store, which is this one if it was free. The
        store is asked until it answers, always by the mark that is on the disk here, since an
        answer that was lost may have been a yes."""
        sharing, seconds = self.sharing, SHORTEST
        while not (found := ask(sharing, "claim", str(self.number), mark, sharing.digest)):
            if seconds == SHORTEST:
                tell(f"{self.title}: the store doesn't answer; check it (it is asked again until it"
                     " answers)")
            seconds = pause(sharing, seconds)
        if found[1] != sharing.digest:
            raise refused(f"list `{sharing.name}`: it is another list in the store, or has chunks"
                          f" of another size ({found[0]} has {self.title}, by the digest"
                          f" {found[1]}, which is {sharing.digest} here); give the same list and"
                          " --chunk as the other machines, or a new --name")
        return found[0]

    def work(self) -> int:
        """Runs crews until no line is open, and returns the status of the last one. A chunk is over
        only if all of its lines are done. Else the operator may answer, and a next crew runs."""
        if os.path.exists(f"{self.folder}/over"):
            return Status.DONE
        seconds, status = SHORTEST, self.run_crew()
        # (the crew was killed, or one lives whose amo_share was killed)
        while status in (Status.LATER, Status.MEMORY) or status < 0:
            seconds, status = pause(self.sharing, seconds), self.run_crew()
        found = self.program.status(self.folder)
        ended = (Status.DONE, Status.FAILED, Status.DOUBTFUL)
        is_left = status in ended and (found["open"] or found["lines"] <= self.last - self.first)
        if is_left or status not in ended:
            raise End(Status.LEFT if is_left else status,
                      f"{self.title}: its crew has ended, and lines are open; do what the crew's"
                      " messages say, then start amo_share again")
        if status == Status.DONE:
            place(f"{self.folder}/over", "{}")
        return status

    def run_crew(self) -> int:
        """Runs a crew, passes the signals on that come, and returns its status."""
        sharing, handed = self.sharing, 0
        more = ["--file-system", sharing.file_system] if sharing.file_system else []
        more += ["--metrics", sharing.metrics, "--shared", sharing.run] if sharing.metrics else []
        words = [sys.executable, f"{HERE}/amo_jobs", "crew", *sharing.crew, "--workers",
                 str(sharing.workers), "--run", self.folder, "--id", self.id(), *more,
                 "--worker-program", self.program.path, f"{self.folder}/list", "--",
                 *sharing.command]
        crew = subprocess.Popen(words, start_new_session=True)
        while crew.poll() is None:
            for handed, number in enumerate(sharing.signals[handed:], handed + 1):
                crew.send_signal(number)
            time.sleep(0.05)
        return crew.returncode

    def standing(self) -> Tuple[int, str]:
        """Returns an exit status, and a text: who owns the chunk, and how far it is."""
        owner = self.note("owner").get("mark")
        found = [owner] if owner else ask(self.sharing, "look", str(self.number))
        if not found:
            return Status.LATER, ("free" if found is not None
                                  else "unknown, since the store doesn't answer; try again later")
        if found[0] != self.note().get("mark"):
            return Status.DONE, (f"owned by {found[0]}, not here; if that machine is lost for good,"
                                 " each of the chunk's lines is in doubt")
        it = self.program.status(self.folder)
        doubts = f"{HERE}/amo_jobs doubts --run {shlex.quote(self.folder)}"
        more = f"; see the doubts: {doubts}" if it["doubt"] else ""
        code = status_of(it, Status.LATER) if it["lines"] else Status.LATER
        return code, f"here, {counted(it)}{more}"
