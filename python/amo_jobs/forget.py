"""Puts a run away: renames its list, its folder and its mark. Begin with `Forgetting.take`."""

from __future__ import annotations

import errno
import os
import time
from contextlib import suppress
from typing import List, Optional

from amo_jobs.files import bytes_of, place, sync_folder
from amo_jobs.locks import PATIENCE, locked_soon
from amo_jobs.mark import ID, Mark, Row, id_of, is_gone, is_same, refusal
from amo_jobs.messages import End, refused, visible
from amo_jobs.run_folder import FORGOTTEN
from amo_jobs.settings import Settings
from amo_jobs.statuses import Status
from amo_jobs.worker import Program


class Forgetting:
    """Puts a run away, so that no crew goes on with it, and its list isn't left to begin anew.

    Each step is on the disk before the next one. The first writes a file `forgotten` into the
    folder, so that no crew takes it. The others rename the list, the folder and the mark. If
    `forget` is started again, it goes on with the step before which it was cut off. A new list
    under the old name isn't touched.
    """

    def __init__(self, settings: Settings, program: Program):
        """Finds the run by the list's mark, or by the folder if there is no mark."""
        self.settings, self.program = settings, program
        self.held: List[int] = []  # the locks
        self.mark = Mark.read(settings.mark)
        if self.mark and not ID.fullmatch(self.mark.id):
            raise refused(f"list `{settings.asked}`: its mark `{settings.mark}` isn't of this"
                          " version, so nothing is put away; leave the list of a chunk to"
                          " amo_share, and a run of amo 0.1.0 where it is")
        own = self.mark.folder if self.mark and not settings.has_folder else settings.run
        self.folder = os.path.realpath(own)
        self.run = self.mark.id if self.mark else id_of(self.folder)
        name = os.path.basename(settings.jobs)
        self.away = f"{settings.jobs}.forgotten-{self.run}"
        self.moved = f"{self.folder}.forgotten-{self.run}"
        self.list, self.old_mark = f"{self.away}/{name}", f"{self.away}/{name}.run-is"

    def take(self) -> int:
        """Does the steps that are left, prints where everything is, and returns the exit status."""
        if self.run is None:
            return self.take_nothing()
        if os.path.lexists(self.settings.jobs):
            self.lock(self.settings.jobs)
        if id_of(self.folder) == self.run:
            self.take_folder(self.run)
        elif id_of(self.moved) != self.run:
            raise refused(f"list `{self.settings.asked}`: its run {self.run} is neither in"
                          f" `{self.folder}` nor in `{self.moved}`; mount its file system if that"
                          " isn't mounted, or name the folder: --run DIR")
        if self.mark and Mark.read(self.settings.mark) == self.mark:
            make_folder(self.away)
            rename(self.settings.mark, self.old_mark)
        names = {"list": self.list, "mark": self.old_mark,
                 "folder": self.moved if id_of(self.moved) == self.run else self.folder}
        print(f"run {self.run} is put away, and nothing of it is deleted")
        print("".join(f"  {it}: {visible(path)}\n" for it, path in names.items()
                      if os.path.lexists(path)), end="")
        return Status.DONE

    def take_nothing(self) -> int:
        """Prints what was put away before. If nothing was, the list has no run."""
        above, name = os.path.split(self.settings.jobs)
        found = [it for it in sorted(os.listdir(above)) if it.startswith(f"{name}.forgotten-")]
        if not found:
            raise refused(f"list `{self.settings.asked}`: it has no mark, and `{self.folder}` isn't"
                          " the folder of a run, so nothing is put away; check the path, or name"
                          " the folder: --run DIR")
        print("".join(f"put away before: {visible(above)}/{visible(it)}\n" for it in found), end="")
        return Status.DONE

    def lock(self, path: str, makes: bool = False, end: Optional[float] = None) -> None:
        """Takes a lock and keeps it; ends if another process has it."""
        lock = locked_soon(path, makes, end)
        if lock is None:
            raise End(Status.LATER, visible(f"list `{self.settings.asked}`: `{path}` is locked, so"
                                            " its run is at work; wait until its crew has ended, or"
                                            " stop it"))
        self.held.append(lock)

    def take_folder(self, run: str) -> None:
        """Takes all locks of the run. Then writes the file `forgotten`, and renames the list and
        the folder."""
        if self.mark and not is_same(self.folder, self.mark.folder) and not is_gone(
                self.mark.folder):
            raise refusal(Row.COPY, self.mark, self.settings)
        self.lock_all()
        if not self.settings.force:
            self.check_closed(run)
        place(f"{self.folder}/{FORGOTTEN}", self.settings.jobs)
        make_folder(self.away)
        if os.path.lexists(self.settings.jobs) and not os.path.lexists(self.list):
            rename(self.settings.jobs, self.list)
        try:
            rename(self.folder, self.moved)
        except OSError as error:  # a mount point, or one in a folder of somebody else
            if error.errno not in (errno.EBUSY, errno.EXDEV, errno.EACCES, errno.EPERM):
                raise

    def lock_all(self) -> None:
        """Takes the locks of the round, and of each runner and each journal."""
        end = time.monotonic() + PATIENCE
        for number in range(17):
            for name in [f"runner.{number}", f"journal.{number}"] if number else ["lock.round"]:
                try:
                    self.lock(f"{self.folder}/{name}", name.startswith("runner"), end)
                except FileNotFoundError:
                    self.refuse(f"`{self.folder}/{name}` is missing; put that very file back")

    def check_closed(self, run: str) -> None:
        """Refuses to put away a run with lines that aren't closed, or a list that isn't its own."""
        self.program.more += ["--id", run]
        found, known = self.program.status(self.folder), bytes_of(f"{self.folder}/jobs") or b""
        jobs = None if os.path.lexists(self.list) else bytes_of(self.settings.jobs)
        if jobs is None and not os.path.lexists(self.list):
            self.refuse("it is missing. If it was renamed, rename its mark too, and don't put its"
                        " run away: under its new name each line would be run again")
        if jobs is not None and not jobs.startswith(known):
            self.refuse("it isn't the list that was run, and would be put away too; give it another"
                        " name")
        more = jobs[len(known):].count(b"\n") if jobs else 0
        left = found["open"] + more, found["running"] + found["doubt"]
        if any(left):
            self.refuse(f"lines still open: {left[0]}, running or in doubt: {left[1]}; finish the"
                        " open ones with a crew, and answer the doubts")

    def refuse(self, text: str) -> None:
        """Refuses to put the run away, unless --force is given."""
        if not self.settings.force:
            raise refused(f"list `{self.settings.asked}`: {text}. To put the run away as it is:"
                          " --force")


def make_folder(path: str) -> None:
    """Makes a folder on the disk, unless it exists."""
    with suppress(FileExistsError):
        os.mkdir(path)
    sync_folder(os.path.dirname(path))


def rename(old: str, new: str) -> None:
    """Renames a file or a folder, on the disk."""
    os.rename(old, new)
    for folder in {os.path.dirname(old), os.path.dirname(new)}:
        sync_folder(folder)
