"""The folder in which a list is run: found or made, and entered. Begin with `joined`."""

from __future__ import annotations

import fcntl
import json
import os
import shlex
import stat
import sys
import time
from contextlib import suppress
from typing import List, Optional

from amo_jobs.files import bytes_of, content, place, sync_folder
from amo_jobs.locks import locked_soon, PATIENCE
from amo_jobs.mark import ID, Mark, Row, id_of, name_beside, refusal, row_of
from amo_jobs.messages import End, lowered, refused, visible
from amo_jobs.settings import Settings
from amo_jobs.statuses import Status
from amo_jobs.worker import Program

FORGOTTEN = "forgotten"  # the file of a run that was put away


def joined(settings: Settings, program: Program) -> str:
    """Returns the id of the run in which the list is run, once mark and folder agree about it.

    The mark is made or written before any line is performed. If another crew makes one meanwhile,
    mark and folder are compared again.
    """
    while True:
        mark = Mark.read(settings.mark)
        row = row_of(mark, settings.run)
        if mark is None:
            run = begun(settings, program)
        elif row is Row.GOES_ON:
            run = enter(settings, program, mark.id)
            sync_folder(os.path.dirname(settings.mark))  # its maker may have died before that
        elif row is Row.MOVED or mark.id and settings.new_run == mark.id:
            run = rejoined(settings, program, mark, row)
        else:
            raise refusal(row, mark, settings)
        if run:
            return run


def begun(settings: Settings, program: Program) -> str:
    """Enters the folder of a list without a mark, and makes the mark; returns the run's id. The
    text is empty if another crew has made a mark meanwhile."""
    check_beside(settings, "copy the list to a folder where you may make files, and run the copy")
    check_not_renamed(settings)
    run = enter(settings, program)
    return run if Mark(run, os.path.realpath(settings.run)).make(settings.mark) else ""


def rejoined(settings: Settings, program: Program, mark: Mark, row: Row) -> str:
    """Writes another mark in place of this one, under the list's lock; returns the run's id. The
    text is empty if the lock shows another mark or another row."""
    check_beside(settings, "allow files to be made in that folder, then start again; don't run a"
                           " copy of the list, which is another list")
    try:
        lock = locked_soon(settings.jobs)
    except OSError as error:
        raise refused(f"list `{settings.asked}`: it can't be locked: {lowered(error)}; put the list"
                      " on a file system with locks, then start again") from error
    if lock is None:
        raise refused(f"list `{settings.asked}`: another process keeps its lock; wait until that"
                      " process has ended, then start again")
    try:
        if Mark.read(settings.mark) != mark or row_of(mark, settings.run) is not row:
            return ""
        run = enter(settings, program, mark.id if row is Row.MOVED else None)
        Mark(run, os.path.realpath(settings.run)).replace(settings.mark)
        return run
    finally:
        os.close(lock)


def enter(settings: Settings, program: Program, run: Optional[str] = None) -> str:
    """Has the worker's door check the list and the folder; returns the id of the folder. The door
    makes the folder if it is missing, unless `run` is an id, which it must have."""
    if os.path.lexists(f"{settings.run}/{FORGOTTEN}"):
        raise refused(f"folder `{settings.run}`: its run is put away, or a `forget` was cut off; go"
                      f" on with {sys.argv[0]} forget {shlex.quote(settings.asked)}, or begin a new"
                      " run in another folder: --run DIR")
    refuse_other_command(settings)
    workers = ["--workers", str(settings.workers), "--beta", str(settings.beta)]
    program.call("door", settings.run, *workers, *(["--id", run] if run else []), settings.jobs)
    found = run or id_of(settings.run)
    if not found or not ID.fullmatch(found):
        raise refused(f"folder `{settings.run}`: it has no id, since `{program.path}` is of another"
                      " version, or the folder was removed meanwhile; use the amo_worker of this"
                      " version, and start again")
    return found


def name_run(settings: Settings, program: Program) -> None:
    """Passes the run's id, that of the list's mark or of the folder, to each start of a worker."""
    mark = Mark.read(settings.mark) if settings.mark else None
    run = mark.id if mark and ID.fullmatch(mark.id) else id_of(settings.run)
    program.more += ["--id", run] if run and ID.fullmatch(run) else []


def check_list(settings: Settings) -> None:
    """Refuses a list that can't be read again, such as a pipe."""
    for path in (settings.asked, settings.jobs):
        try:
            is_file = stat.S_ISREG(os.stat(path).st_mode)
        except FileNotFoundError:
            missing = f"list `{settings.asked}`: it is missing; check the path"
            raise End(Status.READ, visible(missing)) from None
        if not is_file:
            raise refused(f"list `{settings.asked}`: it isn't a regular file; write the lines to a"
                          " file, and give that file")


def check_beside(settings: Settings, remedy: str) -> None:
    """Refuses a list if no mark can be made in its folder, before anything is made."""
    new = name_beside(settings.mark)
    try:
        os.close(os.open(new, os.O_WRONLY | os.O_CREAT | os.O_EXCL, 0o600))
        os.unlink(new)
    except OSError as error:
        raise refused(f"list `{settings.asked}`: its mark `{settings.mark}` can't be made:"
                      f" {lowered(error)}; {remedy}") from error


def begins(path: str, front: bytes) -> bool:
    """Returns whether a file is there and begins with these bytes."""
    return os.path.isfile(path) and (bytes_of(path) or b"").startswith(front)


def check_not_renamed(settings: Settings) -> None:
    """Refuses a list without a mark that begins with the lines of a run whose list is missing, or
    isn't its list any more: the list was renamed, and its mark wasn't."""
    above = os.path.dirname(settings.jobs)
    for old in sorted(f"{above}/{it[:-7]}" for it in os.listdir(above) if it.endswith(".run-is")):
        with suppress(PermissionError):  # another user's, who alone may go on with that run
            mark = Mark.read(f"{old}.run-is")
            known = bytes_of(f"{mark.folder}/jobs") if mark and mark.folder else None
            if not (mark and known and begins(settings.jobs, known)) or begins(old, known):
                continue
            words = shlex.join(["mv", f"{old}.run-is", settings.mark])
            raise refused(f"list `{settings.asked}`: it has the lines of the list `{old}`, which is"
                          " missing or another one now; if it was renamed, rename its mark too:"
                          f" {words}, and give --run {shlex.quote(mark.folder)}. If its lines were"
                          " never run, put the other run away by forget")


def refuse_other_command(settings: Settings) -> None:
    """Refuses a folder that was used with another command, since a test run closes lines too."""
    used = content(f"{settings.run}/command", True)
    if used and used["command"] != settings.command and not settings.command_changed:
        raise refused(f"folder `{settings.run}`: it was used with another command,"
                      f" `{shlex.join(used['command'])}`, and the lines that this one performed"
                      " stay performed; to go on with the new command: --command-changed")


def note_command(settings: Settings, version: str) -> None:
    """Records the command before a line is performed, and for a report also the options and the
    version. Of two crews that start together the later one is refused."""
    with open(settings.jobs, "rb") as file:
        end = time.monotonic() + PATIENCE  # whoever has started this crew may have the lock
        while not has_lock(file.fileno()) and time.monotonic() < end:
            time.sleep(0.05)
        refuse_other_command(settings)
        place(f"{settings.run}/command",
              json.dumps({"command": settings.command, "results": settings.results,
                          "options": settings.options, "version": version}))


def folders_of_outputs(run: str) -> List[str]:
    """Returns the folders that have what the commands of this run have printed, and nothing of
    another run: its own, and its part of --results."""
    results: str = (content(f"{run}/command", True) or {}).get("results", run)
    return [run, results] if os.path.basename(results) == id_of(run) else [run]


def has_lock(file: int) -> bool:
    """Takes the lock of an open file. Returns False if another process has it. Some file systems
    over a network have no locks; then it returns True."""
    with suppress(OSError):
        try:
            fcntl.flock(file, fcntl.LOCK_EX | fcntl.LOCK_NB)
        except BlockingIOError:
            return False
    return True
