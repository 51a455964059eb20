"""The mark of a list, which names its run, and the table of which folder belongs to a list.

Begin with `row_of`.
"""

from __future__ import annotations

import enum
import os
import re
import shlex
import sys
from contextlib import suppress
from typing import NamedTuple, Optional

from amo_jobs.files import bytes_of, sync_folder
from amo_jobs.messages import End, lowered, refused
from amo_jobs.settings import Settings

ID = re.compile("[0-9a-f]{32}")
FIRST_VERSION = "1"  # stands for the id of a run of amo 0.1.0


class Mark(NamedTuple):
    """The mark of a list, the file JOBS.run-is: the id of its run, and the run's folder, resolved.

    Amo 0.1.0 wrote the folder alone: the id is FIRST_VERSION then. Both are empty if the file isn't
    a mark of any version.
    """

    id: str
    folder: str

    @classmethod
    def read(cls, path: str) -> Optional[Mark]:
        """Returns the mark in this file; None if there is no file."""
        data = bytes_of(path)
        if data is None:
            return None
        first, _, rest = os.fsdecode(data).removesuffix("\n").partition("\n")
        if ID.fullmatch(first) and rest.startswith("/"):
            return cls(first, rest)
        if first and not rest:
            return cls(FIRST_VERSION, os.path.join(os.path.dirname(path), first))
        return cls("", "")

    def written(self, path: str) -> str:
        """Writes the mark to a new file beside this path, on the disk; returns the file's name."""
        new = name_beside(path)
        try:
            with open(new, "xb") as file:
                file.write(os.fsencode(f"{self.id}\n{self.folder}\n"))
                file.flush()
                os.fsync(file.fileno())
        except OSError:
            with suppress(OSError):
                os.unlink(new)
            raise
        return new

    def make(self, path: str) -> bool:
        """Gives the mark its name, on the disk, unless a file has it; returns whether none had."""
        new = self.written(path)
        try:
            os.link(new, path)
        except FileExistsError:
            return False
        except OSError as error:
            raise refused(f"mark `{path}`: it can't be made by a hard link: {lowered(error)}; copy"
                          " the list to a file system with hard links, and run the copy") from error
        finally:
            os.unlink(new)
        sync_folder(os.path.dirname(path))
        return True

    def replace(self, path: str) -> None:
        """Puts the mark in the place of the one that is there. The caller holds the list's lock."""
        os.replace(self.written(path), path)
        sync_folder(os.path.dirname(path))


class Row(enum.Enum):
    """How the mark of a list relates to the folder that a crew was given."""

    NO_MARK, GOES_ON, MOVED, COPY = "no mark", "the run's own", "moved", "copy"
    MISSING, NO_ID, OTHER_ID = "is missing", "has no id", "has another id"
    OLD_MARK, NO_RUN = "a mark of amo 0.1.0", "no mark of a run"


def row_of(mark: Optional[Mark], folder: str) -> Row:
    """Returns what a crew finds. Without a mark the door decides what becomes of the folder."""
    if mark is None or not mark.id or mark.id == FIRST_VERSION:
        return Row.NO_MARK if mark is None else Row.OLD_MARK if mark.id else Row.NO_RUN
    found = id_of(folder)
    if found is None:
        return Row.NO_ID if os.path.lexists(folder) else Row.MISSING
    if found != mark.id:
        return Row.OTHER_ID
    if is_same(folder, mark.folder):
        return Row.GOES_ON
    return Row.MOVED if is_gone(mark.folder) else Row.COPY


def name_beside(path: str) -> str:
    """Returns the name of a new file beside this one. A file of such a name counts for nothing."""
    return f"{path}.{os.urandom(8).hex()}.new"


def id_of(folder: str) -> Optional[str]:
    """Returns the text of the file `id` in a run's folder; None if it is missing."""
    data = bytes_of(f"{folder}/id")
    return None if data is None else os.fsdecode(data).removesuffix("\n")


def has_id(folder: str, run: str) -> bool:
    """Returns whether this folder is visibly the run's."""
    with suppress(OSError):
        return id_of(folder) == run
    return False


def is_same(one: str, other: str) -> bool:
    """Returns whether both are one folder: one device and one inode."""
    with suppress(OSError):
        return os.path.samefile(one, other)
    return False


def is_gone(path: str) -> bool:
    """Returns whether nothing has this name, though the folder above is there."""
    try:
        os.lstat(path)
    except FileNotFoundError:
        return os.path.isdir(os.path.dirname(path))
    except OSError:
        pass
    return False


def refusal(row: Row, mark: Mark, settings: Settings) -> End:
    """Returns the end of a crew that finds this row, with what to do about it."""
    anew = f". To give that run up and run every line again: --new-run {mark.id}"
    if settings.new_run and settings.new_run != mark.id:
        anew += f" (it is --new-run {settings.new_run} now, which names another run)"
    folder, run = shlex.quote(mark.folder), settings.run
    if row is Row.NO_RUN:
        text = (f"its mark `{settings.mark}` names no run, so no crew takes this list; leave the"
                " list of a chunk to amo_share, and restore a mark that was damaged")
    elif row is Row.OLD_MARK:
        text = (f"`{settings.mark}` is a mark of amo 0.1.0, and this version can't go on in its"
                f" folder `{mark.folder}`; make a list of the lines that {sys.argv[0]} status"
                f" --lines open --run {folder} prints, and run that list in a new folder{anew}")
    elif row is Row.COPY:
        text = (f"its run {mark.id} is in `{mark.folder}`, and `{run}` has the same id, so one of"
                " them may be a copy, which would run lines again; go on in the other: --run"
                f" {folder}. If you are sure that `{run}` is the one that ran last: --new-run"
                f" {mark.id}")
    else:
        text = f"{of_other_folder(row, mark, settings)}{anew}"
    return refused(f"list `{settings.asked}`: {text}")


def of_other_folder(row: Row, mark: Mark, settings: Settings) -> str:
    """Returns why a folder is refused that is missing, has no id or has another one."""
    if has_id(mark.folder, mark.id):
        return (f"its run {mark.id} is in `{mark.folder}`, and `{settings.run}` {row.value}; go on"
                f" there: --run {shlex.quote(mark.folder)}")
    where = ("" if mark.folder == os.path.realpath(settings.run)
             else f", and was in `{mark.folder}`")
    return (f"its run {mark.id} isn't in `{settings.run}`, which {row.value}{where}; mount its file"
            " system if that isn't mounted, or go on with a `forget` that was cut off:"
            f" {sys.argv[0]} forget {shlex.quote(settings.asked)}")
