"""The methods of the trait DoorHost that a process calls, in order."""

from __future__ import annotations

from typing import NamedTuple

from worker import folder


class Step(NamedTuple):
    """A method that is called, by the name of its row, and the file on which, or the files."""

    name: str
    file: str = ""


# The files that a door makes before the id, in its order, and those of them that are made with a
# byte.
FIRST = list(folder.PARTS)
LOGS = FIRST[1:]
# The tries of the lock.
TRIES = 100
# The files that a door left which was cut off, and those of them that are empty.
LEFT = ["answers", "journal.1", "journal.3", "journal.4", "lock.round"]
LEFT_EMPTY = ["journal.3"]


def door(*names: str) -> list[Step]:
    """Returns methods of DoorHost, each by the name of its row, with its file after `=`."""
    parts = [name.partition("=") for name in names]
    return [Step(f"DoorHost {name}", file) for name, _, file in parts]


LOOKS = door("is_folder", "is_own", "check_disk=run")
# A run in which no round was begun has no record.
LOOKS_AT_NEW = [*LOOKS, *door("read_record none")]
LOOKS_AT_BEGUN = [*LOOKS, *door("read_record")]
WHOLE = door(*[f"len_of={file}" for file in FIRST])


def enters(looks: list[Step]) -> list[Step]:
    """Returns a worker enters the folder, which it looks at in this way."""
    return [*looks, *door("has_id", "len_of missing=forgotten"), *WHOLE, *door("sync_above")]


ENTERS_NEW = enters(LOOKS_AT_NEW)
ENTERS_BEGUN = enters(LOOKS_AT_BEGUN)
COMMAND_LOOKS = [*LOOKS_AT_BEGUN, *door("has_id"), *WHOLE]

MAY_MAKE = door("is_there missing", "check_disk=above", "check_list none")
BESIDE = [*door("draw_name", "make_beside", "make_file empty=lock.round"),
          *door(*[f"make_file={log}" for log in LOGS]),
          *door("draw_id", "make_file=id", "sync_beside")]
BESIDE_FILES = [f"beside.{file}" for file in (*FIRST, "id")]
ENDS = [*ENTERS_NEW, *door("check_list none")]


def lists(there: list[str]) -> list[Step]:
    """Returns the look at a folder that has neither a record nor an id, but these first files."""
    return door("has_id missing", "read_record none", f"files={' '.join(there)}")


def puts(file: str, there: list[str]) -> list[Step]:
    """Returns the making of a file of a run, unless it is there and has a byte."""
    if file not in there:
        return door(f"len_of missing={file}", f"put={file}")
    return door(f"len_of={file}", *([f"replace={file}"] if file in LEFT_EMPTY else []))


def prepares(there: list[str]) -> list[Step]:
    """Returns the calls before the lock of the round in a folder that has these first files."""
    how = "put empty: there" if "lock.round" in there else "put empty"
    return [*LOOKS_AT_NEW, *lists(there),
            *door("check_list none", "draw_name", f"{how}=lock.round")]


def fills(there: list[str]) -> list[Step]:
    """Returns the making of a run's files in a folder that has these first files."""
    under_lock = sorted({*there, "lock.round"})
    return [*prepares(there), *door("try_lock"), *lists(under_lock),
            *[step for log in LOGS for step in puts(log, there)],
            *door("sync_folder", "draw_id", "put=id", "sync_folder", "unlock"), *ENDS]


MAKES_BESIDE = [*MAY_MAKE, *BESIDE, *door("rename"), *LOOKS_AT_NEW, *door("has_id"), *ENDS]
# Something has got the name meanwhile, and is gone then.
CANNOT_RENAME = [*MAY_MAKE, *BESIDE,
                 *door("rename taken", f"remove_beside={' '.join(BESIDE_FILES)}",
                       "is_there missing")]
MAKES_INTO = [*MAY_MAKE, *door("make_folder"), *fills([])]
FILLS = [*door("is_there"), *fills([])]
GOES_ON = [*door("is_there"), *fills(LEFT)]
WAITS = [*door("is_there"), *prepares(FIRST), *door("try_lock held", "pause") * TRIES]
FINDS = [*door("is_there"), *LOOKS_AT_BEGUN, *door("has_id"), *ENTERS_BEGUN, *door("check_list")]
# A folder without an id in which a file has a name of a run.
REFUSES = [*door("is_there"), *LOOKS_AT_NEW, *lists([])]
REFUSES_INTO = door("is_there", "has_id")

# The scripts of `amo_worker door`, by the names of their logs.
SCRIPTS = {"door_beside": MAKES_BESIDE, "door_cannot_rename": CANNOT_RENAME,
           "door_into": MAKES_INTO, "door_fills": FILLS, "door_goes_on": GOES_ON,
           "door_waits": WAITS, "door_finds": FINDS, "door_refuses": REFUSES,
           "door_refuses_into": REFUSES_INTO}
