"""The form that journals and `answers` have on disk, as the tests build and read it: code of their
own, which shares nothing with the program or the stand-in.

A file is appends and a closed commit byte `-`. An append is a line: the open commit byte `+`, one
record or two with `; ` between them, a blank, a checksum, and a line feed. The checksum is over
that of the append before and the records; before the first append stands one over the run's id and
the file's name. In this module a record is all of an append's, unless `parts` takes them apart.
"""

import hashlib
from typing import Optional

MOST_BEHIND = 1024  # bytes behind the commit byte of an append that was cut off
NOT_WHOLE = "it is committed, and isn't whole"
WRONG_CHECKSUM = "its checksum doesn't fit"
NO_COMMIT_BYTE = "the byte before it is no commit byte"
TOO_MUCH = "more follows than an append that was cut off"
WRONG = (NOT_WHOLE, WRONG_CHECKSUM, NO_COMMIT_BYTE, TOO_MUCH)


class Damaged(Exception):
    """No crash leaves these bytes. It has the number of the append, the fault, and the place at
    which the append begins."""


def digits(data: bytes) -> bytes:
    """Returns the first 8 hex digits of SHA-256."""
    return hashlib.sha256(data).hexdigest()[:8].encode()


def seed(run: str, name: str) -> bytes:
    """Returns the checksum that stands before the first append of this file of a run."""
    return digits(f"{run} {name}".encode())


def checksums(run: str, name: str, records: list) -> list:
    """Returns the checksums of a file with these records, from the one before the first append
    on."""
    found = [seed(run, name)]
    for record in records:
        found.append(digits(found[-1] + record))
    return found


def appends(run: str, name: str, records: list) -> list:
    """Returns the bytes of each append, from its commit byte to its line feed."""
    checksum, found = seed(run, name), []
    for record in records:
        checksum = digits(checksum + record)
        found.append(b"+%s %s\n" % (record, checksum))
    return found


def journal(run: str, name: str, records: list) -> bytes:
    """Returns the bytes of a file with these records."""
    return b"".join(appends(run, name, records)) + b"-"


def records_of(run: str, name: str, data: bytes) -> list:
    """Returns the records of the appends in these bytes; raises Damaged if no crash leaves them."""
    checksum, records, place = seed(run, name), [], 0
    while data[place:place + 1] == b"+":
        end = data.find(b"\n", place)
        if end < 0:
            raise Damaged(len(records) + 1, NOT_WHOLE, place)
        line = data[place + 1:end]
        checksum = digits(checksum + line[:-9])
        if line[-9:] != b" " + checksum:
            raise Damaged(len(records) + 1, WRONG_CHECKSUM, place)
        records.append(line[:-9])
        place = end + 1
    if wrong := wrong_behind(data[place:]):
        raise Damaged(len(records) + 1, wrong, place)
    return records


def parts(records: bytes) -> list:
    """Returns the records of an append: one, or two."""
    found = records.split(b"; ")
    return found if len(found) <= 2 else [records]


def wrong_behind(rest: bytes) -> Optional[str]:
    """Returns the fault of the bytes after the last append; None if a crash may leave them."""
    if len(rest) < 2:
        return None
    if rest[:1] != b"-":
        return NO_COMMIT_BYTE
    behind = rest[1:].partition(b"\n")[2]
    if len(rest) > 1 + MOST_BEHIND or behind not in (b"", b"-", b"\0"):
        return TOO_MUCH
    return None


def old_journal(records: list) -> bytes:
    """Returns the bytes of a file with these records in a folder of amo 0.1.0, which has no
    checksums, and no times of doubts and of what was untouched."""
    single = (part for it in records for part in parts(it))
    return b"".join(b"+%s\n" % old_record(it) for it in single) + b"-"


def old_record(record: bytes) -> bytes:
    """Returns the record that amo 0.1.0 would have put in place of this one."""
    has_time = record.startswith((b"doubt ", b"untouched "))
    return record.rpartition(b" ")[0] if has_time else record


def old_records_of(data: bytes) -> list:
    """Returns the records in these bytes of a file of amo 0.1.0: what isn't whole counts for
    nothing."""
    records = []
    while data[:1] == b"+" and b"\n" in data:
        record, _, data = data[1:].partition(b"\n")
        records.append(record)
    return records
