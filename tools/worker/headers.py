"""The form that the header `record` of a run has on disk, as the tests build and read it: code of
their own, which shares nothing with the program or the stand-in.

A header says of a round what its workers need; then how many bytes `jobs` had, and its SHA-256;
then of `answers` and each journal how many appends it had before the last one, and the checksum of
the last of those. Its last line is a seal over all before.
"""

import hashlib
import re
from typing import List, Optional

from worker import journals

FILES = ("answers", *(f"journal.{p}" for p in range(1, 17)))
COUNTED = len(FILES) + 1  # how many lines say how much there was of a file
FRONT = re.compile(rb"amo-run ([12])\nround N\nboot ([^\n]*)\ngivens N N N\nworkers N N\n((?:N\n)*)"
                   .replace(b"N", rb"(0|[1-9][0-9]{0,19})"))


def seal(run: str, body: bytes) -> bytes:
    """Returns the seal of a header with these bytes before it."""
    return journals.digits(journals.seed(run, "record") + body)


def counted(run: str, name: str, records: list) -> tuple:
    """Returns how many appends a header counts of a file with these records, and the checksum of
    the last of them."""
    count = max(len(records) - 1, 0)
    return count, journals.checksums(run, name, records)[count]


def text(run: str, front: bytes, jobs: bytes, records: dict) -> bytes:
    """Returns the bytes of a header: of a round that `front` says, which was begun with these jobs,
    and with these records of each file that has some."""
    body = front + b"jobs %d %s\n" % (len(jobs), hashlib.sha256(jobs).hexdigest().encode())
    for name in FILES:
        count, checksum = counted(run, name, records.get(name, []))
        body += b"%s %d %s\n" % (name.encode(), count, checksum)
    return body + seal(run, body) + b"\n"


def front_of(data: bytes) -> bytes:
    """Returns the part of a header that says what the round's workers need."""
    return data[:data.rfind(b"\njobs ") + 1]


def old_header(data: bytes) -> bytes:
    """Returns the header that amo 0.1.0 would have written for the same round."""
    return front_of(data).replace(b"amo-run 2\n", b"amo-run 1\n", 1)


class Header:
    """The content of a header: for each file how many appends it counts, with a checksum. Without
    bytes it is the header of a run that has none."""

    def __init__(self, run: str, data: bytes):
        self.is_there, self.is_sound, self.round, self.counts = bool(data), True, 0, {}
        if data:
            self.is_sound = self.take(run, data)

    def take(self, run: str, data: bytes) -> bool:
        """Takes what it says; whether the seal and all else is right."""
        *texts, sealed, end = data.split(b"\n") if data.count(b"\n") > COUNTED else (b"", b"", b"")
        body, front = data[:-len(sealed) - 1], b"".join(b"%s\n" % it for it in texts[:-COUNTED])
        found = FRONT.fullmatch(front)
        if not found or end or sealed != seal(run, body):
            return False
        rows = [it.split(b" ") for it in texts[-COUNTED:]]
        if [it[0].decode("latin-1") for it in rows] != ["jobs", *FILES]:
            return False
        self.round, self.length, self.digest = int(found[2]), int(rows[0][1]), rows[0][2]
        self.counts = {name: (int(it[1]), it[2]) for name, it in zip(FILES, rows[1:])}
        return True

    def lost(self, name: str, checksums: List[bytes]) -> Optional[str]:
        """Returns the counted appends that a file with these checksums lacks; None if it has all of
        them."""
        count, checksum = self.counts.get(name, (0, checksums[0]))
        if len(checksums) <= count:
            return fewer(len(checksums) - 1, count, self.round)
        return None if checksums[count] == checksum else another(count, self.round)

    def has_jobs(self, jobs: bytes) -> bool:
        """Returns whether `jobs` begins with what it was when the round began."""
        front = jobs[:self.length]
        return (len(front) == self.length
                and hashlib.sha256(front).hexdigest().encode() == self.digest)


def fewer(there: int, count: int, number: int) -> str:
    """Returns the message on a file that has fewer appends than a round counted."""
    return f"it has {there} appends, and {count} were on the disk when round {number} began"


def another(count: int, number: int) -> str:
    """Returns the message on a file in which the last counted append is another one."""
    return f"append {count} is another one than when round {number} began"


def pattern(said: str) -> str:
    """Returns a pattern for this text, which may have its singular for one append."""
    found = re.escape(said)
    found = found.replace(r"1\ appends", r"1\ appends?")
    return found.replace(r"1\ were\ on", r"1\ (?:was|were)\ on")
