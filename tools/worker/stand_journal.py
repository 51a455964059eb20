"""The journals of a run and its `answers`, as the stand-in for the worker reads, recovers and
writes them, and compares them with the header of the round."""

import fcntl
import hashlib
import os
from typing import List, Optional

from stand_calls import LOG, attempts_text, noted
from stand_files import (
    MISTAKE, End, called, has_lock, missing, opened_part, part, put_at, sync, sync_folder, whole,
)

MOST_BEHIND = 1024  # bytes behind the commit byte of an append that was cut off
LOOKS = 100  # how often a file is read beside a writer, until it is refused
NOT_WHOLE = "it is committed, and isn't whole"
WRONG_CHECKSUM = "its checksum doesn't fit"
NO_COMMIT_BYTE = "the byte before it is no commit byte"
TOO_MUCH = "more follows than an append that was cut off"
KEEP = "leave the file as it is, and read docs/guide/operating.md, `A journal is refused`"


def hex_digits(data: bytes) -> bytes:
    """Returns the first 8 hex digits of SHA-256."""
    return hashlib.sha256(data).hexdigest()[:8].encode()


def first_checksum(it, name: str) -> bytes:
    """Returns the checksum that stands before the first append of a file."""
    if MISTAKE == "checksum_without_the_file":
        return hex_digits(it.run_id)
    return hex_digits(it.run_id + b" " + name.encode())


def next_checksum(before: bytes, record: bytes) -> bytes:
    """Returns the checksum of an append, from that of the append before and its own record."""
    return hex_digits(record if MISTAKE == "checksum_is_not_chained" else before + record)


class Appends:
    """The appends in the bytes of a file: their records, the places of the beginning and the end of
    the last one, and the rest of the bytes. It also has the checksums, from the one before the
    first append on."""

    def __init__(self, data: bytes, checksum: Optional[bytes]):
        self.records, self.last, self.end, self.checksums = [], None, 0, [checksum]
        while (line := self.next_line(data)) is not None and self.fits(line):
            self.take(line)
        self.rest = data[self.end:]

    def next_line(self, data: bytes) -> Optional[bytes]:
        """Returns the line of the next append, without its commit byte; None unless it is committed
        and whole."""
        end = data.find(b"\n", self.end)
        commits = b"+-" if MISTAKE == "cut_line_is_kept" else b"+"
        return data[self.end + 1:end] if end >= 0 and data[self.end] in commits else None

    def fits(self, line: bytes) -> bool:
        """Returns whether the line ends with a blank and its checksum."""
        checksum = next_checksum(self.checksums[-1], line[:-9])
        if MISTAKE == "checksum_is_not_compared":
            checksum = line[-8:]
        return line[-9:] == b" " + checksum

    def take(self, line: bytes) -> None:
        self.records.append(line[:-9])
        self.last, self.end = self.end, self.end + len(line) + 2
        self.checksums.append(line[-8:])

    def damage(self) -> Optional[str]:
        """Why the rest can't be what a crash leaves; None if it can."""
        if MISTAKE == "damage_is_cut_off":
            return None
        if self.rest.startswith(b"+"):
            return WRONG_CHECKSUM if b"\n" in self.rest else NOT_WHOLE
        if len(self.rest) < 2:
            return None
        if not self.rest.startswith(b"-"):
            return NO_COMMIT_BYTE
        behind = self.rest[1:].partition(b"\n")[2]
        is_one = behind in (b"", b"-", b"\0") or MISTAKE == "two_cut_off_appends_are_taken"
        return None if is_one and len(self.rest) <= 1 + MOST_BEHIND else TOO_MUCH


class OldAppends(Appends):
    """The appends of a file of amo 0.1.0, which have no checksums; any rest counts for nothing."""

    def fits(self, line: bytes) -> bool:
        return True

    def take(self, line: bytes) -> None:
        self.records.append(line)
        self.last, self.end = self.end, self.end + len(line) + 2

    def damage(self) -> Optional[str]:
        return None


def appends_in(it, name: str, data: bytes) -> Appends:
    """Returns the appends in these bytes of a file of the run."""
    return OldAppends(data, None) if it.is_old else Appends(data, first_checksum(it, name))


def why_refused(it, header, name: str, found: Appends) -> Optional[End]:
    """Returns the end of a command that reads these appends in a file of the run, if it is damaged
    or lacks what the header counts."""
    wrong = found.damage()
    wrong = (f"append {len(found.records) + 1}: {wrong}" if wrong
             else header.lost(name, found.checksums))
    return End(65, f"`{it.run}/{name}`: {wrong}; {KEEP}") if wrong else None


def appends_of(it, header, name: str, bytes_of=part) -> Appends:
    """Returns the appends of a file whose lock this process doesn't hold, and that `bytes_of` reads
    after the header. Beside a writer a read may show bytes that never stood there, so the file is
    refused only if it shows the same ones again."""
    seen = None
    for _ in range(LOOKS):
        found = appends_in(it, name, bytes_of(it, name))
        end = why_refused(it, header, name, found)
        if not end:
            return found
        if MISTAKE == "reads_once" or seen and (seen.end, seen.rest) == (found.end, found.rest):
            break
        seen = found
    raise end


class Journal:
    """A file of appends, open to be written;
    in a folder of 0.1.0, to be read and locked alone."""

    def __init__(self, it, name: str):
        self.it, self.name, self.path = it, name, f"{it.run}/{name}"
        self.owed: List[bytes] = []  # what came of the last attempt, if it isn't appended yet
        self.file = opened_part(it, name, os.O_RDONLY if it.is_old else os.O_RDWR)
        if not it.is_old:
            sync_folder(it.run)

    def lock(self) -> bool:
        return has_lock(self.file, self.path, fcntl.LOCK_EX)

    def close(self) -> None:
        os.close(self.file)

    def recover(self, header) -> None:
        """Has the disk keep the appends, and a closed commit byte after them. A file that is
        damaged, or lacks counted appends, is refused before. It also cuts bytes that a read doesn't
        show, since the disk may still have them after a sync that failed. The file is never empty
        meanwhile."""
        LOG.note("before", "recover", self.name)
        try:
            found = self.recovered(header)
        except End:
            LOG.note("after", "recover", "failed")
            raise
        lines = [int(it.split(b" ")[2]) for record in found.records
                 for it in record.split(b"; ") if it.startswith(b"intent ")]
        LOG.note("after", "recover", attempts_text(lines))

    def recovered(self, header) -> Appends:
        """Compares the file with the header, and settles it."""
        found = appends_in(self.it, self.name, whole(self.file, self.path))
        if MISTAKE != "compares_after_the_cut" or found.damage():
            self.compare(header, found)
        self.settle(found)
        if MISTAKE == "compares_after_the_cut":
            self.compare(header, found)
        return found

    def compare(self, header, found: Appends) -> None:
        """Refuses the file, if it is damaged or lacks what the header counts."""
        if end := why_refused(self.it, header, self.name, found):
            raise end
        is_known = header.is_there or self.it.is_old or not found.records
        if not is_known and MISTAKE != "missing_record_is_taken":
            raise missing(f"{self.it.run}/record")

    def settle(self, found: Appends) -> None:
        """Has the disk keep these appends, and nothing after them."""
        self.end, self.checksum = found.end, found.checksums[-1]
        if MISTAKE == "opens_without_settling":
            return
        if found.last is not None:
            put_at(self.file, self.path, b"+", found.last)
            sync(self.file, self.path)
        if MISTAKE == "emptied_by_recovery":
            called(73, self.path, os.ftruncate, self.file, self.end)
        elif MISTAKE != "cuts_what_it_sees" or len(found.rest) > 1:
            length = self.end + min(len(found.rest), 1)
            called(73, self.path, os.ftruncate, self.file, length)
            sync(self.file, self.path)
        put_at(self.file, self.path, b"-", self.end)
        sync(self.file, self.path)

    def put(self, record: bytes) -> None:
        """Appends a record, in one append with the one that is owed: all or none. After an append
        that failed nothing is appended."""
        with noted("put", record.decode()):
            self.put_all(record)

    def put_all(self, record: bytes) -> None:
        """Appends what is owed and a record."""
        records, self.owed = [*self.owed, record], []
        if MISTAKE == "keeps_one_of_two":
            records = records[-1:]
        if MISTAKE == "two_appends":
            for it in records[:-1]:
                self.append(it)
            records = records[-1:]
        self.append(b"; ".join(records))

    def owe(self, record: bytes) -> None:
        """Keeps a record for the next append."""
        with noted("owe", record.decode()):
            if MISTAKE == "nothing_is_owed":
                self.append(record)
            else:
                self.owed.append(record)

    def pay(self) -> None:
        """Appends the record that is owed."""
        with noted("pay"):
            if self.owed and MISTAKE != "owed_is_dropped":
                self.append(self.owed.pop())

    def append(self, record: bytes) -> None:
        """Puts an append after the last one. It counts once its commit byte is open on the disk."""
        checksum = next_checksum(self.checksum, record)
        line = record + b" " + checksum + b"\n"
        put_at(self.file, self.path, line + b"-", self.end + 1)
        sync(self.file, self.path)
        put_at(self.file, self.path, b"+", self.end)
        sync(self.file, self.path)
        self.end, self.checksum = self.end + 1 + len(line), checksum
