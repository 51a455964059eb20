"""The header `record` of a run, as the stand-in for the worker writes and reads it: what it says
of the round, and how much of each file was on the disk when that round began."""

import hashlib
from typing import Dict, List, Optional, Tuple

from stand_files import (
    MISTAKE, MOST_WORKERS, OLD_VERSION, VERSION, End, content, missing, numbers, refused_folder,
)
from stand_journal import KEEP, Appends, appends_of, hex_digits

FILES = ["answers", *(f"journal.{p}" for p in range(1, MOST_WORKERS + 1))]
LABELS = [b"amo-run", b"round", b"boot", b"givens", b"workers"]
REFUSED_FILE = ("it is damaged, or was edited; leave it as it is, and read"
                " docs/guide/operating.md, `A journal is refused`")
HEAD = b"amo-words 2\nround %d\nboot %s\ngivens %d %d %d\n"


def seal_of(it, body: bytes) -> bytes:
    """Returns the seal of a header with these bytes before it."""
    return hex_digits(hex_digits(it.run_id + b" record") + body)


def other_version(it) -> End:
    """Returns the end of a command that reads the header of another version."""
    return refused_folder(it, 77, "its `record` is of another version of amo; go on with that"
                                  " version, or use another folder")


def check_version(it) -> bool:
    """Refuses a folder of another version, before its id is known; whether it is of this one."""
    version = (content(f"{it.run}/record") or b"").split(b"\n")[0]
    if version.startswith(b"amo-run ") and version not in (VERSION, OLD_VERSION):
        raise other_version(it)
    return version == VERSION


class Header:
    """The content of `record`. If it is missing, nothing was on the disk."""

    def __init__(self, it=None, data: Optional[bytes] = None):
        self.is_there, self.round, self.boot, self.lines = data is not None, 0, None, []
        self.jobs = self.shared = self.beta = self.workers = self.first = 0
        self.length, self.digest, self.counts = 0, None, {}
        if data is None:
            return
        version = data.split(b"\n")[0]
        if version.startswith(b"amo-run ") and version != (OLD_VERSION if it.is_old else VERSION):
            raise other_version(it)
        if not (self.take_old(data) if it.is_old else self.take(it, data)):
            raise End(65, f"`{it.run}/record`: {REFUSED_FILE}")

    def take_old(self, data: bytes) -> bool:
        """Takes what a header of 0.1.0 says; whether it is one."""
        return data.endswith(b"\n") and self.take_front(data.split(b"\n")[:-1])

    def take(self, it, data: bytes) -> bool:
        """Takes what a header says; whether it is one."""
        body = data[:-9]
        texts = body.split(b"\n")[:-1]
        fits = body.endswith(b"\n") and data[-9:] == seal_of(it, body) + b"\n"
        if MISTAKE == "seal_is_not_compared":
            fits = body.endswith(b"\n") and len(texts) > 23
        return fits and self.take_front(texts[:-18]) and self.take_counts(texts[-18:])

    def take_front(self, texts: List[bytes]) -> bool:
        """Takes the lines on the round. Returns whether they are possible."""
        labels = [it.split(b" ") for it in texts[:5]]
        if [it[0] for it in labels] != LABELS:
            return False
        said = numbers(labels[1][1:] + labels[3][1:] + labels[4][1:], 6)
        lines = numbers(texts[5:], len(texts[5:]))
        if not said or lines is None or said[1] != len(lines):
            return False
        self.round, self.jobs, self.shared, self.beta, self.workers, self.first = said
        self.boot, self.lines = texts[2][5:], lines
        return 1 <= self.shared <= self.workers <= MOST_WORKERS

    def take_counts(self, texts: List[bytes]) -> bool:
        """Takes how much was on the disk of each file; whether that can be."""
        words = [it.split(b" ") for it in texts]
        if [it[0].decode("latin-1") for it in words] != ["jobs", *FILES]:
            return False
        counts = numbers([it[1] for it in words if len(it) == 3], 18)
        if not counts:
            return False
        self.length, self.digest = counts[0], words[0][2]
        self.counts = {name: (count, it[2])
                       for name, count, it in zip(FILES, counts[1:], words[1:])}
        return True

    def head(self) -> bytes:
        """Returns the front of the words of this round."""
        text = HEAD % (self.round, self.boot, self.jobs, self.shared, self.beta)
        return text.ljust(511) + b"\n"

    def lost(self, name: str, checksums: List[bytes]) -> Optional[str]:
        """Returns the counted part that a file with these checksums lacks, the first of which
        stands before the first append. Returns None if it has all of it."""
        count, checksum = self.counts.get(name, (0, checksums[0]))
        if MISTAKE == "counts_are_not_compared":
            return None
        there, when = len(checksums) - 1, f"when round {self.round} began"
        if there < count:
            return (f"it has {there} append{'' if there == 1 else 's'}, and {count}"
                    f" {'was' if count == 1 else 'were'} on the disk {when}")
        if checksums[count] != checksum:
            return f"append {count} is another one than {when}"
        return None

    def why_jobs(self, jobs: Optional[bytes]) -> Optional[str]:
        """Returns whether `jobs` is missing or damaged, as a word; None if it begins with what it
        was."""
        if not self.is_there or not self.digest or MISTAKE == "jobs_are_not_compared":
            return None
        if jobs is None:
            return "missing"
        front = jobs[:self.length]
        fits = len(front) == self.length and digest_of(front) == self.digest
        return None if fits else "damaged"

    def check_jobs(self, it, jobs: Optional[bytes]) -> None:
        """Refuses a run whose `jobs` is missing or damaged."""
        why = self.why_jobs(jobs)
        if why == "missing":
            raise missing(f"{it.run}/jobs")
        if why:
            raise End(65, f"`{it.run}/jobs`: {REFUSED_FILE}")


def digest_of(jobs: bytes) -> bytes:
    """Returns the SHA-256 of `jobs`, as 64 hex digits."""
    return hashlib.sha256(jobs).hexdigest().encode()


def header_of(it) -> Header:
    """Returns the header of the run, as it stands there now."""
    return Header(it, content(f"{it.run}/record"))


def text_of(it, front: bytes, jobs: bytes, found: Dict[str, Appends]) -> bytes:
    """Returns the bytes of a header: `front`, how much there is of `jobs`, and how many appends of
    each file. The last append isn't counted, since a power cut may lose it."""
    text = front + b"jobs %d %s\n" % (len(jobs), digest_of(jobs))
    for name in FILES:
        appends = found[name]
        count = max(len(appends.records) - (MISTAKE != "counts_the_last_append"), 0)
        text += b"%s %d %s\n" % (name.encode(), count, appends.checksums[count])
    return text + seal_of(it, text) + b"\n"


def read_appends(it) -> Tuple[Header, Dict[str, Appends]]:
    """Returns the header, and the appends of each file, which are read after it; both once more if
    there are appends and no header."""
    for _ in range(2):
        header = Header() if MISTAKE == "header_after_the_journals" else header_of(it)
        found = {name: appends_of(it, header, name) for name in FILES}
        if MISTAKE == "header_after_the_journals":
            header = header_of(it)
            compare_late(it, header, found)
        if header.is_there or it.is_old or not any(found[name].records for name in FILES):
            return header, found
        if MISTAKE == "missing_record_is_taken":
            return header, found
    raise missing(f"{it.run}/record")


def compare_late(it, header: Header, found: Dict[str, Appends]) -> None:
    """Compares files with a header that was read after them."""
    for name, appends in found.items():
        if lost := header.lost(name, appends.checksums):
            raise End(65, f"`{it.run}/{name}`: {lost}; {KEEP}")
