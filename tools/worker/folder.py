"""The folder of a run, as an auditor reads it that shares nothing with the program.

Journals and `answers` have the form of worker/journals.py, and the header `record` has that of
worker/headers.py. A line is open if each intent of it, in all journals, was answered `unbegun` or
found `not-done`.
"""

import fcntl
import os
import re
import uuid
from typing import Optional

from worker import headers, journals

NUMBER = rb"(0|[1-9][0-9]{0,19})"
ENTRY = re.compile(rb"(intent) N N N|(done) N N N|(doubt) N N|(unbegun) N|(untouched) N N N"
                   .replace(b"N", NUMBER))
OLD_ENTRY = re.compile(rb"(intent) N N N|(done) N N N|(doubt) N|(unbegun) N|(untouched) N N"
                       .replace(b"N", NUMBER))
FINDING = re.compile(rb"(done|not-done) N N N".replace(b"N", NUMBER))
KINDS = "done failed doubt running untouched open".split()
MOST_WORKERS = 16
# The files that the door makes in addition to `id`, with their first content.
PARTS = {"lock.round": b"", "answers": b"-",
         **{f"journal.{p}": b"-" for p in range(1, MOST_WORKERS + 1)}}
MISSING = "this file is missing"
ID = re.compile(rb"[0-9a-f]{32}\n")
TAKEN = "ext2 ext3 ext4 xfs btrfs f2fs zfs".split()


class Refused(Exception):
    """A file that is refused: its name, the number of the append that is refused, or None for the
    file as a whole, and the problem."""

    def __str__(self) -> str:
        name, place, wrong = self.args
        return f"{name}: {wrong}" if place is None else f"{name}: append {place}: {wrong}"


def read(path):
    """Returns the bytes of a file; of one that isn't there, none."""
    try:
        with open(path, "rb") as file:
            return file.read()
    except FileNotFoundError:
        return b""


def put(path: str, data: bytes) -> None:
    """A file with these bytes, its owner's alone."""
    with open(os.open(path, os.O_WRONLY | os.O_CREAT | os.O_TRUNC, 0o600), "wb") as file:
        file.write(data)


def make(run: str) -> None:
    """Makes a run's folder as the door makes it."""
    os.mkdir(run, 0o700)
    for name, data in {**PARTS, "id": f"{uuid.uuid4().hex}\n".encode()}.items():
        put(f"{run}/{name}", data)


def make_old(run: str) -> None:
    """Makes a run's folder one of amo 0.1.0. That version had no checksums, made no file before it
    had something to put into it, and left a journal empty for a moment."""
    records = {name: records_in(run, name) for name in PARTS if name != "lock.round"}
    os.unlink(f"{run}/id")
    if header := read(f"{run}/record"):
        put(f"{run}/record", headers.old_header(header))
    for name, found in records.items():
        if found:
            put(f"{run}/{name}", journals.old_journal(found))
        else:
            os.unlink(f"{run}/{name}")


def type_of(path: str) -> str:
    """Returns the type of the file system on which a folder lies."""
    file = os.open(path, os.O_RDONLY | os.O_DIRECTORY)
    words = read(f"/proc/self/fdinfo/{file}").split()
    os.close(file)
    number = words[words.index(b"mnt_id:") + 1]
    lines = [it.split(b" ") for it in read("/proc/self/mountinfo").splitlines()]
    return next(it[it.index(b"-") + 1] for it in lines if it[0] == number).decode()


def listing(folder: str) -> dict:
    """Returns all that a write would change in a folder: its own times, and of each file what it
    is."""
    found = {".": os.stat(folder)}
    found.update({name: os.lstat(f"{folder}/{name}") for name in os.listdir(folder)})
    return {name: (it.st_ino, it.st_size, it.st_mode, it.st_mtime_ns, it.st_ctime_ns)
            for name, it in found.items()}


def contents(folder: str) -> dict:
    """Returns the kind and the content of each file of a folder. A command that recovers a journal
    may write the same bytes anew."""
    names = [it for it in os.listdir(folder) if os.path.isfile(f"{folder}/{it}")]
    return {name: (os.stat(f"{folder}/{name}").st_ino, read(f"{folder}/{name}")) for name in names}


def id_of(run: str) -> str:
    """Returns the run's id; in a folder of amo 0.1.0 none."""
    return read(f"{run}/id").decode("latin-1").strip()


def records_in(run: str, name: str, header: Optional[headers.Header] = None) -> list:
    """Returns the records of a journal or of `answers`, which has to have what a header counts that
    was read before. Beside a writer a read may show bytes that never stood there, so what is
    damaged is read until it is sound, or stands there still."""
    run_id, before = id_of(run), None
    while True:
        data = read(f"{run}/{name}")
        if not run_id:
            return journals.old_records_of(data)
        refused, place = None, 0
        try:
            records = journals.records_of(run_id, name, data)
            lost = header and header.lost(name, journals.checksums(run_id, name, records))
            refused = Refused(name, None, lost) if lost else None
        except journals.Damaged as damaged:
            number, wrong, place = damaged.args
            refused = Refused(name, number, wrong)
        if not refused:
            return records
        if before == (place, data[place:]):
            raise refused
        before = place, data[place:]


def single_records(run: str, name: str) -> list:
    """Returns each record of a journal or of `answers`, apart from the other of its append."""
    return [part for it in records_in(run, name) for part in journals.parts(it)]


def header_in(run: str) -> Optional[headers.Header]:
    """Returns the header of a run; None in a folder of amo 0.1.0, whose header counts nothing."""
    run_id = id_of(run)
    if not run_id:
        return None
    header = headers.Header(run_id, read(f"{run}/record"))
    if not header.is_sound:
        raise Refused("record", None, "it is damaged")
    return header


def said_by(pattern, record):
    """Returns the word and the numbers of a record, or None."""
    found = pattern.fullmatch(record)
    words = [it for it in found.groups() if it is not None] if found else []
    numbers = [int(it) for it in words[1:]]
    return (words[0].decode(), numbers) if found and all(it < 1 << 64 for it in numbers) else None


class Intent:
    def __init__(self, worker, serial, line, time):
        self.worker, self.serial, self.line, self.time = worker, serial, line, time
        self.answer, self.code, self.found, self.ended = None, None, None, None

    def name(self):
        return f"{self.worker}.{self.serial}"

    def opens(self):
        return self.answer == "unbegun" or self.found == "not-done"

    def kind(self, is_final):
        if self.found == "done":
            return "done"
        if self.answer is None:
            return "doubt" if is_final else "running"
        return "failed" if self.answer == "done" and self.code else self.answer


def intents_of(worker, records, count, entry=ENTRY):
    """Returns the intents of a journal whose lines are 1..count; of each append its one or two
    records."""
    intents, name = [], f"journal.{worker}"
    for place, record in ((place, it) for place, append in enumerate(records, 1)
                          for it in journals.parts(append)):
        word, numbers = said_by(entry, record) or (None, [0])
        if word == "intent" and numbers[0] == len(intents) + 1 and 1 <= numbers[1] <= count:
            intents.append(Intent(worker, *numbers))
            continue
        it = intents[numbers[0] - 1] if word and word != "intent" and 1 <= numbers[0] <= len(intents) else None
        if not it or it.answer or word in ("done", "untouched") and numbers[1] > 255:
            raise Refused(name, place, "it can't stand there")
        it.answer, it.code = word, numbers[1] if word in ("done", "untouched") else None
        it.ended = numbers[-1] if len(numbers) == {"done": 3, "doubt": 2, "untouched": 3}.get(word) else None
    return intents


class Folder:
    """The content of a run's folder. The header is read first, then answers, then journals, then
    jobs, so that workers may go on meanwhile."""

    def __init__(self, run):
        self.run, self.intents = run, {}
        answers, found = self.read_records()
        for p, records in found.items():
            entry = ENTRY if self.header else OLD_ENTRY
            intents = intents_of(p, records, len(self.lines), entry)
            self.intents.update({(p, it.serial): it for it in intents})
        self.take_answers(answers)

    def read_records(self):
        """Returns the records of answers, and those of each journal by its number; once more if
        there are some and no header."""
        for _ in range(2):
            self.header = header_in(self.run)
            answers = records_in(self.run, "answers", self.header)
            found = {p: records_in(self.run, f"journal.{p}", self.header)
                     for p in range(1, MOST_WORKERS + 1)}
            self.read_lines()
            if not self.header or self.header.is_there or not any(found.values()):
                return answers, found
        raise Refused("record", None, MISSING)

    def read_lines(self):
        """Takes the lines of jobs, which has to begin as it did when the round began."""
        data = read(f"{self.run}/jobs")
        if self.header and self.header.is_there:
            if not os.path.exists(f"{self.run}/jobs"):
                raise Refused("jobs", None, MISSING)
            if not self.header.has_jobs(data):
                raise Refused("jobs", None, "it is damaged")
        self.lines = data.split(b"\n")[:-1]

    def take_answers(self, answers):
        """Takes what persons found out."""
        for place, record in enumerate(answers, 1):
            word, numbers = said_by(FINDING, record) or (None, [0, 0])
            it = self.intents.get(tuple(numbers[:2]))
            if not word or not it or it.found:
                raise Refused("answers", place, "it can't stand there")
            it.found = word

    def of_line(self, line):
        """Returns the intents by which a line is closed."""
        return [it for it in self.intents.values() if it.line == line and not it.opens()]

    def open_lines(self):
        closed = {it.line for it in self.intents.values() if not it.opens()}
        return [line for line in range(1, len(self.lines) + 1) if line not in closed]

    def pending(self):
        return [it for it in self.intents.values() if it.answer is None]

    def kinds(self, final=()):
        """Returns the kind of each line, if these pending intents, as P and S, are final doubts."""
        found = dict.fromkeys(range(1, len(self.lines) + 1), "open")
        for it in self.intents.values():
            if not it.opens() and found[it.line] != "running":
                found[it.line] = it.kind((it.worker, it.serial) in final)
        return found

    def counts(self, final=()):
        kinds = list(self.kinds(final).values())
        return {"lines": len(kinds), **{kind: kinds.count(kind) for kind in KINDS}}

    def final(self):
        """Returns the pending intents that nobody can perform any more, as the locks say now."""
        locks = {it: (f"journal.{it.worker}", f"runner.{it.worker}", f"command.{it.name()}") for it in self.pending()}
        return {(it.worker, it.serial) for it in locks if all(is_free(f"{self.run}/{name}") for name in locks[it])}


def is_free(path):
    """Returns whether nobody holds a lock on this file; one that isn't there nobody holds."""
    try:
        with open(path, "rb") as file:
            fcntl.flock(file, fcntl.LOCK_EX | fcntl.LOCK_NB)
    except FileNotFoundError:
        return True
    except BlockingIOError:
        return False
    return True


def record_of(run):
    """Returns the content of the record: round, boot, n, m, beta, workers, first, and the lines;
    None if it is missing."""
    data = read(os.path.join(run, "record"))
    front = data if data.startswith(b"amo-run 1\n") else headers.front_of(data)
    texts = front.decode().split("\n")
    if len(texts) < 6:
        return None
    givens, workers = texts[3].split(), texts[4].split()
    record = {"round": int(texts[1].split()[1]), "boot": texts[2][5:], "lines": [int(it) for it in texts[5:-1]]}
    record.update(zip(("n", "m", "beta", "workers", "first"), map(int, givens[1:] + workers[1:])))
    return record


def rows_of(run, boot):
    """Returns for each worker of the words its count of claims, its announcement and its row.
    Returns nothing if record and words are of another boot, or don't fit."""
    record, data = record_of(run), read(f"{run}/words")
    size = record["m"] * (record["n"] + 3) + 1 if record else 0
    head = f"\nround {record['round']}\nboot {record['boot']}\n" if record else ""
    fits = record and record["boot"] == boot and len(data) == 512 + 8 * size
    if not fits or head.encode() not in data[:512]:
        return []
    n, m = record["n"], record["m"]
    words = [int.from_bytes(data[at:at + 8], "little") for at in range(512, len(data), 8)]
    rows = [words[2 * m + (p - 1) * (n + 1) + 1:2 * m + p * (n + 1) + 1] for p in range(1, m + 1)]
    return [(words[m + p], words[p], row[:row.index(0)] if 0 in row else row) for p, row in enumerate(rows, 1)]
