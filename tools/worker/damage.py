"""Journals and `answers` that are damaged: bits that are flipped, bytes and appends that are gone
or that stand in another place, files of another worker or run. The expectation is computed by the
tests' own code (worker/journals.py): the file is refused by the number of the append, or read as
its appends are. (A file that is empty or missing: worker/making.py, try_missing.)"""

import fcntl
import os
import random
import signal
import threading
import time
from typing import Iterable, Iterator

from worker import folder, journals
from worker.crowd import Reader
from worker.folder import put, read
from worker.kills import state_of
from worker.making import refuse_all
from worker.persons import Says, prepared
from worker.scene import OVER, Scene, each, finish, live, want
from worker.texts import read_as, refused_as

REPLIES = ["done 0", "doubt", "unbegun", "done 3", "untouched 75", "done 0", "doubt", "done 3",
           "unbegun", "done 0", "done 0", "doubt", "done 0", "unbegun", "done 0", "untouched 75",
           "done 0", "done 9", "done 0"]
ANSWERS = {2: "not-done", 4: "done", 5: "done", 7: "done", 8: "not-done"}


def run_of_journal(bench) -> Scene:
    """Returns a run whose journal.1 has 20 appends, of 19 attempts and what came of each."""
    return prepared(bench, REPLIES, lines=21)


def run_of_answers(bench) -> Scene:
    """Returns a run whose `answers` has 5 appends."""
    scene = run_of_journal(bench)
    for serial, verdict in ANSWERS.items():
        scene.answer(1, serial, serial, verdict)
    return scene


def cases(bench) -> Iterator:
    """Yields each file that is damaged: its run, its name, and its appends."""
    for scene, name in ((run_of_journal(bench), "journal.1"), (run_of_answers(bench), "answers")):
        yield scene, name, read(f"{scene.run}/{name}")[:-1].splitlines(keepends=True)


def file_of(appends: list) -> bytes:
    """Returns the bytes of a file of these appends."""
    return b"".join(appends) + b"-"


def records_of(appends: list) -> list:
    """Returns the records of these appends, whatever their checksums are."""
    return [it[1:-10] for it in appends]


def some(bench, rows: Iterable, few: int, many: int) -> list:
    """Returns all of these in the long form, else as many as a worker that is slow, or quick, has
    time for."""
    rows = list(rows)
    count = few if bench.is_slow() else many
    return rows if bench.is_long else bench.draws.sample(rows, min(count, len(rows)))


def damage_one(scene, name: str, appends: list, damaged: bytes, most: int) -> None:
    """With these bytes in the file, status refuses it as the auditor does, or shows the records of
    a front, of which so many are missing at most."""
    if not read_as(scene, name, damaged):
        return
    records, found = records_of(appends), folder.records_in(scene.run, name)
    want(found == records[:len(found)], f"{found} is no front of {records}")
    want(len(records) - len(found) <= most, f"{name} has {len(found)} of {len(records)} records")
    status, out, err = scene.call("status", scene.run, "--lines", "open")
    lines = [int(it.split("\t")[1]) for it in out.splitlines()]
    wanted = scene.look().open_lines()
    want(status == OVER and lines == wanted, f"open are {lines}, and not {wanted}; {err}")


def try_form(bench) -> None:
    """what the program writes is, byte for byte, what the tests' own code makes of its records"""
    for scene, name, appends in cases(bench):
        wanted = journals.journal(scene.id(), name, records_of(appends))
        want(read(f"{scene.run}/{name}") == wanted, f"{name} is {file_of(appends)}, not {wanted}")
        count = 20 if name == "journal.1" else 5
        want(len(appends) == count, f"{name} has {len(appends)} appends")


def flipped(data: bytes, bit: int) -> bytes:
    """Returns the bytes with one bit flipped."""
    return data[:bit // 8] + bytes([data[bit // 8] ^ 1 << bit % 8]) + data[bit // 8 + 1:]


def try_flipped(bench) -> str:
    """each bit of a journal and of `answers` is flipped: refused, or the last append is missing"""
    count = 0
    for scene, name, appends in cases(bench):
        data = file_of(appends)
        bits = some(bench, range(8 * len(data)), 40, 300)
        count += each(((scene, name, appends, flipped(data, it), 1) for it in bits), damage_one)
    return f"{count} bits"


def try_cut_at_each_byte(bench) -> str:
    """each byte is cut off the end: refused, unless the file ends after an append"""
    count = 0
    for scene, name, appends in cases(bench):
        data = file_of(appends)
        lengths = some(bench, range(1, len(data)), 25, 150)
        rows = ((scene, name, appends, data[:it], len(appends)) for it in lengths)
        count += each(rows, damage_one)
    return f"{count} cuts"


def moved(appends: list) -> Iterator:
    """Yields the appends with two neighbours exchanged, for each such pair, and without one of
    them, for each but the last."""
    for k in range(len(appends) - 1):
        yield [*appends[:k], appends[k + 1], appends[k], *appends[k + 2:]]
        yield appends[:k] + appends[k + 1:]


def try_moved(bench) -> str:
    """neighbouring appends are exchanged, or one is removed: refused by its number"""
    count = 0
    for scene, name, appends in cases(bench):
        rows = some(bench, moved(appends), 20, 50)
        count += each(((scene, name, appends, file_of(it), 0) for it in rows), damage_one)
    return f"{count} files"


def try_earlier_copies(bench) -> str:
    """in the first round, which counts nothing, an earlier copy is brought back: it is read as the
    file that it was"""
    count = 0
    for scene, name, appends in cases(bench):
        lengths = some(bench, range(len(appends)), 8, 20)
        count += each(((scene, name, appends[:it]) for it in lengths), copy_one)
    return f"{count} copies"


def copy_one(scene, name: str, appends: list) -> None:
    """An earlier copy of the file stands there: status shows just its records."""
    damage_one(scene, name, appends, file_of(appends), 0)
    want(folder.records_in(scene.run, name) == records_of(appends), "the copy is refused")


def run_of_two(bench) -> Scene:
    """Returns a run in which two workers have journals of the same length, and answers."""
    scene = bench.scene(12, 2)
    for worker in (1, 2):
        runner = Says(scene, worker, ["done 0", "untouched 75"])
        live(runner)
        runner.close()
        scene.answer(worker, 2, int(runner.lines[-1].split(" ")[2]), "not-done")
    return scene


def try_of_others(bench) -> None:
    """the journals of two workers are exchanged, or those of another run stand there: refused"""
    scene, other = run_of_two(bench), run_of_two(bench)
    first, second, answers = (read(f"{scene.run}/{it}") for it in ("journal.1", "journal.2",
                                                                   "answers"))
    rows = [("journal.1", second), ("journal.2", first), ("journal.3", first),
            *((it, read(f"{other.run}/{it}")) for it in ("journal.1", "journal.2", "answers"))]
    for name, data in rows:
        kept = read(f"{scene.run}/{name}")
        put(f"{scene.run}/{name}", data)
        refused_as(scene, name, 1, journals.WRONG_CHECKSUM)
        put(f"{scene.run}/{name}", kept)
    put(f"{scene.run}/journal.1", second)
    put(f"{scene.run}/journal.2", first)
    refused_as(scene, "journal.1", 1, journals.WRONG_CHECKSUM)
    put(f"{scene.run}/journal.1", first)
    put(f"{scene.run}/journal.2", second)
    want(read(f"{scene.run}/answers") == answers, "answers has changed")
    finish(scene, (1, 2))


def ends_of(scene, name: str, appends: list) -> Iterator:
    """Yields bytes that no crash leaves after the last append, each with the number of the append
    that is refused, and the problem."""
    records = records_of(appends)
    more = journals.appends(scene.id(), name, [*records, records[-1], records[-1]])[-2:]
    one, two, count = more[0][1:], more[1][1:], len(records) + 1
    for end in (b"-" + one + b"+", b"-" + one + b"x", b"-" + one + b"--", b"-" + one + b"-" + two,
                b"-" + one + b"\n", b"-\n\n", b"-" + bytes(1025), b"-" + bytes(1024) + b"\n",
                b"-" + one + more[1]):
        yield end, count, journals.TOO_MUCH
    for end in (b"x" + one, b"\0\0", b" -", b"x+"):
        yield end, count, journals.NO_COMMIT_BYTE
    for end in (b"+", b"+" + one[:-1], b"+" + bytes(1025), more[0] + b"+" + two[:-1]):
        yield end, count + end.count(b"\n"), journals.NOT_WHOLE
    for end in (b"+\n", b"+" + one[-9:], b"+" + one[-10:], b"+" + one[:-9] + one[-8:],
                b"+" + one[:-2] + b"\n-", b"+" + two + b"-"):
        yield end, count, journals.WRONG_CHECKSUM


def end_one(scene, name: str, data: bytes, place: int, wrong: str) -> None:
    """With these bytes the file is refused so."""
    put(f"{scene.run}/{name}", data)
    refused_as(scene, name, place, wrong)


def try_more_than_a_crash_leaves(bench) -> str:
    """what follows the last append, and is more than a crash may leave: refused, with the reason"""
    count = 0
    for scene, name, appends in cases(bench):
        rows = ((scene, name, b"".join(appends) + end, *it)
                for end, *it in ends_of(scene, name, appends))
        count += each(rows, end_one)
    return f"{count} ends"


def refuse_one(bench, scene, name: str, damaged: bytes) -> None:
    """Each command that reads the file refuses it, and leaves it as it was; then it is put back."""
    path, data = f"{scene.run}/{name}", read(f"{scene.run}/{name}")
    put(path, damaged)
    work = [*scene.givens(), scene.jobs]
    words = [["work", "1", *work], ["work", "2", *work], ["status"], ["status", "--json"],
             ["doubts"], ["answer", "1.2", "2", "job 2", "done"], ["again"]]
    refuse_all(scene, name, "is damaged", bench.draws.sample(words, 3 if bench.is_slow() else 7))
    put(path, data)


def try_refused_by_all(bench) -> str:
    """a damaged file is refused by each command that reads it, and stays byte for byte as it was;
    put back, the run goes on"""
    scene = bench.scene(12, 2)
    for worker in (1, 2):
        runner = Says(scene, worker, ["done 0", "doubt", "untouched 75"])
        live(runner)
        runner.close()
    scene.answer(1, 2, scene.look().intents[1, 2].line, "done")
    rows = []
    for name in ("journal.1", "journal.2", "answers"):
        data = read(f"{scene.run}/{name}")
        rows += [(bench, scene, name, it) for it in (
            flipped(data, 8 * (data.index(b"\n") - 1)), data[:-2], b"x" + data[1:],
            data + 2 * data[1:], b"-" + bytes(2000))]
    count = each(rows, refuse_one)
    finish(scene, (1, 2))
    return f"{count} files"


class Writer(threading.Thread):
    """Appends to a journal as a worker does, now and then as one that dies in between and comes
    back, until it must end. All attempts are at one line, and were never begun."""

    def __init__(self, scene, name: str, line: int, seed: str):
        super().__init__()
        self.draws, self.line, self.is_over, self.count = random.Random(seed), line, False, 0
        self.file = open(f"{scene.run}/{name}", "r+b", buffering=0)
        fcntl.flock(self.file, fcntl.LOCK_EX | fcntl.LOCK_NB)
        self.end, self.checksum = 0, journals.seed(scene.id(), name)

    def run(self) -> None:
        while not self.is_over:
            if self.draws.random() < 0.2:
                self.cut_off()
            self.append()
            time.sleep(self.draws.random() * 0.0003)

    def put(self, data: bytes, place: int) -> None:
        os.pwrite(self.file.fileno(), data, place)
        os.fsync(self.file.fileno())

    def next_line(self) -> bytes:
        """Returns the next append, after its commit byte."""
        serial = self.count // 2 + 1
        record = b"unbegun %d" % serial if self.count % 2 else b"intent %d %d 1" % (serial,
                                                                                    self.line)
        return b"%s %s\n" % (record, journals.digits(self.checksum + record))

    def cut_off(self) -> None:
        """Puts a part of an append, and recovers the journal."""
        line = self.next_line() + b"-"
        os.pwrite(self.file.fileno(), line[:self.draws.randint(1, len(line))], self.end + 1)
        os.ftruncate(self.file.fileno(), self.end + 1)
        self.put(b"-", self.end)

    def append(self) -> None:
        line = self.next_line()
        self.put(line + b"-", self.end + 1)
        self.put(b"+", self.end)
        self.end, self.checksum, self.count = self.end + 1 + len(line), line[-9:-1], self.count + 1

    def close(self) -> None:
        self.is_over = True
        if self.is_alive():
            self.join()
        self.file.close()


def try_beside_a_writer(bench) -> str:
    """a journal is read in a loop while a worker appends to it: it is never refused"""
    scene, count = prepared(bench, ["done 0"], lines=4), 0
    writer, least = Writer(scene, "journal.2", 3, bench.seed), 2000 if bench.is_long else 100
    writer.start()
    try:
        while min(count, writer.count) < least:
            status, out, err = scene.call("status", scene.run)
            want(status == OVER and out.startswith("lines 4 done 1 "),
                 f"beside a writer status ends with {status}: {out}{err}")
            count += 1
    finally:
        writer.close()
    scene.audit(is_over=False)
    return f"{count} readers, {writer.count} appends"


def calls_of_status(scene) -> list:
    """Returns the calls by which status reads the files."""
    scene.logs = True
    scene.call("status", scene.run)
    scene.logs, calls = False, scene.logged()
    os.unlink(scene.log)
    return calls


def stop_one(scene, writer: Writer, number: int) -> None:
    """Stops a reader after this call. Two appends are made. The reader goes on, and refuses
    nothing."""
    reader = Reader(scene, "status", faults=f"{number}:stop_after")
    while state_of(reader) not in "TZ":
        time.sleep(0.002)
    writer.append()
    writer.append()
    reader.process.send_signal(signal.SIGCONT)
    status, out, err = reader.ended()
    want(status == OVER, f"call {number}: status {status}, {out}{err}")


def try_stopped_reader(bench) -> str:
    """a reader stands still between two reads of a file, and appends are made meanwhile: it reads
    the file once more, and refuses nothing"""
    scene = prepared(bench, ["done 0"], lines=4)
    writer = Writer(scene, "journal.2", 3, bench.seed)
    try:
        for _ in range(3):
            writer.append()
        numbers = [int(it[1]) for it in calls_of_status(scene) if it[2:4] == ["read", "journal.2"]]
        want(numbers, "it doesn't read journal.2")
        return f"{each(((scene, writer, it) for it in numbers), stop_one)} stops"
    finally:
        writer.close()


PARTS = {"damage": [
    try_form, try_flipped, try_cut_at_each_byte, try_moved, try_earlier_copies, try_of_others,
    try_more_than_a_crash_leaves, try_refused_by_all, try_beside_a_writer, try_stopped_reader,
]}
