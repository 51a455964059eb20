"""What `status --damaged` shows a person whose run is refused: what can be read of each file, and
which lines were attempted. It writes nothing, and never calls a line open. The expectation is
computed by the tests' own code (worker/journals.py, worker/headers.py)."""

import os
import re

from worker import folder, headers, journals
from worker.counted import APPENDED, appends_in, replaced, run_of_rounds
from worker.damage import flipped, some
from worker.folder import read
from worker.persons import prepared
from worker.scene import OVER, REFUSED, WORDS, each, finish, want

WRONG = ("amo_worker: folder `THE RUN`: damaged; keep it as it is, and read"
         " docs/guide/operating.md, `A journal is refused`\n")
INTENT = re.compile(rb"intent ([0-9]+) ([0-9]+) [0-9]+")


class Remains:
    """The readable part of a run's folder, and the names of the files that are wrong."""

    def __init__(self, run: str):
        self.run, self.id, self.wrong, self.rows, self.attempts = run, folder.id_of(run), [], [], {}
        self.header = headers.Header(self.id, read(f"{run}/record"))
        for name in headers.FILES:
            self.read_one(name)
        has_appends = any(it.startswith("  ") for it in self.rows)
        is_begun = self.header.is_there or has_appends
        if not self.header.is_sound or is_begun and not self.header.is_there:
            self.wrong.append("record")
        self.count_lines(is_begun)

    def read_one(self, name: str) -> None:
        """Takes what a journal or `answers` says as far as it is sound."""
        data, path = read(f"{self.run}/{name}"), f"{self.run}/{name}"
        try:
            records, damage = journals.records_of(self.id, name, data), None
        except journals.Damaged as damaged:
            number, wrong, place = damaged.args
            records = journals.records_of(self.id, name, data[:place] + b"-")
            damage = f"{number - 1} appends, then damaged: append {number}: {wrong}"
        lost = self.header.lost(name, journals.checksums(self.id, name, records))
        if not data:
            damage = "empty" if os.path.exists(path) else "missing"
        if damage or lost:
            self.wrong.append(name)
        if damage or lost or records:
            self.rows.append(f"{name}: {damage or lost or f'{len(records)} appends'}")
        self.rows += [f"  {it.decode()}" for it in records]
        parts = (part for it in records for part in journals.parts(it))
        for said in filter(None, map(INTENT.fullmatch, parts)):
            attempt = f"{name.partition('.')[2]}.{int(said[1])}"
            self.attempts.setdefault(int(said[2]), []).append(attempt)

    def count_lines(self, is_begun: bool) -> None:
        """Takes what is known of each line."""
        data, count = read(f"{self.run}/jobs"), 0
        if not os.path.exists(f"{self.run}/jobs"):
            self.wrong += ["jobs"] if is_begun else []
        elif self.header.counts and not self.header.has_jobs(data):
            self.wrong.append("jobs")
        else:
            count = data.count(b"\n")
        for line in sorted({*range(1, count + 1), *self.attempts}):
            names = self.attempts.get(line)
            known = f"attempted by {' '.join(names)}" if names else "not known"
            self.rows.append(f"line {line}: {known}")


def shown(scene) -> tuple:
    """Returns its output, and the names of the files that it calls wrong. It must change nothing,
    and end with the right status."""
    before, wanted = folder.listing(scene.run), Remains(scene.run)
    status, out, err = scene.call("status", scene.run, "--damaged")
    want(folder.listing(scene.run) == before, "something was changed")
    said = WRONG.replace("THE RUN", scene.run) if wanted.wrong else ""
    want(status == (REFUSED if wanted.wrong else OVER), f"{wanted.wrong}: status {status}, {err}")
    want(err == said, f"it says {err}, and not {said}")
    return out.splitlines(), wanted


def same(said: str, row: str) -> bool:
    """Returns whether this line says what is in this row."""
    return re.fullmatch(headers.pattern(row), said) is not None


def show_one(scene, changes: dict) -> None:
    """Gives these files these bytes, or removes them. It must show the readable part, and name each
    file that is wrong."""
    with replaced(scene, changes):
        lines, wanted = shown(scene)
    for name in ("record", "jobs"):
        said = [it for it in lines if it.startswith(f"{name}: ")]
        is_gone = name in changes and changes[name] is None
        is_named = len(said) == 1 and (not is_gone or said == [f"{name}: missing"])
        want(is_named or name not in wanted.wrong, f"it says of {name}: {said}")
        lines = [it for it in lines if it not in said]
    pairs = list(zip(lines, wanted.rows))
    other = next(((a, b) for a, b in pairs if not same(a, b)), (len(lines), len(wanted.rows)))
    want(len(lines) == len(wanted.rows) and all(same(*it) for it in pairs), f"it says {other}")
    want(not [it for it in lines if it.endswith("open")], "a line is told as open")


def changes_of(scene) -> list:
    """Changes of a run's files, each a file's name and its bytes."""
    rows, record, jobs = [{}], read(f"{scene.run}/record"), read(f"{scene.run}/jobs")
    for name in APPENDED:
        data = read(f"{scene.run}/{name}")
        appends = appends_in(data)
        half = len(appends) // 2
        front = b"".join(appends[:half])
        rows += [{name: it} for it in (
            None, b"", b"-", front + b"-", b"".join(appends[:-1]) + b"-", appends[0] + b"-",
            flipped(data, 8 * (len(front) + 3)), data[:-2], data + data[1:])]
    rows += [{"journal.16": None}, {"journal.16": b""}, {"journal.5": b"-x" * 40}]
    rows += [{"record": it} for it in (None, b"", record[:-1], flipped(record, 70))]
    rows += [{"record": flipped(record, 8 * 8)}, {"jobs": None}, {"jobs": flipped(jobs, 40)},
             {"jobs": jobs[:-7]}, {"jobs": jobs + b"job 90\n"}]
    rows += [{"jobs": None, "record": None}, {"jobs": None, "journal.1": b"-"},
             {"record": None, "journal.2": b"", "answers": None}]
    return rows


def try_damaged_shown(bench) -> str:
    """files of a run that are damaged, missing, empty or lack what was counted: status --damaged
    shows all that can be read, of each line its attempts, and writes nothing"""
    scene, _ = run_of_rounds(bench)
    rows = changes_of(scene)
    count = each(((scene, it) for it in some(bench, rows, 24, len(rows))), show_one)
    finish(scene, (1, 2))
    return f"{count} changes"


def try_damaged_words(bench) -> None:
    """status --damaged of a run that was just made, with other options, and without the run's id"""
    scene = bench.scene(3, 1)
    show_one(scene, {})
    show_one(scene, {"journal.3": None})
    scene = prepared(bench, ["done 0", "doubt"], lines=3)
    show_one(scene, {"lock.round": b""})
    for more in (["--json"], ["--lines", "open"]):
        status, out, err = scene.call("status", scene.run, "--damaged", *more)
        want(status == WORDS and not out and err, f"{more}: status {status}, {out or err}")
    status, out, err = scene.call("doubts", scene.run, "--damaged")
    want(status == WORDS and not out, f"doubts: status {status}, {out or err}")
    status, out, err = scene.call("status", scene.run, "--damaged", "--id", "0" * 32)
    want(status == REFUSED and not out, f"another id: status {status}, {out or err}")
    for data in (None, b"none\n"):
        with replaced(scene, {"id": data}):
            status, out, err = scene.call("status", scene.run, "--damaged")
        want(status == REFUSED and not out and "id" in err,
             f"without an id: status {status}, {out or err}")


PARTS = {"damage": [try_damaged_shown, try_damaged_words]}
