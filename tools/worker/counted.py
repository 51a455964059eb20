"""The counts of a round's header. A journal or `answers` that lacks a counted append is refused
with how many there were, and so are a damaged `record`, another `jobs` and a missing file. A part
that isn't counted reads as a crash leaves it, and no healthy run is refused."""

import contextlib
import errno
import os
import signal
import time
from typing import Iterator, Optional

from worker import folder, headers, journals
from worker.crowd import Reader
from worker.damage import Writer, flipped, some
from worker.disk import Power
from worker.folder import put, read, records_in
from worker.kills import state_of
from worker.making import refuse_all
from worker.persons import Says, prepared
from worker.power import settle_doubts
from worker.scene import DOOR, OVER, REFUSED, Runner, Scene, each, finish, live, serve, want
from worker.texts import read_as, refused_as

REPLIES = ["done 0", "doubt", "untouched 75", "unbegun", "done 0", "done 3", "done 0"]
LINES = 44
LIVES = (1, 2, 1, 2, 1)  # of which worker is each life, each of which is a round of its own
APPENDED = ("journal.1", "journal.2", "answers")
KEPT = ("record", "jobs", *APPENDED)


def run_of_rounds(bench) -> tuple:
    """Returns a run of five rounds, with 20 appends in the longer of two journals, and with
    answers; and the bytes of its files after each round."""
    scene, copies = bench.scene(LINES, 2), []
    for number, worker in enumerate(LIVES, 1):
        runner = Says(scene, worker, REPLIES if number < 5 else REPLIES[:3])
        live(runner)
        runner.close()
        if number < 5:
            answer_last(scene, worker)
            with open(scene.jobs, "a") as file:
                file.write(f"job {LINES + number}\n")
        copies.append({name: read(f"{scene.run}/{name}") for name in KEPT})
    return scene, copies


def answer_last(scene, worker: int) -> None:
    """A person answers the last attempts of a worker that are in doubt and untouched."""
    intents = [it for it in scene.look().intents.values() if it.worker == worker and not it.found]
    for answer, verdict in (("doubt", "done"), ("untouched", "not-done")):
        it = [it for it in intents if it.answer == answer][-1]
        scene.answer(worker, it.serial, it.line, verdict)


def appends_in(data: bytes) -> list:
    """Returns the appends in the bytes of a sound file."""
    return data[:-1].splitlines(keepends=True)


def header_in(scene, data: bytes) -> headers.Header:
    """Returns the header in these bytes of the run's `record`."""
    header = headers.Header(scene.id(), data)
    want(header.is_there and header.is_sound, f"the header is damaged: {data}")
    return header


def records_of(copy: dict) -> dict:
    """Returns the records of each file in a copy of the run's files."""
    return {name: [it[1:-10] for it in appends_in(copy[name])] for name in APPENDED}


def try_header(bench) -> str:
    """each header is, byte for byte, what the tests' own code makes of the files that were there
    when the round began, and the words are of its version and round"""
    scene, copies = run_of_rounds(bench)
    before = {}
    for number, copy in enumerate(copies, 1):
        front = headers.front_of(copy["record"])
        wanted = headers.text(scene.id(), front, copy["jobs"], before)
        want(copy["record"] == wanted, f"round {number} has {copy['record']}, and not {wanted}")
        want(header_in(scene, wanted).round == number, f"its round isn't {number}")
        before = records_of(copy)
    words = read(f"{scene.run}/words")
    want(words.startswith(b"amo-words 2\nround 5\nboot "), f"the words begin with {words[:60]}")
    counts = [len(records) for records in before.values()]
    want(counts == [20, 16, 8], f"there are {counts} appends")
    finish(scene, (1, 2))
    return f"{len(copies)} headers"


@contextlib.contextmanager
def replaced(scene, files: dict) -> Iterator:
    """Gives these files of the run these bytes, or removes those that get none; at the end each is
    as it was."""
    paths = {name: f"{scene.run}/{name}" for name in files}
    kept = {name: read(path) if os.path.exists(path) else None for name, path in paths.items()}
    try:
        for name, data in files.items():
            change(paths[name], data)
        yield
    finally:
        for name, data in kept.items():
            change(paths[name], data)


def change(path: str, data: Optional[bytes]) -> None:
    """A file gets these bytes; without bytes it is removed."""
    if data is not None:
        put(path, data)
    elif os.path.exists(path):
        os.unlink(path)


def refusal_of(scene) -> Optional[tuple]:
    """Returns the arguments of the auditor's refusal of the run, or None if it takes it."""
    try:
        scene.look()
    except folder.Refused as refused:
        return refused.args
    return None


def cut_one(scene, name: str, appends: list, length: int, rest: bytes) -> None:
    """Tries a file that ends after this append, and this rest. It is refused with the counts, or,
    if all counted appends are still there, read."""
    header = header_in(scene, read(f"{scene.run}/record"))
    count, data = header.counts[name][0], b"".join(appends[:length]) + rest
    wanted = (name, None, headers.fewer(length, count, header.round)) if length < count else None
    with replaced(scene, {name: data}):
        found = refusal_of(scene)
        want(found == wanted, f"the auditor says {found}, and not {wanted}")
        is_read = read_as(scene, name, data)
    want(is_read == (wanted is None), "status and the auditor differ")


def cuts(scene) -> Iterator:
    """Yields each file that is cut after each of its appends, with nothing after that, or with the
    bytes that a crash leaves."""
    for name in APPENDED:
        appends = appends_in(read(f"{scene.run}/{name}"))
        for length in range(len(appends) + 1):
            next_line = appends[length][1:] if length < len(appends) else b"intent 9"
            if length:
                yield scene, name, appends, length, b"-"
            yield scene, name, appends, length, b"-" + next_line[:length % 2 * 5 or None]


def try_counted_lost(bench) -> str:
    """each append lost with all after it, as by an earlier copy: refused with how many there are
    and were, or, if it wasn't counted, read as a crash leaves it"""
    scene, _ = run_of_rounds(bench)
    count = each(some(bench, cuts(scene), 24, 85), cut_one)
    ends = [it for it in cuts(scene) if len(it[2]) - it[3] < 3]  # beside what is counted
    count += each(some(bench, ends, 8, 20), cut_one)
    finish(scene, (1, 2))
    return f"{count} files"


def words_of_all(scene) -> dict:
    """Returns the words of each command that reads the files."""
    work = [*scene.givens(), scene.jobs]
    return {"journal.1": ["work", "1", *work], "journal.2": ["work", "2", *work],
            "answers": ["answer", "1.2", "2", "job 2", "done"], "status": ["status"],
            "json": ["status", "--json"], "doubts": ["doubts"], "again": ["again"]}


def refuse_one(bench, scene, name: str, damaged: bytes) -> None:
    """Wants the writers of this file, and some other commands, to refuse it, and to leave it as it
    was."""
    words = words_of_all(scene)
    others = [words[it] for it in words if it != name]
    chosen = bench.draws.sample(others, 2 if bench.is_slow() else len(others))
    with replaced(scene, {name: damaged}):
        refuse_all(scene, name, "lacks an append", [words[name], *chosen])


def try_lost_to_all(bench) -> str:
    """a file that lacks a counted append is refused by each command, and stays byte for byte as it
    was, with the rest of an append that was cut off too; put back, the run goes on"""
    scene, _ = run_of_rounds(bench)
    rows = []
    for name in APPENDED:
        appends = appends_in(read(f"{scene.run}/{name}"))
        for length in (1, len(appends) // 2):
            front = b"".join(appends[:length]) + b"-"
            rows += [(bench, scene, name, front), (bench, scene, name, front + appends[length][1:])]
    count = each(rows, refuse_one)
    finish(scene, (1, 2))
    return f"{count} files"


def copy_one(scene, copies: list, number: int, names: tuple) -> None:
    """Puts these files back as they were after an earlier round. They are refused if the header
    counts more."""
    with replaced(scene, {name: copies[number][name] for name in names}):
        see_copy(scene, copies[number], names)


def see_copy(scene, copy: dict, names: tuple) -> None:
    """With these files of an earlier copy, status refuses the first of them that lacks something,
    or reads the run."""
    header, lacking = header_in(scene, read(f"{scene.run}/record")), {}
    for name in (it for it in names if it in APPENDED):
        length, count = len(appends_in(copy[name])), header.counts[name][0]
        if length < count:
            lacking[name] = headers.fewer(length, count, header.round)
    first = next((it for it in headers.FILES if it in lacking), None)
    if first:
        refused_as(scene, first, None, lacking[first])
    elif names == ("jobs",):
        refused_as(scene, "jobs", None, "damaged")
    else:
        status, _, err = scene.call("status", scene.run)
        want(status == OVER, f"status {status}: {err}")


def try_copies_of_rounds(bench) -> str:
    """an earlier copy of a journal, of `answers` or of `jobs` is refused; one of `record`, which
    counts less, is taken, and so is one of all files"""
    scene, copies = run_of_rounds(bench)
    sets = [*((it,) for it in KEPT), APPENDED, KEPT]
    rows = [(scene, copies, number, names) for number in range(4) for names in sets]
    count = each(some(bench, rows, 20, 28), copy_one)
    put(f"{scene.run}/record", copies[1]["record"])
    finish(scene, (1, 2))
    return f"{count} copies"


def try_another_append(bench) -> str:
    """in a journal of as many appends another one stands at the counted place: refused"""
    scene, copies = run_of_rounds(bench)
    header, count = header_in(scene, copies[-1]["record"]), 0
    for name in APPENDED:
        records, counted = records_of(copies[-1])[name], header.counts[name][0]
        for place in {0, counted // 2, counted - 1}:
            changed = [*records[:place], records[place] + b"0", *records[place + 1:]]
            with replaced(scene, {name: journals.journal(scene.id(), name, changed)}):
                refused_as(scene, name, None, headers.another(counted, header.round))
            count += 1
    finish(scene, (1, 2))
    return f"{count} files"


def flip_one(scene, bit: int) -> None:
    """This bit of `record` is flipped: status refuses it by name, and changes nothing."""
    with replaced(scene, {"record": flipped(read(f"{scene.run}/record"), bit)}):
        before = folder.contents(scene.run)
        status, out, err = scene.call("status", scene.run)
        want(folder.contents(scene.run) == before, "something was changed")
    wanted = (REFUSED, DOOR) if bit < 8 * len(b"amo-run 2\n") else (REFUSED,)
    is_named = "record" in err.replace(scene.run, "RUN") and err.count("\n") == 1
    want(status in wanted and is_named and not out, f"status {status}: {out or err}")


def try_record_flipped(bench) -> str:
    """each bit of `record` is flipped: refused by its name"""
    scene, _ = run_of_rounds(bench)
    bits = some(bench, range(8 * len(read(f"{scene.run}/record"))), 40, 300)
    count = each(((scene, it) for it in bits), flip_one)
    finish(scene, (1, 2))
    return f"{count} bits"


def jobs_one(bench, scene, damaged: bytes) -> None:
    """`jobs` holds these bytes: refused as damaged, by each command, and left as it is."""
    words = list(words_of_all(scene).values())
    with replaced(scene, {"jobs": damaged}):
        refused_as(scene, "jobs", None, "is damaged, or was edited")
        chosen = bench.draws.sample(words, 1 if bench.is_slow() else len(words))
        refuse_all(scene, "jobs", "is damaged", chosen)


def try_jobs_damaged(bench) -> str:
    """each byte of `jobs` is changed, or cut away with all after it: refused; more lines after the
    old ones are taken"""
    scene, copies = run_of_rounds(bench)
    data, rows = copies[-1]["jobs"], []
    for place in some(bench, range(len(data)), 10, 60):
        other = bytes([data[place] ^ 1 << bench.draws.randrange(8)])
        rows += [(bench, scene, data[:place] + other + data[place + 1:])]
        rows += [(bench, scene, data[:place])] if place else []
    count = each(rows, jobs_one)
    with replaced(scene, {"jobs": data + b"job 90\n"}):
        status, out, err = scene.call("status", scene.run)
        want(status == OVER and out.startswith(f"lines {LINES + 5} "), f"status {status}: {out or err}")
    finish(scene, (1, 2))
    return f"{count} files"


def try_parts_removed(bench) -> str:
    """`record`, `jobs`, `answers` or a journal is removed: refused as missing by each command, and
    not made anew; put back, the run goes on"""
    scene, _ = run_of_rounds(bench)
    names = (*KEPT, "journal.16")
    for name in names:
        words = list(words_of_all(scene).values())
        with replaced(scene, {name: None}):
            refused_as(scene, name, None, folder.MISSING)
            refuse_all(scene, name, "is removed",
                       bench.draws.sample(words, 3) if bench.is_slow() else words)
            want(not os.path.exists(f"{scene.run}/{name}"), f"{name} is made anew")
    finish(scene, (1, 2))
    return f"{len(names)} files"


def begin_round(scene) -> None:
    """Begins another round as a worker does: one more line in `jobs`, and a header that counts what
    is there now."""
    data, listed = read(f"{scene.run}/record"), read(scene.jobs).splitlines(keepends=True)
    number = header_in(scene, data).round
    front = headers.front_of(data).replace(b"\nround %d\n" % number,
                                           b"\nround %d\n" % (number + 1))
    records = {name: records_in(scene.run, name) for name in headers.FILES}
    jobs = b"".join(listed[:read(f"{scene.run}/jobs").count(b"\n") + 1])
    rename_new(scene, "jobs", jobs)
    rename_new(scene, "record", headers.text(scene.id(), front, jobs, records))


def rename_new(scene, name: str, data: bytes) -> None:
    """Gives a file of the run these bytes, at one moment."""
    put(f"{scene.run}/{name}.new", data)
    os.rename(f"{scene.run}/{name}.new", f"{scene.run}/{name}")


def stop_one(scene, writer: Writer, words: list, number: int) -> None:
    """Stops a reader after this call. Appends are made, and a round begins that counts them. The
    reader goes on, and refuses nothing."""
    reader = Reader(scene, *words, faults=f"{number}:stop_after")
    while state_of(reader) not in "TZ":
        time.sleep(0.002)
    for _ in range(3):
        writer.append()
    begin_round(scene)
    reader.process.send_signal(signal.SIGCONT)
    status, out, err = reader.ended()
    want(status == OVER, f"call {number}: status {status}, {out}{err}")


def try_round_beside(bench) -> str:
    """a reader stands still between two reads, and a round begins meanwhile that counts more: it
    refuses nothing"""
    scene = prepared(bench, ["done 0"], lines=4)
    scene.write_jobs([f"job {k}" for k in range(1, 500)])
    writer, rows = Writer(scene, "journal.2", 3, bench.seed), []
    commands = [(["status"], 20), (["status", "--damaged"], 8), (["doubts"], 4),
                (["door", *scene.givens(), scene.jobs], 6)]
    try:
        for words, few in commands:
            numbers = bench.sample(reads_of(scene, words), few)
            rows += [(scene, writer, words, it) for it in numbers]
        return f"{each(rows, stop_one)} stops"
    finally:
        writer.close()


def reads_of(scene, words: list) -> list:
    """Returns the numbers of the calls by which a command reads the files that a round changes."""
    scene.logs = True
    scene.call(words[0], scene.run, *words[1:])
    scene.logs, calls = False, scene.logged()
    os.unlink(scene.log)
    names = ("record", "answers", "journal.1", "journal.2", "journal.16", "jobs")
    return [int(it[1]) for it in calls if it[2] == "read" and it[3] in names]


def life_of(bench) -> list:
    """Returns the calls of a life over a simulated disk that nothing befalls."""
    scene = bench.scene(6, 2, makes=False)
    power = Power(scene, bench.draws)
    runner = Runner(scene, 1)
    live(runner)
    runner.close()
    calls = scene.logged()
    power.close()
    return [it for it in calls if it[0] == calls[-1][0]]


def commits(bench) -> Iterator:
    """Yields the calls at which a worker can end while only its last append isn't on the disk. It
    is killed at the write by which that counts, or the sync after it fails."""
    calls = life_of(bench)
    for k, it in enumerate(calls):
        if it[2:4] == ["write", "journal.1"] and it[8] == "2b":
            yield int(it[1]), "kill_after"
            yield next(int(it[1]) for it in calls[k:] if it[2] == "sync"), str(errno.EIO)


def cut_last_one(bench, number: int, fault: str) -> None:
    """A worker ends so; another begins a round, and performs a line; then power is cut, and the
    last append is gone: the run isn't refused, and goes on."""
    scene = bench.scene(6, 2, makes=False)
    power = Power(scene, bench.draws, fails="none")
    runners = [Runner(scene, 1), Runner(scene, 2)]
    live(runners[0], f"{number}:{fault}")
    before, count = len(records_in(scene.run, "journal.1")), len(scene.effects())
    serve([runners[1].start()], until=lambda: len(scene.effects()) > count)
    power.cut(runners, "none")
    after = len(records_in(scene.run, "journal.1"))
    want(after == before - 1, f"of {before} appends there are {after}, so nothing is tried")
    settle_doubts(scene)
    power.close()


def doubtful(bench) -> tuple:
    """Returns a run over a simulated disk whose three lines are in doubt, one of them answered."""
    scene = bench.scene(3, 1, makes=False)
    power = Power(scene, bench.draws, fails="none")
    runner = Runner(scene, 1)
    runner.act = lambda serial, line: runner.seen.update({serial: "doubt"})
    live(runner)
    runner.close()
    scene.answer(1, 1, 1, "not-done")
    return scene, power


def cut_answer_one(bench, number: int, fault: str) -> None:
    """A person's answer ends so; a worker begins a round, and performs a line; then power is cut,
    and the answer is gone: the run isn't refused, and goes on."""
    scene, power = doubtful(bench)
    words = ["1.2", "2", "job 2", "not-done", "--now"]
    scene.call("answer", scene.run, *words, faults=f"{number}:{fault}")
    before, runner = len(records_in(scene.run, "answers")), Runner(scene, 1)
    serve([runner.start()], until=lambda: scene.effects())
    power.cut([runner], "none")
    after = len(records_in(scene.run, "answers"))
    want(after == before - 1, f"of {before} answers there are {after}, so nothing is tried")
    settle_doubts(scene)
    power.close()


def commits_of_answers(bench) -> list:
    """Returns the calls at which a person's answer can end while only its last append isn't on the
    disk."""
    scene, power = doubtful(bench)
    scene.answer(1, 2, 2, "not-done")
    calls = scene.logged()
    power.close()
    puts = [k for k, it in enumerate(calls) if it[2:4] == ["write", "answers"] and it[8] == "2b"]
    after = calls[puts[-1]:]
    return [(int(after[0][1]), "kill_after"),
            (next(int(it[1]) for it in after if it[2] == "sync"), str(errno.EIO))]


def try_last_append_cut(bench) -> str:
    """a worker or a person's answer is killed before the sync of its last append, another begins a
    round, and power is cut: the header doesn't count that append, and nothing is refused"""
    rows = [(bench, *it) for it in commits_of_answers(bench)]
    count = each(rows, cut_answer_one)
    rows = [(bench, *it) for it in bench.sample(commits(bench), 10)]
    return f"{count + each(rows, cut_last_one)} cuts"


PARTS = {"damage": [
    try_header, try_counted_lost, try_lost_to_all, try_copies_of_rounds, try_another_append,
    try_record_flipped, try_jobs_damaged, try_parts_removed, try_round_beside,
    try_last_append_cut,
]}
