"""Files of a run that were cut or changed: each is read as far as it counts, or refused by name and
number."""

import fcntl
import os
import re

from worker import folder, headers, journals
from worker.folder import put
from worker.persons import Says, prepared
from worker.scene import DOOR, LATER, LEFT, OVER, READ, REFUSED, SENSELESS, Runner, each, finish, live, want

OTHERS = b"+-\n \0" + b"019x"


def counts_in(out):
    words = out.split("\n")[0].split(" ")
    return dict(zip(words[::2], map(int, words[1::2])))


def refused_as(scene, name: str, place: int, wrong: str) -> None:
    """Status refuses the append of this number, or the whole file, by the file's name and with what
    is wrong if the file is damaged, and changes nothing."""
    before = folder.contents(scene.run)
    status, out, err = scene.call("status", scene.run)
    what = f"{name}, append {place} ({wrong})" if place else f"{name} ({wrong})"
    want(status == REFUSED and not out, f"{what}: status ends with {status}: {out or err}")
    said = rf"append {place}\b"
    if wrong in journals.WRONG:
        said = f"append {place}: {wrong};"
    if place is None:
        said = headers.pattern(wrong)
    is_named = re.search(rf"`RUN/{re.escape(name)}`.*\b{said}", err.replace(scene.run, "RUN"))
    want(is_named and err.count("\n") == 1, f"{what}: status says {err}")
    want(folder.contents(scene.run) == before, f"{what}: something was changed")


def read_as(scene, name, data):
    """With these bytes in a file, status says what the auditor reads, or refuses the append that
    the auditor refuses; no record goes or comes. Whether it was read."""
    put(f"{scene.run}/{name}", data)
    if not data:
        status, out, err = scene.call("status", scene.run)
        named = name in err.replace(scene.run, "RUN")
        want(status == REFUSED and not out and named,
             f"{name} is empty: status {status}, {out or err}")
        return False
    try:
        found = scene.look()
    except folder.Refused as refused:
        refused_as(scene, *refused.args)
        return False
    wanted, before = found.counts(found.final()), folder.records_in(scene.run, name)
    status, out, err = scene.call("status", scene.run)
    counts = counts_in(out)
    want(status == OVER and sum(counts[kind] for kind in folder.KINDS) == counts["lines"], f"status {status}, {out or err}")
    if any(len(found.of_line(line)) > 1 for line in range(1, len(found.lines) + 1)):  # no run has that: what it counts as is open
        counts, wanted = [{name: it[name] for name in ("lines", "open")} for it in (counts, wanted)]
    want(counts == wanted, f"status says {out}, and there is {wanted}")
    want(folder.records_in(scene.run, name) == before,
         f"records of {name} went or came by being read")
    return True


def cut_one(scene, name, data, length, works):
    """Cuts a journal at this byte. If it is read, the next worker keeps its records, and puts the
    next after them. A record that is cut away was acknowledged, and isn't looked for. The file must
    never be empty."""
    scene.acknowledged.clear()
    if read_as(scene, name, data[:length]) and works:
        kept = folder.records_in(scene.run, name)
        runner, scene.logs = Says(scene, 1, ["unbegun"]), True
        live(runner)
        runner.close()
        scene.logs, calls = False, scene.logged()
        os.unlink(scene.log)
        emptied = [it for it in calls if it[2:4] == ["cut", name] and it[5] == "0"]
        want(not emptied, f"{name} is empty for a moment, by {emptied}")
        records = folder.records_in(scene.run, name)
        want(runner.statuses[0] in (LEFT, OVER), f"status {runner.statuses}: {runner.said}")
        want(records[:len(kept)] == kept, f"there is {records}, and {kept} was there")
        whole = journals.journal(scene.id(), name, records)
        want(folder.read(f"{scene.run}/{name}") == whole, f"{name} isn't recovered")


def run_of_all_kinds(bench):
    """Returns a run with all kinds of records in a journal and in answers."""
    scene = prepared(bench, ["done 0", "doubt", "untouched 75", "doubt", "done 3", "unbegun", "dies"], lines=8)
    scene.answer(1, 2, 2, "not-done")
    scene.answer(1, 4, 4, "done")
    return scene


def try_cut(bench):
    """journal and answers cut at each byte: refused by the number of the append; cut after one they
    are read, and a worker goes on"""
    count = 0
    for name in ("journal.1", "answers"):
        scene = run_of_all_kinds(bench)
        data = folder.read(f"{scene.run}/{name}")
        ends = {it for it in range(1, len(data)) if data[it - 1:it] == b"\n"}
        works = ends if name == "journal.1" else set()
        lengths = sorted({*bench.sample(range(len(data)), 90), *ends})
        count += each(((scene, name, data, it, it in works) for it in lengths), cut_one)
    return f"{count} cuts"


def try_changed(bench):
    """each byte of journal and answers changed: refused by the number of the append, or read as the
    auditor reads it"""
    count = 0
    for name in ("journal.1", "answers"):
        scene = run_of_all_kinds(bench)
        data = folder.read(f"{scene.run}/{name}")
        places = [(at, byte) for at in range(len(data)) for byte in OTHERS if data[at] != byte]
        chosen = places if bench.is_long else bench.draws.sample(places, min(len(places), 110))
        count += each(((scene, name, data[:at] + bytes([byte]) + data[at + 1:]) for at, byte in chosen), read_as)
    return f"{count} changes"


def torn_ends(line: bytes) -> list:
    """Returns the bytes that a crash may leave after the last append while this line is put, and
    the most that may stand there."""
    torn = bytes(it if k % 3 else 0 for k, it in enumerate(line))
    parts = [line, line + b"-", line + b"\0", line[:-1], line[:5], torn,
             torn.replace(b"\n", b"\0"), bytes(1024), b"+" * 1024, bytes(1023) + b"\n",
             bytes(1022) + b"\n-"]
    return [b"-" + it for it in parts] + [b"x", b"\0", b"\n", b"-", b""]


def try_cut_off_append(bench):
    """an append that was cut off counts for nothing, whatever a crash leaves of it, and is gone
    once somebody goes on"""
    empty = bench.scene(3, 2)
    runner = Says(empty, 2, ["done 0"])  # so that there is a round, and nothing in journal.1
    live(runner)
    runner.close()
    data = b"-" + journals.appends(empty.id(), "journal.1", [b"intent 1 3 1"])[0][1:] + b"-"
    cut_one(empty, "journal.1", data, len(data), True)
    scene = run_of_all_kinds(bench)
    records = folder.records_in(scene.run, "journal.1")
    *whole, line = journals.appends(scene.id(), "journal.1", [*records, b"intent 8 8 1"])
    files = [b"".join(whole) + it for it in torn_ends(line[1:])]
    each(((scene, "journal.1", it, len(it), True) for it in files), cut_one)


def try_records_of_an_append(bench):
    """an append of two records is read; one of three, or of two that something else parts, is
    refused by its number, and so is one of two answers"""
    scene = run_of_all_kinds(bench)
    intent, unbegun, more = b"intent 8 8 1", b"unbegun 8", b"intent 9 8 1"
    answers = b"done 1 5 9", b"done 1 3 9"
    wrong = [b"; ".join(it) for it in ([intent, unbegun, more], [intent, b""], [b"", intent])]
    wrong += [intent + it + unbegun for it in (b";", b" ; ", b";  ", b"; ; ", b", ")]
    rows = [("journal.1", it, False) for it in (*wrong, b"; ".join([intent, b"unbegun 9"]))]
    rows += [("journal.1", b"; ".join([intent, unbegun]), True), ("answers", answers[0], True),
             ("answers", b"; ".join(answers), False)]
    for name, last, is_read in rows:
        kept, records = folder.read(f"{scene.run}/{name}"), folder.records_in(scene.run, name)
        data = journals.journal(scene.id(), name, [*records, last])
        want(read_as(scene, name, data) == is_read, f"{last}: it is {'refused' if is_read else 'taken'}")
        put(f"{scene.run}/{name}", kept)


def change_one(bench, name, at, byte):
    """One byte of record, words or jobs is changed or cut away: a round is begun, or the fault is
    named; none is done twice."""
    scene = bench.scene(6, 2)
    runner = Says(scene, 1, ["done 0", "doubt", "done 0"])
    live(runner)
    runner.close()
    data = folder.read(f"{scene.run}/{name}")
    put(f"{scene.run}/{name}", data[:at] + (bytes([byte]) + data[at + 1:] if byte is not None else b""))
    statuses = []
    for p in (2, 1):
        runner = Runner(scene, p)
        statuses.append(live(runner))
        runner.close()
        want(statuses[-1] in (OVER, REFUSED, SENSELESS, LATER, DOOR), f"status {statuses}: {runner.said}")
        want(statuses[-1] in (OVER, LATER) or name in runner.said, f"{name} isn't named: {runner.said}")
    if REFUSED in statuses or DOOR in statuses:
        put(f"{scene.run}/{name}", data)
    finish(scene, (1, 2))
    want(len(scene.effects()) == 6, f"performed: {scene.effects()}")


def try_record_words_jobs(bench):
    """each byte of record, words and jobs changed or cut away: a new round or a named fault, and no
    line is performed twice"""
    scene = bench.scene(6, 2)
    runner = Says(scene, 1, ["done 0", "doubt", "done 0"])
    live(runner)
    runner.close()
    chosen = []
    for name, few in (("record", 14), ("words", 8), ("jobs", 8)):
        size = os.path.getsize(f"{scene.run}/{name}")
        chosen += [(bench, name, at, bench.draws.choice([*OTHERS, None])) for at in bench.sample(range(size), few)]
    return f"{each(chosen, change_one)} changes"


def share_one(bench, name, change):
    """Somebody else keeps the round: then record and words that don't fit are left alone, until
    later."""
    scene = bench.scene(6, 2)
    runner = Says(scene, 1, ["done 0", "done 0"])
    live(runner)
    other = Runner(scene, 2, is_stray=True)
    held = open(f"{scene.run}/lock.round", "ab")
    fcntl.flock(held, fcntl.LOCK_SH | fcntl.LOCK_NB)
    path = f"{scene.run}/{name}"
    data = folder.read(path)
    if change is None:
        os.unlink(path)
    else:
        put(path, change(data))
    status = live(other)
    want(status in (LATER, REFUSED, SENSELESS, READ, DOOR), f"status {status}: it goes on with this")
    want(not other.lines, f"it says {other.lines}")
    held.close()
    put(path, data)
    runner.close()
    finish(scene, (1, 2))
    want(len(scene.effects()) == 6, f"performed: {scene.effects()}")


def try_of_another(bench):
    """record or words of another boot, round or givens, cut or missing, while others are at work:
    nobody goes on with them"""
    swaps = [(b"round 1", b"round 2"), (b"boot 0", b"boot 1"), (b"givens 6 2 2", b"givens 6 2 3"), (b"givens 6", b"givens 5")]
    changes = [(name, lambda data, swap=swap: data.replace(*swap, 1)) for name in ("record", "words") for swap in swaps]
    changes += [("words", lambda data, it=it: data[:it]) for it in (-1, 512, 0)] + [("record", None), ("words", None)]
    changes += [("words", lambda data: data + bytes(8)), ("words", lambda data: data[:512] + b"\xff" * (len(data) - 512))]
    return f"{each(((bench, *it) for it in changes), share_one)} changes"


PARTS = {"texts": [try_cut, try_changed, try_cut_off_append, try_records_of_an_append, try_record_words_jobs, try_of_another]}
