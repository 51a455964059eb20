"""Rounds are begun anew whatever became of record and words, by crews of any number, while readers
look and the jobs' file grows."""

import errno
import os
import random
import re
import shutil
import signal
import time

from worker import folder, journals
from worker.kills import state_of
from worker.persons import Says, counts_of
from worker.scene import DOOR, LATER, OVER, READ, REFUSED, SENSELESS, WRITE, Runner, each, finish, live, see_out, serve, want


def begun(bench, lines=9, workers=2):
    """Returns a run in whose first round two lines were performed."""
    scene = bench.scene(lines, workers)
    runner = Says(scene, 1, ["done 0", "done 0"])
    live(runner)
    runner.close()
    return scene


def change_between(bench, name):
    """Something is changed between two lives: a new round is begun, and each line is performed
    once."""
    scene = begun(bench)
    before = folder.record_of(scene.run)
    if name == "boot":
        scene.start_machine()
    elif name == "fewer":
        scene.workers = 1
    elif name == "more":
        scene.workers, scene.beta = 5, 7
    elif name == "grown":
        with open(scene.jobs, "a") as file:
            file.write("job 10\njob 11\n")
    else:
        os.unlink(f"{scene.run}/{name}")
    runner = Says(scene, 1, ["done 0"])
    status = live(runner)
    runner.close()
    record = folder.record_of(scene.run)
    round_is_new = record["round"] == before["round"] + 1
    want(round_is_new and record["workers"] == scene.workers, f"status {status}, record {record}, before {before}")
    count = len(scene.look().lines)
    want(record["lines"] == list(range(3, count + 1)) and count == (11 if name == "grown" else 9), f"record {record}")
    finish(scene, range(1, scene.workers + 1))
    want(len(scene.effects()) == count, f"performed: {scene.effects()}")


def try_changes(bench):
    """another boot, words removed, other WORKERS and BETA, a jobs' file that has grown: a new
    round"""
    each(((bench, it) for it in ("boot", "words", "fewer", "more", "grown")), change_between)


def try_givens(bench):
    """how many workers and which threshold a round has, and who has a seat in it"""
    rows = [(1, 3, None, 1, 1), (3, 3, None, 1, 1), (4, 3, None, 2, 2), (8, 3, None, 3, 3), (9, 3, 5, 3, 3), (12, 3, 5, 3, 5),
            (40, 16, None, 11, 11), (64, 16, 3, 16, 16), (7, 1, 4, 1, 1), (100, 2, 50, 2, 50), (99, 2, 50, 2, 2)]
    for lines, workers, beta, m, threshold in rows:
        scene = bench.scene(lines, workers, beta=beta)
        runner = Runner(scene, workers)
        runner.leaves = True
        live(runner)
        record = folder.record_of(scene.run)
        found = [record[name] for name in ("n", "m", "beta", "first")]
        want(found == [lines, m, threshold, workers], f"{lines} {workers} {beta}: {record}")
        want(os.path.getsize(f"{scene.run}/words") == 512 + 8 * (m * (lines + 3) + 1), "the words have another size")
        runner.close()


def size_one(bench, lines, workers, beta):
    """A round of so many lines is begun by one of these workers, who performs one of them: its
    record and its words."""
    scene, first = bench.scene(lines, workers, beta=beta), lines % workers + 1
    runner = Runner(scene, first)
    runner.leaves = True
    live(runner)
    runner.close()
    want(len(scene.effects()) == 1, f"status {runner.statuses}: {runner.said}")
    m = min(workers, lines // 4 + 1)
    threshold = max(beta, m) if m > 1 and lines >= 2 * (beta + m - 2) else m
    record = folder.record_of(scene.run)
    found = [record[name] for name in ("round", "n", "m", "beta", "workers", "first")]
    want(found == [1, lines, m, threshold, workers, first], f"record {record}")
    want(record["lines"] == list(range(1, lines + 1)), f"record {record}")
    want(os.path.getsize(f"{scene.run}/words") == 512 + 8 * (m * (lines + 3) + 1), "the words have another size")


def try_sizes(bench):
    """a round of each number of lines up to 70, and some larger ones: its givens, its words, and a
    line that is performed"""
    sizes = [*range(1, 71), 100, 255, 256, 257, 500, 1000, 2000, 3000, 4095]
    return f"{each(((bench, n, 5 * n % 16 + 1, n % 9 + 1) for n in sizes), size_one)} rounds"


def try_seats(bench):
    """while a worker is at work in a round for one, no other has a seat in it"""
    scene = bench.scene(3, 4)
    first = Says(scene, 3, ["none"])
    first.perform = lambda serial, line: None
    serve([first.start()], until=lambda: first.lines)
    for p in (1, 2, 4):
        other = Runner(scene, p)
        want(live(other) == LATER and not other.lines, f"worker {p}: status {other.statuses}, {other.lines}")
        other.close()
    again = Runner(scene, 3, is_stray=True)
    want(live(again) == LATER and not again.lines, f"a second worker 3: status {again.statuses}, {again.lines}")
    first.close()
    scene.account.append(("performed", 3, 1, 1))
    finish(scene, (1, 2, 3, 4))


def try_closing_wins(bench):
    """a line that one worker didn't begin and another performed later is closed, in whichever order
    the journals are read"""
    for first, second in ((1, 2), (2, 1)):
        scene = bench.scene(3, 2)
        runner = Says(scene, first, ["unbegun"])
        live(runner)
        runner.close()
        finish(scene, (second,))
        finish(scene, (first, second))
        want(len(scene.effects()) == 3, f"performed: {scene.effects()}")


def try_jobs_changed(bench):
    """a jobs' file that was changed or cut: refused by the number of the line, and taken again as
    it was"""
    scene = begun(bench)
    last = [f"job {k}" for k in range(1, 9)] + ["job 99"]
    for texts, line in [(["job 1", "other", "job 3"], 2), (["job 1"], 2), ([], 1), (last, 9)]:
        scene.write_jobs(texts)
        for command in (["door", scene.run], ["work", scene.run, "1"]):
            status, _, err = scene.call(*command, *scene.givens(), scene.jobs)
            said = err.replace(scene.room, "")
            named = str(line) in said and "jobs" in said
            want(status == REFUSED and named, f"{texts[:3]}: {command[0]} ends with {status}, {err}")
    scene.write_jobs([f"job {k}" for k in range(1, 10)])
    finish(scene, (1, 2))
    want(len(scene.effects()) == 9, f"performed: {scene.effects()}")


def try_last_line(bench):
    """a last line whose writer isn't done: refused in the first round, left out of later ones,
    refused if no line is open"""
    scene = begun(bench)
    with open(scene.jobs, "a") as file:
        file.write("job 10\njob 1")
    scene.door()
    runner = Says(scene, 1, ["done 0"])
    live(runner)
    record = folder.record_of(scene.run)
    want(record["lines"] == list(range(3, 11)), f"{record}, {runner.statuses}, {runner.said}")
    runner.leaves, runner.perform, statuses = False, lambda *given: Runner.perform(runner, *given), []
    while not statuses or statuses[-1] == LATER:
        statuses.append(live(runner))
    want(statuses[-1] == REFUSED and "11" in runner.said, f"statuses {statuses}, {runner.said}")
    runner.close()
    with open(scene.jobs, "a") as file:
        file.write("1\n")
    finish(scene, (1, 2))
    want(len(scene.effects()) == 11, f"performed: {scene.effects()}")


def torn_one(bench, whole, length, tail):
    """Ends the jobs' file within this byte, or puts something else after it. It is refused by the
    first line that differs from the known one, or by the last line once no other is open. Whole
    again, it is taken."""
    scene = begun(bench, 4)
    known, data = folder.read(scene.jobs), whole[:length] + tail
    with open(scene.jobs, "wb") as file:
        file.write(data)
    runner, statuses = Runner(scene, 1), [LATER]
    while statuses[-1] == LATER:
        statuses.append(live(runner))
    runner.close()
    same = os.path.commonprefix([known, data])
    line = same.count(b"\n") + 1 if len(same) < len(known) else data.count(b"\n") + 1
    is_whole = len(same) == len(known) and data.endswith(b"\n")
    said = runner.said
    named = re.search(rf"line {line}\b", said) and "jobs" in said.replace(scene.run, "")
    want(statuses[-1] == (OVER if is_whole else REFUSED) and (is_whole or named), f"statuses {statuses}, {runner.said}")
    done = 2 if len(same) < len(known) else data.count(b"\n")
    want(len(scene.effects()) == done, f"{done} lines are whole, and performed are {scene.effects()}")
    with open(scene.jobs, "wb") as file:
        file.write(whole)
    finish(scene, (1, 2))
    want(len(scene.effects()) == 6, f"performed: {scene.effects()}")


def try_jobs_torn(bench):
    """a jobs' file that ends within a line, at each byte, or in NULs or others: refused by the
    line, and taken when it is whole"""
    whole = b"".join(b"job %d\n" % k for k in range(1, 7))
    rows = [(bench, whole, length, tail) for length in range(len(whole)) for tail in (b"", b"\0\0\0", b"\xff\xfe", b"+-")]
    return f"{each(bench.sample(rows, 14), torn_one)} files"


def try_many_lines(bench):
    """more lines than a round can have: the first 4096 that are open, and then the rest"""
    scene = bench.scene(4097, 4)
    scene.is_judged = False  # the test writes a journal
    runner = Runner(scene, 2)
    runner.leaves = True
    live(runner)
    want(folder.record_of(scene.run)["lines"] == list(range(1, 4097)), "the first round has other lines")
    records = [it for k in range(1, 4096)
               for it in (b"intent %d %d 1" % (k, k + 1), b"done %d 0 1" % k)]
    folder.put(f"{scene.run}/journal.3", journals.journal(scene.id(), "journal.3", records))
    scene.account += [("performed", 3, k - 1, k) for k in range(2, 4097)]
    live(runner)
    runner.close()
    want(len(scene.effects()) == 4097, f"{len(scene.effects())} lines are performed")
    finish(scene, (3, 2, 1))
    if bench.is_long:
        scene = bench.scene(100000, 16)
        runner = Runner(scene, 16)
        runner.leaves, before = True, time.monotonic()
        live(runner)
        runner.close()
        want(folder.record_of(scene.run)["lines"] == list(range(1, 4097)), "the round of 100,000 lines has other lines")
        return f"100,000 lines begin in {time.monotonic() - before:.1f} seconds"


def crew_one(bench, lines, workers, pauses, seed):
    """A crew; with pauses some of its workers are stopped in the middle of a round for a while,
    others killed."""
    draws = random.Random(seed)
    scene = bench.scene(lines, workers)
    runners = [Runner(scene, p) for p in range(1, workers + 1)]
    stopped = {}
    for it in runners:
        it.start()
    end = time.monotonic() + 60
    while pauses and len(scene.effects()) < lines * 2 // 3 and time.monotonic() < end:
        serve(runners, until=lambda until=time.monotonic() + draws.random() * 0.02: time.monotonic() > until)
        for it in runners:
            if it in stopped and draws.random() < 0.5:
                stopped.pop(it).send_signal(signal.SIGCONT)
            elif it.process and it not in stopped and draws.random() < 0.3:
                if draws.random() < 0.3:
                    it.kill()
                else:
                    it.process.send_signal(signal.SIGSTOP)
                    stopped[it] = it.process
            elif not it.process:
                it.start()
    for process in stopped.values():
        process.send_signal(signal.SIGCONT)
    see_out(runners, draws=draws)
    for it in runners:
        it.close()
    scene.audit()
    performed = [it[2] for it in scene.effects()]
    doubts = [it[2] for it in scene.doubts()]
    want(set(performed) | set(doubts) == set(range(1, lines + 1)), f"performed {performed}, in doubt {doubts}")
    want(pauses or not doubts, f"in doubt {doubts}, though nobody was killed")


def try_crews(bench):
    """crews of 1 to 16 workers, with and without pauses and kills: each line is performed once, or
    in doubt"""
    sizes = range(1, 17) if bench.is_long else (1, 2, 5, 16)
    rows = [(bench, 3 * m + 8, m, pauses, f"{bench.seed}.{m}.{pauses}") for m in sizes for pauses in (False, True)]
    return f"{each(rows * (5 if bench.is_long else 1), crew_one)} crews"


def try_stopped_in_a_round(bench):
    """a worker stopped in the middle of a round: no other begins a round meanwhile, and it goes on
    afterwards"""
    scene = bench.scene(6, 2)
    runner, other = Runner(scene, 1), Runner(scene, 2)
    runner.perform = lambda serial, line: None
    serve([runner.start()], until=lambda: runner.lines)
    runner.process.send_signal(signal.SIGSTOP)
    record = folder.record_of(scene.run)
    for _ in range(4):
        want(live(other) == LATER, f"status {other.statuses}")
    want(folder.record_of(scene.run) == record, "a round was begun beside a stopped worker")
    want(not scene.doubts(), "a stopped worker's line is a doubt")
    del runner.perform
    runner.process.send_signal(signal.SIGCONT)
    runner.take(runner.lines[0])
    serve([runner])
    runner.close()
    other.close()
    finish(scene, (1, 2))
    want(len(scene.effects()) == 6, f"performed: {scene.effects()}")


def stop_between(bench, number):
    """Worker 2 is stopped at this call, while worker 1 leaves its round, and worker 3 begins the
    next and works in it; then it goes on. With no number: the calls of worker 2 from its guard to
    what it says first."""
    scene = bench.scene(9, 3)
    first, second, third = (Runner(scene, p) for p in (1, 2, 3))
    first.perform = lambda serial, line: None
    second.leaves = third.leaves = True
    serve([first.start()], until=lambda: first.lines)
    scene.logs = not number
    serve([second.start(f"{number}:stop_before" if number else None)], until=lambda: state_of(second) in "TZ")
    if not number:
        calls = scene.logged()
        guard = next(k for k, it in enumerate(calls) if it[2:4] == ["lock", "journal.2"])
        return calls[guard:next(k for k, it in enumerate(calls) if it[2] == "say")]
    del first.perform
    first.leaves = True
    first.take(first.lines[0])
    serve([first])
    live(third)
    if second.process:
        second.process.send_signal(signal.SIGCONT)
    serve([second])
    for it in (first, second, third):
        it.close()
    finish(scene, (1, 2, 3))
    want(len(scene.effects()) == 9, f"performed: {scene.effects()}")


def try_stopped_between_rounds(bench):
    """a worker stopped at each call between its guard and its work, while another round is begun:
    it works in no old one"""
    numbers = [int(it[1]) for it in stop_between(bench, None)]
    return f"{each(((bench, it) for it in bench.sample(numbers, 30)), stop_between)} stops"


def collide_one(bench, lines, number):
    """Lets two workers collide. Worker 1 has performed so many lines and has one in its hand.
    Worker 2 is stopped at this call, while worker 1 goes on to its next line. Then worker 2 goes
    on. Without a number: returns the calls of worker 2 on words."""
    scene = bench.scene(6, 2)
    first, second = Runner(scene, 1), Runner(scene, 2)
    first.perform = lambda *given: Runner.perform(first, *given) if len(first.lines) <= lines else None
    serve([first.start()], until=lambda: len(first.lines) > lines or not first.process)
    scene.logs = not number
    second.start(f"{number}:stop_before" if number else None)
    serve([second], until=lambda: state_of(second) in "TZ")
    if not number:
        return [int(it[1]) for it in scene.logged() if it[3] == "words" and it[2] in ("read", "write")]
    if first.process:
        reply = Runner.perform(first, *map(int, first.lines[-1].split(" ")[1:3]))
        first.process.stdin.write(f"{reply.split(' ')[0]} {first.lines[-1].split(' ')[1]} 0 go\n".encode())
        serve([first], until=lambda: len(first.lines) > lines + 1)
    if second.process:
        second.process.send_signal(signal.SIGCONT)
    serve([second])
    first.close()
    second.close()
    finish(scene, (1, 2))


def try_collisions(bench):
    """a worker stopped at each access of the words while another goes on by a line: no job is
    claimed by both"""
    rows = [(bench, lines, number) for lines in range(4) for number in collide_one(bench, lines, None)]
    return f"{each(bench.sample(rows, 60), collide_one)} stops"


def spoil_one(bench, word, value):
    """A word gets this value, that no worker leaves, while worker 1 has a line in its hand; worker
    2 begins, and worker 1 goes on. Each ends by naming the word by which it noticed, or has nothing
    to do with it. Then the next round begins with new words."""
    scene = bench.scene(8, 2)
    first, second = Runner(scene, 1), Runner(scene, 2)
    first.perform = lambda *given: Runner.perform(first, *given) if len(first.lines) < 3 else None
    serve([first.start()], until=lambda: len(first.lines) > 2)
    with open(f"{scene.run}/words", "r+b") as file:
        file.seek(512 + 8 * word)
        file.write(value.to_bytes(8, "little"))
    serve([second.start()])
    del first.perform
    first.process.stdin.write(answer_to(first).encode())
    serve([first])
    for it in (first, second):
        named = it.statuses == [SENSELESS] and re.search(r"word \d+\b", it.said)
        want(named or it.statuses == [LATER], f"worker {it.worker} ends with {it.statuses}: {it.said}")
        it.close()
    finish(scene, (1, 2))
    want(len(scene.effects()) == 8, f"performed: {scene.effects()}")


def answer_to(runner):
    """Performs the last line of this runner's worker, and returns the answer to it."""
    serial, line = map(int, runner.lines[-1].split(" ")[1:3])
    reply = Runner.perform(runner, serial, line)
    return f"{reply.split(' ')[0]} {serial} 0 go\n"


def return_one(bench, spoil):
    """Kills worker 2, which has performed two lines, and changes its words so that no worker leaves
    them so, while worker 1 is at work. It goes on with nothing until both have ended and the next
    round is begun."""
    scene = bench.scene(8, 2)
    first, second = Runner(scene, 1), Runner(scene, 2)
    first.perform = lambda serial, line: None
    serve([first.start()], until=lambda: first.lines)
    second.perform = lambda *given: Runner.perform(second, *given) if len(second.lines) < 3 else None
    serve([second.start()], until=lambda: len(second.lines) > 2)
    second.kill()
    serve([second])
    path, record = f"{scene.run}/words", folder.record_of(scene.run)
    words = bytearray(folder.read(path))
    spoil(memoryview(words)[512:].cast("Q"), record["m"], record["n"])
    with open(path, "r+b") as file:
        file.write(words)
    second.perform = lambda serial, line: None
    serve([second.start()], until=lambda: second.lines and second.lines[-1].startswith("perform"))
    want(second.statuses[-1] == SENSELESS and "words" in second.said, f"status {second.statuses}: {second.said} {second.lines}")
    scene.account.append(("performed", 1, 1, 1))
    for it in (first, second):
        it.close()
    finish(scene, (1, 2))


def spoils():
    """Changes of worker 2's words that no worker leaves: its count of claims, its announcement, its
    row."""
    seat = 2

    def row(words, m, n, place, value):
        words[2 * m + (seat - 1) * (n + 1) + place] = value

    def entry(words, m, n, place):
        return words[2 * m + (seat - 1) * (n + 1) + place]

    def claims(words, m, value):
        words[m + seat] = value

    yield lambda words, m, n: claims(words, m, 1)
    yield lambda words, m, n: claims(words, m, 5)
    yield lambda words, m, n: row(words, m, n, 2, entry(words, m, n, 1))
    yield lambda words, m, n: row(words, m, n, 1, n + 1)
    yield lambda words, m, n: words.__setitem__(seat, n + 1)
    yield lambda words, m, n: words.__setitem__(seat, entry(words, m, n, 1))


def try_words_spoiled(bench):
    """words of values that no worker leaves, while others work: it is named, or nothing to do with;
    each line is done once"""
    rows = [(bench, word, value) for word in range(2 * (8 + 3) + 1) for value in (9, 2**32 + 1, 2**64 - 1)]
    count = each(bench.sample(rows, 10), spoil_one)
    return f"{count + each(((bench, it) for it in spoils()), return_one)} changes"


def read_one(scene, is_list):
    """Runs one reader while the writers write. A line that was performed before it began isn't
    open, and its counts add up."""
    before = {it[2] for it in scene.effects()}
    lines = len(scene.look().lines)
    if is_list:
        status, out, err = scene.call("status", scene.run, "--lines", "open")
        want(status == OVER, f"status: {status}, {err}")
        shown = {int(it.split("\t")[1]) for it in out.splitlines()}
        want(not shown & before, f"told as open, and performed before: {sorted(shown & before)}")
        return
    counts, _ = counts_of(scene)
    total = sum(counts[kind] for kind in folder.KINDS)
    want(total == counts["lines"] >= lines, f"the counts don't add up: {counts}, {lines} lines before")
    want(counts["lines"] - counts["open"] >= len(before), f"{counts}, and {len(before)} were performed before")


def read_beside(bench, seed):
    """Runs 200 readers while four writers write one run."""
    scene, rounds = bench.scene(40, 4), 0
    runners = [Runner(scene, p) for p in range(1, 5)]
    for count in range(200):
        for it in runners:
            if not it.process:
                it.start()
        serve([it for it in runners if it.process], until=lambda until=time.monotonic() + 0.004: time.monotonic() > until)
        read_one(scene, count % 2)
        if len(scene.effects()) + 12 > 40 + rounds * 20 or count % 40 == 0:
            rounds += 1
            with open(scene.jobs, "a") as file:
                file.write("".join(f"job {k}\n" for k in range(21 + rounds * 20, 41 + rounds * 20)))
    see_out(runners)
    for it in runners:
        it.close()
    scene.audit()
    found = scene.look()
    want(counts_of(scene)[0] == found.counts(found.final()), "at the end the counts are wrong")


def try_readers(bench):
    """readers while four writers write, the jobs' file grows and rounds begin: never a wrong count;
    in the long form 50 times"""
    return f"{200 * each(((bench, k) for k in range(50 if bench.is_long else 1)), read_beside)} readers"


def try_unreadable(bench):
    """a journal, jobs, record or answers that can't be read is never taken for an empty one:
    nothing is begun, and it is named"""
    for name in ("journal.2", "journal.16", "answers", "jobs"):
        scene = begun(bench)
        path = f"{scene.run}/{name}"
        kept = folder.read(path)
        if os.path.exists(path):
            os.unlink(path)
        os.mkdir(path)
        record = folder.read(f"{scene.run}/record")
        runner = Runner(scene, 1)
        named = live(runner) in (READ, WRITE) and name in runner.said
        want(named and not runner.lines, f"{name}: status {runner.statuses}, {runner.said}")
        runner.close()
        for command in ("status", "doubts"):
            status, out, err = scene.call(command, scene.run)
            want(status in (READ, WRITE) and not out and name in err, f"{name}: {command} ends with {status}, {out or err}")
        want(folder.read(f"{scene.run}/record") == record, f"{name}: a round was begun")
        os.rmdir(path)
        if kept:
            with open(path, "wb") as file:
                file.write(kept)
        finish(scene, (1, 2))
        want(len(scene.effects()) == 9, f"performed: {scene.effects()}")


def fail_reader(bench, scene, number, call, file):
    """A command of which one read fails ends by saying so, and shows nothing."""
    status, out, err = scene.call(call, scene.run, faults=f"{number}:{errno.EIO}")
    want(status in (READ, WRITE, DOOR) and not out and (file in err or file in (".", "..")), f"status {status}, {out or err}")


def try_failed_readers(bench):
    """each call of status and doubts refused in turn: it ends, names the file, and shows no
    counts"""
    scene, count = begun(bench), 0
    runner = Says(scene, 2, ["doubt"])
    live(runner)
    runner.close()
    for call in ("status", "doubts"):
        shutil.rmtree(scene.log, ignore_errors=True)
        scene.call(call, scene.run)  # so that no doubt is left that it would record
        scene.logs = True
        scene.call(call, scene.run)
        scene.logs, calls = False, scene.logged()
        os.unlink(scene.log)
        chosen = [it for it in calls if it[2] in ("open", "read", "lock", "write", "sync", "cut")]
        count += each(((bench, scene, int(it[1]), call, it[3]) for it in bench.sample(chosen, 40)), fail_reader)
    finish(scene, (1, 2))
    return f"{count} refusals"


PARTS = {"rounds": [try_changes, try_givens, try_sizes, try_seats, try_closing_wins, try_jobs_changed, try_jobs_torn, try_last_line,
                    try_many_lines],
         "crews": [try_crews, try_collisions, try_words_spoiled, try_stopped_in_a_round, try_stopped_between_rounds],
         "readers": [try_readers, try_unreadable, try_failed_readers]}
