"""Cuts of power over the simulated disk, and what has to be on it before a line is performed."""

import errno

from worker import folder, headers, journals
from worker.disk import Power, records_left
from worker.folder import read
from worker.kills import Waiting, changes, is_change, state_of
from worker.scene import LATER, WRITE, Runner, each, finish, live, serve, want


def settle_doubts(scene):
    """Sees the run out; a person finds out of each doubt how it was, of one attempt at a line after
    the other; then each line has been performed once."""
    workers = range(1, scene.workers + 1)
    scene.doubts()
    finish(scene, workers, is_over=False)
    performed = [it[2] for it in scene.effects()]
    while doubts := scene.doubts():
        for worker, serial, line in doubts:
            scene.answer(worker, serial, line, "done" if line in performed else "not-done")
    finish(scene, workers)
    lines = list(range(1, len(scene.look().lines) + 1))
    want(sorted(it[2] for it in scene.effects()) == lines, f"performed: {scene.effects()}")


def cut_one(bench, number, fault, how, beside):
    """Gives a first life this fault. A second one performs a line, and then power is cut. With
    `beside`, another worker keeps the round. Returns the number of cuts."""
    scene = bench.scene(4, 2 if beside else 1, makes=False)
    power = Power(scene, bench.draws, fails="none")
    runners = [Waiting(scene, 1)] if beside else []
    for it in runners:
        serve([it.start()], until=lambda: it.lines)
    runner = Runner(scene, len(runners) + 1)
    runners.append(runner)
    live(runner, f"{number}:{fault}")
    count = len(scene.effects())
    serve([runner.start()], until=lambda: len(scene.effects()) > count)
    power.cut(runners, how)
    settle_doubts(scene)
    return power.close()


def life_points(bench, beside):
    """Returns the calls of a first life, alone or with another worker, up to the second line that
    it performs."""
    scene = bench.scene(4, 2 if beside else 1)
    other = Waiting(scene, 1) if beside else None
    if other:
        serve([other.start()], until=lambda: other.lines)
    scene.logs, runner = True, Runner(scene, 2 if beside else 1)
    live(runner)
    for it in (runner, other):
        if it:
            it.close()
    calls = scene.logged()
    said = [k for k, it in enumerate(calls) if it[2] == "say"]
    return calls[:said[1] if len(said) > 1 else len(calls)]


def try_killed_and_cut(bench):
    """killed at each call, begun again, and then the power cut: what wasn't synced is gone, and no
    line is performed twice"""
    count = 0
    for beside in (False, True):
        numbers = [int(it[1]) for it in changes(life_points(bench, beside))]
        count += each(((bench, it, "kill_after", "none", beside) for it in bench.sample(numbers, 25)), cut_one)
        if bench.is_long:
            for how in ("all", "drawn", "drawn"):
                count += each(((bench, it, "kill_after", how, beside) for it in numbers), cut_one)
    return f"{count} cuts"


def see_cuts(bench, power, calls):
    """Tries some cuts of power after each of these calls. The journal has a front of the records
    that it has in the end, with all that it had before the worker last printed a line, and isn't
    refused. Jobs and record are there whole, or missing, and each file has what record counts.
    Returns the number of cuts."""
    records_of = lambda data: records_left(power.scene.id(), "journal.1", bytes(data))
    final, spoken, count = records_of(read(f"{power.scene.run}/journal.1")), 0, 0
    for call in calls:
        power.disk.take_call(call)
        journal = power.disk.names.get("journal.1")
        spoken = len(records_of(journal.now)) if call[2] == "say" else spoken
        if not is_change(call):
            continue
        for how in ["none", "all"] + ["drawn"] * (200 if bench.is_long else 20):
            left = power.disk.cut(how) or {}
            records = records_of(left.get("journal.1", b""))
            is_front = records == final[:len(records)] and len(records) >= spoken
            want(is_front, f"after {call[1:4]}: {records}, of {final}, {spoken} before it spoke")
            jobs = left.get("jobs", b"")
            want(read(power.scene.jobs).startswith(jobs) and jobs[-1:] in (b"", b"\n"), f"after {call[1:4]}: jobs holds {jobs}")
            want_kept(power.scene.id(), left, f"after {call[1:4]}")
            count += 1
    return count


def want_kept(run: str, left: dict, when: str) -> None:
    """Wants the files that a cut of power has left not to be refused: the header is whole, or
    missing, and each file has all that it counts."""
    header = headers.Header(run, left.get("record", b""))
    want(header.is_sound, f"{when}: record holds {left.get('record')}")
    for name in headers.FILES if left else ():
        records = records_left(run, name, left[name])
        lost = header.lost(name, journals.checksums(run, name, records))
        want(not lost, f"{when}: {name} would be refused: {lost}")
        want(header.is_there or not records, f"{when}: there is no record, and {name} has appends")
    is_whole = not header.is_there or header.has_jobs(left.get("jobs", b""))
    want(is_whole, f"{when}: jobs would be refused")


def try_cut_at_each_call(bench):
    """the power cut after each call, each time in many ways: what was acknowledged is there, and no
    torn text counts"""
    count, first = 0, [int(it[1]) for it in life_points(bench, False) if it[2] == "write" and it[3] == "journal.1"]
    for number in bench.sample(first[1:], 4):
        scene = bench.scene(3, 1, makes=False)
        power = Power(scene, bench.draws)
        runner = Runner(scene, 1)
        for fault in (f"{number}:kill_after", None, None):
            live(runner, fault)
        runner.close()
        count += see_cuts(bench, power, scene.logged())
    return f"{count} cuts"


def recover_one(bench, number):
    """Kills a worker while it appends, and cuts power. The next one recovers the journal, and its
    sync of this number fails, by which the rest of the append should go. The one after it goes on.
    Returns the number of cuts that are made then; without a number, that of the sync."""
    scene = bench.scene(4, 1, makes=False)
    power, runner = Power(scene, bench.draws, fails="none"), Runner(scene, 1)
    calls = life_points(bench, False)
    lines = [int(it[1]) for it in calls if it[2:4] == ["write", "journal.1"] and int(it[6]) > 1]
    live(runner, f"{lines[1]}:kill_after")
    power.cut([runner], "all")
    runner = Runner(scene, 1)
    status = live(runner, number and f"{number}:{errno.EIO}")
    if not number:
        calls = scene.logged()
        cut = next(k for k, it in enumerate(calls) if it[2:4] == ["cut", "journal.1"])
        return next(int(it[1]) for it in calls[cut:] if it[2:4] == ["sync", "journal.1"])
    want(status == WRITE, f"the sync doesn't fail: status {status}, {runner.said}")
    live(runner)
    runner.close()
    return see_cuts(bench, power, scene.logged())


def try_failed_recovery_and_cut(bench):
    """the sync fails by which the rest of an append should go, and then the power is cut: never do
    the rests of two appends stand there"""
    return f"{recover_one(bench, recover_one(bench, None))} cuts"


def list_one(bench, number, fault, how):
    """Kills worker and runner, has the doubts listed, and then cuts power. A listed doubt must stay
    one."""
    scene = bench.scene(3, 1, makes=False)
    power = Power(scene, bench.draws, fails="none")
    runner = Runner(scene, 1)
    live(runner, f"{number}:{fault}")
    runner.close()
    scene.doubts()
    power.cut((), how)
    settle_doubts(scene)
    power.close()


def try_listed_and_cut(bench):
    """killed at each call, or a sync failed; what is in doubt is listed, and then the power cut:
    what was listed stays one"""
    calls = [it for it in changes(life_points(bench, False)) if it[3].startswith("journal.")]
    rows = [(bench, int(it[1]), "kill_after", "none") for it in calls]
    rows += [(bench, int(it[1]), errno.EIO, "none") for it in calls if it[2] == "sync"]
    return f"{each(rows, list_one)} cuts"


def try_failed_sync_and_cut(bench):
    """each sync, also of the folder, fails and keeps nothing, later ones say that all is well, and
    the power is cut: no line is performed twice"""
    count = 0
    for beside in (False, True):
        numbers = [int(it[1]) for it in life_points(bench, beside) if it[2] == "sync" and it[3] != "JOBS"]
        ways = ("none", "all", "drawn") if bench.is_long else ("none",)
        count += each(((bench, it, errno.EIO, how, beside) for it in numbers for how in ways), cut_one)
    return f"{count} syncs"


def answer_one(bench, number):
    """Fails a person's answer at this sync. Another answer is taken, and then power is cut. Returns
    the number of cuts, or, without a number, the syncs of an answer."""
    scene = bench.scene(3, 1, makes=False)
    power = Power(scene, bench.draws, fails="none")
    runner = Runner(scene, 1)
    runner.act = lambda serial, line: runner.seen.update({serial: "doubt"})
    live(runner)
    runner.close()
    scene.answer(1, 1, 1, "not-done")
    if not number:
        scene.answer(1, 2, 2, "not-done")
        calls = scene.logged()
        return [int(it[1]) for it in calls if it[2:4] == ["sync", "answers"] and it[0] == calls[-1][0]]
    status, _, _ = scene.call("answer", scene.run, "1.2", "2", "job 2", "not-done", "--now", faults=f"{number}:{errno.EIO}")
    want(status == WRITE, f"an answer that can't be put ends with status {status}")
    scene.answer(1, 3, 3, "not-done")
    power.cut((), "none")
    scene.audit(is_over=False)
    scene.answer(1, 2, 2, "not-done")
    settle_doubts(scene)
    power.close()


def try_failed_answers_and_cut(bench):
    """each sync of a person's answer fails, another is taken, and the power cut: what was taken
    before and after is there"""
    return f"{each(((bench, it) for it in answer_one(bench, None)), answer_one)} syncs"


def boot_one(bench, number):
    """Power is cut in a round, and its words lose all but their first write. Worker 2 has the round
    to itself, and is stopped at this call; worker 1 doesn't get it; worker 2 is killed. Worker 1
    may not go on with the old words. With no number: how many calls worker 2 makes until it has the
    round."""
    scene = bench.scene(5, 2, makes=False)
    power = Power(scene, bench.draws)
    runners = [Runner(scene, 1), Waiting(scene, 2)]
    runners[0].perform = lambda *given: Runner.perform(runners[0], *given) if len(scene.effects()) < 2 else None
    serve([runners[0].start()], until=lambda: len(runners[0].lines) > 2)
    serve([runners[1].start()], until=lambda: runners[1].lines)
    power.cut(runners, "first")
    second, first = Runner(scene, 2), Runner(scene, 1)
    second.was = first.was = lambda serial, line: "running"
    second.start(f"{number}:stop_after" if number else None)
    if not number:
        serve([second])
        calls = scene.logged()
        second.close()
        return next(int(it[1]) for it in calls if it[2:4] == ["lock", "lock.round"])
    serve([second], until=lambda: state_of(second) == "T")
    first.start()
    serve([first], until=lambda: any(it[2:4] == ["lock", "lock.round"] and int(it[7]) < 0 for it in scene.logged()))
    second.kill()
    serve([first, second])
    for it in (first, second):
        it.close()
    settle_doubts(scene)
    said = [it for it in first.lines if it.startswith("perform")]
    want(first.statuses == [LATER] and not said, f"{first.statuses}, {said}")


def try_words_of_another_boot(bench):
    """words that a cut of power took back are not used, also by who gets them only because another
    was killed"""
    boot_one(bench, boot_one(bench, None))


def try_order(bench):
    """before each perform: its intent is on the disk for certain, and so are the names of all files
    on which it rests"""
    performs = 0
    for lines, workers, lives in ((3, 1, 1), (9, 3, 3)):
        scene = bench.scene(lines, workers, makes=False)
        power = Power(scene, bench.draws)
        power.grow(b"one more\n")
        runners = [Runner(scene, p) for p in range(1, workers + 1)]
        for number in range(lives):
            serve([it.start(f"{40 + 30 * number}:kill_after" if number else None) for it in runners])
        for it in runners:
            it.close()
        performs += power.close()
        finish(scene, range(1, workers + 1))
    want(performs > 8, f"only {performs} lines were performed")
    return f"{performs} performs"


def try_syncs_of_a_line(bench):
    """from one line to the next there are two syncs, both of the journal: what came of a line is
    appended with the next intent, and at the end alone"""
    scene, count = bench.scene(6, 1), 6
    scene.logs, runner = True, Runner(scene, 1)
    live(runner)
    runner.close()
    scene.logs, calls = False, scene.logged()
    says = [k for k, it in enumerate(calls) if it[2] == "say"][:count]  # (not `over`, or what follows)
    for first, second in zip(says, says[1:]):
        syncs = [it[3] for it in calls[first:second] if it[2] == "sync"]
        want(syncs == ["journal.1"] * 2, f"between two lines are the syncs {syncs}")
    appends = folder.records_in(scene.run, "journal.1")
    sizes = [len(journals.parts(it)) for it in appends]
    want(sizes == [1, *[2] * (count - 1), 1], f"the appends are {appends}")
    finish(scene)


PARTS = {"order": [try_order, try_syncs_of_a_line],
         "cuts": [try_cut_at_each_call, try_killed_and_cut, try_listed_and_cut,
                  try_failed_sync_and_cut, try_failed_recovery_and_cut, try_failed_answers_and_cut,
                  try_words_of_another_boot]}
