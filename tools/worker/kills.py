"""Workers that are killed, refused or stopped at each call that touches a file."""

import errno
import os
import shutil
import signal

from worker import folder
from worker.scene import KILLED, LATER, LEFT, MEMORY, OVER, READ, WRITE, Runner, each, finish, live, see_out, serve, want

CHANGES = ("write", "cut", "sync", "rename", "lock", "folder", "link", "remove", "say", "hear")
INTERRUPTED = ("open", "read", "write", "cut", "sync", "lock", "say", "hear")


def changes(calls):
    """Returns the calls after which something has changed. Of several calls that read one answer it
    has the last."""
    nexts = [it[2] for it in calls[1:]] + [""]
    return [it for it, after in zip(calls, nexts) if is_change(it) and not it[2] == after == "hear"]


def is_change(call):
    return int(call[7]) >= 0 and (call[2] in CHANGES or call[2] == "open" and "c" in call[8])


def is_over(call):
    """Returns whether this call says that the worker's part of a round is over."""
    return call[2] == "say" and int(call[6]) == len(b"over\n")


def first_life(bench, lines=4, workers=2):
    """Returns the calls of a first life that nothing befalls."""
    scene = bench.scene(lines, workers)
    scene.logs, runner = True, Runner(scene, 1)
    status = live(runner)
    want(status == LATER, f"the first life ends with status {status}: {runner.said}")
    runner.close()
    return scene.logged()


def points(bench):
    """Returns the numbers of the calls at which a kill makes a difference; in the long form, of
    all."""
    calls = first_life(bench)
    return [int(it[1]) for it in (calls if bench.is_long else changes(calls))]


def want_all_told(scene, most=1):
    """Wants each line to be performed, but for so many in doubt: their intent was put, and nobody
    learned of it."""
    performed, doubts = {it[2] for it in scene.effects()}, {it[2] for it in scene.doubts()}
    lines = set(range(1, len(scene.look().lines) + 1))
    want(performed | doubts == lines and len(doubts - performed) <= most, f"performed are {performed}, in doubt {doubts}")


def kill_one(bench, number, when, drops):
    """Kills a worker at this call. Its runner lives on, and gives the next one the ends that it
    saw."""
    scene = bench.scene(4, 2)
    runner = Runner(scene, 1)
    runner.drops = drops
    want(live(runner, f"{number}:kill_{when}") == KILLED, "it isn't killed")
    runner.drops = False
    see_out([runner])
    runner.close()
    scene.audit()
    want_all_told(scene)


def try_killed(bench):
    """killed at each call: the next life goes on, and each line is performed once, or the one in
    hand is in doubt"""
    numbers = points(bench)
    count = each([(bench, 1, "before", False), *((bench, it, "after", False) for it in numbers)], kill_one)
    if bench.is_long:
        count += each(((bench, it, "before", False) for it in numbers[1:]), kill_one)
    return f"{count} kills"


def try_killed_and_dropped(bench):
    """killed right after it printed a line: the runner drops the line of the dead one"""
    numbers = [int(it[1]) for it in changes(first_life(bench)) if it[2] in ("say", "hear")]
    return f"{each(((bench, it, 'after', True) for it in numbers), kill_one)} kills"


class Waiting(Runner):
    """A runner whose command is never over."""

    def after(self, serial):
        return None


def kill_beside(bench, number):
    """Worker 2 is killed at this call, while worker 1 keeps the round; the next one goes on in it
    by the words alone. With no number: the calls of worker 2 that make a difference."""
    scene = bench.scene(6, 2)
    first, second = Waiting(scene, 1), Runner(scene, 2)
    serve([first.start()], until=lambda: first.lines)
    record, scene.logs = folder.record_of(scene.run), not number
    status = live(second, f"{number}:kill_after" if number else None)
    if not number:
        calls = scene.logged()
        return [int(it[1]) for it in (calls if bench.is_long else changes(calls))]
    want(status == KILLED, "it isn't killed")
    want(live(second) == LATER and folder.record_of(scene.run) == record, f"status {second.statuses}: {second.said}")
    scene.audit(is_over=False)
    first.close()
    second.close()
    finish(scene, (1, 2))
    want_all_told(scene)


def try_killed_beside(bench):
    """killed at each call, while another worker keeps the round: the next one goes on by the words,
    and performs no line again"""
    return f"{each(((bench, it) for it in bench.sample(kill_beside(bench, None), 40)), kill_beside)} kills"


def kill_both(bench, number, second):
    """Worker and runner are killed, and the next worker too; a person finds out of each doubt, and
    then all is performed."""
    scene = bench.scene(4, 2)
    runner = Runner(scene, 1)
    runner.drops = bench.draws.random() < 0.5
    want(live(runner, f"{number}:kill_after") == KILLED, "it isn't killed")
    scene.doubts()
    runner.close()
    if second:
        scene.doubts()
        runner = Runner(scene, 1)
        live(runner, f"{second}:kill_after")
        runner.close()
    finish(scene, is_over=False)
    performed = [it[2] for it in scene.effects()]
    for worker, serial, line in scene.doubts():
        scene.answer(worker, serial, line, "done" if line in performed else "not-done")
    finish(scene)
    want(sorted(it[2] for it in scene.effects()) == [1, 2, 3, 4], f"performed: {scene.effects()}")


def try_killed_with_its_runner(bench):
    """killed at each call, and its runner too: each doubt is listed, and once a person has answered
    each line is done once"""
    numbers = points(bench)
    pairs = [(bench, it, bench.draws.choice(numbers) if bench.draws.random() < 0.5 else 0) for it in bench.sample(numbers, 40)]
    count = each(pairs, kill_both)
    if bench.is_long:
        count += each(((bench, a, b) for a in bench.draws.sample(numbers, 60) for b in numbers[::7]), kill_both)
    return f"{count} kills"


def names_file(said, file, scene):
    """Returns whether a fault names the file of a call by its path; of the folder above, the path
    of what was made there is enough."""
    path = {"JOBS": scene.jobs, "..": scene.room, ".": scene.run}.get(file, f"{scene.run}/{file}")
    return path in said or path.endswith(".new") and path[:-4] in said


def status_of(call, file):
    """Returns the status with which it ends if this call is refused. It is 74 if a file can't be
    read, the jobs' file can't be synced, or an existing file can't be opened; else 73."""
    return {READ} if call == "read" or (call, file) == ("sync", "JOBS") else {READ, WRITE} if call in ("open", "look") else {WRITE}


def refuse_one(bench, number, call, file, fault):
    """Has one call fail. An interrupted or a short one is made again, or it ends as one that
    failed. It prints nothing after that."""
    scene = bench.scene(4, 2)
    scene.logs, runner = True, Runner(scene, 1)
    status = live(runner, f"{number}:{fault}")
    later = [it for it in scene.logged() if int(it[1]) > number and it[2] == "say"]
    goes_on = fault in ("short", str(errno.EINTR)) and status == LATER
    if not goes_on:
        named = status in status_of(call, file) and names_file(runner.said, file, scene)
        has_over = any(is_over(it) for it in scene.logged() if int(it[1]) <= number)
        named = named or file in ("IN", "OUT") and status == (LATER if has_over else LEFT)
        want(named and runner.said.count("\n") == 1, f"status {status}, {runner.said!r}")
        want(not later, "it says something after the failure")
    see_out([runner])
    runner.close()
    scene.audit()
    want_all_told(scene)


def refusals(bench):
    """Yields each call with each fault; in the short form, of calls that are alike the first and
    the last, and all on folders."""
    calls, alike = first_life(bench), {}
    for it in calls:
        if int(it[7]) >= 0 or it[2] == "open":
            kind = it[2], it[3].rstrip("0123456789"), it[8] if it[2] == "open" else "", it[1] if it[3] in (".", "..") else ""
            alike.setdefault(kind, []).append(it)
    ends = {it[1]: it for group in alike.values() for it in (group[0], group[-1])}
    for it in calls if bench.is_long else ends.values():
        number, call, file = int(it[1]), it[2], it[3]
        faults = [errno.ENOSPC if number % 2 and call in ("write", "open", "rename") and it[8] != "r" else errno.EIO]
        faults = [errno.EPIPE] if call in ("say", "hear") else faults
        faults += [errno.EINTR] if call in INTERRUPTED else []
        faults += ["short"] if call in ("read", "write", "say") and int(it[6]) > 1 else []
        yield from ((bench, number, call, file, str(fault)) for fault in faults)


def try_refused(bench):
    """each write, sync, rename, lock, open and read refused: it ends, names the file, and says
    nothing more; none is lost"""
    return f"{each(refusals(bench), refuse_one)} refusals"


def full_from(bench, number):
    """From this call on nothing can be written, until a later life."""
    scene = bench.scene(4, 2)
    runner = Runner(scene, 1)
    first = live(runner, f"{number}+:{errno.ENOSPC}")
    want(first == WRITE, f"status {first}: {runner.said}")
    second = live(runner, f"1+:{errno.ENOSPC}")  # (the list is the first file that it syncs)
    want(second in (READ, WRITE), f"the second life, on a full disk: status {second}")
    see_out([runner])
    runner.close()
    scene.audit()
    want_all_told(scene)


def try_full(bench):
    """a disk that is full from some call on: it ends, and goes on once there is room"""
    numbers = [int(it[1]) for it in first_life(bench) if it[2] in ("write", "rename") or it[2] == "open" and "c" in it[8]]
    return f"{each(((bench, it) for it in bench.sample(numbers, 12)), full_from)} disks"


def refused_memory(scene, number):
    """From now on processes of this run are refused their allocation of this number."""
    bench = scene.bench
    told = f"{scene.room}/refused"
    if os.path.exists(told):
        os.unlink(told)
    scene.more = {"AMO_MEMORY": str(number), "AMO_REFUSED": told, "LD_PRELOAD": f"{bench.library} {bench.room}/memory.so"}
    return lambda: os.path.exists(told)


def live_without(bench, number):
    """Returns a first life without one allocation: it ends by saying so, or it goes on; the next
    one goes on. Whether it came so far."""
    scene = bench.scene(4, 2)
    runner, was_refused = Runner(scene, 1), refused_memory(scene, number)
    status = live(runner)
    if not was_refused():
        return False
    said = status == MEMORY and "memory" in runner.said and runner.said.count("\n") == 1
    want(said or status == LATER, f"without allocation {number}: status {status}, {runner.said!r}")
    scene.more = {}
    see_out([runner])
    runner.close()
    scene.audit()
    want_all_told(scene)
    return True


def call_without(bench, number, words):
    """Runs a command without one allocation. It must report that and print nothing, or print all.
    Returns whether it came so far."""
    scene = prepared_call(bench)
    was_refused = refused_memory(scene, number)
    status, out, err = scene.call(words[0], scene.run, *words[1:])
    if not was_refused():
        return False
    said = status == MEMORY and not out and "memory" in err and err.count("\n") == 1
    want(said or status == OVER, f"{words[0]} without allocation {number}: status {status}, {out or err!r}")
    scene.more = {}
    if words[0] == "answer":
        scene.answer(1, 1, 1, "done")
    return True


def prepared_call(bench):
    """Returns a run with a doubt, which a command lists."""
    scene = bench.scene(3, 1)
    runner = Runner(scene, 1)
    runner.after = lambda serial: "doubt"
    runner.leaves = True
    live(runner)
    runner.close()
    return scene


def reached(bench, try_one, *more):
    """Returns how many allocations there are, at least half of them known: the first number doubled
    that isn't reached."""
    number = 1
    while try_one(bench, number, *more):
        number *= 2
    return number


def try_no_memory(bench):
    """each allocation of a life, and of each command, refused: it ends by saying so, shows nothing,
    and nothing is lost"""
    if not os.path.exists(f"{bench.room}/memory.so") or bench.is_slow():
        bench.skipped.append("memory is refused to a program over glibc alone")
        return None
    rows = [(live_without,), (call_without, ["status"]), (call_without, ["doubts", "--json"]),
            (call_without, ["answer", "1.1", "1", "job 1", "done"])]
    count = 0
    for try_one, *more in rows:
        numbers = range(1, reached(bench, try_one, *more))
        count += each(((bench, it, *more) for it in bench.sample(numbers, 6)), try_one)
    return f"{count} refusals"


def answer_killed(bench, number):
    """Kills a person's command at this call. The answer is there then, or is taken when it is given
    again."""
    scene, fault = answerable(bench), f"{number}:kill_after"
    words = ["answer", scene.run, "1.1", "1", "job 1", "not-done", "--now"]
    want(scene.call(*words, faults=fault)[0] == KILLED, "it isn't killed")
    before = scene.look()
    scene.answer(1, 1, 1, "not-done")
    want(not before.intents[1, 1].found or scene.look().counts() == before.counts(), "it is taken twice")
    finish(scene)
    want(sorted(it[2] for it in scene.effects()) == [1, 2, 3], f"performed: {scene.effects()}")


def answerable(bench):
    """Returns a run whose first intent is in doubt, which nobody has recorded: its worker was
    killed before it spoke."""
    scene = bench.scene(3, 1)
    scene.logs, runner = True, Runner(scene, 1)
    live(runner)
    runner.close()
    number = next(int(it[1]) for it in scene.logged() if it[2] == "say")
    scene = bench.scene(3, 1)
    runner = Runner(scene, 1)
    live(runner, f"{number}:kill_before")
    runner.close()
    want(scene.look().final() == {(1, 1)}, "there is no doubt")
    return scene


def try_killed_answers(bench):
    """a person's answer, killed at each call: it was taken, or is taken when it is given again"""
    scene = answerable(bench)
    scene.logs = True
    scene.answer(1, 1, 1, "not-done")
    numbers = [int(it[1]) for it in changes(scene.logged())]
    return f"{each(((bench, it) for it in numbers), answer_killed)} kills"


def lister_killed(bench, number):
    """Kills a command at this call that lists doubts, and recovers a journal and records in it for
    that. The next one must print the same."""
    scene = answerable(bench)
    want(scene.call("doubts", scene.run, faults=f"{number}:kill_after")[0] == KILLED, "it isn't killed")
    want(scene.doubts() == [(1, 1, 1)], "it isn't told as a doubt any more")
    finish(scene)
    want(sorted(it[2] for it in scene.effects()) == [2, 3], f"performed: {scene.effects()}")


def try_killed_listers(bench):
    """a command that lists doubts, killed at each call: the next one prints the same, and workers
    go on"""
    scene = answerable(bench)
    scene.logs = True
    scene.doubts()
    return f"{each(((bench, int(it[1])) for it in changes(scene.logged())), lister_killed)} kills"


def state_of(runner):
    """Returns the state of its process by the kernel: T if it is stopped, Z if it has ended."""
    if not runner.process:
        return "Z"
    with open(f"/proc/{runner.process.pid}/stat", encoding="latin-1") as file:
        return file.read().rpartition(")")[2].split()[0]


def stop_one(bench, number):
    """A process of number 1 is stopped at a call, while the one at work ends and another begins:
    two may not get on."""
    scene = bench.scene(4, 1)
    first, stopped, third = Runner(scene, 1), Runner(scene, 1, is_stray=True), Runner(scene, 1, is_stray=True)
    try:
        first.perform = lambda serial, line: None if not first.leaves else Runner.perform(first, serial, line)
        serve([first.start()], until=lambda: first.lines)
        stopped.start(f"{number}:stop_before")
        serve([stopped], until=lambda: state_of(stopped) in "TZ")
        first.leaves = True
        first.take(first.lines[0])
        serve([first])
        serve([third.start()], until=lambda: third.lines)
        if stopped.process:
            stopped.process.send_signal(signal.SIGCONT)
        both = [stopped, third]
        spoke = []
        for it in both:
            it.perform = lambda serial, line, it=it: spoke.append(it) or Runner.perform(it, serial, line)
        if third.process:
            third.lines = [third.lines[-1]]
        serve(both)
    finally:
        for it in (first, stopped, third):
            it.close()
    scene.audit(is_over=False)
    want(len({id(it) for it in spoke}) < 2, "two processes of one number get on")


def try_two_of_one_number(bench):
    """a process stopped at each of its first calls, while others of its number end and begin: one
    alone gets on"""
    calls = first_life(bench)
    until = next(k for k, it in enumerate(calls) if it[2] == "lock" and it[3] == "lock.round")
    return f"{each(((bench, int(it[1])) for it in calls[:until]), stop_one)} stops"


def swap_one(bench, name, which):
    """A process is stopped before it asks for a lock, for the first time or later; the file is
    changed for another of the same name, which others lock."""
    calls = first_life(bench)
    number = [int(it[1]) for it in calls if it[2:4] == ["lock", name]][which]
    scene = bench.scene(4, 2)
    first, other = Runner(scene, 1), Runner(scene, 1 if name == "journal.1" else 2, is_stray=True)
    first.start(f"{number}:stop_before")
    serve([first], until=lambda: state_of(first) in "TZ")
    os.rename(f"{scene.run}/{name}", f"{scene.run}/old")
    shutil.copy(f"{scene.run}/old", f"{scene.run}/{name}")
    other.perform = lambda serial, line: None
    serve([other.start()], until=lambda: other.lines)
    first.process.send_signal(signal.SIGCONT)
    serve([first])
    want(not first.lines and first.statuses[0] in (LATER, WRITE), f"{first.statuses}, {first.lines}: it rests on the old file")


def try_locks_of_old_files(bench):
    """a lock that was got on a file which has its name no more counts for nothing"""
    each(((bench, *it) for it in (("journal.1", 0), ("lock.round", 0), ("lock.round", 1))), swap_one)


PARTS = {"killed": [try_killed, try_killed_beside, try_killed_and_dropped, try_killed_with_its_runner, try_killed_answers,
                    try_killed_listers],
         "refused": [try_refused, try_full, try_no_memory],
         "numbers": [try_two_of_one_number, try_locks_of_old_files]}
