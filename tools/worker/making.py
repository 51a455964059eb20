"""The run's folder: the door alone makes it, and is killed, refused, stopped and begun again at
each call of that; what is missing in it, or was made by amo 0.1.0, or was forgotten, or is another
run's, is refused by all."""

import errno
import os
import signal
import time

from worker import folder
from worker.crowd import Reader
from worker.disk import Power
from worker.folder import PARTS as MADE, put, read
from worker.kills import changes, state_of
from worker.persons import prepared
from worker.power import settle_doubts
from worker.scene import (DOOR, KILLED, LATER, OVER, READ, REFUSED, WRITE, Runner, Scene, each,
                          finish, live, serve, want)

# The state of the folder before the door comes, and the words by which it is named.
BEFORE = ("missing", "users", "cut", "into")
ANOTHER = "0123456789abcdef0123456789abcdef"
MINE = {**dict.fromkeys(("notes", "list", "list.run-is", "journal.x"), b"mine\n"),
        "door.old.new": b""}


def prepare(bench, kind: str) -> Scene:
    """Returns a run whose folder isn't made yet."""
    scene = bench.scene(2, 1, makes=False)
    if kind in ("users", "cut"):
        os.mkdir(scene.run, 0o700)
    if kind == "users":
        os.mkdir(f"{scene.run}/lost+found")
        for name, data in MINE.items():
            put(f"{scene.run}/{name}", data)
    if kind == "cut":
        for name in ("lock.round", "journal.2", "journal.16", "door.old.new"):
            put(f"{scene.run}/{name}", MADE.get(name, b""))
        for name in ("answers", "journal.1"):
            put(f"{scene.run}/{name}", b"")
    return scene


def door_words(scene, kind: str) -> list:
    return ["door", scene.run, *scene.givens(), *(["--into"] if kind == "into" else []), scene.jobs]


def has_id(scene) -> bool:
    return os.path.exists(f"{scene.run}/id")


def want_whole(scene, kind: str) -> None:
    """The folder is as the door makes it, and what the user put there is as it was."""
    want(folder.ID.fullmatch(read(f"{scene.run}/id")), f"the id is {read(f'{scene.run}/id')}")
    found = {name: read(f"{scene.run}/{name}") for name in os.listdir(scene.run)
             if os.path.isfile(f"{scene.run}/{name}")}
    wrong = {name: found.get(name) for name, data in MADE.items() if found.get(name) != data}
    want(not wrong, f"the door has left {wrong}")
    mine = MINE if kind == "users" else {}
    want(all(found.get(name) == data for name, data in mine.items()), "it changed the user's files")
    others = [it for it in set(found) - set(MADE) - set(mine) - {"id"}
              if not it.startswith("door.")]
    want(not others, f"it has made {others}")


def first_door(bench, kind: str) -> list:
    """Returns the calls of a door that nothing befalls, after which the folder is whole and nothing
    is left."""
    scene = prepare(bench, kind)
    scene.logs = True
    status, out, err = scene.call(*door_words(scene, kind))
    want(status == OVER and not out and not err, f"status {status}, {out}{err}")
    scene.logs = False
    want_whole(scene, kind)
    want(kind != "users" or os.path.isdir(f"{scene.run}/lost+found"),
         "it removed the user's folder")
    left = [it for it in os.listdir(scene.room) if it.startswith("run.")]
    left += [it for it in os.listdir(scene.run) if it.startswith("door.") and it != "door.old.new"]
    want(not left, f"it leaves {left}")
    return scene.logged()


def made_one(bench, kind: str) -> None:
    """A folder that is made: whose it is, and in which order that comes to the disk."""
    os.umask(0)
    calls, scene = first_door(bench, kind), bench.last
    if kind in ("missing", "into"):
        want(os.stat(scene.run).st_mode & 0o777 == 0o700, "the folder isn't its owner's alone")
    modes = {name: os.stat(f"{scene.run}/{name}").st_mode & 0o777 for name in [*MADE, "id"]}
    want(set(modes.values()) == {0o600}, f"modes: {modes}")
    named = [k for k, it in enumerate(calls) if names_it(it)]
    above = [k for k, it in enumerate(calls) if it[2:4] == ["sync", ".."]]
    want(named and above and above[-1] > named[-1], "the folder above isn't synced last")
    before = scene.id()
    scene.door()
    want(scene.id() == before, "the next door makes another id")
    other = bench.scene(1, 1, makes=False)
    other.door()
    want(other.id() != before, "two runs have one id")
    finish(scene)


def try_made(bench):
    """the door makes a folder next to the run's, in a folder of the user's, in one that was cut
    off, or at a named place; nothing is left"""
    return f"{each(((bench, kind) for kind in BEFORE), made_one)} folders"


def go_on(scene, kind: str) -> None:
    """The next door goes on: what was whole is as it was, and all is whole then."""
    before = read(f"{scene.run}/id")
    status, _, err = scene.call(*door_words(scene, kind))
    wanted = REFUSED if kind == "into" and before else OVER
    want(status == wanted, f"the next door ends with status {status}: {err}")
    want(not before or read(f"{scene.run}/id") == before, "the id is replaced")
    scene.door()
    want_whole(scene, kind)


def kill_one(bench, kind: str, number: int) -> None:
    """The door is killed at this call, and begun again; a line is performed."""
    scene = prepare(bench, kind)
    status, _, _ = scene.call(*door_words(scene, kind), faults=f"{number}:kill_after")
    want(status == KILLED, f"it isn't killed, and ends with status {status}")
    is_whole = not has_id(scene) or scene.call("status", scene.run)[0] == OVER
    want(is_whole, "there is an id, and not all else")
    go_on(scene, kind)
    runner = Runner(scene, 1)
    runner.leaves = True
    live(runner)
    want(len(scene.effects()) == 1, f"no line is performed: {runner.statuses}, {runner.said}")
    runner.close()


FEW = 4  # how many calls of a door the short form tries, besides its last ones


def points(bench, kind: str, count: int, chosen=changes) -> list:
    """Returns the numbers of a door's calls, some of them in the short form, with the calls
    themselves. Its last one and that by which the run gets its id are always among them."""
    calls = chosen(first_door(bench, kind))
    numbers, named = ([int(it[1]) for it in calls],
                      next(k for k, it in enumerate(calls) if names_it(it)))
    return numbers if bench.is_long else sorted({*bench.sample(numbers, count), numbers[-1],
                                                 *numbers[named - 1:named + 2]})


def names_it(call: list) -> bool:
    """Returns whether the run has its id from this call on."""
    return call[2] in ("link", "rename") and call[8] in ("id", ".")


def named_at(bench, kind: str) -> int:
    return next(int(it[1]) for it in first_door(bench, kind) if names_it(it))


def try_door_killed(bench):
    """the door, killed at each call and begun again: the folder is whole or gone on with, and its
    id is never replaced"""
    rows = [(bench, kind, it) for kind in BEFORE for it in points(bench, kind, FEW)]
    return f"{each(rows, kill_one)} kills"


def refuse_one(bench, kind: str, number: int, call: str, file: str, fault) -> None:
    """Has a call of the door fail. The status shows it, one line names the folder, and the next
    door goes on."""
    scene = prepare(bench, kind)
    status, out, err = scene.call(*door_words(scene, kind), faults=f"{number}:{fault}")
    may_go_on = fault in ("short", errno.EINTR) or call == "remove"
    told = status in (WRITE, READ) and err.count("\n") == 1 and not out
    want(told or status == OVER and may_go_on, f"status {status}, {err or out!r}")
    is_whole = not has_id(scene) or scene.call("status", scene.run)[0] == OVER
    want(is_whole, "there is an id, and not all else")
    go_on(scene, kind)


def refusals(bench, kind: str):
    """Yields each call of a door with each fault; in the short form, of those that are alike the
    first and the last."""
    alike = {}
    for it in first_door(bench, kind):
        name = it[3].rpartition("/")[2].rstrip("0123456789")
        name = "door.new" if name.startswith("door.") else name
        alike.setdefault((it[2], name, it[8] if it[2] == "open" else ""), []).append(it)
    groups = alike.values() if bench.is_long else [(it[0], it[-1]) for it in alike.values()]
    ends = {int(it[1]): it for group in groups for it in group}
    for number, (_, _, call, file, _, _, length, *_) in ends.items():
        yield (bench, kind, number, call, file,
               errno.ENOSPC if number % 2 and call != "read" else errno.EIO)
        if call in ("open", "read", "write", "sync"):
            yield bench, kind, number, call, file, errno.EINTR
        if call in ("read", "write") and int(length) > 1:
            yield bench, kind, number, call, file, "short"


def try_door_refused(bench):
    """each call of the door refused, interrupted or short: it ends by saying so, and the next door
    goes on"""
    rows = [bench.sample(refusals(bench, kind), FEW + 2) for kind in BEFORE]
    return f"{each([it for row in rows for it in row], refuse_one)} refusals"


def stop_one(bench, kind: str, number: int) -> None:
    """A door is stopped at this call; another comes, and a line is performed; then the first goes
    on."""
    scene = prepare(bench, kind)
    words = door_words(scene, kind)
    first = Reader(scene, words[0], *words[2:], faults=f"{number}:stop_before")
    while state_of(first) not in "TZ":
        time.sleep(0.002)
    status, _, err = scene.call("door", scene.run, *scene.givens(), scene.jobs)
    want(status in (OVER, LATER), f"the other door ends with status {status}: {err}")
    before, runner = read(f"{scene.run}/id"), None
    if status == OVER:
        runner = Runner(scene, 1)
        runner.leaves = True
        live(runner)
        # (for the first door, which may hold the round's lock)
        may_wait = runner.statuses == [LATER]
        want(len(scene.effects()) == 1 or may_wait,
             f"no line is performed: {runner.statuses}, {runner.said}")
    first.process.send_signal(signal.SIGCONT)
    status, _, err = first.ended()
    goes_on = status == OVER or kind == "into" and status == REFUSED
    want(goes_on, f"the first door ends with status {status}: {err}")
    want(not before or read(f"{scene.run}/id") == before, "the id is replaced")
    if runner:
        runner.close()
    left = [it for it in os.listdir(scene.room) if it.startswith("run.")]
    want(not left, f"there is left {left}")
    finish(scene)
    want(len(scene.effects()) == 2, f"performed: {scene.effects()}")


def try_two_doors(bench):
    """a door stopped at each call, while another makes the folder and a worker begins: both go on,
    with one id"""
    rows = [(bench, kind, it) for kind in BEFORE
            for it in points(bench, kind, FEW, lambda calls: calls)]
    return f"{each(rows, stop_one)} stops"


def taken_one(bench, make, status: int) -> None:
    """Something else gets the name of the folder just before the door gives it."""
    number, scene = named_at(bench, "missing"), prepare(bench, "missing")
    door = Reader(scene, "door", *scene.givens(), scene.jobs, faults=f"{number}:stop_before")
    while state_of(door) not in "TZ":
        time.sleep(0.002)
    make(scene.run)
    door.process.send_signal(signal.SIGCONT)
    ended, _, err = door.ended()
    want(ended == status, f"status {ended}, {err}")
    left = [it for it in os.listdir(scene.room) if it.startswith("run.")]
    want(not left, f"it leaves {left}")


def users_folder(run: str) -> None:
    os.makedirs(f"{run}/lost+found")


def leftovers(run: str) -> None:
    os.mkdir(run)
    put(f"{run}/record.new", b"")


def try_name_taken(bench):
    """a file, a user's folder or a folder of another run gets the name while the door makes its
    own: refused, or gone on with"""
    rows = [(lambda run: put(run, b"mine"), DOOR), (users_folder, OVER), (leftovers, REFUSED),
            (lambda run: os.symlink("jobs", run), DOOR)]
    each(((bench, *row) for row in rows), taken_one)


def leave_one(bench, name: str, data) -> None:
    """A folder without an id in which amo has left this: the door refuses it, and changes
    nothing."""
    scene = bench.scene(1, 1, makes=False)
    os.mkdir(scene.run)
    if data is None:
        os.mkdir(f"{scene.run}/{name}")
    else:
        put(f"{scene.run}/{name}", data)
    before = folder.listing(scene.run)
    status, _, err = scene.call("door", scene.run, *scene.givens(), scene.jobs)
    want(status == REFUSED and err.count("\n") == 1, f"status {status}, {err}")
    want(folder.listing(scene.run) == before, "it has changed something")


def try_leftovers(bench):
    """what amo leaves in a folder is no user's file: without an id it is refused, and nothing is
    changed"""
    names = [*("forgotten jobs words command crew shared lock record.new jobs.new words.new"
               " command.new").split(),
             *"journal.17 runner.1 pace.3 command.1.12 out.2.1 err.16.400".split()]
    rows = [(bench, name, b"") for name in (bench.sample(names, 6) if bench.is_slow() else names)]
    rows += [(bench, "journal.3", b"-x"), (bench, "answers", b"+-"), (bench, "chunk.1", None)]
    rows.append((bench, "chunk.12.new", None))
    return f"{each(rows, leave_one)} names"


def commands(scene) -> list:
    """Returns the words of each command, in a run with a doubt."""
    more = [*scene.givens(), scene.jobs]
    return [["door", *more], ["work", "1", *more], ["status"], ["status", "--json"], ["doubts"],
            ["answer", "1.1", "1", "job 1", "done"], ["again"]]


def refuse_all(scene, name: str, what: str, words: list) -> None:
    """Each of these commands refuses the folder for this file, and changes nothing."""
    before = folder.contents(scene.run)
    for command, *more in words:
        status, out, err = scene.call(command, scene.run, *more)
        named = name in err.replace(scene.run, "RUN") and err.count("\n") == 1
        want(status == REFUSED and named and not out,
             f"{name} {what}, {command}: status {status}, {out or err}")
    want(folder.contents(scene.run) == before, f"{name} {what}: something was changed")


def miss_one(bench, name: str, is_removed: bool, few_commands: bool) -> None:
    """Removes or empties a file that the door made, in the first round. It must be refused by name,
    also while a worker lives."""
    scene = prepared(bench, ["doubt", "done 0"], lines=4)
    path = f"{scene.run}/{name}"
    data = read(path)
    if is_removed:
        os.unlink(path)
    else:
        put(path, b"")
    what, words = "is removed" if is_removed else "is emptied", commands(scene)
    refuse_all(scene, name, what, bench.draws.sample(words, 2) if few_commands else words)
    runner = Runner(scene, 1)
    want(live(runner) == REFUSED and not runner.lines,
         f"{name} {what}: {runner.statuses}, {runner.lines}")
    runner.close()
    put(path, data)
    finish(scene)
    want(len(scene.effects()) == 4, f"performed: {scene.effects()}")


def try_missing(bench):
    """each journal, answers, lock.round or id removed or emptied, in the first round: refused by
    name, by each command"""
    rows = [(bench, name, is_removed, name not in ("journal.1", "journal.16", "id"))
            for name in [*MADE, "id"] for is_removed in (True, False)
            if (name, is_removed) not in (("lock.round", False), ("id", True))]
    return f"{each(bench.sample(rows, 18), miss_one)} files"


def try_missing_beside(bench):
    """a journal removed while a worker has a line in its hand: nobody begins until it is there
    again, and no line is done twice"""
    scene = bench.scene(6, 3)
    first, second = Runner(scene, 1), Runner(scene, 2)
    first.perform = lambda serial, line: None
    serve([first.start()], until=lambda: first.lines)
    for name in ("journal.1", "journal.2", "journal.3"):
        os.rename(f"{scene.run}/{name}", f"{scene.room}/{name}")
        for runner in (second, Runner(scene, 3)):
            want(live(runner) == REFUSED and name in runner.said,
                 f"{name}: {runner.statuses}, {runner.said}")
            want(not runner.lines, f"{name}: it says {runner.lines}")
            if runner is not second:
                runner.close()
        os.rename(f"{scene.room}/{name}", f"{scene.run}/{name}")
    del first.perform
    first.take(first.lines[0])
    serve([first])
    for it in (first, second):
        it.close()
    finish(scene, (1, 2, 3))
    want(len(scene.effects()) == 6, f"performed: {scene.effects()}")


def old_run(bench) -> Scene:
    """Returns a folder of amo 0.1.0, with all kinds of lines, one of them pending in a journal that
    nobody has recovered."""
    scene = prepared(bench, ["done 0", "untouched 75", "doubt", "unbegun", "dies"], lines=7)
    put(f"{scene.run}/command.1.5", b"")
    folder.make_old(scene.run)
    put(f"{scene.run}/journal.1", read(f"{scene.run}/journal.1") + b"doubt 9")
    put(f"{scene.run}/journal.3", b"")
    return scene


def read_old(scene, counts: str, doubts: list) -> None:
    """status and doubts read it, and write nothing."""
    before = folder.listing(scene.run)
    status, out, err = scene.call("status", scene.run)
    want(status == OVER and out.split("\n")[0] == counts,
         f"status {status}: {out or err}, and not {counts}")
    for words in (["--json"], ["--lines", "open"], ["--lines", "doubt"]):
        status, out, err = scene.call("status", scene.run, *words)
        want(status == OVER and out, f"{words}: status {status}, {err}")
    want([it[:2] for it in scene.doubts()] == doubts, "other doubts are listed")
    want(folder.listing(scene.run) == before, "something is written by who looks")


def try_old_run(bench):
    """a folder of amo 0.1.0: status and doubts read it and write nothing, also while its locks are
    held; all else refuses it"""
    scene = old_run(bench)
    read_old(scene, "lines 7 done 1 failed 0 doubt 2 running 0 untouched 1 open 3",
             [(1, 3), (1, 5)])
    if os.path.exists(f"{scene.run}/runner.1"):
        for name in ("journal.1", "runner.1", "command.1.5"):
            other = Runner(scene, 2, is_stray=True)
            held, scene.account = other.taken(name), []
            read_old(scene, "lines 7 done 1 failed 0 doubt 1 running 1 untouched 1 open 3",
                     [(1, 3)])
            held.close()
    for name in ("runner.1", "command.1.5", "lock.round"):
        os.unlink(f"{scene.run}/{name}")
    read_old(scene, "lines 7 done 1 failed 0 doubt 2 running 0 untouched 1 open 3",
             [(1, 3), (1, 5)])
    before = folder.listing(scene.run)
    for command, *more in commands(scene):
        if command in ("status", "doubts"):
            continue
        status, out, err = scene.call(command, scene.run, *more)
        want(status == REFUSED and not out and err.count("\n") == 1,
             f"{command}: status {status}, {out or err}")
        want(command != "door" or "0.1.0" in err, f"the door doesn't name the version: {err}")
    for command in ("status", "doubts"):
        status, out, err = scene.call(command, scene.run, "--id", ANOTHER)
        want(status == REFUSED and not out, f"{command} --id: status {status}, {out or err}")
    want(folder.listing(scene.run) == before, "something is written by who refuses")


def try_id(bench):
    """--id: its own is taken, another is refused by each command; with it no folder is made; an
    invalid id is refused"""
    scene = prepared(bench, ["doubt", "done 0"], lines=2)
    for command, *more in commands(scene):
        more = ([*more[:-1], "--id", ANOTHER, more[-1]] if command in ("door", "work")
                else [*more, "--id", ANOTHER])
        before = folder.contents(scene.run)
        status, out, err = scene.call(command, scene.run, *more)
        want(status == REFUSED and not out and err.count("\n") == 1,
             f"{command}: status {status}, {out or err}")
        want(folder.contents(scene.run) == before, f"{command} changes something")
        more[more.index(ANOTHER)] = scene.id()
        status, _, err = scene.call(command, scene.run, *more)
        want(status == OVER, f"{command} with its own id: status {status}, {err}")
    for kind in ("missing", "users", "cut"):
        scene = prepare(bench, kind)
        before = os.path.isdir(scene.run) and folder.listing(scene.run)
        status, _, err = scene.call("door", scene.run, *scene.givens(), "--id", ANOTHER, scene.jobs)
        want(status == REFUSED and err.count("\n") == 1, f"{kind}: status {status}, {err}")
        want((os.path.isdir(scene.run) and folder.listing(scene.run)) == before,
             f"{kind}: something is made")
        left = [it for it in os.listdir(scene.room) if it.startswith("run.")]
        want(not left, f"{kind}: it leaves {left}")
    scene = prepared(bench, ["doubt", "done 0"], lines=2)
    for data in (b"0" * 32, b"0" * 31 + b"\n", b"0" * 33 + b"\n", b"A" * 32 + b"\n",
                 b"0" * 32 + b"\n\n", b"g" * 32 + b"\n"):
        put(f"{scene.run}/id", data)
        refuse_all(scene, "id", f"says {data}",
                   bench.draws.sample(commands(scene), 2 if bench.is_slow() else 7))


def try_forgotten(bench):
    """a folder that was forgotten: door, work and again refuse it, who looks reads it"""
    scene = prepared(bench, ["doubt", "done 0"], lines=2)
    put(f"{scene.run}/forgotten", b"")
    words = commands(scene)
    refuse_all(scene, "forgotten", "is there",
               [it for it in words if it[0] in ("door", "work", "again")])
    for command, *more in (it for it in words if it[0] in ("status", "doubts")):
        status, _, err = scene.call(command, scene.run, *more)
        want(status == OVER, f"{command}: status {status}, {err}")


def into_one(bench, kind: str) -> None:
    """Wants --into to be refused at a folder with an id, and to change nothing."""
    scene = prepare(bench, kind)
    scene.door()
    before = folder.listing(scene.run)
    status, _, err = scene.call("door", scene.run, *scene.givens(), "--into", scene.jobs)
    want(status == REFUSED and err.count("\n") == 1, f"status {status}, {err}")
    want(folder.listing(scene.run) == before, "something is changed")


def try_into(bench):
    """--into makes in place, also where files of others are, and refuses a folder that has an id"""
    each(((bench, kind) for kind in ("missing", "users")), into_one)
    scene = prepare(bench, "users")
    status, _, err = scene.call("door", scene.run, *scene.givens(), "--into", scene.jobs)
    want(status == OVER, f"among others' files: status {status}, {err}")
    want_whole(scene, "users")


def freed(scene, words, held, name):
    """Frees this lock once an answer was refused it twice; how the answer ends. It may end by
    itself before that, if this tool is slow."""
    refused = lambda: sum(it[2:4] == ["lock", name] and int(it[7]) < 0 for it in scene.logged())
    before, waiting = refused(), Reader(scene, *words)
    while refused() < before + 2 and waiting.process.poll() is None:
        time.sleep(0.005)
    held.close()
    return waiting.ended()


def try_answers_that_wait(bench):
    """an answer to what still runs waits for its end, and is taken then; one that runs on: later,
    and nothing is written"""
    scene = bench.scene(3, 1)
    runner = Runner(scene, 1)
    runner.after = lambda serial: None
    serve([runner.start()], until=lambda: scene.effects())
    runner.close()
    path, rows = f"{scene.room}/verdicts", ["1.1\t1\tjob 1\tdone\n"]
    put(path, rows[0].encode())
    for name in ("journal.1", "runner.1"):
        other = Runner(scene, 2, is_stray=True)
        held, before = other.taken(name), read(f"{scene.run}/answers")
        words = (["answer", "--from", path] if name == "runner.1"
                 else ["answer", "1.1", "1", "job 1", "done"])
        status, out, err = scene.call(words[0], scene.run, *words[1:])
        want(status == LATER and not out and err.count("\n") == 1,
             f"while {name} is held: status {status}, {err}")
        want(read(f"{scene.run}/answers") == before, f"while {name} is held something is written")
        if name == "runner.1":
            scene.logs, tries = True, 0
            while (status := freed(scene, words, held, name)[0]) == LATER and tries < 20:
                held, tries = other.taken(name), tries + 1
            want(status == OVER, f"when {name} is free again: status {status}")
        held.close()
    want(len(folder.records_in(scene.run, "answers")) == 1, "the answer isn't taken once")
    put(path, b"1.1\t1\tjob 1\tdone\n2.7\t2\tjob 2\tdone\n")
    want(scene.call("answer", scene.run, "--from", path)[0] == REFUSED,
         "an answer to nothing is put off")


def cut_one(bench, kind: str, number: int, how: str) -> None:
    """The door is killed at this call, and the power is cut; the next one goes on, and a line is
    performed; the power is cut."""
    scene = prepare(bench, kind)
    power = Power(scene, bench.draws, begins=False)
    scene.call(*door_words(scene, kind), faults=f"{number}:kill_after")
    power.cut((), how, begins=False)
    status, _, err = scene.call("door", scene.run, *scene.givens(), scene.jobs)
    want(status == OVER, f"the next door ends with status {status}: {err}")
    want_whole(scene, kind)
    perform_and_cut(scene, power)


def perform_and_cut(scene, power) -> None:
    """A line is performed, and power is cut: it isn't performed again."""
    before, runner = scene.id(), Runner(scene, 1)
    serve([runner.start()], until=lambda: scene.effects() or not runner.process)
    want(scene.effects(), f"no line is performed: {runner.statuses}, {runner.said}")
    power.cut([runner], "none")
    want(scene.id() == before, "the run has another id after the cut")
    settle_doubts(scene)
    power.close()


def try_door_cut(bench):
    """the door, killed at each call, and the power cut: without an id the folder is gone on with,
    with one it is whole"""
    rows = [(bench, kind, it, how) for kind in BEFORE for it in points(bench, kind, FEW)
            for how in ("none", "all", "drawn", "drawn")]
    ends = [(bench, kind, named_at(bench, kind), "drawn") for kind in ("users", "cut", "into") * 4]
    return f"{each([*ends, *bench.sample(rows, 2 * FEW)], cut_one)} cuts"


def again_one(bench, kind: str, number: int) -> None:
    """The door is killed at this call, and another goes through it; a line is performed, and then
    power is cut."""
    scene = prepare(bench, kind)
    power = Power(scene, bench.draws, begins=False)
    scene.call(*door_words(scene, kind), faults=f"{number}:kill_after")
    scene.door()
    perform_and_cut(scene, power)


def try_door_killed_and_cut(bench):
    """the door, killed at each call, and another: all that was made has its name for certain before
    a line is performed"""
    rows = [(bench, kind, it) for kind in ("users", "missing")
            for it in points(bench, kind, FEW)[-4:]]
    return f"{each(rows, again_one)} kills"


PARTS = {"making": [
    try_made, try_door_killed, try_door_refused, try_two_doors, try_name_taken, try_leftovers,
    try_missing, try_missing_beside, try_old_run, try_id, try_forgotten, try_into,
    try_answers_that_wait, try_door_cut, try_door_killed_and_cut,
]}
