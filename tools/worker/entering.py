"""The conditions on which a worker begins, and its waits: its number, the boot id, the path of the
folder, the half-made files of earlier processes, locks that others hold for a while or for ever."""

import fcntl
import os
import re
import signal
import subprocess
import tempfile

from worker import folder
from worker.crowd import Reader
from worker.kills import first_life, is_over, state_of
from worker.persons import Says, prepared
from worker.scene import (DOOR, LATER, OVER, READ, REFUSED, WORDS, Runner, each, finish, live,
                          serve, want, LEFT)


def is_stand_in(bench):
    """Returns whether the program is the stand-in, which does less here."""
    if bench.is_slow():
        bench.skipped.append("the stand-in is let in by less")
    return bench.is_slow()


def get_in(scene, worker, status, named=""):
    """Worker P begins over a list without lines, of which all is done at once; or it is refused."""
    ended, out, err = scene.call("work", scene.run, str(worker), *scene.givens(), scene.jobs)
    said = f"worker {worker} {scene.givens()}: status {ended}, {err}"
    want((ended, out) == (status, "") and named in err and err.count("\n") == 1, said)


def try_each_number(bench):
    """each number of a worker with each number of workers, and thresholds of all sizes: it begins,
    or the number is refused"""
    scene = bench.scene(0)
    for workers in range(1, 17):
        scene.workers = workers
        for worker in range(1, workers + 1):
            get_in(scene, worker, OVER, "lines 0 done 0 failed 0 doubt 0 running 0 untouched 0 open 0\n")
        get_in(scene, workers + 1, WORDS)
    for beta in [*range(1, 71), *(2**k + more for k in range(7, 16) for more in (-1, 0, 1)), 65534, 65535]:
        scene.beta = beta
        get_in(scene, 1, OVER)


def try_boot_ids(bench):
    """a boot id of each length that one may have; none, a longer one and two lines are refused; the
    default is the system's"""
    if is_stand_in(bench):
        return
    scene = bench.scene(0)

    def boot(text, status):
        with open(scene.boot, "w") as file:
            file.write(text)
        get_in(scene, 1, status, "" if status == OVER else f"boot id `{scene.boot}`: ")

    for length in range(1, 201):
        boot("b" * length + "\n" * (length % 2), OVER)
    for text in ("", "\n", "b" * 201 + "\n", "b\nb\n", "b\n\n"):
        boot(text, REFUSED)
    scene.write_jobs(["job 1", "job 2"])
    with open(scene.boot, "w") as file:
        file.write("b" * 200 + "\n")
    finish(scene)
    want(folder.record_of(scene.run)["boot"] == "b" * 200, "the record has another boot id")
    os.unlink(scene.boot)
    get_in(scene, 1, READ, f"boot id `{scene.boot}`: ")
    words = [*bench.command(), "work", scene.run, "1", *scene.givens(), *bench.kind, scene.jobs]
    scene.write_jobs(["job 1", "job 2", "job 3"])
    subprocess.run(words, stdin=subprocess.DEVNULL, capture_output=True, timeout=300,
                   env=scene.environment())
    system = folder.read("/proc/sys/kernel/random/boot_id").decode().strip()
    want(folder.record_of(scene.run)["boot"] == system, "with no other word it isn't the system's boot id")


def go_by(bench, path):
    """The run's folder by another path: the door makes it and syncs the one above, and a worker
    works there."""
    scene = bench.scene(2, 1, makes=False)
    os.chdir(scene.room)
    os.symlink(scene.room, "link")
    scene.logs = True
    status, _, err = scene.call("door", path, *scene.givens(), scene.jobs)
    want(status == OVER and os.path.isdir(scene.run), f"status {status}, {err}")
    calls = scene.logged()  # (those by another path than this one aren't told)
    named = next((k for k, it in enumerate(calls) if it[2] == "rename" and it[8] == "."), 0)
    is_synced = any(it[2:4] == ["sync", ".."] for it in calls[named:])
    want(is_synced or not path.startswith("run"), "the folder above isn't synced")
    want(sorted(os.listdir(scene.room)) == sorted(["boot", "jobs", "link", "log", "run"]),
         "something is left")
    status, _, err = scene.call("work", path, "1", *scene.givens(), scene.jobs)
    want(status == LEFT and folder.record_of(scene.run), f"status {status}, {err}")
    finish(scene)


def try_paths(bench):
    """a path that is relative, ends in slashes, or goes by a link above: the same folder"""
    each(((bench, path) for path in ("run", "run/", "run//", "./run", "link/run")), go_by)


def refused_before(bench, prepare, status):
    """Wants a folder that can't be a run's to be refused before anything is made."""
    scene = bench.scene(1, 1, makes=False)
    run = prepare(scene) or scene.run
    for command, wanted in ((["door", run], status), (["work", run, "1"], READ)):
        ended, out, err = scene.call(*command, *scene.givens(), scene.jobs)
        want(ended == wanted and not out and err.count("\n") == 1,
             f"{command}: status {ended}, {err}")
        above = os.path.dirname(run)
        made = ([it for it in os.listdir(above) if it.startswith("run")]
                if os.path.isdir(above) else [])
        want(not made, f"{command[0]} makes {made} though it refuses")


def in_memory(scene):
    """Returns a folder that isn't there, by a link that leads to a file system in memory."""
    scene.memory = tempfile.TemporaryDirectory(dir="/dev/shm")
    os.symlink(scene.memory.name, f"{scene.room}/link")
    return f"{scene.room}/link/run"


def try_nothing_is_made(bench):
    """a list that is refused or isn't there, a folder above that isn't there or lies in memory: the
    run's folder isn't made"""
    rows = [(lambda scene: scene.write_jobs(["a", "", "b"]), REFUSED), (lambda scene: scene.write_jobs(["a"], ""), REFUSED),
            (lambda scene: os.unlink(scene.jobs), READ), (lambda scene: f"{scene.room}/none/run", READ)]
    if any(" /dev/shm " in it and " - tmpfs " in it for it in folder.read("/proc/self/mountinfo").decode().splitlines()):
        rows.append((in_memory, DOOR))
    each(((bench, *row) for row in rows), refused_before)


class System:
    """Files that a process of this run finds in place of the system's own."""

    def __init__(self, scene):
        self.room = scene.more["AMO_SYSTEM"] = f"{scene.room}/system"

    def put(self, path: str, text: str) -> None:
        os.makedirs(os.path.dirname(f"{self.room}{path}"), exist_ok=True)
        with open(f"{self.room}{path}", "w") as file:
            file.write(text)

    def name_device(self, number: str, name: str) -> None:
        """The device of this number has this name."""
        os.makedirs(f"{self.room}/sys/dev/block", exist_ok=True)
        os.symlink(f"../../devices/virtual/block/{name}", f"{self.room}/sys/dev/block/{number}")


def mount_id(path: str) -> str:
    """Returns the id of the mount on which a folder lies."""
    file = os.open(path, os.O_RDONLY)
    try:
        told = folder.read(f"/proc/self/fdinfo/{file}").decode()
    finally:
        os.close(file)
    return next(it.split()[1] for it in told.splitlines() if it.startswith("mnt_id:"))


def mounted(scene, kind: str, options: str, more: str, defaults: str) -> System:
    """Returns a system in which the folder above the run's lies on such a mount. Others, before it
    and after it, have its path."""
    system, number = System(scene), mount_id(scene.room)
    other = f"1 8:1 / {scene.room} rw - tmpfs none rw"
    mount = (f"{number} 1 8:99 /sub {scene.room} {options} shared:7 master:1"
             f" - {kind} /dev/vdz9 {more}")
    lines = [f"{number}0 {other}", f"1{number} {other}", mount, f"2{number} {other}"]
    system.put("/proc/self/mountinfo", "".join(f"{it}\n" for it in lines))
    if defaults:
        system.name_device("8:99", "vdz9")
        system.put("/proc/fs/ext4/vdz9/options", defaults.replace(",", "\n") + "\n")
    return system


OVERLAY = ("its file system is `overlay`, which may vanish with its container; put it on a volume,"
           " or use it anyway: --file-system overlay")
OTHER = ("its file system is `{0}`, which may lose synced data; put it on a local disk, or use it"
         " anyway: --file-system {0}")
MOUNTED = ("its file system is mounted with `{0}`, so a power cut may lose synced data; mount it"
           " without `{0}`")
DEFAULT = ("its file system has `{}` as a default, so a power cut may lose synced data; mount it"
           " with `{}`")
SOUND = "rw,bsddf,barrier,data=ordered,commit=5"
# A mount: its file system's type, its options, its file system's options and the defaults of ext4.
# Then the type that --file-system names, and the message if the program refuses the folder.
MOUNTS = [
    *((kind, "rw,relatime", "rw,discard", "", None, None)
      for kind in "ext2 ext3 ext4 xfs btrfs f2fs zfs".split()),
    ("ext4", "rw", "rw,barrier=1,metadata=writeback,nobarriers", SOUND, None, None),
    ("overlay", "rw", "rw", "", None, OVERLAY),
    ("overlay", "rw", "rw", "", "overlayfs", OVERLAY),
    ("overlay", "rw", "rw", "", "overlay", None),
    ("overlay", "rw,nobarrier", "rw", "", "overlay", MOUNTED.format("nobarrier")),
    ("nfs4", "rw", "rw", "", "nfs", OTHER.format("nfs4")),
    ("fuse.sshfs", "rw", "rw", "", None, OTHER.format("fuse.sshfs")),
    ("xfs", "rw,nobarrier", "rw", "", None, MOUNTED.format("nobarrier")),
    ("btrfs", "rw", "rw,ssd,nobarrier", "", "btrfs", MOUNTED.format("nobarrier")),
    ("ext3", "rw", "barrier=0,rw", "", None, MOUNTED.format("barrier=0")),
    ("ext4", "rw", "rw,data=writeback", SOUND, None, MOUNTED.format("data=writeback")),
    ("ext4", "rw", "rw", "rw,barrier,data=writeback", None,
     DEFAULT.format("data=writeback", "data=ordered")),
    ("ext3", "rw", "rw", "rw,nobarrier,data=ordered", "ext3",
     DEFAULT.format("nobarrier", "barrier=1")),
    ("xfs", "rw", "rw", "rw,nobarrier,data=writeback", None, None),
]


def enter_mount(bench, kind, options, more, defaults, named, said):
    """A folder is made on this mount, or is refused and not made."""
    scene = bench.scene(1, 1, makes=False)
    mounted(scene, kind, options, more, defaults)
    words = ["--file-system", named or "none"] if named or bench.kind else []
    status, out, err = scene.call("door", scene.run, *scene.givens(), scene.jobs, *words)
    is_told = not said or err == f"amo_worker: folder `{scene.run}`: {said}\n" or bench.is_slow()
    want(status == (DOOR if said else OVER) and not out and is_told, f"status {status}, {err}")
    want(os.path.exists(scene.run) == (not said),
         f"the folder is made: {os.path.exists(scene.run)}")
    if not said:
        mounted(scene, "nfs4", "rw", "rw", "")
        for command in ("status", "doubts", "again"):
            status, out, err = scene.call(command, scene.run)
            want(status == DOOR and not out,
                 f"{command} of a folder that lies on another now: status {status}, {err}")


def try_mounts(bench):
    """the mount is that of the folder's handle, whatever its path; which types and options are
    taken, and which are refused"""
    rows = [it for it in MOUNTS if not (bench.is_slow() and it[3])]
    count = each(((bench, *it) for it in rows), enter_mount)
    scene = bench.scene(1, 1, makes=False)
    mounted(scene, "ext4", "rw", "rw", "").put("/proc/self/mountinfo",
                                               "1 1 8:1 / / rw - ext4 none rw\n")
    status, _, err = scene.call("door", scene.run, *scene.givens(), scene.jobs)
    want(status == DOOR and not os.path.exists(scene.run),
         f"a mount that nothing tells of: status {status}, {err}")
    return f"{count} mounts"


def try_half_made(bench):
    """what a killed process left under the names of files that are made whole is written over, all
    of it"""
    for kind in (b"x" * 10000 + b"\n", b""):
        scene = bench.scene(4)
        for name in ("record", "jobs", "words"):
            with open(f"{scene.run}/{name}.new", "wb") as file:
                file.write(kind)
        runner = Runner(scene, 1)
        want(live(runner) == LATER and len(scene.effects()) == 4, f"status {runner.statuses}: {runner.said}")
        runner.close()
        want(folder.read(f"{scene.run}/jobs") == folder.read(scene.jobs), "jobs holds something else than the list")
        finish(scene)


def try_nothing_is_removed(bench):
    """in a life no file is removed, files are their owner's alone, and each word is read and
    written whole, at its place"""
    if is_stand_in(bench):
        return
    os.umask(0)
    calls = first_life(bench)
    want(not [it for it in calls if it[2] == "remove"], "it removes a file")
    for it in calls:
        place, length = int(it[5]), int(it[6])
        if it[3] == "words" and it[2] in ("read", "write") and place >= 512:
            want(length == 8 and place % 8 == 0, f"{it[2]} of {length} bytes of words at {place}")
    run = bench.last.run
    modes = {name: os.stat(f"{run}/{name}").st_mode & 0o777 for name in ("journal.1", "lock.round", "record", "jobs", "words")}
    want(set(modes.values()) == {0o600}, f"modes: {modes}")


def hold_one(bench, number):
    """A worker stopped at this call has its number and its part in the round, or begins one
    alone."""
    scene = bench.scene(4, 2)
    runner = Runner(scene, 1)
    serve([runner.start(f"{number}:stop_before")], until=lambda: state_of(runner) in "TZ")
    free = [name for name in ("journal.1", "lock.round") if folder.is_free(f"{scene.run}/{name}")]
    want(state_of(runner) == "T" and not free, f"at call {number} nobody holds {free}")


def try_what_a_worker_holds(bench):
    """who begins a round or is at work in it holds its lock, and that of its number, until its part
    is over"""
    calls = first_life(bench)
    calls = calls[:next(k for k, it in enumerate(calls) if is_over(it))]
    chosen = [it for it in calls if it[2] == "rename" or it[2:4] == ["sync", "."] or it[2] == "say"]
    chosen = [it for it in chosen if int(it[1]) > next(int(it[1]) for it in calls if it[2:4] == ["lock", "lock.round"])]
    return f"{each(((bench, int(it[1])) for it in [*chosen, calls[-1]]), hold_one)} stops"


def refused_locks(scene, name):
    """Returns how often a lock on this file was asked for and not got."""
    return sum(it[2:4] == ["lock", name] and int(it[7]) < 0 for it in scene.logged())


def wait_for(bench, name, times):
    """Another holds this lock until it was asked for so often; then the worker goes on."""
    scene = bench.scene(4, 2)
    runner = Runner(scene, 1)
    runner.leaves = True
    live(runner)
    held = runner.taken(name)
    runner.leaves, scene.logs = False, True
    serve([runner.start()], until=lambda: not runner.process or refused_locks(scene, name) >= times)
    want(runner.process, f"it doesn't wait for {name}: status {runner.statuses}, {runner.said}")
    held.close()
    serve([runner])
    want(runner.statuses[-1] == LATER and len(scene.effects()) > 1, f"it does nothing then: {runner.statuses}, {runner.said}")
    runner.close()
    finish(scene, (1, 2))


def try_locks_that_come_free(bench):
    """a number, or a round that is begun, held by another for a moment: it is tried again, and the
    worker goes on"""
    if is_stand_in(bench):
        return
    each(((bench, *row) for row in (("journal.1", 3), ("lock.round", 4))), wait_for)


def begun_anew(bench):
    """Returns a run with two attempts in doubt: one that is noted as such, and one that nobody
    holds any more."""
    scene = bench.scene(4, 1)
    runner = Says(scene, 1, ["doubt", "dies"])
    live(runner)
    runner.close()
    return scene


def kept_answers(scene):
    return len(folder.records_in(scene.run, "answers"))


def sheet_of(scene, *rows):
    """Gives these answers from a file: the status, how many are taken, and the output."""
    before, path = kept_answers(scene), f"{scene.room}/sheet"
    with open(path, "w") as file:
        file.write("".join(f"{row}\n" for row in rows))
    status, _, err = scene.call("answer", scene.run, "--from", path)
    return status, kept_answers(scene) - before, err


def try_sheets_beside_who_begins(bench):
    """a sheet with an answer to what somebody holds: none is taken, 75; if another row is refused,
    65, before or after that row"""
    scene = begun_anew(bench)
    held = open(f"{scene.run}/runner.1", "ab")
    fcntl.flock(held, fcntl.LOCK_EX | fcntl.LOCK_NB)
    sound, runs, wrong = "1.1\t1\tjob 1\tdone", "1.2\t2\tjob 2\tdone", "1.9\t3\tjob 3\tdone"
    for rows in ((runs, wrong), (wrong, runs), (runs, sound, wrong)):
        status, taken, err = sheet_of(scene, *rows)
        want((status, taken) == (REFUSED, 0), f"{rows}: status {status}, {taken} taken, {err}")
    status, taken, err = sheet_of(scene, sound, runs)
    want((status, taken) == (LATER, 0) and "answer 2" in err,
         f"status {status}, {taken} taken, {err}")
    held.close()
    status, taken, err = sheet_of(scene, sound, runs)
    want((status, taken) == (OVER, 2), f"status {status}, {taken} taken, {err}")


def try_locks_for_ever(bench):
    """locks that others keep: after some seconds a worker and a person get a message; a command
    that only looks works all the same"""
    if is_stand_in(bench):
        return
    scene = prepared(bench, ["doubt", "untouched 75"], lines=3)
    other, beside = bench.scene(3, 1), bench.scene(3, 1)
    runner = Runner(beside, 1)
    runner.leaves = True
    live(runner)
    held = (f"{scene.run}/answers", f"{other.run}/journal.1", f"{other.run}/journal.16", f"{beside.run}/lock.round")
    holders = [open(path, "ab") for path in held]
    for it in holders:
        fcntl.flock(it, fcntl.LOCK_EX | fcntl.LOCK_NB)
    working = lambda scene: Reader(scene, "work", "1", *scene.givens(), scene.jobs)
    answering = f"`{scene.run}/answers`: another process is answering; start again in a second\n"
    rows = [(Reader(scene, "answer", "1.1", "1", "job 1", "done"), LATER, answering),
            (Reader(scene, "again"), LATER, answering),
            (Reader(scene, "status"), OVER, ""), (Reader(scene, "doubts"), OVER, ""),
            (working(other), LATER, "has this number; wait for its end, or start another worker\n"),
            (working(beside), LATER,
             "another worker is beginning a round; start again in a second\n")]
    alive = other.call("status", other.run)[1].split("\n")[1]
    want(alive == "alive 1 16", f"a worker that has put nothing yet isn't alive: {alive}")
    for it, status, said in rows:
        ended, _, err = it.ended()
        want(ended == status and said in err, f"{it.words}: status {ended}, {err}")
        named = not re.search(r"process \d", err) or f"process {os.getpid()} has this number" in err
        want(named, f"another process is named than the one that has the number: {err}")
    want(not folder.records_in(scene.run, "answers"), "an answer was taken without the lock")
    for it in holders:
        it.close()
    runner.close()


def try_last_words(bench):
    """the last words of the largest round: worker 16 comes back to a row of all jobs but one, and
    files that"""
    scene = bench.scene(4096, 16)
    runner, last = Runner(scene, 1), Runner(scene, 16)
    runner.leaves = True
    live(runner)
    with open(f"{scene.run}/lock.round", "ab") as held, open(f"{scene.run}/words", "r+b") as words:
        fcntl.flock(held, fcntl.LOCK_SH | fcntl.LOCK_NB)
        row = 2 * 16 + 15 * 4097 + 1
        for first, values in ((16, [4096]), (32, [4096]), (row, range(1, 4096))):
            words.seek(512 + 8 * first)
            words.write(b"".join(it.to_bytes(8, "little") for it in values))
        words.flush()
        want(live(last) == LATER and not last.lines and "is over" in last.said, f"{last.statuses}: {last.said}")
    entry = folder.read(f"{scene.run}/words")[512 + 8 * (row + 4095):][:8]
    want(int.from_bytes(entry, "little") == 4096, "the job in hand isn't filed in the last entry")


PARTS = {"door": [try_each_number, try_boot_ids, try_paths, try_nothing_is_made, try_mounts],
         "crews": [try_half_made, try_nothing_is_removed, try_what_a_worker_holds, try_locks_that_come_free, try_locks_for_ever,
                   try_sheets_beside_who_begins, try_last_words]}
