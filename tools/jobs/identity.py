"""Which folder a list is run in: each row of the table in docs/guide/operating.md, what moves,
copies, renames and mounts do, and `forget`; crews and `forget` stopped and killed before each of
their calls.

A command appends to a file of its line, so each test counts how often a line was performed."""

import os
import re
import shutil
import signal
import subprocess

from harness.bench import until
from jobs.scene import DONE, FAILED, HERE, KILLED, LEFT, READ, REFUSED, WRITE, Scene, want
from worker import folder, journals

OTHER = "0123456789abcdef" * 2
# Once its line is performed this command waits for a file.
WAITS = 'echo "did it" >> "$0/effects/$AMO_LINE"; while ! [ -e "$0/go" ]; do sleep 0.02; done'


def id_in(run: str) -> str:
    return folder.read(f"{run}/id").decode().strip()


def mark_of(scene: Scene) -> str:
    return folder.read(f"{scene.jobs}.run-is").decode()


def put_mark(scene: Scene, text: str) -> None:
    with open(f"{scene.jobs}.run-is", "w") as file:
        file.write(text)


def performed(scene: Scene) -> list[int]:
    """Returns how often each line was performed."""
    lines = range(1, len(scene.kinds) + 1)
    return [sum(it[0] == "did" for it in scene.tales(line)) for line in lines]


def check(scene: Scene, counts: list[int], what: str = "") -> None:
    """Wants each line to be performed so often; more is the worst that can happen."""
    found = performed(scene)
    more = [line for line, it in enumerate(found) if it > counts[line]]
    want(not more, f"performed twice: lines {more} of {found}: {what}")
    want(found == counts, f"performed {found}, not {counts}: {what}")


def words_of(scene: Scene, what: str, *more: str, run: str | None = None) -> list[str]:
    """Returns the words of a crew, or of `forget`, over this folder, or over the scene's."""
    words = scene.words(what, *more)
    words[words.index("--run") + 1] = run or scene.run
    if what == "crew":
        words += ["--workers", "1", *scene.options, scene.jobs, "--", *scene.command]
    return words + [scene.jobs] * (what == "forget")


class Begun:
    """Amo_jobs as it runs, and the file to which it writes."""

    def __init__(self, words: list[str], scene: Scene, **more: str):
        if "AMO_STEP" in more or "AMO_STEPS" in more:
            at = words.index(scene.bench.program)
            more["AMO_PROGRAM"], words[at] = words[at], f"{HERE}/stepped.py"
        self.path = f"{scene.room}/told.{len(scene.crews)}"
        with open(self.path, "wb") as file:
            self.process = subprocess.Popen(
                words, stdin=subprocess.DEVNULL, stdout=file, stderr=file, start_new_session=True,
                env=scene.environment(**more))
        scene.crews.append(self.process)

    def told(self) -> str:
        """Returns its output until now."""
        return folder.read(self.path).decode("utf-8", "replace")

    def end(self, *statuses: int) -> str:
        """Waits for its end, with one of these statuses if there are any; returns its output."""
        ended = self.process.wait(300)
        told = self.told()
        want(not statuses or ended in statuses, f"status {ended}, not {statuses}: {told[-600:]}")
        return told


def crew(scene: Scene, status: int, *more: str, run: str | None = None, **how: str) -> str:
    return Begun(words_of(scene, "crew", *more, run=run), scene, **how).end(status)


def forget(scene: Scene, status: int, *more: str, run: str | None = None, **how: str) -> str:
    return Begun(words_of(scene, "forget", *more, run=run), scene, **how).end(status)


def begun(bench, is_over: bool = False) -> Scene:
    """Returns a scene whose first round stands, with one line of three performed; or with all of
    them. The run is made once, and copied."""
    kept = f"{bench.room}/kept.{is_over}"
    if not os.path.exists(kept):
        scene = bench.scene(["fail"] * 3)
        crew(scene, FAILED if is_over else LEFT, *([] if is_over else ["--halt", "1"]))
        want(sorted(performed(scene)) == ([1, 1, 1] if is_over else [0, 0, 1]), "at first")
        os.unlink(f"{scene.run}/command")
        os.rename(scene.room, kept)
    scene = bench.scene(["fail"] * 3)
    for name in ("run", "effects"):
        shutil.copytree(f"{kept}/{name}", f"{scene.room}/{name}", dirs_exist_ok=True)
    put_mark(scene, f"{id_in(scene.run)}\n{os.path.realpath(scene.run)}\n")
    return scene


def goes_on(scene: Scene, *more: str, **how) -> str:
    """Wants a crew to perform the two lines that are open, and no other."""
    told = crew(scene, FAILED, *more, **how)
    check(scene, [1, 1, 1], told)
    return told


def is_refused(scene: Scene, wanted: str, *more: str, status: int = REFUSED, **how) -> str:
    """Wants a crew to be refused with these words, and to leave performed lines, mark and the name
    of a missing folder as they were."""
    before, mark, run = performed(scene), mark_of(scene), how.get("run") or scene.run
    was_there = os.path.lexists(run)
    crew = Begun(words_of(scene, "crew", *more, run=how.pop("run", None)), scene, **how)
    told = crew.end()
    check(scene, before, told)
    crew.end(status)
    want(re.search(wanted, told), f"`{wanted}` isn't said: {told}")
    want(mark_of(scene) == mark, f"the mark was {mark}, and is {mark_of(scene)}")
    want(os.path.lexists(run) or not was_there, "the folder is gone")
    want(was_there or not os.path.lexists(run), f"{run} was made")
    return told


def try_first_run(bench):
    """without a mark the folder is made, or the user's is taken as it is, and the mark is made"""
    for user, cut_off in ((None, ()), ((), ()), (("lost+found/", "notes"), ()),
                          (("notes",), ("lock.round", "answers", "journal.1", "door.1a.new"))):
        scene = bench.scene(["fail"] * 2)
        if user is not None:
            os.mkdir(scene.run, 0o700)
        for name in user or ():
            os.makedirs(os.path.dirname(f"{scene.run}/{name}"), exist_ok=True)
            if not name.endswith("/"):
                open(f"{scene.run}/{name}", "w").close()
        for name in cut_off:
            with open(f"{scene.run}/{name}", "w") as file:
                file.write("" if name == "lock.round" else "-")
        crew(scene, FAILED)
        check(scene, [1, 1], f"{user}")
        found = id_in(scene.run)
        want(re.fullmatch("[0-9a-f]{32}", found), f"the id is {found}")
        want(mark_of(scene) == f"{found}\n{scene.run}\n", f"the mark is {mark_of(scene)}")
        lost = [it for it in user or () if not os.path.exists(f"{scene.run}/{it}")]
        left = [it for it in os.listdir(scene.room) if ".new" in it]
        want(not lost and not left, f"lost: {lost}; left: {left}")


def try_without_a_mark(bench):
    """without a mark a folder with an id is taken if the list has its lines, and no other folder"""
    scene = begun(bench)
    os.unlink(f"{scene.jobs}.run-is")
    goes_on(scene)
    want(mark_of(scene) == f"{id_in(scene.run)}\n{scene.run}\n", f"the mark is {mark_of(scene)}")
    scene = begun(bench)
    os.unlink(f"{scene.jobs}.run-is")
    with open(scene.jobs, "r+") as file:
        file.write("X")
    is_refused(scene, "line 1")
    for names in (["record"], ["runner.1"], ["journal.1"], ["chunk.1/"]):
        scene = bench.scene(["fail"])
        os.mkdir(scene.run, 0o700)
        for name in names:
            if name.endswith("/"):
                os.mkdir(f"{scene.run}/{name}")
            else:
                data = journals.journal("", name, [b"intent 1 1 1"]) if name == "journal.1" else b""
                folder.put(f"{scene.run}/{name}", data)
        is_refused(scene, "amo_worker: ")


def try_own_folder(bench):
    """the folder of the mark is gone on with, by whatever path it is named"""
    goes_on(begun(bench))
    scene = begun(bench)
    os.symlink(scene.room, f"{scene.room}/link")
    goes_on(scene, run=f"{scene.room}/link/run")
    want(mark_of(scene).endswith(f"\n{scene.run}\n"), f"the mark is {mark_of(scene)}")
    scene = begun(bench)
    bound = f"{scene.room}/bound"
    os.mkdir(bound)
    if is_mounted(["--bind", scene.run, bound]):
        try:
            goes_on(scene, run=bound)
            want(mark_of(scene).endswith(f"\n{scene.run}\n"), f"the mark is {mark_of(scene)}")
        finally:
            unmount(bound)
    else:
        bench.skipped.append("a folder by a bind mount, since none can be made")


def is_mounted(words: list[str]) -> bool:
    return subprocess.run(["mount", *words], stderr=subprocess.DEVNULL).returncode == 0


def unmount(path: str) -> None:
    subprocess.run(["umount", "-l", path], stderr=subprocess.DEVNULL)


def try_missing(bench):
    """a folder that is missing, has no id or another one is refused, and nothing is made there"""
    def remove(scene):
        os.rename(scene.run, f"{scene.room}/volume")

    def empty(scene):
        remove(scene)
        os.makedirs(f"{scene.run}/lost+found")

    def another(scene):
        remove(scene)
        shutil.copytree(f"{scene.room}/volume", scene.run)
        with open(f"{scene.run}/id", "w") as file:
            file.write(f"{OTHER}\n")

    def without_id(scene):
        remove(scene)
        shutil.copytree(f"{scene.room}/volume", scene.run)
        os.unlink(f"{scene.run}/id")

    for change, why in ((remove, "is missing"), (empty, "has no id"), (another, "has another id"),
                        (without_id, "has no id")):
        scene = begun(bench)
        run = id_in(scene.run)
        change(scene)
        told = is_refused(scene, why)
        for words in ("mount its file system", "`forget` that was cut off", f"--new-run {run}"):
            want(words in told, f"{words} isn't said: {told}")
        is_refused(scene, f"it is --new-run {OTHER} now", "--new-run", OTHER)
    shutil.rmtree(scene.run)
    os.rename(f"{scene.room}/volume", scene.run)
    goes_on(scene)


def try_moved(bench):
    """a folder that was moved is gone on with, alone or with its list, and the mark written anew"""
    scene = begun(bench)
    os.rename(scene.run, f"{scene.room}/moved")
    told = is_refused(scene, "is missing")
    want("mount its file system" in told, told)
    scene.run = f"{scene.room}/moved"
    goes_on(scene)
    want(mark_of(scene) == f"{id_in(scene.run)}\n{scene.run}\n", f"the mark is {mark_of(scene)}")
    scene = begun(bench)
    os.mkdir(f"{scene.room}/there")
    for name in ("jobs", "jobs.run-is", "run"):
        os.rename(f"{scene.room}/{name}", f"{scene.room}/there/{name}")
    scene.jobs, scene.run = f"{scene.room}/there/jobs", f"{scene.room}/there/run"
    goes_on(scene)
    want(mark_of(scene) == f"{id_in(scene.run)}\n{scene.run}\n", f"the mark is {mark_of(scene)}")


def try_copies(bench):
    """of two folders with one id that of the mark goes on; if it can't be seen, none does"""
    scene = begun(bench)
    copy = f"{scene.room}/copy"
    shutil.copytree(scene.run, copy)
    told = is_refused(scene, "may be a copy", run=copy)
    want(f"--run {scene.run}" in told, told)
    is_refused(scene, "may be a copy", "--new-run", OTHER, run=copy)
    goes_on(scene)
    scene = begun(bench)
    os.makedirs(f"{scene.room}/volume/mounted")
    put_mark(scene, f"{id_in(scene.run)}\n{scene.room}/volume/mounted/run\n")
    goes_on(scene)  # nothing is there, and its parent is
    scene = begun(bench)
    put_mark(scene, f"{id_in(scene.run)}\n{scene.room}/volume/mounted/run\n")
    is_refused(scene, "may be a copy")
    goes_on(scene, "--new-run", id_in(scene.run))
    want(mark_of(scene) == f"{id_in(scene.run)}\n{scene.run}\n", f"the mark is {mark_of(scene)}")


def try_new_run(bench):
    """--new-run gives one run up, the one that it names, and no third run begins by it"""
    scene = begun(bench)
    old = id_in(scene.run)
    goes_on(scene, "--new-run", old)  # nothing refuses, so it does nothing
    want(id_in(scene.run) == old, "the run has another id")
    os.rename(scene.run, f"{scene.room}/lost")
    crew(scene, FAILED, "--new-run", old)
    check(scene, [2, 2, 2], "it was asked for")
    new = id_in(scene.run)
    want(new != old and mark_of(scene) == f"{new}\n{scene.run}\n", f"{mark_of(scene)}")
    crew(scene, FAILED, "--new-run", old)
    check(scene, [2, 2, 2], "the word was kept")
    os.rename(scene.run, f"{scene.room}/lost again")
    is_refused(scene, f"--new-run {new}", "--new-run", old)


def try_other_marks(bench):
    """a mark of amo 0.1.0 is refused by name, and one of no version for good"""
    for text in ("run\n", f"{bench.room}/elsewhere\n"):
        scene = begun(bench)
        old = id_in(scene.run)
        put_mark(scene, text)
        is_refused(scene, "is a mark of amo 0.1.0")
        is_refused(scene, "is a mark of amo 0.1.0", "--new-run", old)
        scene.run = f"{scene.room}/new"
        before = performed(scene)
        crew(scene, FAILED, "--new-run", "1")
        check(scene, [it + 1 for it in before], "it was asked for")
        want(mark_of(scene) == f"{id_in(scene.run)}\n{scene.run}\n", f"{mark_of(scene)}")
    for text in ("", "\n", "a chunk of a list\nno crew takes it\n", f"{OTHER}\nrun\n",
                 f"{OTHER[1:]}\n/run\n"):
        scene = begun(bench)
        put_mark(scene, text)
        is_refused(scene, "names no run", "--new-run", "1")
        is_refused(scene, "names no run", "--new-run", OTHER)


def try_renamed(bench):
    """a list that was renamed is refused, also if its old name has another list, and goes on once
    its mark is renamed too"""
    scene = begun(bench)
    old, scene.jobs = scene.jobs, f"{scene.room}/renamed"
    os.rename(old, scene.jobs)
    for has_other in (False, True):
        if has_other:
            with open(old, "w") as file:
                file.write("another list\n")
        for run in (scene.run, f"{scene.jobs}.run"):
            told = is_refused(scene, f"mv {old}.run-is {scene.jobs}.run-is", run=run)
            want(f"--run {scene.run}" in told and f"forget {old}" not in told, told)
    os.unlink(old)
    with open(scene.jobs) as file:
        text = file.read()
    with open(scene.jobs, "w") as file:
        file.write("another line\n")
    kinds, scene.kinds = scene.kinds, ["line"]
    shutil.rmtree(scene.effects)
    os.mkdir(scene.effects)
    crew(scene, DONE, run=f"{scene.room}/another")  # another list may stand beside that mark
    check(scene, [1])
    shutil.rmtree(scene.effects)
    shutil.copytree(f"{bench.room}/kept.False/effects", scene.effects)
    scene.kinds = kinds
    with open(scene.jobs, "w") as file:
        file.write(text)
    os.rename(f"{old}.run-is", f"{scene.jobs}.run-is")
    is_refused(scene, f"--run {scene.run}", run=f"{scene.jobs}.run")
    goes_on(scene)


def try_lists_that_are_none(bench):
    """a list that is a pipe, a fifo or a folder is refused before anything is made"""
    scene = bench.scene(["fail"] * 2)
    os.mkfifo(f"{scene.room}/fifo")
    os.symlink("jobs", f"{scene.room}/link")
    for name, status in (("fifo", REFUSED), ("effects", REFUSED), ("missing", READ)):
        jobs, scene.jobs = scene.jobs, f"{scene.room}/{name}"
        is_refused(scene, "missing" if name == "missing" else "isn't a regular file", status=status)
        scene.jobs = jobs
    words = [it if it != scene.jobs else "/dev/stdin" for it in words_of(scene, "crew")]
    how = dict(env=scene.environment(), stdout=subprocess.PIPE, stderr=subprocess.STDOUT,
               timeout=300)
    piped = subprocess.run(["sh", "-c", 'cat "$0" | "$@"', scene.jobs, *words], **how)
    want(piped.returncode == REFUSED and not os.path.exists(scene.run), f"{piped}")
    check(scene, [0, 0])
    with open(scene.jobs) as file:
        fed = subprocess.run(words, stdin=file, **how)
    want(fed.returncode == FAILED, f"{fed}")
    check(scene, [1, 1])
    jobs, scene.jobs = scene.jobs, f"{scene.room}/link"
    crew(scene, FAILED)
    check(scene, [1, 1], "by a link")
    want(os.path.exists(f"{jobs}.run-is"), "the list that the link names has the mark")
    want(not os.path.exists(f"{scene.jobs}.run-is"), "the link has a mark")


def try_two_lists(bench):
    """two lists with one folder perform no line twice, and the one that doesn't fit gets no mark"""
    scene = begun(bench)
    first, scene.jobs = scene.jobs, f"{scene.room}/second"
    with open(scene.jobs, "w") as file:
        file.write("1 fail\n2 other\n")
    is_refused(scene, "line 2")
    shutil.copyfile(first, scene.jobs)
    scene.grow(["fail"])
    crew(scene, FAILED)
    check(scene, [1, 1, 1, 1])
    want(mark_of(scene) == f"{id_in(scene.run)}\n{scene.run}\n", f"the mark is {mark_of(scene)}")
    scene.jobs = first
    is_refused(scene, "line 4")


def read_only(bench) -> str:
    """Builds the library that has a folder look as if it were read-only; returns its path."""
    path = f"{bench.room}/read_only.so"
    words = [os.environ.get("CC", "cc"), "-std=gnu11", "-O1", "-Wall", "-Wextra", "-Werror"]
    subprocess.run([*words, "-shared", "-fPIC", "-o", path, f"{HERE}/read_only.c"], check=True)
    return path


def try_read_only(bench):
    """a list or a folder on a read-only file system: a line is never performed twice"""
    library = read_only(bench)

    def by_library(scene, path):
        return {"LD_PRELOAD": library, "AMO_READ_ONLY": path}

    def by_mount(scene, path):
        want(is_mounted(["--bind", path, path]), "it can't be mounted")
        mounted.append(path)
        want(is_mounted(["-o", "remount,ro,bind", path]), "it can't be mounted read-only")
        return {}

    scene, mounted, ways = bench.scene([]), [], [by_library]
    if is_mounted(["--bind", scene.effects, scene.effects]):
        unmount(scene.effects)
        ways.append(by_mount)
    else:
        bench.skipped.append("read-only mounts, since none can be made; a library stands for them")
    try:
        for way in ways:
            try_read_only_by(bench, way)
    finally:
        for path in mounted:
            unmount(path)


def try_read_only_by(bench, way) -> None:
    """Tries a list and a folder that nobody may write to, each with a mark and without."""
    for place, has_mark in (("list", False), ("list", True), ("run", False), ("run", True)):
        scene = begun(bench) if has_mark else bench.scene(["fail"] * 3)
        alone = f"{scene.room}/alone"
        os.mkdir(alone)
        if place == "list":
            for name in ("jobs", "jobs.run-is")[:1 + has_mark]:
                os.rename(f"{scene.room}/{name}", f"{alone}/{name}")
            scene.jobs = f"{alone}/jobs"
        else:
            if has_mark:
                os.rename(scene.run, f"{alone}/run")
            scene.run = f"{alone}/run"
        before, environment = performed(scene), way(scene, alone)
        crew = Begun(words_of(scene, "crew"), scene, **environment)
        told, ended = crew.end(), crew.process.returncode
        if place == "list" and has_mark:
            want(ended == FAILED, f"status {ended}: {told}")
            check(scene, [1, 1, 1], told)
            continue
        check(scene, before, told)
        statuses = (REFUSED,) if place == "list" else (REFUSED, WRITE, 77)
        want(ended in statuses, f"status {ended}: {told}")
        want(place == "run" or not os.path.lexists(scene.run), "the folder was made")
        want(has_mark or not mark_of(scene), "the mark was made")


def try_journals(bench):
    """a file that the door made is missing in the first round: refused until it is back"""
    names = [f"journal.{p}" for p in range(1, 17)]
    for name in [names[0], *bench.sample(names[1:], 3), "answers", "lock.round", "id"]:
        scene = begun(bench)
        os.rename(f"{scene.run}/{name}", f"{scene.room}/{name}")
        if name == names[0]:
            os.unlink(f"{scene.run}/words")  # else these keep a line from being performed again
        is_refused(scene, "has no id" if name == "id" else re.escape(name))
        os.rename(f"{scene.room}/{name}", f"{scene.run}/{name}")
    goes_on(scene)


def waiting(bench) -> tuple[Scene, Begun]:
    """Returns a crew whose first command has performed its line, and waits for the file `go`."""
    scene = bench.scene(["fail"] * 3)
    scene.command = ["sh", "-c", WAITS, scene.room]
    crew = Begun(words_of(scene, "crew"), scene)
    until(lambda: sum(performed(scene)) == 1, "a line is performed")
    return scene, crew


def try_journals_alive(bench):
    """a journal that vanishes while a crew is alive: no next worker goes on before it is back"""
    for name in ("journal.1", *bench.sample([f"journal.{p}" for p in range(2, 17)], 1)):
        vanishes(bench, lambda scene, name=name: (f"{scene.run}/{name}", f"{scene.room}/{name}"))


def try_folder_renamed(bench):
    """the folder is renamed while a crew runs and its worker dies: nobody makes it anew"""
    vanishes(bench, lambda scene: (scene.run, f"{scene.room}/renamed"))


def vanishes(bench, names) -> None:
    """Changes a name while a crew runs, kills its worker, has a second crew come, and undoes it."""
    scene, crew_alive = waiting(bench)
    name, away = names(scene)
    before = performed(scene)
    os.rename(name, away)
    for worker in scene.worker_processes():
        os.kill(worker, signal.SIGKILL)
    open(f"{scene.room}/go", "w").close()
    until(lambda: crew_alive.process.poll() is not None or "goes on trying" in crew_alive.told(),
          "the next worker is refused")
    check(scene, before, crew_alive.told())
    second = crew(scene, REFUSED)
    check(scene, before, second)
    want(not os.path.lexists(name), f"{name} was made anew")
    os.rename(away, name)
    told = crew_alive.end(DONE, LEFT, REFUSED, READ)
    want("goes on trying" in told, told)
    crew(scene, DONE)
    check(scene, [1, 1, 1], told)


def within(bench, cases):
    """Yields the cases, as long as there is time."""
    for it in cases:
        if bench.has_time():
            yield it


def steps_of(scene: Scene, words: list[str], status: int) -> list[str]:
    """Returns the calls before which these words may be stopped, once all of them are made."""
    path = f"{scene.room}/steps"
    Begun(words, scene, AMO_STEPS=path).end(status)
    return folder.read(path).decode().splitlines()


def is_stopped(process: subprocess.Popen) -> bool:
    """Returns whether a process is stopped, or has ended."""
    stat = folder.read(f"/proc/{process.pid}/stat").decode().rpartition(")")[2].split()
    return not stat or stat[0] in "TZ"


def try_two_folders(bench):
    """of two crews with two folders one is refused, wherever the other one stops meanwhile"""
    scene = bench.scene(["fail"] * 2)
    steps = steps_of(scene, words_of(scene, "crew"), FAILED)
    makes = re.compile("(link|replace) .*run-is")
    mark = next(number for number, it in enumerate(steps) if makes.match(it))
    want(len(steps) > mark + 2, f"too few steps: {steps}")
    chosen = {mark, mark + 1, mark + 2, *bench.sample(range(1, len(steps) + 1), 5)}
    for number in within(bench, sorted(chosen)):
        scene = bench.scene(["fail"] * 2)
        first = Begun(words_of(scene, "crew"), scene, AMO_STEP=f"{number}:stop")
        until(lambda: is_stopped(first.process), "it is stopped")
        second = Begun(words_of(scene, "crew", run=f"{scene.room}/second"), scene)
        second.end()
        first.process.send_signal(signal.SIGCONT)
        told = f"stopped before {steps[number - 1]}: {second.end()} {first.end()}"
        check(scene, [1, 1], told)
        both = sorted([first.process.returncode, second.process.returncode])
        want(both == [FAILED, REFUSED], f"{both}: {told}")
    return f"{len(chosen)} of {len(steps)} steps"


def try_one_folder(bench):
    """two crews of one new folder, one of them stopped before it makes the mark: both go on"""
    scene = bench.scene(["fail"] * 2)
    steps = steps_of(scene, words_of(scene, "crew"), FAILED)
    for number in (place for place, it in enumerate(steps, 1) if re.match("run door|link ", it)):
        scene = bench.scene(["fail"] * 2)
        first = Begun(words_of(scene, "crew"), scene, AMO_STEP=f"{number}:stop")
        until(lambda: is_stopped(first.process), "it is stopped")
        crew(scene, FAILED)
        mark = mark_of(scene)
        first.process.send_signal(signal.SIGCONT)
        told = first.end()
        check(scene, [1, 1], told)
        want(first.process.returncode == FAILED and mark_of(scene) == mark, f"{mark}: {told}")


def try_killed_making(bench):
    """a crew is killed before each of its calls: of two crews after that one is refused"""
    scene = bench.scene(["fail"] * 2)
    steps = steps_of(scene, words_of(scene, "crew"), FAILED)
    chosen = bench.sample(range(1, len(steps) + 1), 6)
    for number in within(bench, chosen):
        scene = bench.scene(["fail"] * 2)
        Begun(words_of(scene, "crew"), scene, AMO_STEP=f"{number}:kill").end(KILLED)
        check(scene, [0, 0], steps[number - 1])
        crews = []
        for run in (f"{scene.room}/second", scene.run):
            crews.append(Begun(words_of(scene, "crew", run=run), scene))
            crews[-1].end()
        told = f"killed before {steps[number - 1]}: {crews[0].told()} {crews[1].told()}"
        check(scene, [1, 1], told)
        want(sorted(it.process.returncode for it in crews) == [FAILED, REFUSED], told)
    return f"{len(chosen)} of {len(steps)} steps"


def try_new_runs_at_once(bench):
    """two crews give one run up, with two folders: one of the crews is refused"""
    scene = begun(bench)
    old, lost = id_in(scene.run), f"{scene.room}/lost"
    os.rename(scene.run, lost)
    steps = steps_of(scene, words_of(scene, "crew", "--new-run", old), FAILED)
    locked, replaced = (next(number for number, it in enumerate(steps, 1) if re.match(word, it))
                        for word in ("flock", r"replace .*run-is"))
    every = range(locked, len(steps) + 1)
    chosen = sorted({*bench.sample(every, 0), locked, replaced, replaced + 1})
    for number in within(bench, chosen):
        scene = begun(bench)
        before, words = performed(scene), ["--new-run", id_in(scene.run)]
        os.rename(scene.run, f"{scene.room}/lost")
        first = Begun(words_of(scene, "crew", *words), scene, AMO_STEP=f"{number}:stop")
        until(lambda: is_stopped(first.process), "it is stopped")
        second = Begun(words_of(scene, "crew", *words, run=f"{scene.room}/second"), scene)
        second.end()
        first.process.send_signal(signal.SIGCONT)
        told = f"stopped before {steps[number - 1]}: {second.end()} {first.end()}"
        check(scene, [it + 1 for it in before], told)
        both = sorted([first.process.returncode, second.process.returncode])
        want(both == [FAILED, REFUSED], f"{both}: {told}")
    return f"{len(chosen)} of {len(steps)} steps"


def try_mount_point(bench):
    """a mount point with lost+found is taken; once it isn't mounted it is refused"""
    scene = bench.scene(["fail"] * 2)
    image, scene.run = f"{scene.room}/image", f"{scene.room}/volume"
    with open(image, "wb") as file:
        file.truncate(8 << 20)
    os.mkdir(scene.run, 0o700)
    is_made = subprocess.run(["mkfs.ext4", "-q", image], stderr=subprocess.DEVNULL).returncode == 0
    if not is_made or not is_mounted(["-o", "loop", image, scene.run]):
        bench.skipped.append("a volume that is mounted, since none can be; a folder stands for it")
        return
    try:
        crew(scene, FAILED)
        check(scene, [1, 1])
        old = id_in(scene.run)
        unmount(scene.run)
        is_refused(scene, "has no id")
        want(is_mounted(["-o", "loop", image, scene.run]), "it can't be mounted again")
        crew(scene, FAILED)
        check(scene, [1, 1])
        with open(scene.jobs) as file:
            text = file.read()
        forget(scene, DONE)
        is_put_away(scene, old, text, scene.run)
        with open(scene.jobs, "w") as file:
            file.write(text)
        is_refused(scene, "is put away")
        want("put away before" in forget(scene, DONE, run=f"{scene.run}/none"), "a second time")
        scene.run = f"{scene.run}/next"
        runs_anew(scene, text)
    finally:
        unmount(f"{scene.room}/volume")


def try_by_id(bench):
    """a crew that is given an id takes the folder with that id alone, and no mark counts"""
    for text in ("a chunk\nof a list\n", ""):
        scene = begun(bench)
        run = id_in(scene.run)
        put_mark(scene, text)
        is_refused(scene, "amo_worker: ", "--id", OTHER)
        is_refused(scene, "amo_worker: ", "--id", run, run=f"{scene.room}/none")
        os.rename(f"{scene.run}/id", f"{scene.room}/id")
        is_refused(scene, "amo_worker: ", "--id", run)
        os.rename(f"{scene.room}/id", f"{scene.run}/id")
        goes_on(scene, "--id", run)
        want(mark_of(scene) == text, f"the mark is {mark_of(scene)}")


def try_other_commands(bench):
    """status, doubts, answer and again refuse a folder that isn't the one of the list's mark"""
    scene = begun(bench)
    run, text = f"{scene.jobs}.run", f"{id_in(scene.run)}\n{scene.jobs}.run\n"
    os.rename(scene.run, run)
    put_mark(scene, text)
    line = performed(scene).index(1) + 1
    failed = ["1.1", str(line), f"{line} fail", "done"]
    for status, known in ((REFUSED, OTHER), (None, id_in(run))):
        with open(f"{run}/id", "w") as file:
            file.write(f"{known}\n")
        for what in ("status", "doubts", "again", "answer"):
            words = scene.words(what, scene.jobs, *(failed if what == "answer" else []))
            del words[words.index("--run"):words.index("--run") + 2]
            ran = subprocess.run(words, stdin=subprocess.DEVNULL, capture_output=True, timeout=300,
                                 env=scene.environment())
            want((ran.returncode == REFUSED) == (status == REFUSED), f"{what}: {ran}")


def is_put_away(scene: Scene, old: str, text: str, run: str | None = None) -> None:
    """Wants list, mark and folder of this run under their new names, whole."""
    away, name = f"{scene.jobs}.forgotten-{old}", os.path.basename(scene.jobs)
    want(folder.read(f"{away}/{name}").decode() == text, f"the list isn't in {away}")
    want(folder.read(f"{away}/{name}.run-is").decode().startswith(f"{old}\n"), f"no mark in {away}")
    run = run or f"{scene.run}.forgotten-{old}"
    want(id_in(run) == old and os.path.getsize(f"{run}/journal.1") > 1, f"it isn't in {run}")
    want(os.path.exists(f"{run}/forgotten"), "it isn't forgotten")
    want(not mark_of(scene), "the mark is there")


def runs_anew(scene: Scene, text: str) -> None:
    """Wants tonight's list to be run once by the same words."""
    with open(scene.jobs, "w") as file:
        file.write(text)
    before = performed(scene)
    crew(scene, FAILED)
    check(scene, [it + 1 for it in before], "tonight's list")


PARTS = {"identity": [
    try_two_folders, try_killed_making, try_new_runs_at_once, try_missing, try_other_marks,
    try_first_run, try_without_a_mark, try_own_folder, try_moved, try_copies, try_new_run,
    try_renamed, try_lists_that_are_none, try_two_lists, try_one_folder, try_read_only,
    try_journals, try_journals_alive, try_folder_renamed, try_mount_point, try_by_id,
    try_other_commands,
]}
