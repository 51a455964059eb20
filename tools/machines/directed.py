"""The duties of amo_share, each in a run that is made for it, over stores/folder."""

import os
import re
import shutil
import signal
import subprocess

from harness.bench import until, want
from machines.scene import (
    DONE, DOUBTFUL, FAILED, HERE, KILLED, LATER, LEFT, OVER, REFUSED, Scene
)
from machines.stores import store_of
from worker import folder
from worker.folder import read


def scene_of(bench, lines, size, machines, percent=0):
    return Scene(bench, store_of(bench, "folder", percent), lines, size, machines)


def try_shares(bench):
    """each machine asks for each chunk once, and one of them works it; a crew that is begun by hand
    in a chunk of another machine is refused, and a machine that comes again has nothing to do"""
    scene = scene_of(bench, 7, 3, 3)
    scene.see_out()
    scene.audit()
    want(len(scene.tales()) == 7, f"performed: {scene.tales()}")
    want(scene.store.answers()["requests"] == 9, f"requests: {scene.store.answers()}")
    rows = [it.status() for it in scene.machines]
    for number in scene.chunks():
        said = [lines[number - 1] for lines, _ in rows]
        want(sum("here, " in it for it in said) == 1 and sum(", not here;" in it for it in said) == 2, f"the status is {said}")
    want([status for _, status in rows] == [DONE] * 3, f"the statuses are {rows}")
    machine = next(it for it in scene.machines if it.marks(1)[0] != it.marks(1)[1])
    machine.person("crew", "--workers", "1", f"{machine.chunk(1)}/list", "--", "true", status=REFUSED)
    scene.see_out(scene.machines[:1])
    want(scene.store.answers()["requests"] == 9 and len(scene.tales()) == 7, "it was asked again")
    return f"{scene.store.answers()['requests']} requests"


def killed_at(bench, point):
    """Returns a machine that is killed before one of its calls, another that takes what is free,
    and the first again; and the calls."""
    scene = scene_of(bench, 2, 1, 2)
    first, second = scene.machines
    report = f"{scene.room}/report"
    first.start(before=[f"{HERE}/points.py", str(point), report])
    status = first.ends(KILLED if point else DONE)
    second.start().ends(*OVER)
    first.rests()
    scene.see_out()
    scene.audit()
    steps = read(report).decode().splitlines()
    unsynced = [it for it in steps if it.startswith("unsynced")]
    want(not unsynced, f"not on the disk before it is relied on: {unsynced}")
    want(status == KILLED or sum(" claim " in it for it in steps) == 2, f"it didn't ask twice: {steps}")
    bench.close()
    return steps


def try_killed_everywhere(bench):
    """killed before each call that changes its folder or starts a program, it does nothing twice,
    loses nothing, and all that a claim rests on is on the disk"""
    count = len(killed_at(bench, 0))
    points = range(1, count + 1)
    for point in points if bench.is_long else [k * count // 3 + bench.draws.randrange(count // 3) + 1 for k in range(3)]:
        if bench.has_time():
            killed_at(bench, point)
            bench.add("kills")
    return f"of {count} calls, {bench.told()}"


def waiting(bench, lines, size, machines, percent=0):
    """Returns a scene whose first machine's commands wait, and has begun one."""
    scene = scene_of(bench, lines, size, machines, percent)
    scene.say("waits")
    scene.machines[0].start()
    until(lambda: scene.tales("begun"), "a command has begun")
    return scene, scene.machines[0]


def try_second_amo_share(bench):
    """over one folder only one amo_share works"""
    scene, first = waiting(bench, 2, 2, 1)
    process, first.process = first.process, None
    first.start().ends(LATER)
    first.process = process
    scene.take_back("waits")
    scene.see_out()
    scene.audit()


def try_crew_lives_on(bench):
    """a crew whose amo_share was killed goes on, and the next amo_share waits for it"""
    scene, first = waiting(bench, 4, 2, 1)
    first.process.kill()
    first.ends(KILLED)
    first.start()
    until(lambda: "another crew, process" in first.tale(), "the next one finds the crew")
    scene.take_back("waits")
    first.ends(DONE)
    scene.audit()
    want(len(scene.tales()) == 4, f"performed: {scene.tales()}")


def try_other_size(bench):
    """another size of a chunk is refused by name, before anything is performed"""
    scene, first = waiting(bench, 6, 3, 2)
    second = scene.machines[1]
    second.size = 2
    second.start()
    until(lambda: second.process.poll() is not None or [it for it in scene.tales("begun") if it[1] == "m2"], "it is refused")
    scene.take_back("waits")
    first.ends(*OVER)
    status = second.ends()
    scene.audit()
    want(status == REFUSED and "has chunks of another size" in second.tale(), f"status {status}: {second.tale()[-300:]}")


def try_other_list(bench):
    """another list is refused by name, and so is one that was changed after it was shared"""
    scene = scene_of(bench, 4, 2, 2)
    first, second = scene.machines
    first.start().ends(DONE)
    second.jobs = f"{scene.room}/others"
    with open(second.jobs, "w") as file:
        file.write("pay 1\npay 5\n")
    second.start().ends(REFUSED)
    want("it is another list in the store" in second.tale(), f"it says {second.tale()}")
    with open(scene.jobs, "a") as file:
        file.write("pay 5\n")
    first.start().ends(REFUSED)
    want("a list that is shared is fixed" in first.tale(), f"it says {first.tale()}")
    want(len(scene.tales()) == 4, f"performed: {scene.tales()}")


def try_same_line_twice(bench):
    """no two chunks have one line; with equal lines no chunk is asked for"""
    scene = scene_of(bench, 4, 2, 1)
    with open(scene.jobs, "a") as file:
        file.write("pay 1\n")
    scene.machines[0].start().ends(REFUSED)
    want(not scene.store.answers()["requests"] and not scene.tales(), f"it was shared: {scene.tales()}")


def try_last_line(bench):
    """a list whose last line has no end is refused by amo_share, by that line, also later, and
    nothing is made or asked for"""
    scene = scene_of(bench, 4, 2, 1)
    machine, said = scene.machines[0], f"amo_share: list `{scene.jobs}`: line %d has no line feed at"
    with open(scene.jobs, "a") as file:
        file.write("pay 5")
    machine.start().ends(REFUSED)
    want(said % 5 in machine.tale() and not scene.store.answers()["requests"],
         f"it says {machine.tale()}")
    want(not os.path.exists(machine.run), f"it has made {machine.run}")
    with open(scene.jobs, "a") as file:
        file.write("\n")
    machine.start().ends(*OVER)
    with open(scene.jobs, "a") as file:
        file.write("pay 6")
    machine.start().ends(REFUSED)
    want(said % 6 in machine.tale(), f"it says {machine.tale()}")
    want(len(scene.tales()) == 5, f"performed: {scene.tales()}")


def make_old(machine) -> None:
    """Makes the folders of a machine those of amo 0.1.0."""
    os.unlink(f"{machine.run}/id")
    for name in folder.PARTS:
        os.unlink(f"{machine.run}/{name}")
    for number in machine.scene.chunks():
        if os.path.isdir(machine.chunk(number)):
            folder.make_old(machine.chunk(number))


def try_old_folders(bench):
    """folders of amo 0.1.0: status reads them and writes nothing,
    sharing refuses them by name and asks for nothing"""
    scene, first = waiting(bench, 4, 2, 1)
    first.kill_all()
    scene.take_back("waits")
    id_of_run = read(f"{first.run}/id")
    wanted = first.status()
    make_old(first)
    folders = [first.run, first.chunk(1)]
    before, count = [folder.listing(it) for it in folders], scene.store.answers()["requests"]
    found, looks = first.status(), 1  # (of the chunk that is free)
    want(found == wanted, f"the status is {found}, and was {wanted}")
    first.start().ends(REFUSED)
    want(f"`{first.run}`: it has no `id`, so amo 0.1.0 made it" in first.tale(),
         f"it says {first.tale()[-300:]}")
    want([folder.listing(it) for it in folders] == before, "something is written")
    for name, data in {**folder.PARTS, "id": id_of_run}.items():
        folder.put(f"{first.run}/{name}", data)
    first.start().ends(REFUSED)
    want(f"`{first.chunk(1)}`: it has no `id`, so amo 0.1.0 made it, or a file" in first.tale(),
         f"it says {first.tale()[-300:]}")
    want(folder.listing(first.chunk(1)) == before[1], "something is written in the chunk's folder")
    want(scene.store.answers()["requests"] == count + looks, "a chunk is asked for")


def try_run_of_a_chunk(bench):
    """each chunk is a run of its own, whose id its crews get; a journal that is missing is refused
    by name"""
    scene, first = waiting(bench, 4, 2, 1)
    want(len({read(f"{it}/id") for it in (first.run, first.chunk(1))}) == 2, "two runs have one id")
    first.kill_all()
    scene.take_back("waits")
    kept = read(f"{first.chunk(1)}/journal.2")
    os.unlink(f"{first.chunk(1)}/journal.2")
    first.start().ends(REFUSED)
    want("journal.2" in first.tale(), f"it says {first.tale()[-300:]}")
    folder.put(f"{first.chunk(1)}/journal.2", kept)
    scene.see_out()
    scene.audit()


def set_number(machine):
    """Has the mark of a machine's first chunk name the file that is there."""
    path = f"{machine.chunk(1)}/mark"
    number = str(os.stat(f"{machine.chunk(1)}/list").st_ino).encode()
    folder.put(path, re.sub(rb'"file": \d+', b'"file": ' + number, read(path)))


def try_copy(bench):
    """a folder that is a copy, or that wakes up on another machine, is refused without a person's
    word"""
    scene, first = waiting(bench, 3, 3, 2)
    first.kill_all()
    scene.take_back("waits")
    second = scene.machines[1]
    second.told_as = first.folder  # as all machines have one command
    shutil.copytree(first.run, second.run)
    statuses, has_generation = [], '"generation": -1' not in str(read(f"{first.chunk(1)}/mark"))
    for machine_id in ("m2", "m1", "m1")[:2 + has_generation]:
        second.set_id(machine_id)
        statuses.append(second.start().ends())
        set_number(second)  # as if its file had got the number of the lost one
    scene.see_out([first])
    twice = [it for it in scene.tales() if len([text for text, _ in scene.tales() if text == it[0]]) > 1]
    want(not twice, f"performed twice: {twice}")
    want(set(statuses) == {REFUSED} and "or is a copy or a backup" in second.tale(), f"{statuses}: {second.tale()[-300:]}")
    first.set_id("another")
    first.start().ends(REFUSED)
    first.start("--moved").ends(*OVER)
    first.start().ends(*OVER)
    shutil.rmtree(second.run)
    scene.audit()


def try_lost_folder(bench):
    """the chunk of a folder that was lost in the middle is worked by nobody, and that is
    reported"""
    scene = scene_of(bench, 6, 3, 2)
    first, second = scene.machines
    first.start()
    until(lambda: scene.tales(), "a line is performed")
    scene.lose(first, 1)
    first.start().ends(*OVER)
    second.start().ends(*OVER)
    scene.audit()
    for machine in scene.machines:
        lines, _ = machine.status()
        want(", not here; if that machine is lost for good" in lines[0], f"the status is {lines}")


def try_answer_lost(bench):
    """a chunk whose claim was answered, and the answer lost, is worked by whose it is"""
    scene = scene_of(bench, 4, 2, 2, "first")
    scene.see_out()
    scene.audit()
    want(len(scene.tales()) == 4, f"performed: {scene.tales()}")


def try_stopped_in_order(bench):
    """TERM is handed to the crew, whose commands end, and no further chunk is begun"""
    scene, first = waiting(bench, 2, 1, 1)
    first.process.send_signal(signal.SIGTERM)
    until(lambda: "no further job is started" in first.tale(), "the crew hears of it")
    scene.take_back("waits")
    want(first.ends() in (LEFT, DONE) and len(scene.tales()) == 1, f"{first.statuses}: {scene.tales()}")
    lines, status = first.status()
    want("free" in lines[1] and status == LATER, f"the status is {lines}, {status}")
    scene.see_out()
    scene.audit()
    want(len(scene.tales()) == 2, f"performed: {scene.tales()}")


def try_failures(bench):
    """if commands fail in a row no further chunk is taken, and failed lines are reported"""
    scene = scene_of(bench, 6, 3, 1)
    scene.say("fails")
    first = scene.machines[0]
    first.start("--crew=--halt 2 --linger 0.2").ends(LEFT)
    want("free" in first.status()[0][1], f"the status is {first.status()}")
    scene.take_back("fails")
    first.start().ends(FAILED)
    lines, status = first.status()
    want("failed" in lines[0] and status == FAILED, f"the status is {lines}, {status}")


def try_doubt(bench):
    """a doubt is reported, with its place, and the next amo_share works a line that a person opens
    again"""
    scene, first = waiting(bench, 2, 2, 1)
    first.kill_all()
    scene.take_back("waits")
    first.start().ends(DOUBTFUL)
    lines, status = first.status()
    want("amo_jobs doubts --run" in lines[0] and status == DOUBTFUL, f"the status is {lines}, {status}")
    found = re.findall(r"^# (\d+\.\d+), line (\d+): (.*)$", first.person("doubts"), re.M)
    want(found, "there is no doubt")
    for name, line, text in found:
        first.person("answer", "--now", "--", name, line, text, "not-done")
    first.start().ends(DONE)
    scene.audit()
    want(len(scene.tales()) == 2, f"performed: {scene.tales()}")
    return f"{len(found)} answered"


def try_no_store(bench):
    """a store that doesn't answer is waited for, also while a stop is asked for, and nothing is
    performed meanwhile"""
    scene = scene_of(bench, 2, 2, 1)
    first, claims = scene.machines[0], scene.store.environment["AMO_CLAIMS"]
    os.rename(claims, f"{claims}.away")
    first.start()
    until(lambda: "is asked again" in first.tale(), "it waits")
    first.process.send_signal(signal.SIGTERM)
    first.ends(LEFT)
    want(not scene.tales("begun") and first.status()[1] == LATER, f"begun: {scene.tales('begun')}")
    first.start()
    until(lambda: first.tale().count("is asked again") > 1, "it waits")
    os.rename(f"{claims}.away", claims)
    first.ends(DONE)
    scene.audit()


def try_claim_programs(bench, kind="folder"):
    """of many that claim at once one has it, all learn which, and again later; a free chunk has no
    owner"""
    store = store_of(bench, kind)
    environment = {"PATH": os.environ["PATH"], **store.straight()}
    for chunk in range(1, 4):
        want(store.ask("look", "list", str(chunk)) == "", "a free chunk has an owner")
        words = [f"{os.path.dirname(bench.program)}/stores/{kind}", "claim", "list", str(chunk)]
        asking = [subprocess.Popen([*words, f"mark.{number}", str(number) * 64], stdout=subprocess.PIPE, env=environment)
                  for number in range(8)]
        said = {it.communicate()[0].decode() for it in asking}
        want(len(said) == 1 and said.pop() == store.ask("look", "list", str(chunk)), f"they are told {said}")
        late = store.ask("claim", "list", str(chunk), "late", "0" * 64)
        want(late == store.ask("look", "list", str(chunk)), "it changes hands")
    want(store.ask("look", "list") is None and store.ask("claim", "list", "1") is None, "too few words are taken")
    return kind


PARTS = {"folder": [
    try_shares, try_killed_everywhere, try_claim_programs, try_second_amo_share, try_crew_lives_on, try_other_size,
    try_other_list, try_same_line_twice, try_last_line, try_old_folders, try_run_of_a_chunk,
    try_copy, try_lost_folder, try_answer_lost, try_stopped_in_order, try_failures,
    try_no_store, try_doubt,
]}
