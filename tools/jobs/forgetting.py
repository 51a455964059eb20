"""A run is put away by amo_jobs forget: what is refused, what is left, and each step cut off."""

import fcntl
import os
import re

from jobs.identity import (
    Begun, begun, check, crew, forget, goes_on, id_in, is_put_away, is_refused, mark_of, performed,
    runs_anew, steps_of, waiting, WAITS, within, words_of,
)
from harness.bench import until
from jobs.scene import DONE, KILLED, LATER, READ, REFUSED, Scene, want
from worker import folder


def try_forget(bench):
    """a run that is over is put away whole, once; then the same words begin a new run"""
    scene = begun(bench, is_over=True)
    with open(scene.jobs) as file:
        old, text = id_in(scene.run), file.read()
    told = forget(scene, DONE)
    is_put_away(scene, old, text)
    want(not os.path.lexists(scene.jobs) and not os.path.lexists(scene.run), "names are left")
    for path in (f"{scene.jobs}.forgotten-{old}/jobs", f"{scene.run}.forgotten-{old}"):
        want(path in told, f"{path} isn't told: {told}")
    want("put away before" in forget(scene, DONE), "a second time")
    before = performed(scene)
    told = crew(scene, READ)
    runs_anew(scene, text)
    is_refused(scene, "has another id", run=f"{scene.run}.forgotten-{old}")
    os.unlink(f"{scene.jobs}.run-is")
    is_refused(scene, "is put away", run=f"{scene.run}.forgotten-{old}")
    check(scene, [it + 1 for it in before], "forgotten folders aren't taken")


def try_forget_refuses(bench):
    """a run with open lines, a living crew or another list is put away only with --force"""
    scene = begun(bench)
    with open(scene.jobs) as file:
        old, text = id_in(scene.run), file.read()
    told = forget(scene, REFUSED)
    want("open: 2" in told and "--force" in told, told)
    goes_on(scene)
    scene.grow(["fail"])
    want("open: 1" in forget(scene, REFUSED), "a line that came since")
    with open(scene.jobs, "w") as file:
        file.write("another list\n")
    want("isn't the list that was run" in forget(scene, REFUSED), "another list")
    os.unlink(scene.jobs)
    want("it is missing. If it was renamed" in forget(scene, REFUSED), "a missing list")
    with open(scene.jobs, "w") as file:
        file.write(text)
    for name in bench.sample(["journal.1", "lock.round", "runner.16"], 1):
        file = os.open(f"{scene.run}/{name}", os.O_RDONLY | os.O_CREAT, 0o600)
        fcntl.flock(file, fcntl.LOCK_SH if name == "lock.round" else fcntl.LOCK_EX)
        told = forget(scene, LATER)
        os.close(file)
        want(f"{name}` is locked" in told, told)
    want(not os.path.exists(f"{scene.run}/forgotten"), "a refused call left something")
    before = performed(scene)
    os.rename(f"{scene.run}/journal.9", f"{scene.room}/journal.9")
    want("journal.9` is missing" in forget(scene, REFUSED), "a missing journal")
    forget(scene, DONE, "--force")
    is_put_away(scene, old, text)
    check(scene, before)
    want(not os.path.exists(f"{scene.run}.forgotten-{old}/journal.9"), "it was made")


def try_forget_doubts(bench):
    """a run with a line that is running or in doubt is put away only with --force"""
    scene, crew_alive = waiting(bench)
    want("is locked" in forget(scene, LATER), "a crew lives")
    scene.kill_crew(crew_alive.process)
    until(lambda: not scene.worker_processes(), "the worker ends")
    told = forget(scene, REFUSED)
    want("open: 2, running or in doubt: 1" in told, told)
    open(f"{scene.room}/go", "w").close()
    until(lambda: not list(scene.processes(WAITS)), "the command ends")
    told = forget(scene, REFUSED)
    want("open: 2, running or in doubt: 1" in told, told)
    before, run = performed(scene), f"{scene.run}.forgotten-{id_in(scene.run)}"
    forget(scene, DONE, "--force")
    crew(scene, READ)
    scene.run = run
    name, line, text = re.findall(r"^# (\d+\.\d+), line (\d+): (.*)$", scene.call("doubts"), re.M)[0]
    told = scene.call("answer", "--now", "--", name, line, text, "not-done")
    want("is open, and no crew takes it, since its run is put away;" in told, told)
    check(scene, before)


def try_forget_mounted(bench):
    """a folder that can't be renamed stays in its place, and no crew takes it"""
    scene = begun(bench, is_over=True)
    with open(scene.jobs) as file:
        old, text = id_in(scene.run), file.read()
    path = f"{scene.room}/steps"
    twin = begun(bench, is_over=True)
    steps = steps_of(twin, words_of(twin, "forget"), DONE)
    number = steps.index(f"rename {twin.run}") + 1
    told = forget(scene, DONE, AMO_STEP=f"{number}:16", AMO_STEPS=path)
    is_put_away(scene, old, text, scene.run)
    want(f"folder: {scene.run}\n" in told, told)
    with open(scene.jobs, "w") as file:
        file.write(text)
    is_refused(scene, "is put away")
    before, scene.run = performed(scene), f"{scene.room}/next"
    runs_anew(scene, text)
    check(scene, [it + 1 for it in before])


def try_forget_killed(bench):
    """`forget` is killed before each of its calls, and goes on; tonight's list stays"""
    scene = begun(bench, is_over=True)
    steps = steps_of(scene, words_of(scene, "forget"), DONE)
    changes = [number for number, it in enumerate(steps, 1)
               if re.match("rename|replace|mkdir|fsync|run|open .*new$", it)]
    renames = [it for it in changes if steps[it - 1].startswith("rename")]
    chosen = sorted({*bench.sample(changes, 4), *renames, changes[-1]}, reverse=True)
    for number in within(bench, chosen):
        forget_killed(begun(bench, is_over=True), number, steps[number - 1])
    return f"{len(chosen)} of {len(steps)} steps"


def forget_killed(scene: Scene, number: int, step: str) -> None:
    """Kills `forget` before this call, and wants no crew to perform a line until it has gone on."""
    with open(scene.jobs) as file:
        old, text, before = id_in(scene.run), file.read(), performed(scene)
    Begun(words_of(scene, "forget"), scene, AMO_STEP=f"{number}:kill").end(KILLED)
    told = Begun(words_of(scene, "crew"), scene).end()
    check(scene, before, f"killed before {step}: {told}")
    is_gone = not os.path.lexists(scene.jobs)
    if is_gone:  # the old list is put away; tonight's has the same lines
        with open(scene.jobs, "w") as file:
            file.write(text)
        if mark_of(scene):
            is_refused(scene, "forget")
    again = forget(scene, DONE)
    is_put_away(scene, old, text)
    want(os.path.lexists(scene.jobs) == is_gone, f"killed before {step}: tonight's list: {again}")
    runs_anew(scene, text)


PARTS = {"identity": [
    try_forget_killed, try_forget_refuses, try_forget, try_forget_doubts, try_forget_mounted,
]}
