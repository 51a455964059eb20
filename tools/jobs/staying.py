"""Workers that wait after `over` for the next round, and their runners: a stop, a kill, the end of
the run, and what a command has left behind."""

import os
import re
import signal
from typing import List

from harness.bench import until
from jobs.scene import DONE, DOUBTFUL, LEFT, Scene, want
from worker import folder

RELAYED = "0:runner"  # a plan by which nothing befalls anybody, and all is noted


def overs(scene: Scene, worker: int) -> List[str]:
    """Returns the replies to this worker, one for each time that it waited for the next round."""
    noted = folder.read(f"{scene.room}/overs").decode().splitlines()
    return [it.split(" ")[1] for it in noted if it.startswith(f"{worker}.over ")]


def lives(scene: Scene, worker: int) -> int:
    """Returns how many processes this worker has had."""
    noted = folder.read(f"{scene.room}/lives").decode().splitlines()
    return noted.count(str(worker))


def one_waits(bench, kinds: list):
    """Returns a crew of two, of which one has a command that waits, and the other one nothing to
    do: it waits for the next round. Returns the run, the crew, and the number of the one that
    waits."""
    scene = bench.scene(kinds, 2)
    crew = scene.start(plan=RELAYED)
    until(lambda: any(overs(scene, p) for p in (1, 2)), "a worker waits for the next round")
    until(lambda: scene.tales(1), "the command has begun")
    busy = int(scene.tales(1)[0][1].split(".")[0])
    until(lambda: len(overs(scene, 3 - busy)) > 1, "the other one waits more than once")
    return scene, crew, 3 - busy


def try_stays(bench):
    """a crew of one has one process for all rounds, and ends once all is done"""
    scene = bench.scene(["quick"] * 5)
    scene.ends(scene.start(plan=RELAYED), DONE)
    scene.audit()
    want(lives(scene, 1) == 1, f"its worker has had {lives(scene, 1)} processes")
    want(overs(scene, 1) == ["go"], f"it was answered {overs(scene, 1)}")


def try_stop(bench):
    """a stop while a worker waits for the next round: it is asked to leave at once, while a command
    of another one goes on to its end"""
    scene, crew, idle = one_waits(bench, ["waits", *["quick"] * 7])
    crew.send_signal(signal.SIGTERM)
    until(lambda: overs(scene, idle)[-1] == "leave" or crew.poll() is not None,
          "the worker that waits is told to leave", 20)
    want(crew.poll() is None, f"the crew ends before its command: {scene.tale()[-300:]}")
    scene.let("go")
    scene.ends(crew, LEFT if scene.counts()["open"] else DONE)
    want(overs(scene, idle)[-1] == "leave", f"after the stop: {overs(scene, idle)[-3:]}")
    scene.see_out()
    scene.audit()
    want(not scene.listed, f"it is listed as a doubt: {scene.listed}")


def try_killed(bench):
    """a worker is killed while it waits for the next round: its runner starts another one, and
    nothing is in doubt"""
    scene, crew, idle = one_waits(bench, ["waits", *["quick"] * 7])
    before = lives(scene, idle)
    word = f"{idle}"
    for process in scene.worker_processes():
        words = folder.read(f"/proc/{process}/cmdline").split(b"\0")
        if words[words.index(b"work") + 2] == word.encode() and bench.worker.encode() in words:
            os.kill(process, signal.SIGKILL)
    until(lambda: lives(scene, idle) > before, "another worker is started")
    scene.let("go")
    scene.ends(crew, DONE)
    scene.audit()
    want(not scene.listed, f"it is listed as a doubt: {scene.listed}")


def try_crew_killed(bench):
    """a crew is killed while a worker waits for the next round: the next crew goes on"""
    scene, crew, _ = one_waits(bench, ["waits", *["quick"] * 7])
    scene.kill_crew(crew)
    scene.let("go")
    scene.see_out()
    scene.audit()


def try_supervisor_killed(bench):
    """a supervisor is killed while a worker waits and a command runs: its runners end in order, the
    end of the command is recorded, and nothing is in doubt"""
    scene, crew, _ = one_waits(bench, ["waits", *["quick"] * 7])
    crew.kill()
    crew.wait()
    scene.let("go")
    until(lambda: not list(scene.runners()), "the runners end")
    want(1 in [it.line for it in scene.look().intents.values() if it.answer == "done"],
         "the end isn't recorded")
    scene.see_out()
    scene.audit()
    want(not scene.listed, f"it is listed as a doubt: {scene.listed}")


def try_runner_killed(bench):
    """a runner is killed while its worker waits for the next round: the supervisor starts another
    one, and nothing is in doubt"""
    scene, crew, idle = one_waits(bench, ["waits", *["quick"] * 7])
    before = lives(scene, idle)
    with open(f"{scene.run}/runner.{idle}") as file:
        os.kill(int(file.read()), signal.SIGKILL)
    until(lambda: lives(scene, idle) > before, "another runner is started")
    scene.let("go")
    scene.ends(crew, DONE)
    scene.audit()
    want(not scene.listed, f"it is listed as a doubt: {scene.listed}")


PARTS = {"staying": [
    try_stays, try_stop, try_killed, try_crew_killed, try_supervisor_killed, try_runner_killed,
]}
