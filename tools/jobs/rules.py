"""The rules against which each control is a mistake, each in a run that is made for it."""

import os
import signal

from harness.bench import until
from jobs.scene import DONE, DOUBTFUL, LATER, LEFT, want


def orphan(bench, kind="waits"):
    """Returns a run whose supervisor and runner were killed after a command had begun, which waits
    before it does anything; and that command's process."""
    scene = bench.scene([kind, "quick", "quick"])
    crew = scene.start()
    until(lambda: scene.tales(1), "the command has begun")
    scene.kill_crew(crew)
    return scene, int(scene.tales(1)[0][2])


def go_on(scene, command):
    """Has a command that waits go on to its end."""
    scene.let("go", "over")
    until(lambda: not os.path.exists(f"/proc/{command}"), "the command ends")


def look_on(scene):
    """Starts a crew, which has to end while the command of line 1 waits; its status."""
    return scene.start().wait(240)


def try_orphan(bench):
    """a command whose runner was killed is running, for the next runner and for who asks, until
    nothing of it is left"""
    scene, command = orphan(bench)
    scene.person()
    status = look_on(scene)
    scene.person()
    counts = scene.counts(status=None)
    go_on(scene, command)
    scene.see_out()
    scene.audit()
    want(status == DOUBTFUL and counts["running"] == 1, f"it was no longer running: {counts}, status {status}")
    want(scene.listed, "its end, which nobody saw, is no doubt")


def try_words_lost(bench):
    """if the words are lost a new round is begun, and no running command is a part of it"""
    scene, command = orphan(bench)
    os.unlink(f"{scene.run}/words")
    look_on(scene)
    go_on(scene, command)
    scene.see_out()
    scene.audit()


def try_running_is_not_answered(bench):
    """a person who is too quick is refused"""
    scene, command = orphan(bench)
    scene.call("answer", "--now", "1.1", "1", "1 waits", "not-done", status=None)
    look_on(scene)
    go_on(scene, command)
    scene.see_out()
    scene.audit()


def try_two_persons(bench):
    """of two who saw one doubt the later one answers nothing that came after it"""
    scene, command = orphan(bench, "waits_stays")
    os.kill(command, signal.SIGKILL)
    until(lambda: "1.1, line 1" in scene.call("doubts"), "it is listed")
    scene.call("answer", "--now", "1.1", "1", "1 waits_stays", "not-done")
    crew = scene.start()
    until(lambda: [it for it in scene.tales(1) if it[0] == "did"], "it is performed once more")
    scene.kill_crew(crew)
    scene.let("go", "over")
    until(lambda: "1.2, line 1" in scene.call("doubts"), "it is listed once more")
    scene.call("answer", "--now", "1.1", "1", "1 waits_stays", "not-done", status=None)
    scene.see_out()
    scene.audit()


def try_late_line(bench):
    """a line of a worker that is dead by the time it is read is dropped, and was certainly not
    begun"""
    scene = bench.scene(["slow"] * 6)
    scene.see_out(scene.start(plan="2:~runner+worker"))
    scene.audit()
    want(not scene.listed, f"it is listed as a doubt: {scene.listed}")


def try_two_crews(bench):
    """while a runner is stopped nobody else is the runner of its worker, so that no end that it saw
    is lost; a second crew is refused, and one after the supervisor's death waits for the number"""
    scene = bench.scene(["quick", "quick"])
    scene.let("held")
    crew = scene.start(plan="5:~runner+worker")
    until(lambda: os.path.exists(f"{scene.room}/befallen"), "the runner stands still")
    scene.ends(scene.start(), LATER)
    crew.kill()
    crew.wait()
    second = scene.start()
    until(lambda: second.poll() is not None or "the runner of an earlier crew" in scene.tale(),
          "the second crew waits for the number")
    os.unlink(f"{scene.room}/held")
    status = second.wait(240)
    want(status in (DONE, DOUBTFUL), f"{status}: {scene.tale()[-300:]}")
    scene.see_out()
    scene.audit()
    want(not scene.listed and " is in doubt" not in scene.tale(), f"an end that was seen is a doubt: {scene.tale()[-300:]}")


def try_left_behind(bench):
    """a process that a shell leaves running with & has the lock, and its line is neither done nor a
    doubt before that ends"""
    scene = bench.scene(["waits_amp", "quick"])
    crew = scene.start()
    until(lambda: crew.poll() is not None or scene.tales(2), "its worker has gone on")
    scene.kill_crew(crew)
    for it in scene.look().intents.values():
        is_true = it.line != 1 or it.answer != "done"
        want(is_true, f"line 1 counts as done by {it.name()}, which did nothing yet")
    scene.person()
    look_on(scene)
    scene.person()
    scene.let("go")
    scene.see_out()
    scene.audit()


def try_closed(bench):
    """what closes all descriptors but the standard ones, as sudo does, has the lock"""
    scene = bench.scene(["closes", "quick"])
    crew = scene.start()
    until(lambda: os.path.exists(f"{scene.room}/closed"), "the command has closed them")
    scene.kill_crew(crew)
    scene.person()
    look_on(scene)
    scene.person()
    scene.let("go")
    scene.see_out()
    scene.audit()


def try_kept(bench):
    """an end that a runner saw goes to the next worker, if the one before died with the answer"""
    for moment in (5, 6):
        scene = bench.scene(["slow", "quick"])
        scene.see_out(scene.start(plan=f"{moment}:worker"))
        scene.audit()
        is_kept = not scene.listed and "in doubt, since its runner" not in scene.tale()
        want(is_kept, f"an end that was seen is a doubt: {scene.tale()[-300:]}")


def try_noted_after_all(bench):
    """a runner whose worker died with an answer ends only once a next one has noted it, though a
    stop was asked for"""
    scene = bench.scene(["waits", "quick"])
    crew = scene.start(plan="5:worker")
    until(lambda: scene.tales(1), "the command has begun")
    crew.send_signal(signal.SIGTERM)
    until(lambda: "no further job" in scene.tale(), "the crew stops")
    scene.let("go")
    want(crew.wait(240) in (LEFT, DOUBTFUL), f"status {crew.poll()}")
    scene.see_out()
    scene.audit()
    want(not scene.listed, f"an end that was seen is a doubt: {scene.listed}")


PARTS = {"rules": [
    try_orphan, try_words_lost, try_running_is_not_answered, try_two_persons, try_late_line, try_two_crews, try_left_behind,
    try_closed, try_kept, try_noted_after_all,
]}
