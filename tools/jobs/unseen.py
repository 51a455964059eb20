"""Processes that a command leaves running and that hold none of its descriptors. The runner sees
them, the supervisor sees them once that runner is killed, and nobody does if both are."""

import os
import re
import shutil
import signal
import subprocess
from typing import Tuple

from harness.bench import until
from jobs.scene import DONE, DOUBTFUL, LATER, Scene, want

JAVA = """public class Pay {
    public static void main(String[] words) throws Exception {
        new ProcessBuilder("sh", "-c", words[0]).start().waitFor();
    }
}
"""


def fed(bench, kind="fed", **how) -> Tuple[Scene, object, int, int]:
    """Returns a crew whose first command feeds a helper and waits for it. Returns the run, the
    crew, and the processes of command and helper."""
    scene = bench.scene([kind, "quick"], **how)
    if kind == "java":
        with open(f"{scene.room}/Pay.java", "w") as file:
            file.write(JAVA)
    crew = scene.start()
    until(lambda: os.path.exists(f"{scene.room}/helper"), "the helper runs")
    with open(f"{scene.room}/helper") as file:
        helper = int(file.read())
    return scene, crew, int(scene.tales(1)[0][2]), helper


def runner_of(scene: Scene, worker: int = 1) -> int:
    """Returns the process that has signed the lock of this number."""
    with open(f"{scene.run}/runner.{worker}") as file:
        return int(file.read())


def is_not_listed(scene: Scene, helper: int) -> None:
    """Wants the line to be running: nobody lists it, no answer is taken, and the helper is
    named."""
    scene.person()
    want(not scene.listed, f"it is listed while process {helper} runs: {scene.listed}")
    scene.call("answer", "--now", "1.1", "1", f"1 {scene.kinds[0]}", "not-done", status=LATER)
    told = scene.call("status", status=DOUBTFUL)
    want(re.search(rf"^running 1\.1, line 1: .* -- .*process {helper} \(", told, re.M), told)


def try_fed(bench):
    """a command that feeds a helper is killed: the line is running until the helper ends, also if
    the crew would end before"""
    kinds = ["fed", "java"] if shutil.which("java") else ["fed"]
    if len(kinds) < 2:
        bench.skipped.append("children of Java, since it isn't there")
    for kind in kinds:
        scene, crew, command, helper = fed(bench, kind)
        os.kill(command, signal.SIGKILL)
        until(lambda: crew.poll() is not None or scene.tales(2), "it goes on with the next line")
        scene.person()
        until(lambda: crew.poll() is not None or f"its runner waits for process {helper} " in
              scene.tale(), "the runner waits for the helper")
        crew.send_signal(signal.SIGTERM)
        until(lambda: crew.poll() is not None or "it got SIGTERM" in scene.tale(), "it is stopped")
        scene.person()
        is_alive = crew.poll() is None
        if is_alive and not scene.listed:
            is_not_listed(scene, helper)
        scene.let("go")
        crew.wait(240)
        until(lambda: not os.path.exists(f"/proc/{helper}"), "the helper ends")
        scene.see_out()
        scene.audit()
        want(is_alive, "the crew ended while the helper ran")


def try_fed_gets_term(bench):
    """two signals to a crew that waits for a helper hand TERM on to it"""
    scene, crew, command, helper = fed(bench)
    os.kill(command, signal.SIGKILL)
    until(lambda: f"its runner waits for process {helper} " in scene.tale(), "the runner waits")
    crew.send_signal(signal.SIGINT)
    until(lambda: "it got SIGINT" in scene.tale(), "the first one is told")
    want(os.path.exists(f"/proc/{helper}"), "the first signal ended the helper")
    crew.send_signal(signal.SIGINT)
    scene.ends(crew, DOUBTFUL)
    want(not os.path.exists(f"/proc/{helper}"), "the helper lives")
    scene.let("go")
    scene.see_out()
    scene.audit()


def try_runner_killed(bench):
    """a helper outlives its command and its runner: the supervisor starts no other runner, and
    nobody lists the line, until the helper ends"""
    scene, crew, command, helper = fed(bench)
    os.kill(runner_of(scene), signal.SIGKILL)
    os.kill(command, signal.SIGKILL)
    until(lambda: "its runner was ended by SIGKILL" in scene.tale() or crew.poll() is not None,
          "the supervisor takes the end of its runner")
    scene.person()
    if not scene.listed:
        is_not_listed(scene, helper)
        want(not list(scene.runners()), "another runner was started")
    scene.let("go")
    until(lambda: not os.path.exists(f"/proc/{helper}"), "the helper ends")
    crew.wait(240)
    scene.see_out()
    scene.audit()
    want(scene.listed, "its end, which nobody saw, is no doubt")


def try_crew_stopped_then(bench):
    """the same if the crew is stopped meanwhile: the supervisor waits for the helper"""
    scene, crew, command, helper = fed(bench)
    os.kill(runner_of(scene), signal.SIGKILL)
    os.kill(command, signal.SIGKILL)
    until(lambda: "its runner was ended by SIGKILL" in scene.tale(), "the runner's end is told")
    crew.send_signal(signal.SIGTERM)
    until(lambda: "it got SIGTERM" in scene.tale(), "the crew stops")
    is_not_listed(scene, helper)
    want(crew.poll() is None, "the crew ended while the helper ran")
    scene.let("go")
    crew.wait(240)
    scene.see_out()
    scene.audit()


def try_both_killed(bench):
    """runner and supervisor are killed: what holds a descriptor is seen; a helper that has none is
    not, and its line is listed, as the page says"""
    scene = bench.scene(["waits_amp"])
    crew = scene.start()
    until(lambda: "something that it started still runs" in scene.tale(), "something is left")
    scene.kill_crew(crew)
    scene.person()
    want(not scene.listed, f"it is listed while its child runs: {scene.listed}")
    scene.let("go")
    scene.see_out()
    scene.audit()
    scene, crew, command, helper = fed(bench)
    scene.kill_crew(crew)
    os.kill(command, signal.SIGKILL)
    until(lambda: scene.call("doubts").startswith("# 1.1, line 1: "), "it is listed")
    want(os.path.exists(f"/proc/{helper}"), "the helper has ended before")


def try_daemon(bench):
    """a daemon that closes all descriptors and stays keeps its line running and its crew waiting;
    --may-leave names its program, and then the line is done at once"""
    for options in ([], ["--may-leave", "gpg-agent,agent"]):
        scene = bench.scene(["agent", "quick"], 1, ["--linger", "0.1", *options])
        shutil.copy(shutil.which("sleep"), f"{scene.room}/agent")
        crew = scene.start()
        until(lambda: os.path.exists(f"{scene.room}/helper"), "the daemon runs")
        with open(f"{scene.room}/helper") as file:
            agent = int(file.read())
        if not options:
            until(lambda: f"its runner waits for process {agent} (agent 1000)" in scene.tale(),
                  "the runner waits for the daemon")
            is_not_listed(scene, agent)
        else:
            scene.ends(crew, DONE)
            want(os.path.exists(f"/proc/{agent}"), "the daemon has ended")
        os.kill(agent, signal.SIGKILL)
        scene.ends(crew, DONE)
        scene.audit()
        want(not scene.listed, f"it is listed as a doubt: {scene.listed}")


def try_sudo(bench):
    """what sudo starts, which closes all descriptors but the standard ones, is running while its
    crew is killed, and isn't listed"""
    tried = ["sh", "-c", "command -v sudo && sudo -n true"]
    if subprocess.run(tried, stdout=subprocess.DEVNULL, stderr=subprocess.DEVNULL).returncode:
        bench.skipped.append("sudo, since it isn't installed, or asks for a password")
        return
    scene = bench.scene(["sudo", "quick"])
    crew = scene.start()
    until(lambda: scene.tales(1), "the command has begun")
    scene.kill_crew(crew)
    scene.person()
    is_listed = bool(scene.listed)
    scene.let("go")
    scene.see_out()
    scene.audit()
    want(not is_listed, "it is listed while sudo runs")


def try_forked_twice(bench):
    """a process that forked twice into a session of its own and closed its descriptors is seen"""
    scene = bench.scene(["forked", "quick"])
    crew = scene.start()
    until(lambda: os.path.exists(f"{scene.room}/helper"), "the process runs")
    with open(f"{scene.room}/helper") as file:
        helper = int(file.read())
    until(lambda: f"its runner waits for process {helper} " in scene.tale(), "the runner waits")
    is_not_listed(scene, helper)
    scene.let("go")
    scene.ends(crew, DONE)
    scene.audit()
    want(not scene.listed, f"it is listed as a doubt: {scene.listed}")


PARTS = {"unseen": [
    try_fed, try_fed_gets_term, try_runner_killed, try_crew_stopped_then, try_both_killed,
    try_daemon, try_sudo, try_forked_twice,
]}
