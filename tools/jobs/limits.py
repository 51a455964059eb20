"""Limits on open files, on processes and on memory, which are set for a runner or for its
supervisor while commands run. No line is performed twice. A line that isn't done is open or in
doubt, and the next crew, which has no limit, finishes the list."""

from __future__ import annotations

import os
import re
import resource
import shutil
import signal
import subprocess
import sys
from typing import Callable, NamedTuple

from harness.bench import until
from jobs.scene import BUILD, DONE, DOUBTFUL, LEFT, READ, WRITE, Bench, Scene, want
from jobs.spoiled import audit_lines, begun_by, status_of
from jobs.unseen import fed, is_not_listed, runner_of

LINES = 10
FEW = 8  # files: no further one can be opened, and poll(2) takes those that are polled
WHO = ("runner", "supervisor")
OUT_OF_MEMORY = 71
# The statuses of a crew that met a limit.
STOPPED = (DOUBTFUL, LEFT, OUT_OF_MEMORY, WRITE, READ, BUILD)
TRIES = "It goes on trying"
# A user that has no other process. It may read all files, as root may.
USER = 54_000 + os.getpid() % 1000
AS_USER = ["setpriv", f"--reuid={USER}", f"--regid={USER}", "--clear-groups",
           "--inh-caps=+dac_override", "--ambient-caps=+dac_override"]


def size_of(process: int) -> int:
    """Returns the bytes of a process's address space."""
    with open(f"/proc/{process}/statm", encoding="ascii") as file:
        return int(file.read().split()[0]) * resource.getpagesize()


class Limit(NamedTuple):
    """A limit, by which a process gets no more than it has, and what the crew prints then."""
    number: int
    most: Callable[[int], int]
    says: str


FILES = Limit(resource.RLIMIT_NOFILE, lambda _: FEW, "too many open files")
PROCESSES = Limit(resource.RLIMIT_NPROC, lambda _: 1, "resource temporarily unavailable")
MEMORY = Limit(resource.RLIMIT_AS, size_of, "cannot allocate memory|MemoryError")


class OtherUser(Scene):
    """A run of a user that isn't root, since root may have any number of processes."""

    def __init__(self, bench: Bench, kinds: list, workers: int):
        super().__init__(bench, kinds, workers)
        bench.scenes.append(self)
        for path in (self.room, self.effects, self.jobs, self.boot):
            os.chown(path, USER, USER)

    def words(self, command, *words, plan=None):
        return [*AS_USER, *super().words(command, *words, plan=plan)]


def scene_of(bench: Bench, limit: Limit) -> Scene | None:
    """Returns a run for this limit, or None if the limit can't hold here, which it notes."""
    kinds = ["gated"] * LINES
    if limit is not PROCESSES or os.getuid() != 0:
        return bench.scene(kinds, 2)
    if not shutil.which("setpriv"):
        bench.skipped.append("a limit on processes, since setpriv isn't there")
        return None
    return OtherUser(bench, kinds, 2)


def set_limit(scene: Scene, process: int, limit: Limit, is_lifted: bool = False) -> None:
    """Sets a limit of a process that runs, or lifts it again, as its user."""
    prefix = AS_USER if isinstance(scene, OtherUser) else []
    most = "hard" if is_lifted else str(limit.most(process))
    code = (f"import resource; hard = resource.prlimit({process}, {limit.number})[1];"
            f" resource.prlimit({process}, {limit.number}, ({most}, hard))")
    subprocess.run([*prefix, sys.executable, "-c", code], check=True)


def try_limit(bench: Bench, limit: Limit) -> None:
    """Sets a limit twice. A runner with it can't start a command, unless the limit is on memory. A
    supervisor with it, whose runner is killed, can't start another one."""
    for who in WHO:
        scene = scene_of(bench, limit)
        if scene is None:
            return
        crew = scene.start()
        for worker in (1, 2):
            begun_by(scene, f"{worker}.1")
        set_limit(scene, runner_of(scene) if who == "runner" else crew.pid, limit)
        if who == "supervisor":
            os.kill(runner_of(scene), signal.SIGKILL)
        scene.let(*(f"go.{line}" for line in range(1, LINES + 1)))
        if limit is MEMORY and who == "runner":
            stop_trying(scene, crew)
        see_limited(scene, who, limit, status_of(crew))
        scene.see_out()
        scene.audit()


def stop_trying(scene: Scene, crew: subprocess.Popen) -> None:
    """Waits for the end of a crew. If a worker ends early and its runner has no memory for the next
    one, the crew prints that, and the runner tries again until it is stopped."""
    until(lambda: crew.poll() is not None or TRIES in scene.tale(), "the crew ends or tries again")
    if crew.poll() is None:
        crew.send_signal(signal.SIGTERM)


def see_limited(scene: Scene, who: str, limit: Limit, status: int) -> None:
    """Looks at what a crew has left that met a limit."""
    until(lambda: not list(scene.runners()), "the runners end")
    audit_lines(scene)
    for it in scene.look().intents.values():
        did = ["did", it.name()] in scene.tales(it.line)
        want(did or it.answer != "done", f"{who}: {it.name()} counts as done, and did nothing")
        want(not did or it.answer != "unbegun", f"{who}: {it.name()} is open, and did it")
    told = scene.tale()
    if limit is MEMORY and who == "runner":  # to start a command takes no memory
        want(status in (DONE, *STOPPED), f"{who}: status {status}: {told[-500:]}")
        return
    want(status in STOPPED, f"{who}: status {status}: {told[-500:]}")
    want(re.search(limit.says, told, re.I), f"{who}: it never meets the limit: {told[-500:]}")


def try_files(bench: Bench) -> None:
    """a limit on open files in the middle of a list: no line is performed twice or lost"""
    try_limit(bench, FILES)


def try_processes(bench: Bench) -> None:
    """a limit on processes in the middle of a list: no line is performed twice or lost"""
    try_limit(bench, PROCESSES)


def try_memory(bench: Bench) -> None:
    """a limit on memory in the middle of a list: no line is performed twice or lost"""
    try_limit(bench, MEMORY)


def try_worker_without_room(bench: Bench) -> None:
    """a runner that can't start its worker prints that once, tries again, and goes on in the end"""
    scene = scene_of(bench, PROCESSES)
    if scene is None:
        return
    crew = scene.start(workers=1)
    begun_by(scene, "1.1")
    set_limit(scene, runner_of(scene), PROCESSES)
    scene.kill(scene.worker_processes())
    scene.let("go.1")
    until(lambda: TRIES in scene.tale(), "it prints that it tries again")
    set_limit(scene, runner_of(scene), PROCESSES, is_lifted=True)
    scene.let(*(f"go.{line}" for line in range(2, LINES + 1)))
    scene.ends(crew, DONE)
    scene.audit()
    want(scene.tale().count(TRIES) == 1 and not scene.listed, scene.tale())


def few_files(scene: Scene, crew: subprocess.Popen, who: str, helper: int) -> None:
    """Has a runner, or the supervisor of a runner that is killed, open no further file. Waits until
    it waits for the helper, or the crew has ended."""
    def until_told(text: str) -> None:
        until(lambda: crew.poll() is not None or text in scene.tale(), f"it prints: {text}")

    runner, command = runner_of(scene), int(scene.tales(1)[0][2])
    set_limit(scene, runner if who == "runner" else crew.pid, FILES)
    if who == "runner":
        os.kill(command, signal.SIGKILL)
        until_told(f"waits for process {helper} ")
        return
    scene.kill([runner, command])
    until_told("its runner was ended by SIGKILL")
    crew.send_signal(signal.SIGTERM)
    until_told("it got SIGTERM")


def try_few_files_and_a_helper(bench: Bench) -> None:
    """who can open no further file still sees that a helper lives which has no descriptor: a runner
    after its command, and a supervisor after its runner"""
    for who in WHO:
        scene, crew, _, helper = fed(bench)
        few_files(scene, crew, who, helper)
        scene.person()
        is_alive = crew.poll() is None
        if is_alive and not scene.listed:
            is_not_listed(scene, helper)
        scene.let("go")
        status_of(crew)
        until(lambda: not os.path.exists(f"/proc/{helper}"), "the helper ends")
        scene.see_out()
        scene.audit()
        want(is_alive, f"the {who} ended while the helper ran")


PARTS = {"limits": [
    try_files, try_processes, try_memory, try_worker_without_room, try_few_files_and_a_helper
]}
