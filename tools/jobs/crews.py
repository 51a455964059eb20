"""A crew's processes: the supervisor and its runners, and what each does about the other."""

import os
import pty
import re
import resource
import signal
import time
from contextlib import suppress

from harness.bench import until
from jobs.scene import DONE, DOUBTFUL, FAILED, LATER, LEFT, copy_program, want
from worker import folder

COUNTS = 'echo "$1" >> "$0/performed"; '


def performed(scene) -> int:
    """Returns how many commands have begun that count themselves."""
    return len(folder.read(f"{scene.room}/performed").split())


def runner_of(scene, worker: int) -> int:
    """Returns the process of a runner; 0 if it has none."""
    with suppress(OSError, ValueError), open(f"{scene.run}/runner.{worker}") as file:
        return int(file.read())
    return 0


def listed(bench, lines: int, script: str, workers: int, *options: str):
    """Returns a run of so many lines, of which each counts itself and then does this; and its
    crew."""
    scene = bench.scene([], workers, options)
    with open(scene.jobs, "w") as file:
        file.write("".join(f"{line}\n" for line in range(1, lines + 1)))
    scene.command = ["sh", "-c", COUNTS + script, scene.room]
    return scene, scene.start()


def try_each_worker_has_a_runner(bench):
    """each worker has a runner of its own, in a session of its own, which has signed its lock"""
    scene, crew = listed(bench, 40, 'while ! [ -e "$0/go" ]; do sleep 0.02; done', 3)
    until(lambda: performed(scene) == 3, "three commands have begun")
    runners = [runner_of(scene, worker) for worker in (1, 2, 3)]
    want(sorted(runners) == sorted(scene.runners()), f"{runners}, {list(scene.runners())}")
    want(all(os.getsid(it) == it for it in runners), "a runner has no session of its own")
    with open(f"{scene.run}/crew") as file:
        want(int(file.read()) == crew.pid, "the supervisor hasn't signed its lock")
    scene.ends(scene.start(), LATER)
    want(f"another crew, process {crew.pid}, works in this folder" in scene.tale(), scene.tale())
    scene.let("go")
    scene.ends(crew, DONE)


def try_halt_of_many(bench):
    """four workers and --halt 3: at most six lines fail"""
    scene, crew = listed(bench, 40, "exit 1", 4, "--halt", "3")
    scene.ends(crew, LEFT)
    want(3 <= performed(scene) <= 6, f"{performed(scene)} lines have failed")


def try_runner_comes_back(bench):
    """a runner that is killed again and again is started again, and costs one doubt each time"""
    scene, crew = listed(bench, 9, 'while ! [ -e "$0/$1" ]; do sleep 0.02; done', 1)
    killed = set()
    for line in range(1, 4):
        until(lambda: performed(scene) == line, "the next command has begun")
        killed.add(runner_of(scene, 1))
        os.kill(runner_of(scene, 1), signal.SIGKILL)
        until(lambda: scene.tale().count("ended by SIGKILL") == line, "the supervisor sees it")
        time.sleep(0.3)
        want(performed(scene) == line, "another runner began while a command ran")
        scene.let(folder.read(f"{scene.room}/performed").split()[-1].decode())
    scene.let(*map(str, range(1, 10)))
    scene.ends(crew, DOUBTFUL)
    want(len(killed) == 3 and scene.counts(status=None)["doubt"] == 3, scene.tale())


def try_crew_beside_an_earlier_runner(bench):
    """a new crew works with the numbers that it has, while a runner of an earlier one lives"""
    scene, crew = listed(bench, 12, 'while ! [ -e "$0/$1" ]; do sleep 0.02; done', 2)
    until(lambda: performed(scene) == 2, "two commands have begun")
    first = folder.read(f"{scene.room}/performed").split()[0].decode()
    crew.kill()
    crew.wait()
    second = folder.read(f"{scene.room}/performed").split()[1].decode()
    scene.let(second)
    until(lambda: len(list(scene.runners())) == 1, "one runner has ended")
    later = scene.start()
    until(lambda: "the runner of an earlier crew, process" in scene.tale(), "it is told")
    scene.let(*(str(it) for it in range(1, 13) if str(it) != first))
    # The worker that ended may have claimed a line that it didn't start. Such a line waits for the
    # next round, which begins once the first command has ended.
    until(lambda: later.poll() is not None or performed(scene) >= 11, "it performs the others")
    scene.let(first)
    want(later.wait(240) in (DONE, DOUBTFUL), f"{later.poll()}: {scene.tale()[-500:]}")
    scene.see_out()
    want(performed(scene) == 12 and not scene.listed, f"{performed(scene)}, {scene.listed}")


def try_terminal(bench):
    """one ^C at a terminal reaches no command; a second one is passed on, once"""
    scene = bench.scene([], 1, [])
    with open(scene.jobs, "w") as file:
        file.write("one\ntwo\n")
    script = ('trap "echo INT >> \\"$0/signals\\"; exit 5" INT; : > "$0/begun";'
              ' while :; do sleep 0.1; done')
    words = scene.words("crew", "--workers", "1", scene.jobs, "--", "sh", "-c", script, scene.room)
    process, terminal = pty.fork()
    if process == 0:
        os.execve(words[0], words, scene.environment())
    said = []

    def read(text):
        with suppress(OSError):
            said.append(os.read(terminal, 1 << 16))
        return text in b"".join(said)

    until(lambda: os.path.exists(f"{scene.room}/begun"), "the command has begun")
    os.write(terminal, b"\x03")
    until(lambda: read(b"no further job is started"), "the first ^C is told")
    time.sleep(0.5)
    want(not os.path.exists(f"{scene.room}/signals"), "a command got the first ^C")
    os.write(terminal, b"\x03")
    until(lambda: read(b"passes it on to 1.1"), "the second ^C is told")
    until(lambda: read(b"2 lines: "), "it ends")
    status = os.waitstatus_to_exitcode(os.waitpid(process, 0)[1])
    os.close(terminal)
    want(status == LEFT, f"status {status}")
    want(folder.read(f"{scene.room}/signals") == b"INT\n", "the command got another number of them")


def try_ignored_children(bench):
    """a parent that ignores the ends of its children hands that on to nobody"""
    scene = bench.scene(["quick", "fail", "amp"], 2, ["--linger", "20"])
    crew = scene.start(preexec_fn=lambda: signal.signal(signal.SIGCHLD, signal.SIG_IGN))
    scene.ends(crew, FAILED)
    scene.audit()


def try_upgraded(bench):
    """a runner of another version isn't a runner of this crew: the crew ends with 75"""
    room = f"{bench.room}/upgraded"
    copy_program(bench.program, room)
    program, bench.program = bench.program, f"{room}/{os.path.basename(bench.program)}"
    scene, crew = listed(bench, 9, 'while ! [ -e "$0/$1" ]; do sleep 0.02; done', 1)
    until(lambda: performed(scene) == 1, "a command has begun")
    runner = runner_of(scene, 1)
    with open(f"{room}/VERSION", "w") as file:
        file.write("9.9.9\n")
    os.kill(runner, signal.SIGKILL)
    scene.let(folder.read(f"{scene.room}/performed").split()[0].decode())
    scene.ends(crew, LATER)
    bench.program = program
    want("to 9.9.9 while its crew worked; start the crew again" in scene.tale(), scene.tale())
    want(performed(scene) == 1, "it performed something")


def try_limits(bench):
    """a runner that may open too few files starts no command, and no line is lost"""
    script = 'while ! [ -e "$0/$1" ]; do sleep 0.02; done; echo paid'
    scene, crew = listed(bench, 30, script, 1)
    until(lambda: performed(scene) == 1, "a command has begun")
    runner = runner_of(scene, 1)
    lock, = (int(it) for it in os.listdir(f"/proc/{runner}/fd")
             if "/command." in os.readlink(f"/proc/{runner}/fd/{it}"))
    resource.prlimit(runner, resource.RLIMIT_NOFILE, (lock + 1, lock + 1))
    scene.let(*map(str, range(1, 31)))
    scene.ends(crew, LEFT)
    want(re.search(r"line \d+: cannot start `sh`: .*(no line was lost)", scene.tale()), scene.tale())
    want(scene.see_out() == DONE and not scene.listed, f"{scene.listed}: {scene.tale()[-500:]}")
    want(performed(scene) == 30, f"{performed(scene)} of 30 were performed")


def try_suspended(bench):
    """all processes stand still for a while, as in a machine that is suspended, and go on"""
    scene = bench.scene(["slow"] * 8, 3)
    crew = scene.start()
    until(lambda: scene.tales(1), "a command has begun")
    processes = [*scene.processes(), crew.pid]
    scene.kill(processes, signal.SIGSTOP)
    time.sleep(60 if bench.is_long else 2)
    scene.kill(processes, signal.SIGCONT)
    scene.see_out(crew)
    scene.audit()
    want(not scene.listed, f"it is listed as a doubt: {scene.listed}")


def try_many_runners(bench):
    """16 runners on two processors"""
    scene = bench.scene(["quick"] * 48, 16)
    scene.ends(scene.start(preexec_fn=lambda: os.sched_setaffinity(0, {0, 1})), DONE)
    scene.audit()


PARTS = {"crews": [
    try_each_worker_has_a_runner, try_halt_of_many, try_runner_comes_back,
    try_crew_beside_an_earlier_runner, try_terminal, try_ignored_children, try_upgraded, try_limits,
    try_suspended, try_many_runners,
]}
