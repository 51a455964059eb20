"""Many at once: workers that are killed over and over while they do thousands of jobs, and readers
next to each other."""

import os
import random
import shlex
import signal
import subprocess
import time

from worker.folder import read
from worker.kills import Waiting, answerable, state_of
from worker.scene import KILLED, LATER, OVER, Runner, finish, see_out, serve, want

READERS = 8
TRIES = 20  # of what has to come later on a loaded machine


def drawn_kill(draws, filed, spare):
    """Returns a kill at a call: one of the first, one of those by which a worker comes back to its
    words, or one of those by which it works. The kill comes right after it has spoken or some lines
    later, the fewer the fewer lines there are for each kill to come."""
    mood, when = draws.random(), draws.choice(["before", "after"])
    if mood < 0.15:
        return f"{draws.randint(1, 200)}:kill_{when}"
    if mood < 0.3:
        return f"{draws.randint(1, 300 + filed)}:kill_{when}"
    if mood < 0.65:
        return f"s{draws.randint(1, 14)}:kill_{when}"
    return f"s{draws.randint(1, int(1 + 30 * spare))}:kill_{when}"


class Late(Runner):
    """A runner whose commands take a while: it answers some milliseconds after it got a line."""

    def __init__(self, scene, worker, draws):
        super().__init__(scene, worker)
        self.draws, self.due, self.reply = draws, 0, None

    def start(self, faults=None):
        self.reply = None
        return super().start(faults)

    def perform(self, serial, line):
        self.reply = serial, line, super().perform(serial, line)
        self.due = time.monotonic() + self.draws.random() * (0.1 if self.scene.bench.is_slow() else 0.02)

    def answer_late(self):
        if self.process and self.reply and time.monotonic() > self.due:
            reply, self.reply = self.reply, None
            self.answer(*reply)


def work_for(runners, seconds):
    """Serves these runners so long, or until one of their workers has ended."""
    end = time.monotonic() + seconds
    while time.monotonic() < end and all(it.process for it in runners):
        for it in runners:
            it.answer_late()
        serve(runners, until=lambda slice=time.monotonic() + 0.001: time.monotonic() > slice)


def kill_crew(bench, lines, kills, seed):
    """Four workers do these lines, and are killed so many times in all, at calls or from outside.
    Returns the run and its kills."""
    draws = random.Random(seed)
    scene = bench.scene(lines, 4)
    runners = [Late(scene, p, draws) for p in range(1, 5)]
    count = lambda: sum(it.statuses.count(KILLED) for it in runners)
    while count() < kills and len(scene.by) < lines and bench.has_time():
        for it in runners:
            if not it.process:
                it.start(drawn_kill(draws, len(scene.by), (lines - len(scene.by)) / (kills - count())))
        work_for(runners, draws.random() * 0.05)
        for it in runners:
            if it.process and draws.random() < 0.02:
                it.kill()
    kills = count()
    for it in runners:
        it.close()
    runners = [Runner(scene, p) for p in range(1, 5)]
    see_out(runners, seconds=600, draws=draws)
    for it in runners:
        it.close()
    return scene, kills


def try_crew_killed(bench):
    """four workers do 4,096 lines, and are killed 1,000 times in all: each line is performed once,
    once the doubts are answered"""
    lines, kills = (4096, 1000) if bench.is_long else (128, 40)
    scene, count = kill_crew(bench, lines, kills, bench.seed)
    doubts = scene.doubts()
    for worker, serial, line in doubts:
        scene.answer(worker, serial, line, "done" if line in scene.by else "not-done")
    finish(scene, range(1, 5))
    performed = [it[2] for it in scene.effects()]
    want(sorted(performed) == list(range(1, lines + 1)), f"{len(set(performed))} lines were performed, {len(performed)} times")
    want(count >= kills * 9 // 10 or not bench.has_time(), f"only {count} kills")
    return f"{count} kills, {len(performed)} of {lines} lines performed once, 0 twice, {len(doubts)} in doubt"


class Reader:
    """A command that runs next to others, with its output once it has ended."""

    def __init__(self, scene, *words, faults=None):
        scene.bench.processes += 1
        self.words = words
        given = [words[0], scene.run, *words[1:], *scene.common(words)]
        self.process = subprocess.Popen([*scene.bench.command(), *given],
                                        stdin=subprocess.DEVNULL, stdout=subprocess.PIPE, stderr=subprocess.PIPE,
                                        env=scene.environment(faults))

    def ended(self):
        out, err = self.process.communicate(timeout=300)
        return self.process.returncode, out.decode(), err.decode()


class Counts:
    """The false statements of readers, and how often each was made."""

    def __init__(self):
        self.wrong, self.readers, self.first = {}, 0, None

    def see(self, reader):
        """A worker is dead, and one intent in doubt: that is what it has to say."""
        status, out, err = reader.ended()
        self.readers += 1
        for kind, so in (("no status 0", status != OVER), ("a dead worker alive", "\nalive 1" in out),
                         ("a final doubt running", " running 1 " in out or "\nrunning 1.1" in out),
                         ("no doubt", status == OVER and "doubt 1.1 1 job 1" not in out)):
            if so:
                self.add(kind, f"{reader.words}: status {status}, {out or err}")

    def add(self, kind, what):
        self.wrong[kind] = self.wrong.get(kind, 0) + 1
        self.first = self.first or what

    def told(self):
        said = ", ".join(f"{kind} {count} times" for kind, count in self.wrong.items())
        return f"{self.readers} readers" + (f": {said}; first {self.first}" if said else "")


def readers_of(scene, draws, count=READERS, asks="status"):
    """Starts so many readers at once, each of them slow at a call drawn at random. `status` records
    nothing, so the intent stays pending."""
    return [Reader(scene, asks, faults=f"{draws.randint(1, 90)}:slow") for _ in range(count)]


def begin_beside(scene, counts, draws):
    """Begins a worker next to readers, and again if it has to come back. It must get on. Nobody
    answers it, and it is killed."""
    readers, runner = readers_of(scene, draws, 4), Runner(scene, 1)
    runner.was = lambda serial, line: None
    while not runner.lines and set(runner.statuses) <= {LATER} and len(runner.statuses) < TRIES:
        serve([runner.start(f"{draws.randint(1, 60)}:slow")], until=lambda: runner.lines)
    if not runner.lines:
        counts.add(f"a worker ends with {runner.statuses}", runner.said)
    runner.close()
    for it in readers:
        it.ended()


def answer_beside(scene, counts, draws):
    """Answers next to readers, and again if that has to come later. The answer must be taken."""
    readers = readers_of(scene, draws, 4)
    words = ["answer", "1.1", "1", "job 1", "not-done", "--now"]
    for _ in range(TRIES):
        status, _, err = Reader(scene, *words, faults=f"{draws.randint(1, 90)}:slow").ended()
        if status != LATER:
            break
    if status == OVER:
        scene.note_answer(1, 1, 1, "not-done")
    else:
        counts.add("an answer refused", f"status {status}: {err}")
    for it in readers:
        it.ended()


def read_beside_each_other(bench, counts, seed):
    """Runs readers next to each other, to a worker that begins, and to a person who answers, over a
    run in doubt."""
    draws, scene = random.Random(seed), answerable(bench)
    for _ in range(10 if bench.is_long else 4):
        for it in readers_of(scene, draws):
            counts.see(it)
        begin_beside(scene, counts, draws)
    for it in readers_of(scene, draws, asks="doubts"):
        counts.see(it)
    answer_beside(scene, counts, draws)
    if not counts.wrong:
        finish(scene)


def try_readers_beside_each_other(bench):
    """8 readers at once, with a dead worker and its doubt: all print the same, and keep no worker
    and no person from going on"""
    counts = Counts()
    for k in range(40 if bench.is_long else 1):
        if bench.has_time():
            read_beside_each_other(bench, counts, f"{bench.seed}.{k}")
    want(not counts.wrong, counts.told())
    return counts.told()


def descendants(process):
    """Returns the processes that this one has begun, and those that these have."""
    found = []
    for child in read(f"/proc/{process}/task/{process}/children").split():
        found += [int(child), *descendants(int(child))]
    return found


def stay_with_workers(bench):
    """A worker with a line in its hand, one that is stopped, and a partner in shell with its
    worker; then nothing more."""
    scene = bench.scene(4096, 3)  # (so many that the partner comes to no end while it is looked at)
    first, second = Waiting(scene, 1), Runner(scene, 2)
    serve([first.start()], until=lambda: first.lines)
    serve([second.start("30:stop_before")], until=lambda: state_of(second) in "TZ")
    partner = os.path.join(os.path.dirname(os.path.realpath(__file__)), "partner.sh")
    program = f"{scene.room}/program"
    with open(program, "w") as file:
        file.write(f"""#!/bin/sh\nexec {shlex.join(bench.command())} "$@" """
                   f"""{shlex.join(scene.common())}\n""")
    os.chmod(program, 0o700)
    subprocess.Popen(["sh", partner, program, scene.run, "3", "3", scene.jobs, "sleep", "0.5"], stdin=subprocess.DEVNULL,
                     stdout=subprocess.DEVNULL, stderr=subprocess.DEVNULL, env={**scene.environment(), "TMPDIR": scene.room})
    while len(descendants(os.getpid())) < 5:
        time.sleep(0.01)


def try_harness_killed(bench):
    """this tool, killed: what it has begun doesn't outlive it"""
    ready, told = os.pipe()
    tool = os.fork()
    if tool == 0:
        try:
            stay_with_workers(bench)
            os.write(told, b"ready")
            time.sleep(1000)
        finally:
            os._exit(1)
    os.close(told)
    want(os.read(ready, 5) == b"ready", "the workers don't begin")
    soon = time.monotonic() + 240
    while len(begun := descendants(tool)) < 5 and time.monotonic() < soon:
        time.sleep(0.01)
    os.kill(tool, signal.SIGKILL)
    os.waitpid(tool, 0)
    end = time.monotonic() + 240
    while (left := [it for it in begun if os.path.exists(f"/proc/{it}")]) and time.monotonic() < end:
        time.sleep(0.01)
    want(len(begun) > 4 and not left, f"of {begun} there are left {left}")
    return f"{len(begun)} processes"


PARTS = {"crews": [try_crew_killed], "readers": [try_readers_beside_each_other], "numbers": [try_harness_killed]}
