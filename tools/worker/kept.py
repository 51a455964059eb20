"""Acknowledged records stay. Processes are stopped, slow or killed at the very calls by which an
answer becomes one that a worker goes on after, and then the power is cut. In storms, all that is
drawn at random."""

import errno
import random
import signal
import time

from worker import judged
from worker.disk import Power
from worker.folder import read
from worker.kills import Waiting, names_file, state_of
from worker.power import life_points, settle_doubts
from worker.scene import READ, REFUSED, WRITE, Runner, each, live, serve, want

# The number of a process's calls from its first line on: to write it, to read the answer, and the
# four by which the answer is put.
NOTED = 6


def note_points(bench):
    """Yields the calls of a first life from its first line to its second answer, with another
    worker and alone."""
    for beside in (False, True):
        calls = life_points(bench, beside)
        begun = next(k for k, it in enumerate(calls) if it[2] == "say")
        for it in calls[begun:]:
            yield beside, int(it[1])


def stop_one(bench, beside, number, fault, how):
    """Has a worker stopped, slow or killed at this call. A person asks, another worker begins,
    power is cut. Nobody learns that the next process has noted an answer. The records that the
    first one went on after are there."""
    scene = bench.scene(4, 2 if beside else 1, makes=False)
    power = Power(scene, bench.draws, fails="none")
    runners = [Waiting(scene, 1)] if beside else []
    for it in runners:
        serve([it.start()], until=lambda: it.lines)
    runner = Runner(scene, len(runners) + 1)
    runners.append(runner)
    serve([runner.start(f"{number}:{fault}")], until=lambda: state_of(runner) in "TZ" or len(scene.effects()) > 2)
    scene.doubts()
    power.cut(runners, how)
    runner = Runner(scene, len(runners))
    live(runner, f"s{NOTED}:kill_after")
    runner.close()
    settle_doubts(scene)
    power.close()


def try_stopped_and_cut(bench):
    """stopped, slow or killed at each call from the first answer to the second, then the power cut:
    what it went on after stays"""
    faults, hows = ("stop_before", "stop_after", "slow", "kill_after"), ("none", "all", "drawn")
    rows = [(bench, *it, fault, how) for it in note_points(bench) for fault in faults for how in hows]
    return f"{each(bench.sample(rows, 12), stop_one)} cuts"


def forget_one(bench, first, second):
    """Kills a process at a call after an answer that it went on after. Its runner dies, and the
    next process, whose runner knows of nothing, is killed at a call too. No answer may be asked for
    again."""
    scene = bench.scene(5, 1, makes=False)
    power = Power(scene, bench.draws, fails="none")
    for fault in (first, second):
        runner = Runner(scene, 1)
        live(runner, fault)
        runner.close()
        scene.doubts()
    power.cut((), bench.draws.choice(["none", "drawn"]))
    settle_doubts(scene)
    power.close()


def try_forgotten_and_cut(bench):
    """killed, or a sync failed, after an answer; then with a runner that knows nothing, and the
    power cut: no answer is lost"""
    numbers = [number for beside, number in note_points(bench) if not beside]
    rows = [(bench, f"{number}:{errno.EIO if kind else 'kill_after'}", f"{second}:{errno.EIO if kind > 1 else 'kill_after'}")
            for number in numbers for second in range(20, 90, 3) for kind in range(3)]
    return f"{each(bench.sample(rows, 8), forget_one)} cuts"


def jobs_one(bench, number, how):
    """Lets the sync of a line in the jobs' file fail at this call. The kernel gives up that line
    for good, and it is read all the same. If power is cut then, the file may lack a line that the
    run knows. It must be refused by that line until it has it again. Without a number: returns the
    calls of such a life."""
    scene = bench.scene(4, 1, makes=False)
    power = Power(scene, bench.draws, fails="none")
    power.grow(b"job 5\n")
    runner = Runner(scene, 1)
    status = live(runner, number and f"{number}:{errno.EIO}")
    if not number:
        runner.close()
        calls = scene.logged()  # the last of them is the worker's, the first are the door's
        return [int(it[1]) for it in calls if it[2:4] == ["sync", "JOBS"] and it[0] == calls[-1][0]]
    want(status in (READ, WRITE) and names_file(runner.said, "JOBS", scene), f"status {status}: {runner.said}")
    serve([runner.start()], until=lambda: len(scene.effects()) > 1)
    power.cut([runner], how)
    known = read(f"{scene.run}/jobs")
    if not read(scene.jobs).startswith(known):
        status, _, err = scene.call("door", scene.run, *scene.givens(), scene.jobs)
        want(status == REFUSED and "line 5" in err, f"status {status}: {err}")
        scene.write_jobs([f"job {k}" for k in range(1, 6)])
        power.keep_all()
    settle_doubts(scene)
    power.close()


def try_failed_sync_of_jobs_and_cut(bench):
    """a sync of the jobs' file fails, and the power is cut: its line is refused by number until it
    is there, none is done twice"""
    numbers = jobs_one(bench, None, None)
    return f"{each(((bench, it, how) for it in numbers for how in ('none', 'all', 'drawn')), jobs_one)} syncs"


class Moody(Runner):
    """A runner that now and then doesn't begin a command and replies so, and that may die before or
    after one."""

    def __init__(self, scene, worker, draws):
        super().__init__(scene, worker)
        self.draws, self.dies, self.is_stopped = draws, False, False

    def perform(self, serial, line):
        mood = self.draws.random()
        if mood < 0.08:
            return "unbegun"
        if mood < 0.12:
            self.dies = True
            return None
        reply = super().perform(serial, line)
        self.dies = mood > 0.92
        return None if self.dies else reply

    def stop(self):
        """Stops its worker, outside of each call that is logged, or has it go on."""
        if not self.process:
            return
        with self.scene.still():
            self.process.send_signal(signal.SIGCONT if self.is_stopped else signal.SIGSTOP)
            while not self.is_stopped and self.process.poll() is None and state_of(self) not in "TZ":
                time.sleep(0.001)
        self.is_stopped = not self.is_stopped


def storm(bench, seed):
    """Returns a run with kills, stops, failed and slow calls, deaths of runners, a jobs' file that
    grows, persons, and cuts of power."""
    draws = random.Random(seed)
    scene = bench.scene(draws.randint(1, 4), draws.choice([1, 1, 2, 2, 3]), makes=False)
    power, count = Power(scene, draws), 0
    for _ in range(draws.randint(1, 4)):
        runners = [Moody(scene, p, draws) for p in range(1, scene.workers + 1) if draws.random() < 0.8]
        for _ in range(draws.randint(1, 3)):
            work_on(scene, runners, draws)
        if draws.random() < 0.2:
            power.grow(b"job %d more\n" % (100 + count))
            count += 1
        between(scene, power, runners, draws)
    settle_doubts(scene)
    performs = power.close()
    judged.drop(bench, scene)
    return performs


def work_on(scene, runners, draws):
    """Has dead workers begun again, and all go on until some lines were handed over. Some are
    stopped meanwhile."""
    for it in runners:
        if not it.process and not it.dies:
            it.start(drawn_faults(draws))
            it.is_stopped = False
        elif it.is_stopped:
            it.stop()
    until = len(scene.account) + draws.randint(-1, 6)
    serve([it for it in runners if it.process],
          until=lambda: len(scene.account) >= until or any(it.dies for it in runners))
    for it in runners:
        if it.dies:
            it.close()
        elif draws.random() < 0.15:
            it.stop()


def drawn_faults(draws):
    mood, number = draws.random(), draws.choice([draws.randint(1, 60), draws.randint(1, 250)])
    number = draws.choice(["", "s"]) + str(number if draws.random() < 0.5 else number // 4 + 1)
    if mood < 0.4:
        return f"{number}:kill_after"
    if mood < 0.6:
        return f"{number}:{errno.EIO}"
    if mood < 0.7:
        return f"{number}:{errno.EIO},{draws.randint(1, 200)}:kill_after"
    return f"{number}:slow,{draws.randint(1, 200)}:slow" if mood < 0.75 else None


def between(scene, power, runners, draws):
    """Some of the runners die; a person asks, and perhaps answers; then power is cut, mostly."""
    for it in runners:
        if draws.random() < 0.6:
            it.close()
    if draws.random() < 0.5:
        listed, performed = scene.doubts(), [it[2] for it in scene.effects()]
        for worker, serial, line in listed:
            if draws.random() < 0.4:
                scene.answer(worker, serial, line, "done" if line in performed else "not-done")
    if draws.random() < 0.8:
        power.cut(runners)
    for it in runners:
        it.close()


def try_storms(bench):
    """runs drawn at random, with cuts of power: no line twice, nothing acknowledged gone, no doubt
    performed later"""
    return f"{each(((bench, f'{bench.seed}.{k}') for k in range(10000 if bench.is_long else 100)), storm)} storms"


PARTS = {"storms": [try_storms], "cuts": [try_stopped_and_cut, try_forgotten_and_cut, try_failed_sync_of_jobs_and_cut]}
