"""Supervisor, runner, worker and command are killed, or stopped for longer than a restart takes, at
each line of the protocol in turn, each alone and together."""

import re
from concurrent.futures import ThreadPoolExecutor

from jobs.scene import FAILED, Wrong, want
from worker import folder

WHO = ("runner", "worker", "command", "runner+worker", "runner+command", "worker+command", "runner+worker+command", "supervisor",
       "supervisor+runner", "supervisor+worker", "supervisor+runner+command", "supervisor+runner+worker+command")
STOPPED = ("~runner", "~worker", "~command", "runner+~worker", "runner+~command", "runner+worker+~command", "~runner+worker",
           "runner+~worker+~command", "~runner+~command", "~supervisor", "supervisor+~runner", "~supervisor+runner")
KINDS = ["slow", "amp", "fail"]
# Kills and stops that leave no doubt, since an end that a runner saw isn't lost with its worker. If
# a worker died before its line came to its runner, the runner knows nothing, and a doubt may be
# left.
LEAVE_NO_DOUBT = ("worker", "~runner", "~worker", "~command", "~runner+worker", "~runner+~command", "supervisor", "~supervisor",
                  "supervisor+worker", "supervisor+~runner")


LANES = 3


def befall(bench, number, who, kinds, workers):
    """Runs once, with these kills and stops at this moment."""
    scene = bench.scene(kinds, workers)
    try:
        see_befall(bench, scene, number, who)
    finally:
        bench.scenes.remove(scene)
        scene.close()


def see_befall(bench, scene, number, who):
    """Sees a run out in which this befalls somebody at this moment."""
    scene.see_out(scene.start(plan=f"{number}:{who}"))
    scene.audit()
    told = folder.read(f"{scene.room}/befallen").decode()
    bench.add("befallen", told.count("\n"))
    # (A worker that is killed as it gets an end may have put its next intent before it dies. Its
    # runner doesn't learn of that intent.)
    unseen = {f"{worker}.{int(serial) + 1}" for worker, serial in re.findall(r"(\d+)\.(\d+) of line \d+ answered", told)}
    # (If a runner has nothing else to do, it doesn't see the end of what a command left behind.)
    unseen.update(re.findall(r"line \d+: attempt (\d+\.\d+) has ended, and something that it started still runs", scene.tale()))
    # (So does a worker that is killed as it goes on after `over`.)
    is_unseen = "unsaid" in told or ".over of line 0 answered" in told
    may_leave = who not in LEAVE_NO_DOUBT or is_unseen or unseen.issuperset(scene.listed)
    want(may_leave or not scene.listed, f"a doubt though no runner or command was killed: {told.strip()}, {scene.listed}")


def moments(bench, kinds, workers):
    """Returns how many moments a run has in which nothing befalls anybody."""
    scene = bench.scene(kinds, workers)
    scene.ends(scene.start(plan="0:runner"), FAILED)
    scene.audit()
    return len(folder.read(f"{scene.room}/moments"))


def each_moment(bench, whos, kinds, workers, count):
    whole = moments(bench, kinds, workers)
    cases = [(number, who) for number in range(1, whole + 1) for who in whos]
    wrongs, tried = [], []

    def try_case(case):
        if not bench.has_time() or len(wrongs) >= 5:
            return
        tried.append(case)
        try:
            befall(bench, *case, kinds, workers)
        except Wrong as wrong:
            wrongs.append(f"{case[1]} at moment {case[0]} of {whole}: {wrong}")

    with ThreadPoolExecutor(LANES) as lanes:
        list(lanes.map(try_case, bench.sample(cases, count)))
    want(not wrongs, f"{len(wrongs)} of {len(tried)} tried: " + "; ".join(wrongs[:3]))
    return f"{len(tried)} of {len(cases)} cases, {bench.counts}"


def try_killed(bench):
    """killed at each line in turn: no line is performed twice, each doubt is reported, and no end
    that was seen is lost"""
    return each_moment(bench, WHO, KINDS, 1, 24)


def try_killed_together(bench):
    """the same with two workers"""
    return each_moment(bench, WHO, KINDS + ["setsid", "quick", "slow", "nohup", "deaf"], 2, 6)


def try_stopped(bench):
    """stopped for longer than a restart takes, and continued"""
    return each_moment(bench, STOPPED, KINDS, 1, 12)


PARTS = {"killed": [try_killed, try_killed_together], "stopped": [try_stopped]}
