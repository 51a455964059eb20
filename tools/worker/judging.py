"""The harness that judges logs of calls has to refuse: workers that break a rule, a runner that
answers too early, and logs that were changed."""

import contextlib
import os
from typing import Callable, Iterator, List, Optional

from worker import call_lines, judged, run_events
from worker.folder import read
from worker.scene import WRITE, Bench, Runner, Wrong, finish, live, want

STAND_IN = os.path.join(os.path.dirname(os.path.realpath(__file__)), "stand_in.py")
SIDES = ("before", "after")
# A mistake of the stand-in, and what the harness or the judge says of its log.
MISTAKES = [
    ("leaves_a_journal_unread", "hands-over"),
    ("clears_before_the_intent", "hands-over"),
    ("no_clearance", "hands-over"),
    ("intent_after_the_act", "hands-over"),
    ("says_the_next_line", "another text than that of line"),
]


def wrongs_of(bench: Bench) -> List[str]:
    """Returns the faults of the logs of a bench."""
    found = [judged.judge(it, judged.has_judge()) for it in bench.made]
    return [it.wrong for it in found if it.wrong]


def wrongs_by(bench: Bench, mistake: Optional[str]) -> List[str]:
    """Returns the faults of the log of a run by the stand-in, which makes this mistake."""
    again = Bench(STAND_IN, bench.room, False, bench.seed, mistake)
    with contextlib.suppress(Wrong):  # the other checks may show it as well
        live(Runner(again.scene(4, 2), 1))
    again.close()
    return wrongs_of(again)


def try_mistakes(bench: Bench) -> str:
    """a worker that reads 15 journals for clearance, or none, or before its intent, or that hands
    over before its intent, or with another line's text: its log is refused"""
    wrongs = wrongs_by(bench, None)
    want(not wrongs, f"without a mistake: {wrongs}")
    for mistake, wanted in MISTAKES:
        wrongs = wrongs_by(bench, mistake)
        want(any(wanted in it for it in wrongs), f"{mistake} shows {wrongs}")
    return f"{len(MISTAKES)} mistakes"


class Early(Runner):
    """A runner that says `unbegun` of its first line, and has it performed after that."""

    def perform(self, serial: int, line: int) -> str:
        if serial == 1:
            self.late = serial, line
            return "unbegun"
        if serial == 2:
            self.act(*self.late)
        return super().perform(serial, line)


def try_early_answer(bench: Bench) -> str:
    """a runner that says `unbegun` of what is performed later: the log is refused"""
    again = Bench(bench.program, bench.room, False, bench.seed)
    with contextlib.suppress(Wrong):  # the line is performed twice, too
        live(Early(again.scene(3, 1), 1))
    again.close()
    wrongs = wrongs_of(again)
    want(any("performs 1 1 1" in it for it in wrongs), f"the log shows {wrongs}")
    return "refused"


def sound_log(bench: Bench) -> tuple:
    """Returns the lines of the log of a run with two workers, and its jobs."""
    scene = bench.scene(3, 2)
    finish(scene, (1, 2))
    return read(scene.calls).split(b"\n"), read(f"{scene.run}/jobs")


def translated(lines: List[bytes], jobs: bytes) -> run_events.Translation:
    found = call_lines.lines_in(b"\n".join(lines))
    return run_events.Translation(found, jobs.split(b"\n")[:-1])


def is_refused(lines: List[bytes], jobs: bytes) -> bool:
    found = translated(lines, jobs)
    return bool(found.wrongs or found.refused)


def actor_of(line: bytes) -> bytes:
    """Returns the actor of a line: a process's, or that of a runner and its worker."""
    words = line.split(b" ")
    return words[1] if words[0].decode() in SIDES else b""


def swaps(lines: List[bytes]) -> Iterator[List[bytes]]:
    """Yields the log with two lines of one process exchanged, which stand next to each other."""
    for k, (first, second) in enumerate(zip(lines, lines[1:])):
        if actor_of(first) and actor_of(first) == actor_of(second):
            yield [*lines[:k], second, first, *lines[k + 2:]]


def said_late(lines: List[bytes]) -> Iterator[List[bytes]]:
    """Yields the log with a line performed before the worker has handed it over."""
    for k, (first, second) in enumerate(zip(lines, lines[1:])):
        if b" say perform " in first and second.startswith(b"performed "):
            yield [*lines[:k], second, first, *lines[k + 2:]]


def without_one(lines: List[bytes]) -> Iterator[List[bytes]]:
    """Yields the log without one line of a process, which isn't its last one."""
    for k, line in enumerate(lines):
        if actor_of(line) and actor_of(line) in map(actor_of, lines[k + 1:]):
            yield [*lines[:k], *lines[k + 1:]]


def try_changed_logs(bench: Bench) -> str:
    """a log of which two neighboring lines of a process are exchanged, or a line is taken out, or
    that has a line performed before it was handed over: refused each time"""
    lines, jobs = sound_log(bench)
    want(not is_refused(lines, jobs), "a sound log is refused")
    counts = []
    changes: List[Callable] = [swaps, said_late, without_one]
    for change in changes:
        logs = list(change(lines))
        kept = [it for it in logs if not is_refused(it, jobs)]
        want(logs and not kept, f"{change.__name__}: {len(kept)} of {len(logs)} are taken")
        counts.append(len(logs))
    return f"{sum(counts)} logs"


def try_full_log(bench: Bench) -> None:
    """a log that can't be written: the process ends with 73, names the variable, does nothing"""
    if bench.is_slow():
        bench.skipped.append("the stand-in has other words for faults")
        return
    scene = bench.scene(2, 1)
    scene.more["AMO_CALLS"] = "/dev/full"
    runner = Runner(scene, 1)
    live(runner)
    status, _, err = scene.call("status", scene.run)
    for ended, said in ((runner.statuses[-1], runner.said), (status, err)):
        want(ended == WRITE and said.startswith("amo_worker: `AMO_CALLS`: cannot be written: "),
             f"status {ended}: {said}")
    want(not scene.effects(), f"performed: {scene.effects()}")


PARTS = {"judged": [try_mistakes, try_early_answer, try_changed_logs, try_full_log]}
