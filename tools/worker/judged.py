"""Judges logs of calls of real runs: the events of each log must be a run of the model, by
`amo_show judge --run`, which is proved. Begin with `judge_all`."""

import functools
import os
import shutil
import subprocess
from typing import Iterable, List, NamedTuple, Optional

from worker import call_lines, run_events
from worker.folder import read

TOP = os.path.dirname(os.path.dirname(os.path.dirname(os.path.realpath(__file__))))
SHOW = os.environ.get("AMO_SHOW", f"{TOP}/crates/amo_show/out/amo_show")
NO_JUDGE = "the proved judge of logs, since amo_show with `judge --run` isn't built"
MOST = 1 << 20  # bytes that the judge takes
TOO_LONG = f"the proved judge of logs whose events have more than {MOST} bytes"


class Judged(NamedTuple):
    """The result for a log: how many events it has, and its fault."""

    events: List[str]
    wrong: Optional[str]


def text_of(events: List[str]) -> bytes:
    """Returns these events as the judge reads them."""
    return "".join(f"{it}\n" for it in events).encode()


def verdict(events: List[str]) -> str:
    """Returns what the proved judge prints of these events."""
    ran = subprocess.run([SHOW, "judge", "--run"], input=text_of(events), stdout=subprocess.PIPE,
                         stderr=subprocess.STDOUT, check=False)
    return ran.stdout.decode("utf-8", "replace").strip()


def says_run(said: str, events: List[str]) -> bool:
    """Returns whether this verdict is that so many events are a run."""
    return said.startswith(f"a run: {len(events)} event")


def is_run(events: List[str]) -> bool:
    return says_run(verdict(events), events)


@functools.lru_cache(maxsize=None)
def has_judge() -> bool:
    """Returns whether the proved judge is there: it takes a run, and refuses another text."""
    return os.access(SHOW, os.X_OK) and is_run(["begins 1"]) and not is_run(["begins 1"] * 2)


def judged(path: str, jobs: bytes, by_judge: bool = True) -> Judged:
    """Judges the log of this path, of a run whose lines are these bytes. The harness's own code
    says which event may not follow. The proved judge has to say the same."""
    found = run_events.Translation(call_lines.lines_of(path), jobs.split(b"\n")[:-1])
    wrongs = list(found.wrongs)
    wrongs += [found.refused] if found.refused else []
    if by_judge and len(text_of(found.events)) <= MOST:
        said = verdict(found.events)
        if says_run(said, found.events) == bool(found.refused):
            wrongs.append(f"amo_show judges otherwise: {said}")
    return Judged(found.events, "; ".join(wrongs[:3]) or None)


class Tally(NamedTuple):
    """The result for some logs: how many events and logs were judged, how many logs were left out,
    and the fault."""

    events: int
    logs: int
    left_out: int
    wrong: Optional[str]


def jobs_of(scene) -> bytes:
    """Returns the lines of a scene's run: those that the run knows, or its list if the run is on a
    disk that is gone. Returns nothing if a test has spoiled the files."""
    try:
        return read(f"{scene.run}/jobs") or read(scene.jobs)
    except OSError:
        return b""


def judge(scene, by_judge: bool) -> Judged:
    """Judges the log of a scene."""
    return judged(scene.calls, jobs_of(scene), by_judge)


def can_judge(scene) -> bool:
    """Returns whether the log of a scene is that of its own run alone, which wasn't lied to."""
    runs = call_lines.runs_in(call_lines.lines_of(scene.calls))
    return scene.is_judged and runs == {scene.run} and jobs_of(scene) != b""


def drop(bench, scene) -> None:
    """Judges the log of a scene that is over, and removes its files, unless the log is refused."""
    tally = judge_all([scene], bench.skipped)
    bench.dropped.append(tally)
    if not tally.wrong:
        shutil.rmtree(scene.room)
        if os.path.exists(scene.calls):
            os.unlink(scene.calls)


def judge_bench(bench, left_out: tuple, module: str) -> Tally:
    """Judges the logs of all scenes that a test of this module has made, if it isn't left out."""
    last = judge_all(() if module in left_out else bench.made, bench.skipped)
    tallies = [*bench.dropped, last]
    wrongs = [it.wrong for it in tallies if it.wrong]
    return Tally(sum(it.events for it in tallies), sum(it.logs for it in tallies),
                 sum(it.left_out for it in tallies), "; ".join(wrongs[:3]) or None)


def judge_all(scenes: Iterable, skipped: List[str]) -> Tally:
    """Judges the logs of these scenes, each of which has `calls`, `run`, `jobs` and `is_judged`. If
    the proved judge is left out, `skipped` gets a line."""
    by_judge, logged = has_judge(), [it for it in scenes if os.path.exists(it.calls)]
    mine = [it for it in logged if can_judge(it)]
    found = [judge(it, by_judge) for it in mine]
    is_long = any(len(text_of(it.events)) > MOST for it in found)
    skipped += [TOO_LONG] if by_judge and is_long else [] if by_judge else [NO_JUDGE]
    wrongs = [f"{scene.calls}: {it.wrong}" for scene, it in zip(mine, found) if it.wrong]
    shown = f"{len(wrongs)} logs are no runs: " + "; ".join(wrongs[:3])
    return Tally(sum(len(it.events) for it in found), len(mine), len(logged) - len(mine),
                 shown if wrongs else None)


def told(tally: Tally) -> dict:
    """Returns the numbers of a tally, by their names."""
    return {"events": tally.events, "logs": tally.logs, "left_out": tally.left_out}


def total(tallies: Iterable[dict]) -> str:
    """Returns what came of all logs, in words."""
    every = list(tallies)
    events, logs, left_out = (sum(it.get(name, 0) for it in every)
                              for name in ("events", "logs", "left_out"))
    return f"{logs} logs with {events} events judged, {left_out} logs left out"
