"""The pace of amo_jobs over a list, next to a flock script and to `xargs -P`: `speed` of
bench/jobs.

The contenders take turns in each round, on the same disk. A number is the median of the rounds. A
ratio is the median of the ratios of two runs of one round. The lowest and the highest one follow
it.
"""

from __future__ import annotations

import os
import signal
import subprocess
import sys
import time
from statistics import median
from typing import Any, Dict, List, NamedTuple, Sequence, Tuple

from contenders import Amo, content, Flock, HERE, Plain
from sessions import Session

SYNC = 2  # milliseconds that a slowed sync takes
SYNCS_OF_A_LINE = 2
TASKS, WORKERS = 100_000, 4  # of the long list


class Row(NamedTuple):
    """A measurement: how long a job waits, in seconds, by how many workers, and whether syncs are
    slowed. `wanted` are the lowest ratios to the flock script and to xargs."""
    wait: str
    workers: int
    is_slow: bool = False
    wanted: Tuple[float, float] = (0, 0)

    def title(self) -> str:
        """Returns the first cells of the row."""
        syncs = f"{SYNC} ms" if self.is_slow else "as they are"
        return f"{float(self.wait) * 1000:.0f} ms | {syncs} | {self.workers}"


ROWS = [Row("0", 4, wanted=(1, 0)), Row("0.001", 4, wanted=(1, 0)),
        Row("0.1", 4, wanted=(0, 0.95)), Row("0", 4, True, (1.3, 0)), Row("0", 16, True, (1.3, 0))]


def slow_syncs(folder: str) -> List[Tuple[str, str]]:
    """Builds bench/slow_sync.c, and returns what the environment needs for it."""
    library, compiler = f"{folder}/slow_sync.so", os.environ.get("CC", "cc")
    words = [compiler, "-shared", "-fPIC", "-O2", "-o", library, f"{HERE}/slow_sync.c"]
    if subprocess.run(words, stdin=subprocess.DEVNULL).returncode:
        sys.exit("bench/slow_sync.c: it can't be built; install a C compiler, or set CC")
    return [("LD_PRELOAD", library), ("SLOW_SYNC", str(SYNC * 1000))]


def rate(given: Any, contender: Any, row: Row, more: Sequence[Tuple[str, str]]) -> float:
    """Returns the jobs a second of one run, from the first job's effect to the last one's, without
    the first job of each worker. The folder of the file of effects was last changed when the first
    job made the file."""
    count = max(given.jobs // (10 if row.wait == "0.1" else 1), 10 * row.workers)
    given.workers = row.workers
    with Session(given, contender, [row.wait] * count, more=more if row.is_slow else ()) as session:
        found = session.see_out()
        if any(found) or session.starts > 1:
            sys.exit(f"{contender.name}: {session.starts} starts, {found} without kills:"
                     f" {content(session.room + '/said')[-500:]!r}")
        first, last = (os.stat(it).st_mtime
                       for it in (os.path.dirname(session.effects), session.effects))
    found_rate = (count - row.workers) / (last - first)
    if row.is_slow and contender is not Plain:
        most = row.workers * 1000 / SYNC / SYNCS_OF_A_LINE
        if found_rate > 1.1 * most:
            sys.exit(f"{contender.name}: {found_rate:.0f} lines a second, though syncs allow {most:.0f}:"
                     " its syncs aren't slowed; build it so that LD_PRELOAD reaches it")
    return found_rate


def ratio(above: List[float], below: List[float], wanted: float) -> str:
    """Returns a cell: the median of the ratios, the lowest and the highest, and what was wanted if
    the median is below it."""
    found = [a / b for a, b in zip(above, below)]
    missed = f", wanted {wanted:.2f}" if median(found) < wanted else ""
    return f"{median(found):.2f} ({min(found):.2f} to {max(found):.2f}){missed}"


def speed(given: Any, contenders: List[Any]) -> None:
    """Prints the table of rates."""
    more = slow_syncs(given.room)
    rates: Dict[Tuple[Row, Any], List[float]] = {(row, it): [] for row in ROWS for it in contenders}
    for _ in range(given.runs):
        for row, it in rates:
            rates[row, it].append(rate(given, it, row, more))
    titles = " | ".join(it.title for it in contenders)
    others = [it for it in (Flock, Plain) if it in contenders and Amo in contenders]
    ratios = "".join(f" | to {it.title}" for it in others)
    print(f"\n| a job | a sync | workers | {titles}{ratios} |")
    print("|---|---|---|" + "---|" * (len(contenders) + len(others)))
    for row in ROWS:
        cells = [f"{median(rates[row, it]):,.0f}" for it in contenders]
        cells += [ratio(rates[row, Amo], rates[row, it], row.wanted[it is Plain]) for it in others]
        print(f"| {row.title()} | " + " | ".join(cells) + " |", flush=True)


def start(given: Any, _: Any) -> None:
    """Prints how long a crew takes to its first command, and `status`, on a long list."""
    given.workers, first, told = WORKERS, [], []  # type: int, List[float], List[float]
    for _ in range(given.runs):
        with Session(given, Amo, ["1"] * TASKS) as session:
            begun = time.time()
            session.start()
            while not os.path.exists(session.effects):
                time.sleep(0.001)
            first.append(os.stat(os.path.dirname(session.effects)).st_mtime - begun)
            session.crew.send_signal(signal.SIGTERM)
            session.crew.wait()
            begun = time.monotonic()
            subprocess.run(session.contender.status(), stdout=subprocess.DEVNULL)
            told.append(time.monotonic() - begun)
    print(f"\n| a list of {TASKS:,} lines, {WORKERS} workers | seconds (lowest to highest) | wanted |")
    print("|---|---|---|")
    for title, found, wanted in (("from the crew's start to its first command", first, 0.5),
                                 ("`amo_jobs status` after that", told, 0.2)):
        print(f"| {title} | {median(found):.2f} ({min(found):.2f} to {max(found):.2f}) | {wanted} |")
