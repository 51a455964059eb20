"""The part of the command line that this package has: commands, with options and help."""

from __future__ import annotations

import argparse
import gc
import json
import sys
from typing import Any, Callable, Collection, Dict, List, Tuple, TYPE_CHECKING

from amo_jobs.settings import Settings
from amo_jobs.statuses import Status
from amo_jobs.worker import Program, version

if TYPE_CHECKING:
    from amo_watch.teller import Crew

# Each call imports its modules itself: a runner is started often, and needs none of them.


def report(settings: Settings, program: Program) -> int:
    """Prints the report of a run, as a page or as data, and returns the exit status."""
    from amo_jobs.run_folder import name_run
    from amo_watch.facts import facts_of
    from amo_watch.page import page_of
    name_run(settings, program)
    gc.disable()  # all that is made here is needed until the end, and 100,000 attempts are much
    facts = facts_of(settings, program, version())
    text = f"{json.dumps(facts)}\n" if settings.json else "".join(page_of(facts))
    sys.stdout.buffer.write(text.encode("utf-8", "replace"))
    return Status.DONE


def watch(settings: Settings, program: Program) -> int:
    """Shows a run while it goes on, and returns the exit status."""
    from amo_watch.live import watch as call
    return call(settings, program)


def told(settings: Settings, program: Program, made: Callable[[], "Crew"]) -> int:
    """Runs a crew, and tells others of it if that is asked for. Returns the crew's status."""
    if not (settings.metrics or settings.events or settings.notify):
        return made().run()
    from amo_watch.teller import told as call
    return call(settings, program, made)


CALLS: Dict[str, Callable[[Settings, Program], int]] = {"report": report, "watch": watch}
OPTIONS: List[Tuple[Collection[str], str, Dict[str, Any]]] = [
    (["crew"], "--metrics",
     dict(metavar="FILE",
          help="keep FILE up to date with numbers for Prometheus, every 5 seconds (default:"
               " none)")),
    # for amo_share: the numbers are of all its chunks that are here
    (["crew"], "--shared", dict(help=argparse.SUPPRESS)),
    (["crew"], "--events",
     dict(metavar="FILE",
          help="append a JSON object to FILE for each thing that happens, as"
               " docs/events.schema.json says (default: none)")),
    (["crew"], "--notify",
     dict(metavar="COMMAND",
          help="have a shell run COMMAND when the crew ends or stops, or when a line comes into"
               " doubt (default: none)")),
    (["report"], "--json",
     dict(action="store_true",
          help="print the same as one JSON object, as docs/report.schema.json says (default: an"
               " HTML page)")),
]
ABOUT = {
    "report": ("Prints a page that shows the whole run: counts, doubts, failures, restarts.",
               "report tonight.txt > report.html", "report --json tonight.txt"),
    "watch": ("Shows a run while it goes on. Keys: q ends the view, d shows doubts, s stops the"
              " crew.", "watch tonight.txt", "watch --run tonight.txt.run"),
}
