"""Controls: mistakes, each of which the harness must show. Begin with `CONTROLS`."""

from __future__ import annotations

from typing import Dict, NamedTuple

from cuts import Setting

TWICE, REFUSED = "performed twice", "refused"
MISTAKEN = Setting(kills=0.0, logged=0.0, lines=200)


class Control(NamedTuple):
    """A mistake: what it is, and the breach that must show. An empty one: what shows is counted."""

    what: str
    setting: Setting
    breach: str


CONTROLS: Dict[str, Control] = {
    "no-syncs": Control("amo_worker without its syncs", MISTAKEN._replace(syncs="none"), TWICE),
    "unacknowledged": Control("amo_worker acknowledges an append after its write alone",
                              MISTAKEN._replace(syncs="unacknowledged"), TWICE),
    "joined": Control("the tests' own worker: it goes on with registers of an earlier boot, without"
                      " clearance", MISTAKEN._replace(mistake="joined", lines=60), TWICE),
    "journal": Control("bench/worker_flock, a journal under flock, whose syncs do nothing",
                       MISTAKEN._replace(partner="journal", syncs="none"), TWICE),
    "parallel": Control("GNU parallel with --resume", MISTAKEN._replace(partner="parallel"), TWICE),
    "deaf": Control("amo_worker goes on after a sync has failed",
                    MISTAKEN._replace(syncs="deaf", faults=1.0), TWICE),
    "lies": Control("a disk that acknowledges a flush and does nothing",
                    MISTAKEN._replace(lies=True), TWICE),
    "late-intent": Control("the tests' own worker: it records an intent after the act",
                           MISTAKEN._replace(mistake="intent_after_the_act", lines=60), TWICE),
    "record": Control("amo_worker gives `record` its name before a sync",
                      MISTAKEN._replace(syncs="record", options="noauto_da_alloc"), REFUSED),
    "writeback": Control("a mount with data=writeback, which amo_jobs refuses",
                         MISTAKEN._replace(options="data=writeback"), "crew ended with 77"),
    "folders": Control("amo_worker, whose syncs of folders do nothing",
                       MISTAKEN._replace(syncs="folders"), ""),
}
SHORT = "unacknowledged"  # of the gate's form
