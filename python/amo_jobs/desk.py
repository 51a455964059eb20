"""The desk of a runner takes its reports and gives it orders. That is its supervisor, by pipes, or
the rules of a crew of one, in the same process (`OwnDesk` in `crew`)."""

from __future__ import annotations

import os
from math import inf
from typing import AbstractSet, List, Tuple

from amo_jobs import reports
from amo_jobs.messages import Screen
from amo_jobs.pipes import Reader, Writer
from amo_jobs.reports import Report
from amo_jobs.runner_state import Event, PassOn, Plain

LOCK, REPORTS, ORDERS = 3, 4, 5  # a runner's files, if it has a supervisor
EVENTS = {reports.GO: Plain.ACKNOWLEDGED, reports.STOP: Plain.STOP, reports.NEWS: Plain.NEWS}


def event_of(order: str) -> Event:
    """Returns the event that an order is."""
    word, _, number = order.partition(" ")
    return PassOn(int(number)) if word == reports.PASS else EVENTS[word]


class Desk:
    """The part that both have: events that the runner has to take next."""

    def __init__(self) -> None:
        self.events: List[Event] = []

    def show(self) -> float:
        """Shows how far the run is, if that is due here, and returns when it is due again."""
        return inf

    def files(self) -> Tuple[List[int], List[int]]:
        """Returns what is to be polled: to be read, and to be written."""
        return [], []

    def exchange(self, ready: AbstractSet[int]) -> None:
        """Takes the orders that there are, and sends what could not be sent before."""

    def report(self, report: Report) -> None:
        """Takes a report. Never blocks."""

    def signalled(self, number: int) -> None:
        """Takes a signal that this process got."""

    def close(self) -> None:
        """Sends the rest, however long that takes."""


class SupervisedDesk(Desk):
    """The pipes to and from a supervisor. If it is gone, messages go to standard error."""

    def __init__(self, worker: int, out: int, orders: int):
        super().__init__()
        self.worker, self.out, self.orders = worker, Writer(out), Reader(orders)

    def files(self) -> Tuple[List[int], List[int]]:
        return self.orders.files, self.out.files if self.out.unsent else []

    def exchange(self, ready: AbstractSet[int]) -> None:
        if not ready.isdisjoint(self.orders.files):
            self.events += [event_of(it.decode()) for it in self.orders.lines()]
            if not self.orders.files:
                self.desert()
        if self.out.unsent:
            self.send(b"")

    def desert(self) -> None:
        """Goes on without a supervisor. It is gone at the end of its orders, and if a report can't
        be sent."""
        self.out.close()
        self.events.append(Plain.DESERTED)

    def send(self, text: bytes) -> None:
        """Sends a report. The runner is held as long as one isn't sent."""
        was_held = bool(self.out.unsent)
        self.out.send(text)
        if not self.out.files:
            self.desert()
        elif was_held != bool(self.out.unsent):
            self.events.append(Plain.SENT if was_held else Plain.HELD)

    def report(self, report: Report) -> None:
        if self.out.files:
            self.send(reports.line_of(report))
        elif report.text and not report.is_end_in_order():
            Screen.tell(f"worker {self.worker}: {report.text}")

    def signalled(self, number: int) -> None:
        self.report(Report(reports.ASKED, code=number))
        self.events.append(Plain.STOP)

    def close(self) -> None:
        for file in self.out.files:
            os.set_blocking(file, True)
        self.out.send()
