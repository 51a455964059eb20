"""The counts in a round's header, against one journal on a healthy disk.

The header of a round counts, for each journal, the appends that its beginner read, except the last
one. All that is counted is kept, because an append begins only after the one before it is
acknowledged. A journal with fewer appends, or with other ones, is refused. So a healthy journal
must never be refused: neither by its own worker, nor by a beginner or a reader.
"""

from __future__ import annotations

from functools import partial
from typing import List, NamedTuple, Optional, Tuple

from journals import Journal
from search import Case, Found, Steps, control, design, search

QUESTION = "Is a healthy journal ever refused because of the counts in a round's header?"
GONE, READY, SYNCING = "gone", "ready", "syncing"  # the owner of the journal

Appends = Tuple[int, ...]  # numbers in place of checksums: no two appends have the same number


class State(NamedTuple):
    """The journal, the header, the owner, and a reader between its two reads."""
    journal: Journal = Journal()
    header: Appends = ()  # the appends that it counts
    owner: str = READY
    appends: int = 0
    stops: int = 0
    read_header: Optional[Appends] = None
    read_journal: Optional[Appends] = None
    refused: str = ""


class Bounds(NamedTuple):
    """The limits of a search."""
    appends: int
    stops: int


SHORT, LONG = Bounds(appends=4, stops=2), Bounds(appends=7, stops=4)


class Rules(NamedTuple):
    """The rules of counts. A control breaks one of them."""
    counts_last: bool = False  # the last append is counted too
    header_first: bool = True  # a reader reads the header before the journal


def refusal(state: State) -> str:
    """Returns who refused the journal; empty if nobody did."""
    return state.refused


def compared(state: State, reader: str, header: Appends, journal: Appends) -> State:
    """Returns the state after somebody has compared a journal with a header."""
    if journal[:len(header)] == header:
        return state
    return state._replace(refused=f"{reader} refuses a healthy journal")


def append_steps(state: State) -> Steps:
    """Yields what may become of an append of the owner."""
    number, journal = state.appends, state.journal
    counted = state._replace(appends=number + 1)
    yield (f"the owner appends {number}",
           counted._replace(journal=journal.acknowledged(number)))
    yield (f"the owner appends {number}, and syncs it",
           counted._replace(journal=journal.unconfirmed(number), owner=SYNCING))
    yield (f"the owner appends {number} and is killed before the sync",
           counted._replace(journal=journal.unconfirmed(number), owner=GONE))
    yield (f"the owner fails to append {number}, and ends",
           counted._replace(journal=journal.failed(number), owner=GONE))


def owner_steps(state: State, bounds: Bounds) -> Steps:
    """Yields the steps of the journal's own worker."""
    journal = state.journal
    if state.owner != GONE:
        yield "the owner is killed", state._replace(owner=GONE)
    if state.owner == READY and state.appends < bounds.appends:
        yield from append_steps(state)
    if state.owner == SYNCING:
        yield "the sync is done", state._replace(journal=journal.recovered(), owner=READY)
        yield ("the sync fails, the append vanishes, and the owner ends",
               state._replace(journal=Journal(journal.kept), owner=GONE))
    if state.owner == GONE:
        opened = state._replace(journal=journal.recovered(), owner=READY)
        yield ("another owner compares the journal with the header, and recovers it",
               compared(opened, "the owner", state.header, journal.visible()))


def vanish_step(state: State) -> Steps:
    """Yields the loss of an append that nobody syncs any more."""
    if state.owner == GONE and state.journal.loose:
        yield "the last append vanishes", state._replace(journal=Journal(state.journal.kept))


def round_step(state: State, rules: Rules) -> Steps:
    """Yields the beginning of a round by another worker."""
    found = state.journal.visible()
    header = found if rules.counts_last else found[:-1]
    begun = state._replace(header=header)
    yield (f"a round begins, and counts {len(header)} appends",
           compared(begun, "the beginner of a round", state.header, found))


def reader_steps(state: State, rules: Rules) -> Steps:
    """Yields the steps of a reader without the journal's lock."""
    found = state.journal.visible()
    idle = state._replace(read_header=None, read_journal=None)
    if state.read_header is not None:
        yield ("a reader reads the journal",
               compared(idle, "a reader", state.read_header, found))
    elif state.read_journal is not None:
        yield ("a reader reads the header",
               compared(idle, "a reader", state.header, state.read_journal))
    elif rules.header_first:
        yield "a reader reads the header", state._replace(read_header=state.header)
    else:
        yield "a reader reads the journal", state._replace(read_journal=found)


def stop_steps(state: State, bounds: Bounds) -> Steps:
    """Yields what a stop of the machine may leave."""
    if state.stops < bounds.stops:
        for journal in state.journal.stopped():
            yield "the machine stops", State(journal, state.header, GONE, state.appends,
                                             state.stops + 1)


def steps(state: State, bounds: Bounds, rules: Rules) -> Steps:
    """Yields all that may happen next."""
    yield from owner_steps(state, bounds)
    yield from vanish_step(state)
    yield from round_step(state, rules)
    yield from reader_steps(state, rules)
    yield from stop_steps(state, bounds)


def find(rules: Rules, bounds: Bounds) -> Found:
    """Searches with these rules, within these bounds."""
    return search(State(), partial(steps, bounds=bounds, rules=rules), refusal)


def cases() -> List[Case]:
    """Returns the design and its controls."""
    return [
        design("design", "all appends but the last are counted; the header is read first", find,
               Rules(), SHORT, LONG),
        control("last-append-counted", "the header counts the last append too", find,
                Rules(counts_last=True), SHORT),
        control("header-read-last", "a reader reads the header after the journal", find,
                Rules(header_first=False), SHORT),
    ]
