"""One journal on a disk, cell by cell: writes and syncs that fail, kills, stops, torn cells.

The file is a row of cells. Cell 2k is the commit byte of append k, and cell 2k + 1 its records.
Several cells share a page. A sync that fails may leave a page clean in memory and unwritten on the
disk, as Linux does. A clean page may leave memory, and is then read anew. A stop of the machine
leaves of each cell that wasn't synced the old or the new value, and a torn value of those that the
last write touched.
"""

from __future__ import annotations

from functools import partial
from typing import FrozenSet, List, NamedTuple, Optional, Sequence, Tuple

from search import Case, Found, Steps, control, design, replaced, search

QUESTION = "Does a journal keep what was acknowledged, if syncs fail and the power is cut?"
CLOSED, OPEN, NOTHING, TORN = 0, 1, 0, 9  # values of cells; records are numbers from 11

# The next step of the process that holds the journal's lock.
OPENING = "writes the last open commit byte again"
REOPENED = "syncs that byte"
CUTTING = "cuts the end"
CUT = "syncs the cut"
CLOSING = "closes the commit byte"
CLOSED_IT = "syncs the closed byte"
READY = "is ready to append"
WRITTEN = "syncs the records"
COMMITTING = "opens the commit byte"
COMMITTED = "syncs the open byte"

Cells = Tuple[int, ...]


class Disk(NamedTuple):
    """The file's cells in memory and on the disk, and the pages that a sync has to write."""
    memory: Cells
    stored: Cells
    dirty: FrozenSet[int] = frozenset()


class Holder(NamedTuple):
    """The process that holds the lock."""
    phase: str
    appends: int = 0
    torn: Tuple[int, ...] = ()  # the cells that its last write touched


class State(NamedTuple):
    """The disk, the holder, and what must not get lost."""
    disk: Disk
    holder: Optional[Holder] = None
    acknowledged: Cells = ()  # records whose append returned without an error
    shown: Cells = ()  # the records on which a lister of doubts has rested
    tries: int = 0


class Write(NamedTuple):
    """The value that a write stores into a cell."""
    place: int
    value: int


class Bounds(NamedTuple):
    """The limits of a search. Kills, stops and failures have none."""
    appends: int
    tries: int
    cells_a_page: int

    def cells(self) -> int:
        """Returns the number of cells of the file."""
        return 2 * self.appends + 1

    def page_of(self, place: int) -> int:
        """Returns the page of a cell."""
        return place // self.cells_a_page


SHORT = Bounds(appends=3, tries=4, cells_a_page=3)
LONG = Bounds(appends=4, tries=5, cells_a_page=3)
SMALL = Bounds(appends=2, tries=3, cells_a_page=1)
LARGE = Bounds(appends=2, tries=3, cells_a_page=5)


class Rules(NamedTuple):
    """The rules of recovery and of appends. A control breaks one of them."""
    rewrites: bool = True  # the holder writes the last open commit byte again, before it goes on
    syncs_first: bool = True  # and syncs before it cuts
    lister_rewrites: bool = True  # a lister of doubts does so too
    lister_syncs: bool = True
    one_write: bool = False  # the records and the open commit byte in one write
    syncs_records: bool = True  # the records are synced before the commit byte is opened


def visible(cells: Cells) -> Cells:
    """Returns the records that a reader finds."""
    count = 0
    while 2 * count + 1 < len(cells) and cells[2 * count] == OPEN:
        count += 1
    return cells[1:2 * count:2]


def written(disk: Disk, writes: Sequence[Write], bounds: Bounds) -> Disk:
    """Returns the disk after these writes, which are in memory alone."""
    memory = list(disk.memory)
    for write in writes:
        memory[write.place] = write.value
    dirty = disk.dirty | {bounds.page_of(write.place) for write in writes}
    return Disk(tuple(memory), disk.stored, dirty)


def stored_page(disk: Disk, stored: Cells, page: int, bounds: Bounds) -> Cells:
    """Returns the stored cells after this page was written."""
    return tuple(disk.memory[place] if bounds.page_of(place) == page else cell
                 for place, cell in enumerate(stored))


def synced(disk: Disk, bounds: Bounds) -> Disk:
    """Returns the disk after a sync."""
    stored = disk.stored
    for page in disk.dirty:
        stored = stored_page(disk, stored, page, bounds)
    return Disk(disk.memory, stored)


def sync_failed(disk: Disk, bounds: Bounds) -> List[Disk]:
    """Returns what a failed sync may leave: all pages are clean, and any of them are stored."""
    found = {disk.stored}
    for page in sorted(disk.dirty):
        found |= {stored_page(disk, stored, page, bounds) for stored in found}
    return [Disk(disk.memory, stored) for stored in sorted(found)]


def stopped(disk: Disk, torn: Tuple[int, ...], bounds: Bounds) -> List[Disk]:
    """Returns what a stop of the machine may leave."""
    found = {disk.stored}
    for place, cell in enumerate(disk.memory):
        if bounds.page_of(place) in disk.dirty and cell != disk.stored[place]:
            values = {cell} | ({OPEN, TORN} if place in torn else set())
            found |= {replaced(cells, place, value) for cells in found for value in values}
    return [Disk(cells, cells) for cells in sorted(found)]


def lost(state: State) -> str:
    """Returns what a journal has lost, once it is recovered or nobody holds it."""
    if state.holder is not None and state.holder.phase != READY:
        return ""
    found = visible(state.disk.memory)
    if TORN in found:
        return "a torn append counts"
    if any(record not in found for record in state.acknowledged):
        return "an append that was acknowledged is lost"
    if found[:len(state.shown)] != state.shown:
        return "an append that was listed is lost, or is another one"
    return ""


def last_gate(disk: Disk) -> List[Write]:
    """Returns the write of the last open commit byte, with the value that it has."""
    count = len(visible(disk.memory))
    return [Write(2 * count - 2, OPEN)] if count else []


def absent_steps(state: State, bounds: Bounds, rules: Rules) -> Steps:
    """Yields what may happen while nobody holds the lock for an append."""
    yield "a holder opens the journal", state._replace(holder=Holder(OPENING))
    found = visible(state.disk.memory)
    if len(found) <= len(state.shown):
        return
    if not rules.lister_syncs:
        yield "a lister rests on what it reads", state._replace(shown=found)
        return
    disk = state.disk
    if rules.lister_rewrites:
        disk = written(disk, last_gate(disk), bounds)
    yield "a lister recovers, and rests on what it reads", state._replace(
        disk=synced(disk, bounds), shown=found)
    for after in sync_failed(disk, bounds):
        yield "a lister's sync fails", state._replace(disk=after)


def sync_steps(state: State, then: Holder, bounds: Bounds,
               acknowledged: Cells = ()) -> Steps:
    """Yields what may become of a sync: the holder goes on, or it fails and the holder ends."""
    holder = state.holder
    yield f"the holder {holder.phase}", state._replace(
        disk=synced(state.disk, bounds), holder=then,
        acknowledged=state.acknowledged + acknowledged)
    for disk in sync_failed(state.disk, bounds):
        yield f"the holder {holder.phase}: it FAILS", state._replace(disk=disk, holder=None)


def write_step(state: State, writes: Sequence[Write], then: Holder, bounds: Bounds) -> Steps:
    """Yields a write of the holder, or only its next phase if there is nothing to write."""
    disk = written(state.disk, writes, bounds) if writes else state.disk
    yield f"the holder {state.holder.phase}", state._replace(disk=disk, holder=then)


def recovery_steps(state: State, bounds: Bounds, rules: Rules) -> Steps:
    """Yields the next step of a holder that recovers the journal."""
    phase, count = state.holder.phase, len(visible(state.disk.memory))
    if phase == OPENING:
        writes = last_gate(state.disk) if rules.rewrites else []
        yield from write_step(state, writes, Holder(REOPENED), bounds)
    elif phase == REOPENED and rules.syncs_first:
        yield from sync_steps(state, Holder(CUTTING), bounds)
    elif phase == REOPENED:
        yield "the holder doesn't sync", state._replace(holder=Holder(CUTTING))
    elif phase == CUTTING:
        writes = [Write(place, NOTHING) for place in range(2 * count, bounds.cells())
                  if state.disk.memory[place] != NOTHING]
        yield from write_step(state, writes, Holder(CUT, count), bounds)
    elif phase == CUT:
        yield from sync_steps(state, Holder(CLOSING, state.holder.appends), bounds)
    elif phase == CLOSING:
        place = 2 * state.holder.appends
        then = Holder(CLOSED_IT, state.holder.appends, (place,))
        yield from write_step(state, [Write(place, CLOSED)], then, bounds)
    elif phase == CLOSED_IT:
        yield from sync_steps(state, Holder(READY, state.holder.appends), bounds)


def append_steps(state: State, bounds: Bounds, rules: Rules) -> Steps:
    """Yields the next step of a holder that appends."""
    count = state.holder.appends
    gate, place = 2 * count, 2 * count + 1
    if state.holder.phase == READY:
        if count < bounds.appends and state.tries < bounds.tries:
            yield from begin_append(state, bounds, rules)
    elif state.holder.phase == WRITTEN and not rules.syncs_records:
        yield "the holder doesn't sync", state._replace(holder=Holder(COMMITTING, count))
    elif state.holder.phase == WRITTEN:
        yield from sync_steps(state, Holder(COMMITTING, count), bounds)
    elif state.holder.phase == COMMITTING:
        yield from write_step(state, [Write(gate, OPEN)], Holder(COMMITTED, count, (gate,)), bounds)
    elif state.holder.phase == COMMITTED:
        yield from sync_steps(state, Holder(READY, count + 1), bounds,
                              (state.disk.memory[place],))


def begin_append(state: State, bounds: Bounds, rules: Rules) -> Steps:
    """Yields the write of an append's records and of the next commit byte, which is closed."""
    count = state.holder.appends
    gate, place = 2 * count, 2 * count + 1
    record = count + 1 + 10 * (state.tries + 1)  # no two appends have the same number
    tried = state._replace(tries=state.tries + 1)
    writes = [Write(place, record), Write(place + 1, CLOSED)]
    if rules.one_write:
        disk = written(state.disk, [*writes, Write(gate, OPEN)], bounds)
        yield "the holder writes the append at once", tried._replace(
            disk=disk, holder=Holder(COMMITTED, count, (gate, place)))
        return
    disk = written(state.disk, writes, bounds)
    yield "the holder writes the records", tried._replace(
        disk=disk, holder=Holder(WRITTEN, count, (place, place + 1)))
    half = written(state.disk, writes[:1], bounds)
    yield "the holder writes the records: it FAILS halfway", tried._replace(disk=half, holder=None)


def machine_steps(state: State, bounds: Bounds) -> Steps:
    """Yields the clean pages that leave memory, and the stops of the machine."""
    disk = state.disk
    if state.holder is None:
        for page in range(bounds.page_of(bounds.cells() - 1) + 1):
            memory = tuple(disk.stored[place] if bounds.page_of(place) == page else cell
                           for place, cell in enumerate(disk.memory))
            if page not in disk.dirty and memory != disk.memory:
                yield f"page {page + 1} leaves memory", state._replace(
                    disk=disk._replace(memory=memory))
    torn = state.holder.torn if state.holder else ()
    for after in stopped(disk, torn, bounds):
        yield "the machine stops", state._replace(disk=after, holder=None)


def steps(state: State, bounds: Bounds, rules: Rules) -> Steps:
    """Yields all that may happen next."""
    if state.holder is None:
        yield from absent_steps(state, bounds, rules)
    else:
        yield "the holder is killed", state._replace(holder=None)
        yield from recovery_steps(state, bounds, rules)
        yield from append_steps(state, bounds, rules)
    yield from machine_steps(state, bounds)


def find(rules: Rules, bounds: Bounds) -> Found:
    """Searches with these rules, within these bounds."""
    empty = (NOTHING,) * bounds.cells()
    return search(State(Disk(empty, empty)), partial(steps, bounds=bounds, rules=rules), lost)


def cases() -> List[Case]:
    """Returns the designs and the controls."""
    return [
        design("design", "recovery and appends; failed syncs, kills and stops", find, Rules(),
               SHORT, LONG),
        design("small-pages", "each cell is a page", find, Rules(), SMALL, SHORT._replace(
            cells_a_page=1)),
        design("large-pages", "the file is one page", find, Rules(), LARGE, SHORT._replace(
            cells_a_page=7)),
        control("not-rewritten", "a holder doesn't write the last open commit byte again", find,
                Rules(rewrites=False, syncs_first=False), SHORT),
        control("synced-alone", "a holder syncs instead, and doesn't write that byte again", find,
                Rules(rewrites=False), SHORT),
        control("lister-not-rewriting", "a lister doesn't write that byte again", find,
                Rules(lister_rewrites=False), SHORT),
        control("lister-not-syncing", "a lister rests on what it reads", find,
                Rules(lister_syncs=False), SHORT),
        control("one-write", "records and open commit byte in one write", find,
                Rules(one_write=True), SHORT),
        control("records-not-synced", "the commit byte is opened before the records are synced",
                find, Rules(syncs_records=False), SHORT),
    ]
