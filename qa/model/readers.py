"""A reader without the journal's lock, byte by byte, next to the process that appends.

A read takes time, so it may show bytes that never stood there at once. If a reader would refuse
the bytes that it read, it looks again, from the last whole append on, by a read that begins after
the first one ended. It refuses the journal only if it finds the same bytes.

The file is a text. An append is a commit byte (`+` open, `-` closed), one letter in place of its
records and its checksum, and `.` in place of the line feed. `?` is a byte that a broken disk
changed; it may come into an append that was acknowledged.
"""

from __future__ import annotations

from functools import partial
from typing import List, NamedTuple, Optional, Tuple

from search import Case, Found, Steps, control, design, search

QUESTION = "Does a reader beside a writer refuse healthy journals, or accept damaged ones?"
OPEN, CLOSED, END, DAMAGED = "+", "-", ".", "?"
SIZE = 3  # bytes of an append
ACCEPTED, REFUSED = "accepted", "refused"


class Look(NamedTuple):
    """One read of the file, from the beginning of an append to the file's end."""
    start: int
    text: str = ""  # the bytes that it has read so far
    end: int = 0  # where the file ended when the last call of the read began
    before: Optional[str] = None  # what the look before this one found from the same place on
    was_damaged: bool = False  # the damage was there before the first look began


class State(NamedTuple):
    """The file, its writer, and one reader."""
    file: str = CLOSED
    acknowledged: int = 0  # appends
    damaged: bool = False
    look: Optional[Look] = None
    result: str = ""


class Bounds(NamedTuple):
    """The limits of a search."""
    appends: int


SHORT, LONG = Bounds(appends=3), Bounds(appends=4)


class Rules(NamedTuple):
    """The rules of readers. A control breaks one of them."""
    looks_again: bool = True
    compares: bool = True  # a second look refuses the same bytes alone, not all that is wrong
    reads_rest: bool = True  # the bytes after the first closed commit byte are looked at


class Judged(NamedTuple):
    """The result of a reader for the bytes that it found."""
    last: int  # where the last whole append begins
    is_wrong: bool


def letter(number: int) -> str:
    """Returns the records of an append."""
    return chr(ord("a") + number)


def judged(text: str, start: int, rules: Rules) -> Judged:
    """Returns what a reader makes of a text that begins at this place of the file."""
    place = 0
    while text[place:place + SIZE] == OPEN + letter((start + place) // SIZE) + END:
        place += SIZE
    last = max(place - SIZE, 0)
    return Judged(last, not may_end(text[place:], (start + place) // SIZE, rules))


def may_end(rest: str, number: int, rules: Rules) -> bool:
    """Returns whether a journal may end so, after its last whole append.

    One append that was cut off may stand after a closed commit byte, with its end and the next
    commit byte. Another byte than a commit byte may only be the last byte of the file.
    """
    if not rest:
        return True
    if rest[0] == OPEN:
        return False
    if not rules.reads_rest:
        return True
    if rest[0] == CLOSED:
        return (CLOSED + letter(number) + END + CLOSED).startswith(rest)
    return len(rest) == 1


def wrong_result(state: State) -> str:
    """Returns a text if the reader's result is wrong."""
    if state.result == REFUSED and not state.damaged:
        return "a healthy journal is refused"
    if state.result == ACCEPTED and state.look.was_damaged:
        return "a damaged journal is accepted"
    return ""


def writer_steps(state: State, bounds: Bounds) -> Steps:
    """Yields the next byte that the writer writes."""
    gate = state.acknowledged * SIZE
    whole = letter(state.acknowledged) + END + CLOSED
    written = len(state.file) - gate - 1
    if state.acknowledged == bounds.appends:
        return
    if written < len(whole):
        byte = whole[written]
        yield f"the writer writes `{byte}`", state._replace(file=state.file + byte)
    else:
        opened = state.file[:gate] + OPEN + state.file[gate + 1:]
        yield (f"the writer opens the commit byte of append {state.acknowledged + 1}",
               state._replace(file=opened, acknowledged=state.acknowledged + 1))


def damage_steps(state: State) -> Steps:
    """Yields the damage of one byte of an append that was acknowledged."""
    if state.damaged:
        return
    for place in range(state.acknowledged * SIZE):
        file = state.file[:place] + DAMAGED + state.file[place + 1:]
        yield f"byte {place + 1} is damaged", state._replace(file=file, damaged=True)


def reader_steps(state: State, rules: Rules) -> Steps:
    """Yields the next step of the reader.

    A call returns bytes up to the end of the file, as it was when the call began. A reader may ask
    for more than one call, or for the length that it found first.
    """
    look = state.look
    if look is None:
        yield "the reader begins", state._replace(look=Look(0, was_damaged=state.damaged))
    elif look.start + len(look.text) < look.end:
        byte = state.file[look.start + len(look.text)]
        yield f"the reader reads `{byte}`", with_look(state, look._replace(text=look.text + byte))
    else:
        if look.end < len(state.file):
            yield "the reader calls read", with_look(state, look._replace(end=len(state.file)))
        if look.text:
            yield judge_step(state, rules)


def with_look(state: State, look: Look) -> State:
    """Returns the state with another look of the reader."""
    return state._replace(look=look)


def judge_step(state: State, rules: Rules) -> Tuple[str, State]:
    """Returns what a reader does at the file's end: it accepts, refuses or looks again."""
    look = state.look
    verdict = judged(look.text, look.start, rules)
    if not verdict.is_wrong:
        return f"the reader accepts `{look.text}`", state._replace(result=ACCEPTED)
    is_same = look.before == look.text if rules.compares else look.before is not None
    if is_same or not rules.looks_again:
        return f"the reader refuses `{look.text}`", state._replace(result=REFUSED)
    start = look.start + verdict.last
    again = Look(start, "", start, look.text[verdict.last:], look.was_damaged)
    return f"the reader found `{look.text}`, and looks again", with_look(state, again)


def steps(state: State, bounds: Bounds, rules: Rules) -> Steps:
    """Yields all that may happen next, until the reader has a result."""
    if not state.result:
        yield from writer_steps(state, bounds)
        yield from damage_steps(state)
        yield from reader_steps(state, rules)


def find(rules: Rules, bounds: Bounds) -> Found:
    """Searches with these rules, within these bounds."""
    return search(State(), partial(steps, bounds=bounds, rules=rules), wrong_result)


def cases() -> List[Case]:
    """Returns the design and its controls."""
    return [
        design("design", "a reader that looks again, and refuses only the same bytes", find,
               Rules(), SHORT, LONG),
        control("one-look", "a reader refuses at its first look", find, Rules(looks_again=False),
                SHORT),
        control("second-look-alone", "a second look refuses other bytes too", find,
                Rules(compares=False), SHORT),
        control("rest-unread", "a reader stops at the first byte that opens no append", find,
                Rules(reads_rest=False), SHORT),
    ]
