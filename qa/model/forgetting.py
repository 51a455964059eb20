"""A run that is put away, step by step, with kills and stops of the machine between any two steps.

`forget` first writes a file `forgotten` into the run's folder. Then it renames the list, the folder
and the mark, in this order. Each step is on the disk before the next one begins. If `forget` is
begun again, it goes on, and syncs the steps that it finds done. A folder that is a mount point
can't be renamed. An operator may write a new list under the old name as soon as that name is free.
"""

from __future__ import annotations

import itertools
from functools import partial
from typing import List, NamedTuple, Optional, Tuple

from search import Case, Found, Steps, control, design, search

QUESTION = "May a run be put away in steps, each of which may be the last one for a while?"
FORGOTTEN, LIST, FOLDER, MARK = "forgotten", "list", "folder", "mark"  # steps, fields of Files
SAME, OTHER = "same", "other"  # a new list has the lines of the old one, or others


NAMES = {FORGOTTEN: "file `forgotten`", LIST: "list", FOLDER: "folder", MARK: "mark"}


class Files(NamedTuple):
    """The steps whose effect is there."""
    forgotten: bool = False  # the folder has the file `forgotten`
    list: bool = False  # the list is put away
    folder: bool = False  # the folder is renamed
    mark: bool = False  # the mark is put away


class Forget(NamedTuple):
    """A living `forget`: the step that it is at, and whether it only has to sync this step."""
    step: int
    syncs: bool = False


class State(NamedTuple):
    """The files in memory and on the disk, and what happened so far."""
    memory: Files = Files()
    disk: Files = Files()
    forget: Optional[Forget] = None
    new_list: str = ""  # under the old name
    wrong: str = ""
    is_over: bool = False  # a crew has begun a run of a new list


class Bounds(NamedTuple):
    """The limits of a search: it has none."""


class Rules(NamedTuple):
    """The rules of `forget`. A control breaks one of them."""
    order: Tuple[str, ...] = (FORGOTTEN, LIST, FOLDER, MARK)
    syncs: bool = True  # each step is synced
    syncs_found: bool = True  # a step that is found done is synced too
    spares_new: bool = True  # a new list isn't put away with the old one


def wrong(state: State) -> str:
    """Returns what went wrong; empty if nothing did."""
    return state.wrong


def is_listed(state: State) -> bool:
    """Returns whether a list has the old name."""
    return bool(state.new_list) or not state.memory.list


def begin_step(state: State) -> Steps:
    """Yields the start of `forget`. Without a mark it needs the folder of the run."""
    if state.forget is None and not (state.memory.mark and state.memory.folder):
        yield "forget starts", state._replace(forget=Forget(0))


def forget_steps(state: State, rules: Rules) -> Steps:
    """Yields the next step of `forget`."""
    place = state.forget.step
    step = rules.order[place]
    then = Forget(place + 1) if place + 1 < len(rules.order) else None
    if state.forget.syncs:
        synced = state.disk._replace(**{step: getattr(state.memory, step)})
        yield f"forget syncs the {NAMES[step]}", state._replace(disk=synced, forget=then)
    elif step == LIST and state.new_list and not rules.spares_new:
        yield "forget puts a new list away", state._replace(
            new_list="", forget=then, wrong="a new list is put away with the old one")
    elif getattr(state.memory, step):
        found = Forget(place, True) if rules.syncs and rules.syncs_found else then
        yield f"forget finds the {NAMES[step]} done", state._replace(forget=found)
    else:
        done = state.memory._replace(**{step: True})
        verb = "writes" if step == FORGOTTEN else "renames"
        yield f"forget {verb} the {NAMES[step]}", state._replace(
            memory=done, forget=Forget(place, True) if rules.syncs else then)


def stop_steps(state: State) -> Steps:
    """Yields what a stop of the machine may leave: each step that isn't synced, or not."""
    choices = [{before, after} for before, after in zip(state.disk, state.memory)]
    for kept in itertools.product(*map(sorted, choices)):
        files = Files(*kept)
        new_list = state.new_list if files.list else ""  # the old one has its name again
        yield "the machine stops", State(files, files, None, new_list, state.wrong)


def crew_result(state: State) -> State:
    """Returns the state after a crew was started with the list of the old name."""
    files, lines = state.memory, state.new_list
    if files.folder:
        if not files.mark:
            return state  # the folder is missing: refused
        if lines:
            return state._replace(is_over=True)
        return state._replace(wrong="each line of the old list is performed again")
    if files.forgotten or lines == OTHER:
        return state  # the run is put away, or the list isn't the one that was run: refused
    if lines == SAME:
        return state._replace(wrong="a new list counts as performed")
    return state  # the old run goes on


def steps(state: State, rules: Rules) -> Steps:
    """Yields all that may happen next."""
    if state.is_over:
        return
    yield from begin_step(state)
    if state.forget is not None:
        yield from forget_steps(state, rules)
        yield "forget is killed", state._replace(forget=None)
    yield from stop_steps(state)
    if is_listed(state):
        yield "a crew starts", crew_result(state)
    else:
        for lines in (SAME, OTHER):
            yield f"an operator writes a list, of {lines} lines", state._replace(new_list=lines)


def find(rules: Rules, _: Bounds) -> Found:
    """Searches with these rules."""
    return search(State(), partial(steps, rules=rules), wrong)


def cases() -> List[Case]:
    """Returns the design, the same for a mount point, and the controls."""
    mounted = Rules(order=(FORGOTTEN, LIST, MARK))
    list_last = Rules(order=(FORGOTTEN, FOLDER, MARK, LIST))
    no_file = Rules(order=(LIST, FOLDER, MARK))
    return [
        design("design", "the file `forgotten`, then list, folder and mark", find, Rules(),
               Bounds(), Bounds()),
        design("mount-point", "the folder can't be renamed", find, mounted, Bounds(), Bounds()),
        control("list-last", "the list is put away last", find, list_last, Bounds()),
        control("never-synced", "no step is synced", find, Rules(syncs=False), Bounds()),
        control("found-not-synced", "a step that is found done isn't synced", find,
                Rules(syncs_found=False), Bounds()),
        control("no-forgotten-file", "the file `forgotten` is left out", find, no_file, Bounds()),
        control("new-list-moved", "a list is put away whenever one has the name", find,
                Rules(spares_new=False), Bounds()),
    ]
