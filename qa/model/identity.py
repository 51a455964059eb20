"""The folder of a list: crews that are given one of two folders, while folders move and go missing.

The mark of a list names the id and the path of its run. A crew without a mark makes the folder, or
takes one that fits. Then it makes the mark, unless another crew was faster. With a mark a crew goes
on only in that folder. If the folder of that id stands at another path, it may be a copy. It counts
as moved only if nothing stands at the old path, while the folder above is there. Otherwise the crew
is refused. The list has one line.

A user moves or copies the folder, or unmounts its file system, only while no crew lives. The user
puts nothing at the path of the mark, and leaves a folder that has a copy where it is. A backup that
is brought back, and a copy that takes the place of the folder, aren't covered.
"""

from __future__ import annotations

from functools import partial
from typing import List, NamedTuple, Optional, Tuple

from search import Case, Found, Steps, control, design, replaced, search

QUESTION = "Is a line performed once, if crews are given folders that move or go missing?"
HOME, OTHER = 0, 1  # two paths; the first is on a file system that may be unmounted
PATHS = {HOME: "the first path", OTHER: "the second path"}
AWAY, LOOKING, MARKING, READY = "away", "looking", "marking", "ready"
# The mount point of the first path's file system. An empty folder stands there without it.
ITSELF, PARENT, ABOVE = "the path itself", "the folder above", "further above"


class Folder(NamedTuple):
    """A folder. Without an id it isn't the folder of a run."""
    id: int = 0
    is_performed: bool = False  # its journals show that the line was performed


class Place(NamedTuple):
    """A path, as a process sees it."""
    folder: Optional[Folder]
    has_parent: bool = True


class Mark(NamedTuple):
    """The mark of the list."""
    id: int
    path: int


class Crew(NamedTuple):
    """A crew: the path that it was given, and the id with which it goes on there."""
    phase: str = AWAY
    path: int = HOME
    id: int = 0


class State(NamedTuple):
    """Folders, mark and crews."""
    folders: Tuple[Optional[Folder], Optional[Folder]] = (None, None)
    below: Optional[Folder] = None  # stands at the first path while nothing is mounted there
    is_mounted: bool = True
    mark: Optional[Mark] = None
    crews: Tuple[Crew, ...] = ()
    is_copied: bool = False
    ids: int = 0  # that were given so far
    performed: int = 0


class Bounds(NamedTuple):
    """The limits of a search."""
    crews: int
    ids: int


SHORT, LONG = Bounds(crews=2, ids=2), Bounds(crews=3, ids=4)


class Rules(NamedTuple):
    """The rules of identity. A control breaks one of them."""
    mount_point: str = ITSELF
    missing_is_refused: bool = True  # with a mark no folder is made
    copies_are_refused: bool = True  # an id at another path isn't enough
    needs_parent: bool = True  # a path of which the folder above is missing may come back
    mark_first: bool = True  # the mark is made before the line is performed
    mark_stays: bool = True  # a mark that another crew has made isn't replaced


def performed_twice(state: State) -> str:
    """Returns a text if the line was performed twice."""
    return "the line is performed twice" if state.performed > 1 else ""


def nothing(path: int, rules: Rules) -> Optional[Folder]:
    """Returns the entry at a path at which nobody has put anything: a mount point is a folder."""
    return Folder() if path == HOME and rules.mount_point == ITSELF else None


def place_at(state: State, path: int, rules: Rules) -> Place:
    """Returns what a process finds at a path."""
    if path == OTHER or state.is_mounted:
        return Place(state.folders[path])
    return Place(state.below, rules.mount_point != ABOVE)


def with_folder(state: State, path: int, folder: Optional[Folder]) -> State:
    """Returns the state with another folder at a path."""
    if path == HOME and not state.is_mounted:
        return state._replace(below=folder)
    return state._replace(folders=replaced(state.folders, path, folder))


def with_crew(state: State, number: int, crew: Crew) -> State:
    """Returns the state with another state of this crew."""
    return state._replace(crews=replaced(state.crews, number, crew))


def is_moved(state: State, crew: Crew, rules: Rules) -> bool:
    """Returns whether the crew has the folder of the mark at another path, and it was moved."""
    old = place_at(state, state.mark.path, rules)
    is_gone = old.folder is None and (old.has_parent or not rules.needs_parent)
    return is_gone or not rules.copies_are_refused


def look_step(state: State, number: int, bounds: Bounds, rules: Rules) -> Steps:
    """Yields what a crew does after it has looked at the mark and at the folder it was given."""
    crew, mark = state.crews[number], state.mark
    place = place_at(state, crew.path, rules)
    found = place.folder.id if place.folder else 0
    name = f"crew {number + 1}"
    may_make = place.has_parent and not found and state.ids < bounds.ids
    if mark is None and found:
        yield f"{name} finds a folder that fits", with_crew(
            state, number, crew._replace(phase=MARKING if rules.mark_first else READY, id=found))
    elif may_make and (mark is None or not rules.missing_is_refused):
        yield f"{name} makes the folder", made(state, number, rules)
    elif mark is not None and found == mark.id and crew.path == mark.path:
        yield f"{name} goes on", with_crew(state, number, crew._replace(phase=READY, id=found))
    elif mark is not None and found == mark.id and is_moved(state, crew, rules):
        moved = state._replace(mark=Mark(found, crew.path))
        yield f"{name} finds the folder moved, and rewrites the mark", with_crew(
            moved, number, crew._replace(phase=READY, id=found))
    else:
        yield f"{name} is refused", with_crew(state, number, Crew())


def made(state: State, number: int, rules: Rules) -> State:
    """Returns the state after a crew has made the folder that it was given."""
    crew, id = state.crews[number], state.ids + 1
    after = with_folder(state, crew.path, Folder(id))._replace(ids=id)
    if state.mark is not None:  # only in a control
        after = after._replace(mark=Mark(id, crew.path))
    has_mark = after.mark is not None or not rules.mark_first
    return with_crew(after, number, Crew(READY if has_mark else MARKING, crew.path, id))


def mark_step(state: State, number: int, rules: Rules) -> Steps:
    """Yields how a crew makes the mark, or looks anew because another crew has made it."""
    crew = state.crews[number]
    if state.mark is None or not rules.mark_stays:
        marked = state._replace(mark=Mark(crew.id, crew.path))
        yield f"crew {number + 1} makes the mark", with_crew(
            marked, number, crew._replace(phase=READY))
    else:
        yield f"crew {number + 1} finds a mark, and looks anew", with_crew(
            state, number, Crew(LOOKING, crew.path))


def ready_step(state: State, number: int, rules: Rules) -> Steps:
    """Yields what a crew does in the folder, whose id it compares once more."""
    crew = state.crews[number]
    folder = place_at(state, crew.path, rules).folder
    phase = AWAY if rules.mark_first else MARKING
    after = with_crew(state, number, Crew() if phase == AWAY else crew._replace(phase=phase))
    if folder is None or folder.id != crew.id or folder.is_performed:
        yield f"crew {number + 1} finds no open line", with_crew(state, number, Crew())
    else:
        yield f"crew {number + 1} PERFORMS the line", with_folder(
            after, crew.path, Folder(folder.id, True))._replace(performed=state.performed + 1)


def crew_steps(state: State, number: int, bounds: Bounds, rules: Rules) -> Steps:
    """Yields the next step of a crew."""
    crew = state.crews[number]
    if crew.phase == AWAY:
        for path, name in PATHS.items():
            yield f"crew {number + 1} starts with {name}", with_crew(
                state, number, Crew(LOOKING, path))
        return
    yield f"crew {number + 1} is killed", with_crew(state, number, Crew())
    if crew.phase == LOOKING:
        yield from look_step(state, number, bounds, rules)
    elif crew.phase == MARKING:
        yield from mark_step(state, number, rules)
    else:
        yield from ready_step(state, number, rules)


def user_steps(state: State, rules: Rules) -> Steps:
    """Yields what a user does with folders while no crew lives."""
    if any(crew.phase != AWAY for crew in state.crews):
        return
    yield from mount_step(state)
    if not state.is_copied:
        yield from move_steps(state, rules)


def mount_step(state: State) -> Steps:
    """Yields the mount of the first path's file system, or its end."""
    verb = "unmounted" if state.is_mounted else "mounted"
    yield f"the file system is {verb}", state._replace(is_mounted=not state.is_mounted)


def move_steps(state: State, rules: Rules) -> Steps:
    """Yields the copies and moves of a folder that has no copy."""
    for path in PATHS:
        folder, target = place_at(state, path, rules).folder, place_at(state, 1 - path, rules)
        is_free = target.has_parent and (target.folder is None or not target.folder.id)
        is_named = state.mark is not None and state.mark.path == 1 - path
        if folder is None or not folder.id or not is_free or is_named:
            continue
        copied = with_folder(state, 1 - path, folder)
        yield f"a user copies the folder to {PATHS[1 - path]}", copied._replace(is_copied=True)
        yield (f"a user moves the folder to {PATHS[1 - path]}",
               with_folder(copied, path, nothing(path, rules)))


def steps(state: State, bounds: Bounds, rules: Rules) -> Steps:
    """Yields all that may happen next."""
    for number in range(bounds.crews):
        yield from crew_steps(state, number, bounds, rules)
    yield from user_steps(state, rules)


def find(rules: Rules, bounds: Bounds) -> Found:
    """Searches with these rules, within these bounds."""
    home = nothing(HOME, rules)
    first = State((home, None), home, crews=(Crew(),) * bounds.crews)
    return search(first, partial(steps, bounds=bounds, rules=rules), performed_twice)


def cases() -> List[Case]:
    """Returns the designs and the controls."""
    above = Rules(mount_point=ABOVE)
    return [
        design("design", "the folder is a mount point", find, Rules(), SHORT, LONG),
        design("mounted-above", "the folder above isn't there without its file system", find,
               above, SHORT, LONG),
        control("missing-made", "a folder that is missing is made anew", find,
                above._replace(missing_is_refused=False), SHORT),
        control("copy-taken", "a folder with the id is taken wherever it stands", find,
                Rules(copies_are_refused=False), SHORT),
        control("parent-not-needed", "a folder counts as moved if the folder above is gone too",
                find, above._replace(needs_parent=False), SHORT),
        control("parent-mounted", "the folder above is a mount point, and stays when it is empty",
                find, Rules(mount_point=PARENT), SHORT),
        control("mark-late", "the mark is made after the line is performed", find,
                Rules(mark_first=False), SHORT),
        control("mark-replaced", "a crew replaces the mark of a faster one", find,
                Rules(mark_stays=False), SHORT),
    ]
