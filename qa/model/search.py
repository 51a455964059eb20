"""Searches all states of a model breadth first, so that the first violation is a nearest one.

A model is a first state, a function that returns the steps from a state, and a function that
returns what is wrong with a state. States are compared whole, never by a hash alone.
"""

from __future__ import annotations

from typing import (
    Any, Callable, Hashable, Iterable, List, NamedTuple, Optional, Tuple, TypeVar
)

State = TypeVar("State", bound=Hashable)
Steps = Iterable[Tuple[str, State]]  # of each step its label, and the state after it


class Found(NamedTuple):
    """The result of a search: a violation with the steps that lead to it, or nothing."""
    states: int
    is_exhausted: bool  # no state is left to look at
    violation: str = ""  # empty if no state is wrong
    trace: Tuple[str, ...] = ()


class Case(NamedTuple):
    """One search of a model: a design, or a control, a mistake that the search must find."""
    name: str
    what: str
    is_control: bool
    find: Callable[[Any, Any], Found]  # from rules and bounds
    rules: Any
    short: Any  # bounds; None: the search isn't part of the short form
    long: Any


def design(name: str, what: str, find: Callable, rules: Any, short: Any, long: Any) -> Case:
    """Returns a search that must find nothing."""
    return Case(name, what, False, find, rules, short, long)


def control(name: str, what: str, find: Callable, rules: Any, bounds: Any) -> Case:
    """Returns a search that must find a violation. Larger bounds would show the same one."""
    return Case(name, what, True, find, rules, bounds, bounds)


def search(first: State, steps: Callable[[State], Steps], violation: Callable[[State], str],
           most: Optional[int] = None) -> Found:
    """Searches from the first state until a state is wrong, or no state or no room is left.

    `violation` returns an empty text for a state that is right. `most` bounds the states kept.
    """
    states, parents, known = [first], [0], {first}
    wrong = violation(first)
    for place, state in enumerate(states):  # the list grows meanwhile
        if wrong or (most is not None and len(states) > most):
            break
        for _, after in steps(state):
            if after in known:
                continue
            known.add(after)
            states.append(after)
            parents.append(place)
            wrong = violation(after)
            if wrong:
                break
    else:
        return Found(len(states), True)
    trace = labels(states, parents, steps) if wrong else ()
    return Found(len(states), False, wrong, trace)


def labels(states: List[State], parents: List[int],
           steps: Callable[[State], Steps]) -> Tuple[str, ...]:
    """Returns the labels of the steps that lead from the first state to the last one."""
    found, place = [], len(states) - 1
    while place:
        before, after = states[parents[place]], states[place]
        found.append(next(label for label, state in steps(before) if state == after))
        place = parents[place]
    return tuple(reversed(found))


def replaced(items: tuple, place: int, item: object) -> tuple:
    """Returns a tuple with another item at this place."""
    return items[:place] + (item,) + items[place + 1:]
