"""The model of crates/amo_safety_by_journals/specs, with the rule Clearance: which events may follow
each other. It finds an order for the events of a log, and no verdict rests on it: that is the
task of the proved judge, `amo_show judge --run`."""

from typing import Dict, List, NamedTuple, Optional, Set, Tuple, Union

# The judge's workers. No worker has the number 0, so its journal is empty.
NOBODY, MOST_WORKERS = 0, 16
WORKERS = range(NOBODY, MOST_WORKERS + 1)

Attempt = Tuple[int, int]  # worker and serial number
Handing = Tuple[int, int, int]  # with the line


class Clearing(NamedTuple):
    """A process whose intent is acknowledged, and the journals at which it has looked since."""

    serial: int
    line: int
    seen: Set[int]


class Simple(NamedTuple):
    """A process without an attempt."""

    name: str


AWAY, FREE = Simple("away"), Simple("free")
Stage = Union[Simple, Clearing]


class Site:
    """The state after some events."""

    def __init__(self) -> None:
        self.kept: Dict[int, List[int]] = {it: [] for it in WORKERS}
        self.places: Dict[int, Dict[int, List[int]]] = {it: {} for it in WORKERS}
        self.stages: Dict[int, Stage] = {it: AWAY for it in WORKERS}
        self.opened: Set[Attempt] = set()
        self.alive: List[Handing] = []
        self.performed: Set[Handing] = set()

    def holds(self, worker: int) -> Optional[Clearing]:
        """Returns the attempt that the worker's process has in hand, if it has one."""
        stage = self.stages[worker]
        return stage if isinstance(stage, Clearing) else None

    def keep(self, worker: int, line: int) -> None:
        self.kept[worker].append(line)
        self.places[worker].setdefault(line, []).append(len(self.kept[worker]))

    def is_clear(self, worker: int, other: int) -> bool:
        """Returns whether nothing in the other's journal stands against the worker's attempt."""
        held = self.holds(worker)
        if held is None:
            return False
        attempts = [(other, it) for it in self.places[other].get(held.line, [])]
        return all(it in self.opened or it == (worker, held.serial) for it in attempts)

    def is_over(self, attempt: Attempt) -> bool:
        worker, serial = attempt
        held = self.holds(worker)
        handed = [*self.alive, *self.performed]
        return (1 <= serial <= len(self.kept[worker]) and not (held and held.serial == serial)
                and all(it[:2] != attempt for it in handed))

    def may_follow(self, name: str, *given: int) -> bool:
        """Returns whether the event of this name may come next."""
        if name == "begins" or name == "lands":
            return self.stages[given[0]] == AWAY
        if name == "intends":
            return self.stages[given[0]] == FREE
        if name == "looks":
            return self.is_clear(*given)
        if name == "hands-over":
            held = self.holds(given[0])
            return held is not None and held.seen >= set(WORKERS)
        if name == "performs":
            handing = given[0], given[1], given[2]
            return handing in self.alive and handing not in self.performed
        if name == "opens":
            return self.is_over((given[0], given[1]))
        return name in ("dies", "ends")

    def take(self, name: str, *given: int) -> None:
        """Takes the event of this name, whether or not it may come next."""
        worker = given[0]
        if name in ("dies", "begins"):
            self.stages[worker] = AWAY if name == "dies" else FREE
        elif name == "lands":
            self.keep(*given)
        elif name == "intends":
            self.keep(*given)
            self.stages[worker] = Clearing(len(self.kept[worker]), given[1], set())
        elif name == "looks" and (held := self.holds(worker)):
            held.seen.add(given[1])
        elif name == "hands-over":
            self.hand_over(worker)
        elif name == "performs":
            self.performed.add((worker, given[1], given[2]))
        elif name == "ends":
            del self.alive[worker]
        elif name == "opens":
            self.opened.add((worker, given[1]))

    def hand_over(self, worker: int) -> None:
        if held := self.holds(worker):
            self.alive.insert(0, (worker, held.serial, held.line))
        self.stages[worker] = FREE
