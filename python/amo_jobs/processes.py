"""The processes below this one: which of them belong to an attempt, who they are, signals to them.

Begin with `Family`. This process is a subreaper: whoever loses its parent becomes its child. So
nothing of an attempt is left exactly if none of its own children belongs to the attempt.
"""

from __future__ import annotations

import os
import re
from contextlib import suppress
from typing import (
    Callable, Collection, Dict, FrozenSet, Iterable, List, Optional, Sequence, Set, Tuple
)

from amo_jobs import calls
from amo_jobs.calls import Process
from amo_jobs.messages import lowered, visible

MOST_SWEEPS = 20  # by which a signal follows processes that start others meanwhile
INTERPRETER = r"(?:|ba|da|k|z)sh|(?:python|perl|ruby|php|lua|node)[\d.]*"
NOBODY: FrozenSet[Process] = frozenset()


class Family:
    """The children of this process, and all below them."""

    def __init__(self, may_leave: Collection[str] = ()):
        """Takes the names of programs that a command may leave behind, and has this process become
        a subreaper. Raises OSError if the system can't show or name processes."""
        calls.become_subreaper()
        self.may_leave, self.file = frozenset(may_leave), calls.open_children()

    def others(self, known: Sequence[int]) -> List[int]:
        """Returns the children, the dead ones too, without these numbers. Raises OSError."""
        found = calls.read_others(self.file, known[0] if known else 0)
        return [it for it in found if it not in known] if found else found

    def snapshot(self, known: Sequence[int]) -> FrozenSet[Process]:
        """Returns the children, without these numbers, so that later ones can be told from them.
        Raises OSError."""
        numbers = self.others(known)
        return frozenset(named_children(numbers)) if numbers else NOBODY

    def rest(self, before: Collection[Process], known: Sequence[int], own: int = 0,
             among: Optional[Collection[Process]] = None) -> List[Process]:
        """Returns the children that came after a snapshot, and all below them, without those that
        a command may leave behind and all below those. `own` is the command itself. If `among` is
        given, it has the children that count. Raises OSError."""
        numbers = self.others(known)
        if not numbers:
            return []
        roots = [it for it in named_children(numbers) if it not in before]
        roots = [it for it in roots if among is None or it in among]
        return below(roots, lambda it: bool(self.may_leave) and it.number != own
                     and calls.program_of(it.number) in self.may_leave)


def named(numbers: Iterable[int]) -> List[Process]:
    """Returns the processes with these numbers, as far as they are there."""
    found = [(it, calls.start_of(it)) for it in numbers]
    return [Process(number, start) for number, start in found if start is not None]


def named_children(numbers: Iterable[int]) -> List[Process]:
    """Returns this process's own children with these numbers. Nobody else reaps them, so each is
    there: one whose start can't be read, for want of a descriptor or of a right, has the start 0.
    """
    return [Process(it, calls.start_of(it) or 0) for it in numbers]


def below(roots: Iterable[Process], is_left_out: Callable[[Process], bool]) -> List[Process]:
    """Returns these processes and all below them, parents first. Of one that is left out, none
    below it is returned either."""
    found: List[Process] = []
    todo, known = list(roots), set()  # type: List[Process], Set[Process]
    while todo:
        process = todo.pop(0)
        if process not in known and not is_left_out(process):
            known.add(process)
            found.append(process)
            todo += named(calls.children_of(process.number))
    return found


def holders(run: str, names: Sequence[str]) -> Dict[str, List[str]]:
    """Returns for each of these attempts of a run the processes that hold the lock of its command,
    and those without one that only its runner sees, or its supervisor if the runner is gone. The
    system shows only the user's own processes."""
    run = os.path.realpath(run)
    found: Dict[str, List[Process]] = {f"{run}/command.{name}": [] for name in names}
    for process in named(map(int, filter(str.isdecimal, os.listdir("/proc") if found else []))):
        files = calls.files_of(process.number)
        if not any(it.startswith(f"{run}/runner.") for it in files):
            for path in set(files) & set(found):
                found[path].append(process)
    unseen = {it: unseen_of(run, it) for it in {name.split(".")[0] for name in names}}
    return {name: [described([it]) for it in [*found[f"{run}/command.{name}"],
                                              *unseen[name.split(".")[0]]]] for name in names}


def unseen_of(run: str, worker: str) -> List[Process]:
    """Returns the processes below the runner of a number, or below the supervisor if that runner is
    gone, without runners, workers, and those that hold the lock of a command."""
    keeper = signer(f"{run}/runner.{worker}") or signer(f"{run}/crew")
    children = named(calls.children_of(keeper)) if keeper else []
    own = f"{run}/runner.", f"{run}/journal."
    return [it for it in below(children, lambda it: has_open(it, own))
            if not has_open(it, (f"{run}/command.",))]


def signer(path: str) -> int:
    """Returns the number of the process that has signed a file and has it open; 0 if none has."""
    number = calls.signed(path)
    return number if path in calls.files_of(number) else 0


def has_open(process: Process, starts: Tuple[str, ...]) -> bool:
    """Returns whether the system shows that a process has a file open whose path begins so."""
    return any(it.startswith(starts) for it in calls.files_of(process.number))


def described(processes: Iterable[Process]) -> str:
    """Returns these processes as a part of a message."""
    return ", ".join(f"process {it.number} ({words_that_tell(calls.words_of(it.number))})"
                     for it in processes)


def words_that_tell(words: List[str]) -> str:
    """Returns a process's words as a text of up to 60 characters that begins with the base name of
    its program, or of the script that an interpreter runs."""
    words = words or ["no words"]
    name, place = os.path.basename(words[0]), 0
    if re.fullmatch(INTERPRETER, name) and len(words) > 1:
        is_code = words[1][-1:] in ("c" if name.endswith("sh") else "cemrEn")
        place = 1 if words[1][:1] != "-" else 2 if "/" in "".join(words[2:3]) and not is_code else 0
    text = visible(" ".join([os.path.basename(words[place]), *words[place + 1:]]).strip())
    return text if len(text) <= 60 else text[:58] + ".."


class Signals:
    """Signals to processes, each once but for KILL. A refusal is told and not repeated: it belongs
    to another user, as under sudo."""

    def __init__(self, tell: Callable[[str], None]):
        self.tell, self.refused = tell, set()  # type: Callable[[str], None], Set[Process]

    def send(self, number: int, find: Callable[[], List[Process]]) -> None:
        """Sends a signal to each process that is found, until no new one is found. What can't be
        seen or reached for want of descriptors or memory gets the next signal."""
        reached: Set[Process] = set()
        with suppress(OSError):
            for _ in range(MOST_SWEEPS):
                fresh = [it for it in find() if it not in reached]
                if not fresh:
                    return
                reached.update(fresh)
                for process in fresh:
                    self.send_one(number, process)

    def send_one(self, number: int, process: Process) -> None:
        """Sends a signal to a process that has not refused one."""
        if process in self.refused:
            return
        try:
            calls.send(process, number)
        except PermissionError as error:
            self.refused.add(process)
            self.tell(f"{described([process])}: it can't be sent a signal: {lowered(error)}; wait"
                      " for its end, or end it as its user")
