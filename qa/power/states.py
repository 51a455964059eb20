"""Crash states: the disks that a cut might have left, made from the log of a guest's disk.

README.md says which disks these are. Each must agree with the bank's book at that moment. Begin
with `look_at`.
"""

from __future__ import annotations

import json
import os
import pickle
import random
import shutil
import subprocess
import sys
import tempfile
import time
from collections import Counter
from typing import Dict, Iterator, List, NamedTuple, Optional, Set, Tuple

from bank import Bank
from disk import HOWS, SECTOR, Disk, Entry, Piece, copy_sparse, left_of, mapped, put_all
from guest import TOP, Guest
from machine import Machine

sys.path.insert(0, f"{TOP}/tools")

from worker.folder import Folder, Refused

RUN, LIVES, PATIENCE = "run", 4, 1800.0  # one state in LIVES goes on; seconds


class State(NamedTuple):
    """A disk that a cut may have left, and the book at that moment."""

    name: str
    base: str  # the file with all that was flushed
    stay: List[Piece]  # what stays of the rest
    performed: Set[int]
    answered: Set[str]
    lines: int


class Found(NamedTuple):
    """The faults of a state: breaches of the program, and refusals of a file system that this disk
    isn't good enough for."""

    breaches: List[str]
    refusals: List[str]


class Log:
    """The log of one run's disk, played from its beginning."""

    def __init__(self, room: str, fs: str, disks: str):
        self.name, self.fs = os.path.basename(room), fs
        with open(f"{room}/history", "rb") as file:
            self.entries, self.history, self.lines = pickle.load(file)
        self.path = f"{disks}/state.{os.getpid()}"
        copy_sparse(f"{room}/empty", self.path)
        self.kept, self.loose = mapped(self.path), list[Piece]()

    def close(self) -> None:
        self.kept.close()
        os.unlink(self.path)

    def states(self, draws: random.Random, count: int) -> Iterator[State]:
        """Yields up to `count` states, in the order of their moments: half of them after flushes,
        each of which is taken if that is enough, and half after drawn writes."""
        places = {kind: [number for number, it in enumerate(self.entries) if it.kind == kind]
                  for kind in ("flush", "write")}
        at_flushes = draws.sample(places["flush"], min(count // 2, len(places["flush"])))
        picked = Counter([*at_flushes, *draws.choices(places["write"], k=count // 2)])
        for number, entry in enumerate(self.entries):
            self.play(entry)
            for _ in range(picked[number]):
                how = "none" if entry.kind == "flush" else draws.choice(HOWS)
                yield self.state(number, entry.mark, how, draws)

    def state(self, number: int, mark: int, how: str, draws: random.Random) -> State:
        """Returns a state after this request; `mark` is the line that the bank has received by
        then."""
        found, stay = left_of(self.loose, how, draws, SECTOR[self.fs])
        by_then = [it for it in self.history if it.heard <= mark]
        name = (f"{self.name}, after request {number} of {len(self.entries)}, {how}: {len(stay)} of"
                f" {found} loose pieces")
        performed, answered = ({it.what for it in by_then if it.kind == kind}
                               for kind in ("performed", "answered"))
        return State(name, self.path, stay, performed, answered, self.lines)

    def play(self, entry: Entry) -> None:
        """Takes a request."""
        if entry.kind == "write":
            self.loose.append((entry.place, entry.data))
        elif entry.kind == "force":
            put_all(self.kept, [(entry.place, entry.data)])
        else:
            if entry.kind == "flush":
                put_all(self.kept, self.loose)
            self.loose = []


def put_state(state: State, path: str) -> None:
    """Makes the state's disk at this path."""
    copy_sparse(state.base, path)
    disk = mapped(path)
    put_all(disk, state.stay)
    disk.close()


class ByTools:
    """Reads disks of ext4: e2fsprogs replay the journal and copy the run's folder, and the tests'
    own auditor reads it. From some states the program itself goes on."""

    def __init__(self, disks: str, worker: str):
        self.worker, self.counts = worker, Counter[str]()
        self.room = tempfile.mkdtemp(dir=disks)

    def close(self) -> None:
        shutil.rmtree(self.room)

    def look(self, state: State) -> Found:
        """Returns what is wrong with a state."""
        path, out = f"{self.room}/disk", f"{self.room}/out"
        put_state(state, path)
        shutil.rmtree(out, ignore_errors=True)
        os.mkdir(out)
        ran = run("e2fsck", "-y", "-E", "journal_only", path)
        if ran.returncode not in (0, 1):
            return Found([], [f"e2fsck: {state.name}: {ran.stdout[-200:]}"])
        if run("e2fsck", "-fn", path).returncode:
            return Found([], [f"e2fsck finds faults after the journal: {state.name}"])
        run("debugfs", "-R", f"rdump / {out}", path)
        folders = [it for it in os.listdir(out) if it == RUN or it.startswith("run.forgotten-")]
        if not folders:
            return Found([f"lost: {state.name}"] if state.performed else [], [])
        return Found(self.wrongs(state, f"{out}/{folders[0]}"), [])

    def wrongs(self, state: State, path: str) -> List[str]:
        """Returns the differences between a run's folder and the book."""
        if not os.path.exists(f"{path}/id"):
            return [f"lost: {state.name}"] if state.performed else []
        try:
            folder = Folder(path)
        except Refused as fault:
            return [f"refused: {state.name}: {fault}"]
        opened = set(folder.open_lines()) if folder.lines else set(range(1, state.lines + 1))
        done = {it.line for it in folder.intents.values()
                if not it.opens() and (it.answer == "done" or it.found == "done")}
        found = {it.name() for it in folder.intents.values() if it.found}
        wrongs = [f"performed and open: line {it}" for it in sorted(opened & state.performed)]
        wrongs += [f"done and not performed: line {it}" for it in sorted(done - state.performed)]
        wrongs += [f"answer lost: {it}" for it in sorted(state.answered - found)]
        self.counts["states read"] += 1
        is_away = os.path.exists(f"{path}/forgotten")
        if not wrongs and self.counts["states read"] % LIVES == 0 and not is_away:
            wrongs = self.live_on(path, state, opened)
        return [f"{it}: {state.name}" for it in wrongs]

    def live_on(self, path: str, state: State, opened: Set[int]) -> List[str]:
        """Lets the program go on alone. Returns its faults: it must hand over each open line once,
        and no other."""
        self.counts["states from which the program went on"] += 1
        jobs, handed = f"{self.room}/jobs", list[int]()
        with open(jobs, "w", encoding="utf-8") as file:
            file.write("".join(f"job-{it} of tonight\n" for it in range(1, state.lines + 1)))
        words = [self.worker, "work", path, "1", "--workers", "1", "--file-system", "tmpfs", jobs]
        with subprocess.Popen(words, stdin=subprocess.PIPE, stdout=subprocess.PIPE,
                              stderr=subprocess.PIPE) as worker:
            assert worker.stdout and worker.stdin and worker.stderr
            for row in worker.stdout:
                worker.stdin.write(reply(row, handed))
                worker.stdin.flush()
            said = worker.stderr.read().decode("utf-8", "replace")[-200:]
        wrongs = [f"it ended with {worker.returncode}: {said}"] if worker.returncode else []
        if sorted(handed) != sorted(opened):
            wrongs.append(f"handed over {sorted(handed)}, open were {sorted(opened)}")
        return wrongs


def reply(row: bytes, handed: List[int]) -> bytes:
    """Returns a runner's reply to a worker, and notes the line that it hands over."""
    words = row.split(b" ", 3)
    if words[0] == b"perform":
        handed.append(int(words[2]))
        return b"done %s 0 go\n" % words[1]
    return b"go\n" if row == b"over\n" else b"doubt %s go\n" % words[1]


def run(*words: str) -> "subprocess.CompletedProcess[str]":
    """Runs a program, and returns what it printed."""
    return subprocess.run(words, stdout=subprocess.PIPE, stderr=subprocess.STDOUT, text=True,
                          check=False, errors="replace")


class ByKernel:
    """Reads disks of any file system: a guest mounts one after the other, and its amo_worker prints
    how the lines stand."""

    def __init__(self, disks: str, guest: Guest, fs: str, options: str):
        self.guest, self.fs, self.options, self.counts = guest, fs, options, Counter[str]()
        self.room, self.said = tempfile.mkdtemp(dir=disks), list[str]()
        self.machine: Optional[Machine] = None

    def close(self) -> None:
        if self.machine:
            self.machine.cut()
            self.disk.cut("none", random.Random(0))
        shutil.rmtree(self.room)

    def begin(self, state: State) -> None:
        """Starts the guest, with a disk of this size."""
        copy_sparse(state.base, f"{self.room}/base")
        self.disk = Disk(f"{self.room}/base", self.fs)
        words: Dict[str, object] = {
            "fs": self.fs, "options": self.options, "boot": 0, "partner": "verify",
            "modules": ",".join(self.guest.modules[self.fs])}
        self.machine = Machine(self.guest, words, self.disk, self.said.append)
        self.wait()

    def wait(self) -> bool:
        """Waits until the guest wants the next disk. Returns False if it doesn't come to that."""
        assert self.machine
        end = time.monotonic() + PATIENCE
        while "@next ." not in self.said:
            if not self.machine.turn(1) or time.monotonic() > end:
                return False
        return True

    def look(self, state: State) -> Found:
        """Returns what is wrong with a state."""
        if not self.machine:
            self.begin(state)
        assert self.machine
        put_state(state, f"{self.room}/state")
        with open(f"{self.room}/state", "rb") as file:
            self.disk.now[:] = file.read()
        self.disk.log.clear()
        self.disk.loose.clear()
        self.said.clear()
        self.machine.send("go\n")
        if not self.wait():
            printed = self.machine.cut()
            self.machine = None
            return Found([f"nothing happens: {state.name}: {self.said} {printed[-500:]}"], [])
        return self.found(state)

    def found(self, state: State) -> Found:
        """Returns the differences between the guest's lines and the book."""
        bank = Bank(state.lines, random.Random(0), False)
        bank.performed = {it: [] for it in state.performed}
        bank.taken = set(state.answered)
        lines = [it for it in self.said if it != "@next ."]
        if any(it.startswith("@refused mount") for it in lines):
            return Found([], [f"{lines}: {state.name}"])
        for line in lines:
            bank.take(line)
        self.counts["states read"] += 1
        lost = not any(it.startswith("@state {") for it in lines) and state.performed
        wrongs = [*bank.wrongs, *(["lost: no run is there"] if lost else [])]
        return Found([f"{it}: {state.name}" for it in wrongs], [])


def look_at(room: str, disks: str, worker: str, guest: Guest, by_kernel: bool, count: int,
            seed: str) -> Tuple[List[str], Dict[str, int]]:
    """Looks at so many states of a run. Returns the breaches, and what was counted."""
    with open(f"{room}/setting", encoding="utf-8") as file:
        fs, options = json.load(file)
    by_tools = fs == "ext4" and not by_kernel
    looker = ByTools(disks, worker) if by_tools else ByKernel(disks, guest, fs, options)
    log, breaches = Log(room, fs, disks), list[str]()
    for state in log.states(random.Random(f"{seed} {log.name}"), count):
        found = looker.look(state)
        looker.counts.update({f"{fs} states": 1, "with unflushed pieces": bool(state.stay),
                              "refused by the file system": len(found.refusals)})
        breaches += found.breaches
        for it in [*found.breaches[:3], *found.refusals[:3]]:
            print(it, flush=True)
    log.close()
    looker.close()
    return breaches, dict(looker.counts)
