"""Runs of a list in a guest whose power is cut again and again. Begin with `Run.run`."""

from __future__ import annotations

import json
import os
import pickle
import random
import shlex
import shutil
import subprocess
import sys
import time
from typing import Any, Dict, List, NamedTuple, Optional

from bank import Bank, Dangers, kinds
from disk import HOWS, NO_FAULT, Disk, Entry, Fault, copy_sparse
from guest import TOP, Guest
from machine import Machine
from moments import Moment, Watch, again, drawn, of_control

sys.path.insert(0, f"{TOP}/tools")

from worker import judged

SIZES = {"ext4": 64, "xfs": 320, "btrfs": 160}  # MiB; mkfs of the other two refuses less
MAKE = {"ext4": "mkfs.ext4 -q -b", "xfs": "mkfs.xfs -q", "btrfs": "mkfs.btrfs -q -m single"}
EXT4_BLOCKS = ("4096", "4096", "1024")  # bytes
PATIENCE = 1800.0  # seconds; a busy machine is slow
DEAF = "deaf"  # the control that goes on after a sync has failed
Row = Dict[str, Any]  # the results of a run
TROUBLE = ("error", "corrupt", "panic", "bug:", "warning:")


class Setting(NamedTuple):
    """The setting of a cut: the disk of the guest, and the programs that run there."""

    fs: str = "ext4"
    options: str = ""  # of the mount
    partner: str = "amo"  # amo, journal or parallel
    syncs: str = ""  # of a control: see guest/syncs.c
    mistake: str = ""  # of a control: one of the tests' own worker
    lies: bool = False  # the disk acknowledges a flush and does nothing
    kills: float = 0.25  # the share of boots in which processes are killed too
    faults: float = 0.0  # the share of boots in which the disk fails a write or a flush once
    fills: float = 0.0  # the share of boots in which the disk is full now and then
    size: int = 0  # of the disk in MiB; 0: as large as usual
    lines: int = 60
    logged: float = 0.5  # the share of runs whose calls are logged, to be judged

    def is_control(self) -> bool:
        return bool(self.syncs or self.mistake or self.lies or self.partner != "amo")

    def words(self) -> str:
        """Returns the options of `qa/power/run` that repeat this setting."""
        usual = Setting()
        return " ".join(f"--{name.replace('_', '-')} {shlex.quote(str(value))}"
                        for name, value in self._asdict().items()
                        if value != getattr(usual, name))


class Place(NamedTuple):
    """The folder for the files of runs, and the guest that they use."""

    out: str  # the folder for results
    disks: str  # the folder for disks, best in memory
    guest: Guest
    keeps_logs: bool  # the log of each run's disk is kept for `states.py`


def make_disk(path: str, setting: Setting, draws: random.Random) -> None:
    """Makes a disk with an empty file system."""
    with open(path, "wb") as file:
        file.truncate((setting.size or SIZES[setting.fs]) << 20)
    words = MAKE[setting.fs].split() + [draws.choice(EXT4_BLOCKS)] * (setting.fs == "ext4")
    subprocess.run([*words, path], check=True, stdout=subprocess.DEVNULL)


class Run:
    """One list, over as many boots as it takes."""

    def __init__(self, place: Place, setting: Setting, seed: str, end: float, until: str = ""):
        """Takes the time, by the monotonic clock, at which the last cut comes at the latest. A
        breach of the kind `until` ends the run."""
        self.place, self.setting, self.seed, self.end = place, setting, seed, end
        self.until = until
        self.draws = random.Random(seed)
        self.room = f"{place.out}/run.{seed}"
        os.makedirs(self.room)
        self.said = open(f"{self.room}/said", "wb", buffering=0)
        self.path = f"{place.disks}/disk.{os.getpid()}.{seed}"
        make_disk(self.path, setting, self.draws)
        self.keeps_log = place.keeps_logs and not setting.fills  # what fills a disk is long
        if self.keeps_log:
            copy_sparse(self.path, f"{self.room}/empty")
            with open(f"{self.room}/setting", "w", encoding="utf-8") as file:
                json.dump([setting.fs, setting.options], file)
        self.bank = Bank(setting.lines, self.draws, setting.partner != "amo")
        # The tests' own worker is slow, so of those there are two.
        self.workers, self.cuts = 2 if setting.mistake else self.draws.choice((1, 2, 2, 4)), 0
        self.log: List[Entry] = []
        is_drawn = self.draws.random() < setting.logged
        self.is_logged = is_drawn and not setting.is_control()
        self.has_cut_early, self.begun = False, time.monotonic()

    def run(self, most: int) -> Row:
        """Cuts the power until the list is at its end, and once more. Returns the results."""
        boot, is_last = 0, False
        while boot < most and not is_last and not self.has_ended():
            is_last = self.bank.is_over  # what was recorded last must be there after the last cut
            boot += 1
            self.boot(boot)
        self.said.close()
        return self.results()

    def has_ended(self) -> bool:
        """Returns whether nothing more is to be tried."""
        bank = self.bank
        has_shown = bool(self.until) and self.until in kinds(bank.wrongs)
        return bank.is_refused or has_shown or time.monotonic() >= self.end

    def moment(self, boot: int) -> Moment:
        """Draws the moment of a boot; after one cut in five the next comes early."""
        if self.setting.is_control():
            return of_control(self.draws, self.setting.syncs == DEAF)
        is_early = boot > 1 and not self.has_cut_early and self.draws.random() < 0.2
        self.has_cut_early = is_early
        return again(self.draws) if is_early else drawn(self.draws, self.is_logged)

    def fault(self, boot: int) -> Fault:
        """Draws which request of a boot the disk fails once. In the first boot the list is made."""
        if boot == 1 or self.draws.random() >= self.setting.faults:
            return NO_FAULT
        kind = self.draws.choice("write flush append".split())
        if kind == "append" or self.setting.syncs == DEAF:
            return "append", self.draws.randint(1, 8)
        return kind, self.draws.randint(5, 120)

    def words(self, boot: int, dangers: Dangers) -> Dict[str, object]:
        """Returns what the kernel's command line gives the guest."""
        setting = self.setting._asdict()
        if not self.setting.mistake and self.draws.random() < 0.2:
            self.workers = self.draws.choice((1, 2, 4))
        return {**{it: setting[it] for it in "fs options lines syncs mistake partner".split()},
                "modules": ",".join(self.place.guest.modules[self.setting.fs]), "boot": boot,
                "workers": self.workers, "pause": self.draws.choice((0, 5, 40, 150)),
                "calls": int(self.is_logged), "kills": int(dangers.has_kills),
                "fills": int(dangers.fills)}

    def boot(self, number: int) -> None:
        """One boot, to its cut."""
        watch, fault, how = Watch(self.moment(number)), self.fault(number), self.draws.choice(HOWS)
        dangers = Dangers(self.draws.random() < self.setting.kills, fault != NO_FAULT,
                          self.draws.random() < self.setting.fills)
        words = self.words(number, dangers)
        self.bank.boot_anew(number, dangers)
        self.note(f"-- boot {number}: {words}, cut at {watch.moment}, {how}, {fault}")
        disk = Disk(self.path, self.setting.fs, fault, self.setting.lies)
        disk.mark, disk.served = lambda: self.bank.heard, watch.serve

        def hear(line: str) -> Optional[str]:
            watch.hear(line, disk.counts["failed"] > 0)
            self.note(line)
            return self.bank.take(line)

        machine = Machine(self.place.guest, words, disk, hear)
        self.wait(machine, watch)
        printed = machine.cut()
        loose, stay = disk.cut(how, self.draws)
        self.count(disk, watch.moment, dangers, loose, stay)
        for line in printed.split("\n"):
            if any(it in line.lower() for it in TROUBLE):
                self.note(f"-- console: {line}")
        self.log += disk.log if self.keeps_log else []
        if self.bank.needs_fsck:
            self.mend()

    def mend(self) -> None:
        """Has e2fsck mend the disk, as a person has to. No log has what it writes."""
        self.bank.needs_fsck = self.keeps_log = False
        ran = subprocess.run(["e2fsck", "-y", self.path], stdout=subprocess.PIPE, check=False)
        if ran.returncode > 1:
            self.bank.wrong("e2fsck", ran.stdout.decode())

    def wait(self, machine: Machine, watch: Watch) -> None:
        """Lets the guest run to its moment."""
        bank = self.bank
        heard, last = bank.heard, time.monotonic()
        while True:
            due = watch.due()
            is_alive = machine.turn(0.5 if due is None else min(due - time.monotonic(), 0.5))
            now, due = time.monotonic(), watch.due()
            if bank.heard != heard:
                heard, last = bank.heard, now
            if due is not None and now >= due or bank.is_stuck or self.has_ended():
                return
            if not is_alive:
                bank.wrong("guest", "qemu has ended on its own")
                return
            if now > last + PATIENCE:
                bank.wrong("nothing happens", f"for {PATIENCE:.0f} seconds")
                return

    def note(self, text: str) -> None:
        """Writes a message down, with the seconds since the run began."""
        self.said.write(f"{time.monotonic() - self.begun:.2f} {text}\n".encode())

    def count(self, disk: Disk, moment: Moment, dangers: Dangers, loose: int, stay: int) -> None:
        """Counts a cut."""
        self.cuts += 1
        counts = self.bank.counts
        counts.update({f"cut at {moment.stage}": 1, f"cut with workers: {self.workers}": 1,
                       "cut with loose sectors": loose > 0, "cut with kills": dangers.has_kills,
                       "cut with a full disk": dangers.fills, "loose sectors": loose,
                       "loose sectors that stayed": stay,
                       "cut with a failed request": disk.counts["failed"]})
        counts.update({f"disk: {name}": number for name, number in disk.counts.items()})
        self.note(f"-- cut: {loose} sectors were loose, {stay} stay; {disk.counts}")

    def judge(self) -> int:
        """Judges the log of calls of all boots, and returns how many events it has."""
        path, bank = f"{self.room}/calls", self.bank
        with open(path, "w", encoding="utf-8") as file:
            file.write("".join(f"\n{it} ." for it in bank.calls))
        texts = "".join(f"job-{it} of tonight\n" for it in range(1, self.setting.lines + 1))
        found = judged.judged(path, texts.encode(), judged.has_judge())
        if found.wrong:
            bank.wrong("no run of the model", found.wrong)
        return len(found.events)

    def results(self) -> Row:
        """Returns what came of the run. Its files stay if something is wrong."""
        bank, events = self.bank, self.judge() if self.is_logged else 0
        row: Row = {"run": self.seed, **self.setting._asdict(), "cuts": self.cuts,
               "is_over": bank.is_over, "is_control": self.setting.is_control(),
               "performed": len(bank.performed), "twice": bank.twice(),
               "performances": sum(len(it) for it in bank.performed.values()),
               "boot_ids": len(bank.boot_ids), "events": events, "wrongs": kinds(bank.wrongs),
               "seconds": round(time.monotonic() - self.begun), "counts": dict(bank.counts)}
        if self.keeps_log:
            with open(f"{self.room}/history", "wb") as file:
                pickle.dump((self.log, bank.history, bank.lines), file)
        repeat = f"qa/power/run cuts --run {self.seed} {self.setting.words()}".strip()
        if bank.wrongs:
            shutil.move(self.path, f"{self.room}/disk")
            with open(f"{self.room}/wrongs", "w", encoding="utf-8") as file:
                file.write("\n".join([*bank.wrongs, f"repeat: {repeat}"]) + "\n")
        else:
            os.unlink(self.path)
            if not self.keeps_log:
                shutil.rmtree(self.room)
        return row
