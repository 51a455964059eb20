"""Random runs of 1 to 4 workers and up to 60 jobs. Runners, workers and commands are killed and
stopped at any time, the machine is started anew, the list grows, and the number of workers changes.
The registers are brought back as they were earlier within one boot, or drawn at random, while a
crew works. Of some runs a file is changed: a bit of a journal, of `answers` or of the header is
flipped, or a file is moved away, while a crew works or between two.

Whatever the registers hold, no line is performed twice, and each comes to its end, if need be in a
later round. If a file is damaged, the next crew refuses it by its name and starts nothing; what a
crash may leave is read as that. jobs/spoiled.py has the same for moments that are chosen.
"""

import os
import random
import shutil
import signal
import subprocess
import time

from jobs.scene import NO_MEMORY, READ, REFUSED, WRITE, Wrong, want
from jobs.spoiled import end_all, flip, let_end, refused_file, see_refused
from worker import folder, judged
from worker.headers import FILES
from worker.registers import Registers
from worker.scene import SENSELESS

KINDS = (["quick"] * 8 + ["slow"] * 3
         + "fail fail nothing deaf amp nohup setsid dies other".split())
EVENTS = ("worker worker command command runner runner supervisor all stop stop reboot grow"
          " term").split()
DEADLY = "worker worker command command runner runner supervisor all".split()
LOOKS = 0.4  # seconds between two looks at the doubts, while somebody is killed all the time
SPOILS = ("earlier", "earlier", "zeroed", "exchanged", "drawn")
VERSION = b"amo-run 2\n"


class Storm:
    """One run, and what befalls it."""

    sizes = [3, 8, 20, 60]  # of the list

    def __init__(self, bench, draws):
        self.bench, self.draws, self.workers = bench, draws, draws.randint(1, 4)
        kinds = [draws.choice(KINDS) for _ in range(draws.choice(self.sizes))]
        linger = draws.choice(["0.05", "0.3", "1"])
        options = ["--linger", linger, "--untouched", "75", "--halt", "0"]
        if draws.random() < 0.3:
            options += ["--timeout", "0.5", "--grace", "0.2"]
        self.scene = bench.scene(kinds, self.workers, options)
        self.scene.orphaned = ("amp", "nohup", "setsid")
        self.scene.ends_of_crews.add(SENSELESS)  # of a worker that finds registers which can't be
        self.registers = Registers(self.scene, draws)
        self.events = EVENTS + ["registers"] * draws.choice([2, 40])
        self.calm, self.due = draws.uniform(2, 6), 0.0
        self.begun = time.monotonic()

    def run(self):
        self.scene.see_out(during=self.befall, workers_of=self.count, seconds=600)
        self.scene.audit()

    def count(self):
        """Returns how many workers the next crew has."""
        if self.draws.random() < 0.2:
            self.workers = self.draws.randint(1, 4)
        return self.workers

    def befall(self, crew):
        """Something happens, as long as it isn't calm."""
        now = time.monotonic()
        self.registers.keep()
        if now > self.begun + self.calm or now < self.due:
            return
        self.due = now + self.draws.expovariate(2)
        what = self.draws.choice(self.events)
        self.bench.add(what)
        getattr(self, f"befall_{what}")(crew)

    def kill_one(self, processes):
        """Kills one of these processes, if there is any."""
        self.scene.kill(self.draws.sample(processes, 1) if processes else [])

    def befall_worker(self, crew):
        self.kill_one(self.scene.worker_processes())

    def befall_command(self, crew):
        self.kill_one(self.scene.commands())

    def befall_runner(self, crew):
        self.kill_one(list(self.scene.runners()))

    def befall_supervisor(self, crew):
        crew.kill()

    def befall_term(self, crew):
        crew.send_signal(self.draws.choice([signal.SIGTERM, signal.SIGINT, signal.SIGHUP]))

    def befall_all(self, crew):
        crew.kill()
        self.scene.kill(list(self.scene.processes("work")))
        if self.draws.random() < 0.5:
            self.scene.kill(self.scene.commands())

    def befall_stop(self, crew):
        """Somebody is stopped for up to a second, and the crew is killed meanwhile, or not."""
        found = self.draws.choice([self.scene.worker_processes(), self.scene.commands(),
                                   list(self.scene.runners()), [crew.pid]])
        if found:
            stopped = self.draws.choice(found)
            self.scene.kill([stopped], signal.SIGSTOP)
            goes_on = f"sleep {self.draws.uniform(0.1, 1):.2f}; kill -CONT {stopped}"
            subprocess.Popen(["sh", "-c", goes_on], start_new_session=True,
                             stderr=subprocess.DEVNULL)
            if self.draws.random() < 0.5:
                self.draws.choice([self.befall_runner, self.befall_supervisor])(crew)

    def befall_reboot(self, crew):
        """All processes die, the words are of any age, and the boot has another id."""
        old = f"{self.scene.room}/words"
        crew.kill()
        crew.wait()
        for _ in range(3):
            self.scene.kill(self.scene.processes())
            time.sleep(0.02)
        words = f"{self.scene.run}/words"
        if os.path.exists(words):
            if os.path.exists(old) and self.draws.random() < 0.5:
                shutil.copy(old, words)
            else:
                shutil.copy(words, old)
            if self.draws.random() < 0.3:
                os.unlink(words)
        self.scene.start_machine()

    def befall_grow(self, crew):
        if len(self.scene.kinds) < 60:
            self.scene.grow([self.draws.choice(KINDS) for _ in range(self.draws.randint(1, 5))])


    def befall_registers(self, crew):
        """The registers are as they were at some time since the round began, or hold what never
        was there. A worker that is killed comes back into the round by them."""
        getattr(self.registers, self.draws.choice(SPOILS))()
        if self.draws.random() < 0.7:
            self.befall_worker(crew)


class Kills(Storm):
    """One run in which somebody is killed several times a second. Each process that is killed
    counts. The person looks at the doubts less often, since that takes longer than some kills."""

    sizes = [8, 20, 60, 60]

    def __init__(self, bench, draws):
        super().__init__(bench, draws)
        self.events, self.calm = DEADLY, draws.uniform(10, 40)
        self.scene.ends_of_crews.add(NO_MEMORY)
        self.looks, self.scene.look_on, self.look_at = self.scene.look_on, self.look_on, 0.0

    def run(self):
        self.scene.see_out(during=self.befall, workers_of=self.count, pause=0.05)
        self.scene.audit()

    def look_on(self):
        if time.monotonic() >= self.look_at or self.scene.crews[-1].poll() is not None:
            self.looks()
            self.look_at = time.monotonic() + LOOKS

    def befall(self, crew):
        """Somebody is killed, as long as it isn't calm."""
        now = time.monotonic()
        if self.due <= now <= self.begun + self.calm:
            self.due = now + self.draws.expovariate(8)
            getattr(self, f"befall_{self.draws.choice(self.events)}")(crew)

    def kill_one(self, processes):
        super().kill_one(processes)
        self.bench.add("kills", min(len(processes), 1))

    def befall_supervisor(self, crew):
        super().befall_supervisor(crew)
        self.bench.add("kills")

    def befall_all(self, crew):
        self.bench.add("kills", len(list(self.scene.processes())))
        crew.kill()
        self.scene.kill(self.scene.processes())


class Changed(Exception):
    """A file of the run was changed, and nobody is at work any more."""


class Damage(Storm):
    """A run of which files are changed, one after the other, until one is damaged for good."""

    def __init__(self, bench, draws: random.Random):
        super().__init__(bench, draws)
        self.changes, self.name, self.aside = draws.randint(1, 3), "", f"{self.scene.room}/aside"
        self.moment = time.monotonic() + draws.uniform(0, 2)

    def run(self) -> None:
        while self.changes:
            try:
                self.scene.see_out(during=self.befall, workers_of=self.count, pause=0.05)
            except Changed:
                pass
            else:
                self.change()
            if not self.goes_on():
                return
        super().run()

    def befall(self, crew) -> None:
        """A file is changed once the moment has come: between two crews, or while one works, which
        goes on for a while."""
        is_there = os.path.exists(f"{self.scene.run}/record")
        if not self.changes or not is_there or time.monotonic() < self.moment:
            super().befall(crew)
            return
        if self.draws.random() < 0.5:
            end_all(self.scene, crew)
        self.change()
        try:
            status = crew.wait(self.draws.uniform(0, 1))
            want(status in {*self.scene.ends_of_crews, REFUSED, WRITE, READ},
                 f"{self.name} is damaged: status {status}: {self.scene.tale()[-500:]}")
        except subprocess.TimeoutExpired:
            pass
        end_all(self.scene, crew)
        raise Changed

    def change(self) -> None:
        """Flips a bit of a file that has appends, or of the header; or moves a file away."""
        self.changes -= 1
        self.moment = time.monotonic() + self.draws.uniform(0, 2)
        is_flip = self.draws.random() < 0.6
        names = ["record", *FILES] if is_flip else ["id", "record", "jobs", "lock.round", *FILES]
        sizes = {it: len(folder.read(f"{self.scene.run}/{it}")) for it in names}
        names = [it for it in names if sizes[it] or not is_flip]
        used = [it for it in FILES if sizes[it] > 1]  # these are the ones that say something
        self.name = self.draws.choice([*used, *used, *names])
        path = f"{self.scene.run}/{self.name}"
        if is_flip:
            flip(path, self.place(sizes[self.name]), self.draws.randrange(8))
        elif os.path.exists(path):
            os.rename(path, self.aside)
        self.bench.add("flips" if is_flip else "moves")

    def place(self, size: int) -> int:
        """Returns a place in the file. The first line of a header says which version wrote it, and
        another one is refused in another way."""
        if self.draws.random() < 0.2:
            return size - 1
        return self.draws.randrange(len(VERSION) if self.name == "record" else 0, size)

    def goes_on(self) -> bool:
        """Returns whether a crew may go on: nothing is damaged, or the file that was moved is put
        back."""
        let_end(self.scene)
        path, refused = f"{self.scene.run}/{self.name}", refused_file(self.scene.run)
        if refused:
            self.bench.add("refused")
            see_refused(self.scene, refused)
        if os.path.exists(self.aside) and not os.path.exists(path):
            os.rename(self.aside, path)
            return True
        return not refused


def try_kind(bench, kind, count: int) -> str:
    """Tries random runs of this kind: so many in the short form."""
    wrongs, tried = [], 0
    while tried < (10**6 if bench.end else count) and bench.has_time():
        tried += 1
        seed = f"{bench.seed}.{tried}"
        try:
            kind(bench, random.Random(seed)).run()
        except Wrong as wrong:
            wrongs.append(f"storm {seed}: {wrong}")
            if len(wrongs) == 3:
                break
        bench.close()
    want(not wrongs, f"{len(wrongs)} of {tried} tried: " + "; ".join(wrongs))
    return f"{tried} runs, {bench.counts}"


def try_storm(bench) -> str:
    """random runs of 1 to 4 workers and up to 60 jobs, with kills, stops, reboots, growing lists,
    other numbers of workers, and registers that are brought back or drawn at random"""
    return try_kind(bench, Storm, 3)


def try_damage_storm(bench) -> str:
    """random runs of which a bit of a file is flipped, or a file is moved away, while a crew works
    or between two"""
    return try_kind(bench, Damage, 3)


def twice(scene) -> int:
    """Returns how many lines were performed more than once."""
    lines = range(1, len(scene.kinds) + 1)
    return sum(len([it for it in scene.tales(line) if it[0] == "did"]) > 1 for line in lines)


def try_kills(bench) -> str:
    """random runs in which somebody is killed several times a second, until there were as many
    kills as --kills asks for"""
    wrongs, tried = [], 0
    while bench.counts.get("kills", 0) < bench.kills and len(wrongs) < 3:
        tried += 1
        seed = f"{bench.seed}.{tried}"
        storm = Kills(bench, random.Random(seed))
        try:
            storm.run()
        except Wrong as wrong:
            wrongs.append(f"storm {seed}: {wrong}")
        bench.add("twice", twice(storm.scene))
        bench.close()
        if not wrongs:
            judged.drop(bench, storm.scene)
    want(not wrongs, f"{len(wrongs)} of {tried} tried: " + "; ".join(wrongs))
    return f"{tried} runs, {bench.counts}"


PARTS = {"storms": [try_storm, try_damage_storm]}
