"""The common parts of the tests of tools/try_machines: a list that some machines share, and its
audit. Each machine is a folder with an id of its own, whose commands write down what they do.
qa/harness has the parts that other tools need too."""

import os
import shutil
import signal
import subprocess
import sys
import tempfile
import time

from harness import bench as harness
from harness.bench import until, want
from worker import folder

HERE = os.path.dirname(os.path.realpath(__file__))
DONE, FAILED, DOUBTFUL, REFUSED, LEFT, LATER = 0, 1, 2, 65, 69, 75
OVER, KILLED = (DONE, FAILED, DOUBTFUL), -signal.SIGKILL


class Bench(harness.Bench):
    """A bench with amo_share and a worker."""

    def __init__(self, program, worker, room, is_long, seed):
        super().__init__(room, is_long, seed)
        self.program, self.worker = os.path.abspath(program), os.path.abspath(worker)
        self.closing = []

    def told(self):
        return ", ".join(f"{count} {name}" for name, count in self.counts.items())

    def keep(self, it):
        """Closes it at the end."""
        self.closing.append(it)
        return it

    def close(self):
        while self.closing:
            self.closing.pop().close()


class Scene:
    """A list, a store, and machines."""

    def __init__(self, bench, store, lines, size, machines, name="tonight"):
        self.bench, self.store, self.size, self.name = bench, store, size, name
        self.room = tempfile.mkdtemp(dir=bench.room)
        self.jobs, self.effects, self.lost = f"{self.room}/jobs", f"{self.room}/effects", {}
        self.texts = [f"pay {number}" for number in range(1, lines + 1)]
        with open(self.jobs, "w") as file:
            file.writelines(f"{it}\n" for it in self.texts)
        open(self.effects, "w").close()
        self.machines = [Machine(self, f"m{number}") for number in range(1, machines + 1)]
        bench.keep(self)

    def say(self, name):
        """A word to all commands: a file in the room."""
        open(f"{self.room}/{name}", "w").close()

    def take_back(self, name):
        os.unlink(f"{self.room}/{name}")

    def tales(self, word="did"):
        """Returns the texts of which commands have written this word, each with the machine."""
        rows = [it.split(" ", 2) for it in folder.read(self.effects).decode().splitlines()]
        return [(text, machine) for said, machine, text in rows if said == word]

    def chunks(self):
        return range(1, -(-len(self.texts) // self.size) + 1)

    def see_out(self, machines=None, seconds=600, during=lambda: None):
        """Starts these machines again and again, until each ends on its own with nothing open."""
        end, left = time.monotonic() + seconds, set(machines or self.machines)
        for it in left:
            it.process or it.start()
        while left:
            want(time.monotonic() < end, f"it isn't over: {[(it.name, it.statuses[-3:], it.tale()[-300:]) for it in left]}")
            for it in [it for it in left if it.process.poll() is not None]:
                status = it.ends()
                want(status in (*OVER, LEFT, LATER, KILLED, -signal.SIGTERM), f"{it.name}: status {status}: {it.tale()[-600:]}")
                if status in OVER:
                    left.discard(it)
                else:
                    it.start()
            during()
            time.sleep(0.05)

    def lose(self, machine, number=None):
        """Removes a machine's folder, or that of one chunk, while nothing of the machine runs."""
        machine.kill_all()
        for chunk in [number] if number else self.chunks():
            if os.path.isdir(machine.chunk(chunk)):
                mark = machine.marks(chunk)[0]
                self.lost[mark] = len([it for it in self.tales() if it[0] in self.lines(chunk)])
        shutil.rmtree(machine.chunk(number) if number else machine.run)
        self.bench.add("folders lost")

    def lines(self, number):
        """Returns the texts of a chunk."""
        return self.texts[(number - 1) * self.size:number * self.size]

    def audit(self):
        """Wants no line to be performed twice, and the place of each to be reported. Lost lines are
        worked by nobody."""
        did = [it[0] for it in self.tales()]
        twice = sorted({it for it in did if did.count(it) > 1})
        want(not twice, f"performed twice: {[it for it in self.tales() if it[0] in twice]}")
        for number in self.chunks():
            owner = self.store.owner(self.name, number)
            want(owner, f"lost unseen: nobody has chunk {number}")
            there = [it for it in self.machines if it.marks(number)[0] == owner]
            if owner in self.lost:
                count = len([it for it in did if it in self.lines(number)])
                want(not there and count == self.lost[owner], f"chunk {number} was lost, and is worked by {there}")
                self.bench.add("lines told in doubt, with their folder", self.size)
                continue
            want(len(there) == 1, f"lost unseen: chunk {number} is {owner}'s, whose folder is {there}")
            self.audit_chunk(there[0], number, did)
        self.bench.add("performed", len(did))

    def audit_chunk(self, machine, number, did):
        kinds, end = self.kinds_of(machine, number), time.monotonic() + 240
        while "running" in kinds.values() and time.monotonic() < end:  # (a command that its runner has left to itself)
            time.sleep(0.1)
            kinds = self.kinds_of(machine, number)
        want(len(kinds) == len(self.lines(number)), f"lost unseen: {machine.name} knows {len(kinds)} lines of chunk {number}")
        for text, kind in zip(self.lines(number), kinds.values()):
            want(kind in ("done", "failed", "doubt"), f"lost unseen: {text} of chunk {number} is {kind} at the end")
            want(kind == "doubt" or text in did, f"lost unseen: {text} counts as {kind} and wasn't performed")
            self.bench.add("in doubt", kind == "doubt")

    def kinds_of(self, machine, number):
        found = folder.Folder(machine.chunk(number))
        return found.kinds(found.final())

    def close(self):
        for it in self.machines:
            it.kill_all()


class Machine:
    """A folder with what runs over it."""

    def __init__(self, scene, name):
        self.scene, self.name, self.folder, self.statuses, self.process = scene, name, f"{scene.room}/{name}", [], None
        self.run, self.id, self.boot = (f"{self.folder}/{it}" for it in ("run", "id", "boot"))
        self.size, self.jobs, self.boots, self.told_as = scene.size, scene.jobs, 0, self.folder
        os.mkdir(self.folder)
        self.set_id(name)
        self.start_anew()

    def __repr__(self):
        return self.name

    def set_id(self, text):
        with open(self.id, "w") as file:
            file.write(f"{text.encode().hex():0>32}\n")

    def start_anew(self):
        """A boot id that was never there before."""
        self.boots += 1
        with open(self.boot, "w") as file:
            file.write(f"{self.boots:08x}-1111-4222-8333-{os.getpid():012x}\n")

    def chunk(self, number):
        return f"{self.run}/chunk.{number}"

    def marks(self, number):
        """Returns the mark of this machine's folder of a chunk, and that which it has noted as the
        owner's."""
        notes = [str(folder.read(f"{self.chunk(number)}/{it}")) for it in ("mark", "owner")]
        return [it.partition('"mark": "')[2].partition('"')[0] for it in notes]

    def environment(self):
        return {"PATH": os.environ["PATH"], "AMO_REAL": self.scene.bench.worker,
                "AMO_TEST_BOOT_ID": self.boot, **self.scene.store.environment}

    def words(self, *more):
        scene = self.scene
        return [scene.bench.program, "--name", scene.name, "--claim", scene.store.claim, "--chunk", str(self.size),
                "--run", self.run, "--workers", "2", "--worker-program", scene.bench.worker, "--machine-id", self.id,
                "--crew=--linger 0.2", *more, self.jobs, "--", f"{HERE}/act.sh", scene.room,
                self.told_as]

    def start(self, *more, before=()):
        """Starts amo_share; words that stand before it, as those of a program that kills it."""
        words = [sys.executable, *before, *self.words(*more)]
        with open(f"{self.folder}/said", "ab") as said:
            self.process = subprocess.Popen(words, stdin=subprocess.DEVNULL, stdout=said, stderr=said, env=self.environment(),
                                            start_new_session=True)
        return self

    def tale(self):
        """Returns the output of its programs."""
        return folder.read(f"{self.folder}/said").decode("utf-8", "replace")

    def ends(self, *statuses):
        """Waits for the end of amo_share, which has one of these statuses."""
        status = self.process.wait(300)
        self.process = None
        self.statuses.append(status)
        want(not statuses or status in statuses, f"{self.name}: status {status} in place of {statuses}: {self.tale()[-600:]}")
        return status

    def status(self):
        """Returns the output of amo_share status, and its status."""
        bench = self.scene.bench
        words = [sys.executable, bench.program, "status", "--run", self.run,
                 "--worker-program", bench.worker]
        ran = subprocess.run(words, stdin=subprocess.DEVNULL, capture_output=True, timeout=300,
                             env=self.environment())
        told = ran.stderr.decode()
        warning = ("amo_share: AMO_TEST_BOOT_ID: it is set for a test, so the boot id comes from"
                   f" `{self.boot}`, and a line may run twice; unset it for real jobs\n")
        want(told == warning, f"status says {told[-300:]}")
        return ran.stdout.decode().splitlines(), ran.returncode

    def person(self, command, *words, number=1, status=DONE):
        """Returns the output of amo_jobs for a person, on a chunk."""
        bench = self.scene.bench
        words = [sys.executable, f"{os.path.dirname(bench.program)}/amo_jobs", command, "--run", self.chunk(number),
                 "--worker-program", bench.worker, *words]
        ran = subprocess.run(words, stdin=subprocess.DEVNULL, capture_output=True, timeout=300,
                             env=self.environment())
        want(ran.returncode == status, f"{command}: status {ran.returncode}: {ran.stderr.decode()[-300:]}")
        return ran.stdout.decode()

    def processes(self, *words):
        """Returns the processes of this machine that have these words in their command line."""
        return harness.processes_of(self.folder, *words)

    def signal(self, number, *words):
        """Sends a signal to its processes with these words. A process that ended meanwhile is left
        out."""
        found = list(self.processes(*words))
        for process in found:
            try:
                os.kill(process, number)
            except ProcessLookupError:
                pass
        return found

    def rests(self):
        """Waits until all that it has begun has ended."""
        until(lambda: not list(self.processes()), f"what {self.name} has begun ends", pause=0.2)

    def kill_all(self):
        """All that it runs, as if its power were cut, and it starts anew."""
        if self.process:
            self.process.kill()
            self.ends()
        while self.signal(signal.SIGKILL):
            time.sleep(0.01)
        self.start_anew()
