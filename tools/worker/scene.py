"""The common parts of the tests of tools/try_worker: a run in a folder of its own, runners, and an
account. The runners start the worker and answer it. The account has all that was performed, listed
and acknowledged, and is audited at the end. qa/harness has the parts that other tools need too.

A runner here keeps the duties of a run's partner: it holds runner.P, locks command.P.S before it
performs, tries that lock anew afterwards, remembers the ends that it saw, and drops the lines of a
dead worker. To perform is to write it in the account.
"""

import contextlib
import fcntl
import os
import random
import re
import select
import signal
import subprocess
import sys
import tempfile
import time
from typing import List

from harness import bench as harness
from harness.bench import Wrong, spread, want
from worker import folder

OVER, WORDS, REFUSED, LEFT, SENSELESS, MEMORY, WRITE, READ, LATER, ANSWER, DOOR = 0, 64, 65, 69, 70, 71, 73, 74, 75, 76, 77
KILLED = -signal.SIGKILL
# A worker that waits between two rounds goes on after so many seconds: the first number at most,
# and twice as many each time, up to the second number. Two that come back at once keep each other
# from beginning a round.
PAUSE, LONGEST_PAUSE = 0.005, 2.0
# A worker says this of a line that the registers gave it, if another attempt at it isn't opened.
TAKEN = re.compile(r"amo_worker: line ([1-9][0-9]*): attempt ([1-9][0-9]*\.[1-9][0-9]*)"
                   r" stands against it; not started\n")


def each(items, try_one):
    """Tries each of these, the first part of each a bench or a scene, as long as there is time.
    Returns how many. It raises all mistakes together."""
    wrongs, count = [], 0
    for it in items:
        bench = it[0] if isinstance(it[0], Bench) else it[0].bench
        if not bench.has_time():
            break
        count += 1
        try:
            try_one(*it)
        except Wrong as wrong:
            wrongs.append(f"{' '.join(str(part)[-60:] for part in it if isinstance(part, (str, int, bytes)))}: {wrong}")
            bench.last.tell(wrongs[-1])
            if len(wrongs) == 20:
                break
        bench.close()
    if wrongs:
        raise Wrong(f"{len(wrongs)} of {count} tried: " + "; ".join(wrongs[:4]))
    return count


class Bench(harness.Bench):
    """A bench with a worker's program, and the library of faults."""

    def __init__(self, program, room, is_long, seed, mistake=None):
        super().__init__(room, is_long, seed)
        self.program, self.mistake = os.path.abspath(program), mistake
        self.scenes, self.processes = 0, 0
        self.made: List[Scene] = []
        self.dropped: list = []  # what came of the logs of scenes whose files are gone
        self.library, self.runners, self.watches, self.last = f"{self.room}/faults.so", [], True, None
        kind = folder.type_of(self.room)
        self.kind = [] if kind in folder.TAKEN else ["--file-system", kind]  # (as in a container)

    def command(self):
        return [sys.executable, "-I", "-S", self.program] if self.is_slow() else [self.program]

    def is_slow(self):
        """Returns whether it is a program in Python, which takes a tenth of a second to begin."""
        return self.program.endswith(".py")

    def close(self):
        """Ends what a test has left."""
        for it in self.runners:
            it.close()
        self.runners.clear()

    def sample(self, whole, count):
        """Returns all of these in the long form, else so many of them, spread."""
        return list(whole) if self.is_long else spread(list(whole), count)

    def scene(self, lines=3, workers=1, **more):
        """Returns a new run, in a folder of its own."""
        self.scenes += 1
        self.last = Scene(self, tempfile.mkdtemp(dir=self.room), lines, workers, **more)
        self.made.append(self.last)
        return self.last


class Scene:
    """One run: its folder, its jobs, and the account of what happened."""

    def __init__(self, bench, room, lines, workers, beta=None, makes=True):
        """Makes the run's folder itself, as the door does, or leaves that to the door."""
        self.bench, self.room, self.workers, self.beta = bench, room, workers, beta
        self.run, self.jobs, self.boot, self.log = f"{room}/run", f"{room}/jobs", f"{room}/boot", f"{room}/log"
        self.calls, self.is_judged = f"{room}/calls", True
        self.account, self.acknowledged, self.answers, self.by = [], {}, {}, {}
        self.boots, self.logs, self.keeps, self.is_still, self.more = 0, False, False, False, {}
        self.has_true_registers, self.taken = True, []
        self.write_jobs([f"job {k}" for k in range(1, lines + 1)])
        self.start_machine()
        if makes:
            folder.make(self.run)

    def door(self):
        status, _, err = self.call("door", self.run, *self.givens(), self.jobs)
        want(status == OVER, f"door: status {status}, {err}")

    def write_jobs(self, texts, end="\n"):
        with open(self.jobs, "w") as file:
            file.write("\n".join(texts) + (end if texts else ""))

    def start_machine(self):
        """A boot id that was never there before."""
        self.boots += 1
        with open(self.boot, "w") as file:
            file.write(f"{self.boots:08x}-1111-4222-8333-{self.bench.scenes:012x}\n")

    def givens(self):
        return ["--workers", str(self.workers)] + (["--beta", str(self.beta)] if self.beta else [])

    def common(self, words=()):
        """Returns the options of each command, but those that these words have."""
        return ["--boot-id", self.boot] + ([] if "--file-system" in words else self.bench.kind)

    def id(self) -> str:
        """Returns the run's id, as its folder says."""
        return folder.read(f"{self.run}/id").decode().strip()

    def environment(self, faults=None):
        """Returns the environment of a process of this run: the library of faults, and the file for
        its calls."""
        named = {"PATH": os.environ["PATH"], "LD_PRELOAD": self.bench.library, "AMO_RUN": self.run, "AMO_JOBS": self.jobs,
                 "AMO_HARNESS": str(os.getpid()), "AMO_CALLS": self.calls}
        extra = {"AMO_FAULTS": faults, "AMO_LOG": self.log if self.logs else None, "AMO_BYTES": "yes" if self.keeps else None,
                 "AMO_MISTAKE": self.bench.mistake}
        return {**named, **{name: value for name, value in extra.items() if value}, **self.more}

    def call(self, command, *words, faults=None):
        """Runs a command that ends on its own. Returns its status and its output on both
        streams."""
        self.bench.processes += 1
        ran = subprocess.run([*self.bench.command(), command, *words, *self.common(words)],
                             stdin=subprocess.DEVNULL, capture_output=True, timeout=300,
                             env=self.environment(faults))
        return ran.returncode, ran.stdout.decode("utf-8", "replace"), ran.stderr.decode("utf-8", "replace")

    def logged(self):
        """Returns the calls in the log, each a list of its words."""
        return [line.split(" ") for line in folder.read(self.log).decode().splitlines()]

    @contextlib.contextmanager
    def still(self):
        """Keeps all processes from calls that are logged: who is killed meanwhile leaves no call
        half written down."""
        if not self.logs or self.is_still:
            yield
            return
        with open(self.log, "ab") as log:
            fcntl.flock(log, fcntl.LOCK_EX)
            self.is_still = True
            try:
                yield
            finally:
                self.is_still = False

    def look(self):
        return folder.Folder(self.run)

    def note_call(self, text: str) -> None:
        """Appends a line to the log of calls."""
        with open(self.calls, "ab", buffering=0) as file:
            file.write(f"\n{text} .".encode())

    def performed(self, worker, serial, line):
        """Notes that this line was performed, with the count before."""
        self.note_call(f"performed {worker}.{serial} {line}")
        before, self.by[line] = self.by.get(line), f"{worker}.{serial}"
        self.account.append(("performed", worker, serial, line))
        want(not before, f"performed twice: line {line} by {worker}.{serial}, and before by {before}")

    def effects(self):
        return [it[1:] for it in self.account if it[0] == "performed"]

    def tell(self, wrong):
        """Writes down what is wrong and what the account says, for who looks for the cause."""
        with open(f"{self.room}/account", "w") as file:
            file.write("".join(f"{it}\n" for it in [wrong, *self.account, self.acknowledged, self.answers]))

    def doubts(self):
        """Asks for the doubts, and notes that they were listed."""
        status, out, err = self.call("doubts", self.run)
        want(status == OVER, f"doubts: status {status}, {err}")
        found = []
        for line in out.splitlines():
            _, name, number = line.split(" ")[:3]
            found.append((*map(int, name.split(".")), int(number)))
        self.account += [("listed", *it) for it in found]
        return found

    def answer(self, worker, serial, line, verdict):
        """Gives a person's answer, which must be taken. A request here arrives at once, so
        `not-done` needn't wait."""
        text = folder.read(f"{self.run}/jobs").decode().split("\n")[line - 1]
        at_once = ["--now"] if verdict == "not-done" else []
        status, _, err = self.call("answer", self.run, f"{worker}.{serial}", str(line), text, verdict, *at_once)
        want(status == OVER, f"answer {worker}.{serial} {verdict}: status {status}, {err}")
        self.note_answer(worker, serial, line, verdict)

    def note_answer(self, worker, serial, line, verdict):
        """Notes that this answer was taken."""
        self.account.append(("reopened" if verdict == "not-done" else "found", worker, serial, line))
        self.answers[worker, serial] = verdict

    def again(self):
        """Opens each untouched line again, once."""
        found = [it for it in self.look().intents.values() if it.answer == "untouched" and not it.found]
        status, _, err = self.call("again", self.run)
        want(status == OVER, f"again: status {status}, {err}")
        self.account += [("reopened", it.worker, it.serial, it.line) for it in found]

    def audit(self, is_over=True):
        """Raises Wrong if the run shows what no run may show. If it is over, each line must be
        performed, or listed."""
        performed, listed, said = {}, {}, {}
        for kind, worker, serial, line in self.account:
            name = f"line {line} by {worker}.{serial}"
            if kind == "said":
                want(line not in said, f"said twice: {name}, and before by {said.get(line)}")
                want(line not in listed, f"said after it was listed as a doubt: {name}, listed as {listed.get(line)}")
                said[line] = f"{worker}.{serial}"
            elif kind == "performed":
                want(line not in performed, f"performed twice: {name}, and before by {performed.get(line)}")
                want(line not in listed, f"performed after it was listed as a doubt: {name}, listed as {listed.get(line)}")
                performed[line] = f"{worker}.{serial}"
            elif kind == "listed":
                listed[line] = f"{worker}.{serial}"
            elif kind == "reopened":
                listed.pop(line, None)
                said.pop(line, None)
        try:
            found = self.look()
        except folder.Refused as refused:
            raise Wrong(f"a journal is refused: {refused}") from refused
        self.audit_kept(found, performed)
        if self.has_true_registers:
            self.audit_words()
        if is_over:
            kinds = found.kinds(found.final())
            for line in kinds:
                told = kinds[line] in ("doubt", "running", "untouched") or kinds[line] in ("done", "failed")
                want(told, f"line {line} is {kinds[line]} at the end")
            self.audit_ends(found, kinds, performed)

    def audit_kept(self, found, performed):
        """Wants acknowledged records to stand in the journals, and each performed line to be closed
        by its own intent."""
        for (worker, serial), (line, answer) in self.acknowledged.items():
            it, gone = found.intents.get((worker, serial)), "an acknowledged line is gone:"
            want(it and it.line == line, f"{gone} intent {worker}.{serial} of line {line}")
            want(answer is None or it.answer == answer, f"{gone} {answer} {worker}.{serial}, there is {it.answer}")
        for (worker, serial), verdict in self.answers.items():
            want(found.intents[worker, serial].found == verdict, f"a person's answer is gone: {worker}.{serial} {verdict}")
        for line, name in performed.items():
            closing = [it.name() for it in found.of_line(line)] if line <= len(found.lines) else []
            want(name in closing, f"line {line}, performed by {name}, is closed by {closing}")

    def take_lines(self, worker, said):
        """Notes the lines that a worker reports as taken. They must be none unless somebody has
        spoiled the registers."""
        found = TAKEN.findall(said)
        self.taken += [(worker, int(line), attempt) for line, attempt in found]
        want(not (found and self.has_true_registers), f"worker {worker} was given a line that isn't open: {said}")

    def audit_words(self):
        """In the words of a round of this boot each job is filed once, and each worker has claimed
        what it filed, and at most one more."""
        taken = []
        for claims, announced, row in folder.rows_of(self.run, folder.read(self.boot).decode().strip()):
            want(claims in (len(row), len(row) + 1), f"{claims} claims, and {len(row)} jobs are filed")
            taken += row + [announced] * (claims - len(row))
        want(len(set(taken)) == len(taken) and 0 not in taken, f"a job was claimed twice: {taken}")

    def audit_ends(self, found, kinds, performed):
        for line, kind in kinds.items():
            by_person = any(it.found == "done" for it in found.of_line(line))
            is_true = kind not in ("done", "failed") or line in performed or by_person
            want(is_true, f"line {line} counts as {kind}, and nobody performed it")


class Runner:
    """The runner of a worker. It handles a line by `perform` and `was`, which a test may replace. A
    stray one has no lock: it starts a worker though another runner may have that number. Its worker
    stays for the next round if `stays` is set; else it closes its pipe at `over`, and so the worker
    ends."""

    def __init__(self, scene, worker, waits=240, is_stray=False):
        self.scene, self.worker, self.process, self.lock = scene, worker, None, None
        self.seen, self.statuses, self.said = {}, [], ""
        self.rest, self.lines, self.waiting, self.drops, self.leaves = b"", [], None, False, False
        self.stays, self.overs, self.goes_on_at, self.pause = False, 0, None, PAUSE
        scene.bench.runners.append(self)
        if not is_stray:
            self.lock = self.taken(f"runner.{worker}", waits)
            want(self.lock, f"runner.{worker} is held")

    def taken(self, name, waits=0):
        """Returns the lock on a file of the run, as an open file; None if another process has
        it."""
        file, end = open(f"{self.scene.run}/{name}", "ab"), time.monotonic() + waits
        while True:
            try:
                fcntl.flock(file, fcntl.LOCK_EX | fcntl.LOCK_NB)
                return file
            except BlockingIOError:
                if time.monotonic() > end:
                    file.close()
                    return None
                time.sleep(0.005)

    def start(self, faults=None):
        """Starts its worker, and drops lines of the one before that nobody has read."""
        scene = self.scene
        scene.bench.processes += 1
        words = [*scene.bench.command(), "work", scene.run, str(self.worker), *scene.givens(), scene.jobs]
        pipes = dict.fromkeys(("stdin", "stdout", "stderr"), subprocess.PIPE)
        self.process = subprocess.Popen([*words, *scene.common()], **pipes, bufsize=0,
                                        env=scene.environment(faults))
        self.rest, self.waiting, self.lines, self.goes_on_at = b"", None, [], None
        self.said = ""
        return self

    def read(self):
        """Reads what is there, and does what the whole lines say. False at the end, when the status
        is known."""
        part = os.read(self.process.stdout.fileno(), 1 << 16)
        *lines, self.rest = (self.rest + part).split(b"\n")
        for line in lines:
            if line == b"over":
                self.over()
                continue
            kind, serial, number, _ = line.split(b" ", 3)
            self.see_kept(kind, int(serial), int(number))
            if kind == b"perform":
                self.scene.account.append(("said", self.worker, int(serial), int(number)))
            if self.drops and self.is_dead():
                break
            self.take(line.decode())
        if part:
            return True
        self.end()
        return False

    def over(self):
        """Its worker's part of a round is over, and the answer before that is noted."""
        self.acknowledge()
        self.hear()
        self.overs += 1
        if self.leaves:
            self.tell(b"leave\n")
        elif self.stays:
            self.pause = min(2 * self.pause, LONGEST_PAUSE)
            self.goes_on_at = time.monotonic() + random.uniform(self.pause / 2, self.pause)
        else:
            self.process.stdin.close()

    def go_on(self):
        """Has a worker go on that waits between two rounds, once its pause is over."""
        if self.goes_on_at and time.monotonic() >= self.goes_on_at:
            self.goes_on_at = None
            self.tell(b"go\n")

    def tell(self, data):
        """Says this to the worker, if that can hear it."""
        with contextlib.suppress(BrokenPipeError):
            self.process.stdin.write(data)

    def see_kept(self, kind, serial, number):
        """Wants no acknowledged intent to be put anew, and none to be asked for whose answer was
        acknowledged. Otherwise that is gone."""
        line, answer = self.scene.acknowledged.get((self.worker, serial), (None, None))
        is_new = line is None if kind == b"perform" else line in (None, number) and answer is None
        said = f"{kind.decode()} {self.worker}.{serial} of line {number}"
        want(is_new, f"an acknowledged line is gone: it says {said}, and there was {answer or 'the intent'} of line {line}")

    def is_dead(self):
        """Returns whether it has died, or does in a moment."""
        end = time.monotonic() + 0.05
        while self.process.poll() is None and time.monotonic() < end:
            time.sleep(0.002)
        return self.process.poll() is not None

    def end(self):
        status = self.process.wait()
        self.scene.note_call(f"gone {self.process.pid}")
        self.hear()
        for stream in (self.process.stdin, self.process.stdout, self.process.stderr):
            stream.close()
        if status in (OVER, LATER) or status == LEFT and self.leaves:
            self.acknowledge()
        self.statuses.append(status)
        self.process = None

    def hear(self):
        """Reads what its worker has written to standard error since the last time."""
        file, said = self.process.stderr.fileno(), b""
        while select.select([file], [], [], 0)[0] and (part := os.read(file, 1 << 16)):
            said += part
        self.said += said.decode("utf-8", "replace")
        self.scene.take_lines(self.worker, said.decode("utf-8", "replace"))

    def acknowledge(self):
        """Notes the record that it went on after."""
        if self.waiting:
            serial, line, answer = self.waiting
            self.scene.acknowledged[self.worker, serial] = line, None if answer == "running" else answer
            self.waiting = None

    def take(self, line):
        kind, serial, number, text = line.split(" ", 3)
        want(kind in ("perform", "was"), f"it says: {line}")
        serial, number = int(serial), int(number)
        known = folder.read(self.scene.run + "/jobs").decode().split("\n")
        want(number < len(known) and known[number - 1] == text, f"it says another text: {line}")
        self.lines.append(line)
        self.pause = PAUSE
        self.acknowledge()
        if kind == "perform":
            self.scene.acknowledged[self.worker, serial] = number, None
        reply = getattr(self, kind)(serial, number)
        if reply is not None:
            self.answer(serial, number, reply)

    def answer(self, serial, number, reply):
        """Answers the worker on an intent, and goes by that answer if the worker can read no
        more."""
        words = reply.split(" ")
        self.waiting = serial, number, words[0]
        if words[0] == "unbegun":
            self.scene.account.append(("reopened", self.worker, serial, number))
        words[1:1] = [str(serial)]
        try:
            self.process.stdin.write((" ".join(words) + (" leave" if self.leaves else " go") + "\n").encode())
        except BrokenPipeError:
            self.waiting = None

    def perform(self, serial, line):
        """Performs the line, with the lock of its command, and says what came of it."""
        held = self.taken(f"command.{self.worker}.{serial}")
        if not held:
            return "running"
        self.act(serial, line)
        held.close()
        return self.after(serial)

    def act(self, serial, line):
        self.seen[serial] = "done 0"
        self.scene.performed(self.worker, serial, line)

    def after(self, serial):
        """Returns the answer on a command that has ended. It is over if its lock can be got
        anew."""
        again = self.taken(f"command.{self.worker}.{serial}")
        if not again:
            return "running"
        again.close()
        os.unlink(f"{self.scene.run}/command.{self.worker}.{serial}")
        return self.seen.get(serial, "doubt")

    def was(self, serial, line):
        """Returns the answer on an intent of an earlier worker. It is final that nothing is known
        once the command's lock can be got."""
        return self.after(serial)

    def kill(self):
        with self.scene.still():
            if self.process:
                self.process.kill()
                self.process.wait()
                self.scene.note_call(f"gone {self.process.pid}")

    def close(self):
        """Ends, and kills its worker, if there is one."""
        if self.process:
            self.kill()
            for stream in (self.process.stdin, self.process.stdout, self.process.stderr):
                stream.close()
            self.process = None
        if self.lock:
            self.lock.close()


def serve(runners, seconds=240, until=None):
    """Reads what the workers of these runners say, until each has ended, or something is so. A time
    in which this tool itself was stopped doesn't count."""
    seen = time.monotonic()
    while not (until and until()):
        living = {it.process.stdout.fileno(): it for it in runners if it.process}
        if not living:
            return
        seconds, seen = seconds - min(time.monotonic() - seen, 1), time.monotonic()
        want(seconds > 0, f"it doesn't end: {[(it.worker, it.lines[-1:]) for it in living.values()]}")
        for it in living.values():
            it.go_on()
        for file in select.select(list(living), [], [], 0.004 if until else 0.05)[0]:
            living[file].read()


def live(runner, faults=None):
    """One life of a worker, to its end: its status."""
    serve([runner.start(faults)])
    return runner.statuses[-1]


def see_out(runners, seconds=600, draws=None):
    """Has the workers stay, and starts them again, until each reports that all is done, or that it
    was asked to leave."""
    seen, ended, due = time.monotonic(), set(), {}
    for it in runners:
        it.stays = True
    while len(ended) < len(runners):
        now = time.monotonic()
        seconds, seen = seconds - min(now - seen, 1), now
        want(seconds > 0, f"it isn't over: {[(it.worker, it.statuses[-3:], it.said) for it in runners]}")
        for it in runners:
            if not it.process and it not in ended and due.get(it, 0) <= now:
                it.start()
        living = [it for it in runners if it.process]
        if not living:
            time.sleep(0.005)
        serve(living, until=lambda: any(not it.process for it in living) or time.monotonic() > now + 0.2)
        for it in living:
            if it.process:
                continue
            status = it.statuses[-1]
            want(status in (OVER, LEFT, LATER, KILLED), f"worker {it.worker} ends with status {status}: {it.said}")
            if status in (OVER, LEFT):
                ended.add(it)
            due[it] = time.monotonic() + (draws.uniform(0, 0.1) if draws else 0.01 if len(runners) > 1 else 0)


def finish(scene, workers=(1,), is_over=True, draws=None):
    """New runners for these workers, which see the run out; then the audit."""
    runners = [Runner(scene, p) for p in workers]
    try:
        see_out(runners, draws=draws)
    finally:
        for it in runners:
            it.close()
    scene.audit(is_over)
    return runners
