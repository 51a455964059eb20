"""The common parts of the tests of tools/kill_jobs: a run of amo_jobs in a folder of its own, a
person and an audit. The commands write down what they do. The person looks at each listed doubt and
answers truthfully at once. qa/harness has the parts that other tools need too."""

import compileall
import glob
import json
import os
import re
import shutil
import signal
import subprocess
import sys
import tempfile
import time
from typing import List

from harness import bench as harness
from harness.bench import Wrong, spread, want
from worker import folder

HERE = os.path.dirname(os.path.realpath(__file__))
DONE, FAILED, DOUBTFUL, WORDS, REFUSED, LEFT, WRITE, READ, LATER, BUILD = (
    0, 1, 2, 64, 65, 69, 73, 74, 75, 125)
NO_MEMORY = 71  # or a program that the crew asked was killed
KILLED = -signal.SIGKILL
UNHEARD = (-signal.SIGHUP, -signal.SIGTERM, -signal.SIGINT, 130)  # of a signal that came before a crew took any
COMMAND = [f"{HERE}/act.sh"]


def compiled(program: str, room: str) -> str:
    """Copies amo_jobs with its package, or the folder of a worker in Python, into a new folder,
    and compiles it there, with its part in C. Returns the path of the copy. (They compile their
    modules at each start, and write nothing into their own folders. A run of these tests starts
    thousands.)"""
    top = os.path.dirname(os.path.realpath(program))
    if program.endswith(".py"):
        shutil.copytree(top, room)
    else:
        copy_program(program, room)
        words = [sys.executable, "-B", "-c", "from amo_jobs.library import library; library()"]
        subprocess.run(words, cwd=f"{room}/python", stdin=subprocess.DEVNULL, check=True)
    compileall.compile_dir(room, quiet=2)
    return f"{room}/{os.path.basename(program)}"


def copy_program(program: str, room: str) -> None:
    """Copies amo_jobs and its package into a new folder."""
    os.mkdir(room)
    top = os.path.dirname(os.path.realpath(program))
    for name in (os.path.basename(program), "VERSION"):
        shutil.copy(f"{top}/{name}", room)
    shutil.copytree(f"{top}/python", f"{room}/python")


def changed(program: str, room: str, pairs: list) -> str:
    """Copies a program and the package into a new folder, with the first text of each pair replaced
    by the second; returns the path of the copy. Each first text must stand there once."""
    copy_program(program, room)
    files = [*glob.glob(f"{room}/python/*/*.py"), f"{room}/python/amo_jobs/calls.c"]
    for old, new in zip(pairs[::2], pairs[1::2]):
        texts = {it: folder.read(it).decode() for it in files}
        found = sum(it.count(old) for it in texts.values())
        want(found == 1, f"this stands {found} times in python/: {old}")
        for it in (it for it in files if old in texts[it]):
            with open(it, "w") as file:
                file.write(texts[it].replace(old, new))
    return f"{room}/{os.path.basename(program)}"


class Bench(harness.Bench):
    """A bench with amo_jobs and a worker."""

    def __init__(self, program, worker, room, is_long, seed, mistake=None):
        super().__init__(room, is_long, seed)
        self.program, self.worker = os.path.abspath(program), os.path.abspath(worker)
        self.mistake, self.scenes = mistake, []
        self.made: List[Scene] = []
        self.dropped: list = []  # what came of the logs of scenes whose files are gone
        self.kills = 0  # how many kills a test has to make that counts them

    def scene(self, *given, **more):
        self.scenes.append(Scene(self, *given, **more))
        self.made.append(self.scenes[-1])
        return self.scenes[-1]

    def close(self):
        for it in self.scenes:
            it.close()
        self.scenes.clear()

    def sample(self, whole, count):
        """Returns all of these in the long form, in some order; else so many of them, spread."""
        whole = list(whole)
        return self.draws.sample(whole, len(whole)) if self.is_long else spread(whole, count)


class Scene:
    """One run."""

    def __init__(self, bench, kinds, workers=1, options=("--linger", "0.2"), command=None):
        self.bench, self.workers, self.options, self.room = bench, workers, list(options), tempfile.mkdtemp(dir=bench.room)
        self.run, self.jobs, self.boot, self.effects = (f"{self.room}/{it}" for it in ("run", "jobs", "boot", "effects"))
        self.command, self.crews, self.statuses, self.said, self.boots = command or COMMAND + [self.room], [], [], "", 0
        self.calls, self.is_judged = f"{self.room}.calls", True  # (its calls aren't to fail)
        self.kinds, self.listed, self.file_system, self.numbers, self.known = [], [], None, workers, 0
        self.ends_of_crews = {DONE, FAILED, DOUBTFUL, LEFT, LATER, KILLED, *UNHEARD}
        self.orphaned = ()  # the kinds of commands whose child may be killed by itself, after its parent has ended well
        os.mkdir(self.effects)
        self.grow(kinds)
        self.start_machine()

    def grow(self, kinds, end="\n"):
        """Lines are added to the list; each is its number and what its command has to do."""
        with open(self.jobs, "a") as file:
            for kind in kinds:
                self.kinds.append(kind)
                file.write(f"{len(self.kinds)} {kind}{end}")

    def start_machine(self):
        """A boot id that was never there before."""
        self.boots += 1
        with open(self.boot, "w") as file:
            file.write(f"{self.boots:08x}-1111-4222-8333-{os.getpid():012x}\n")

    def environment(self, plan=None, **more):
        # (A shim of python3, as pyenv has it, takes longer to begin than Python.)
        path = f"{os.path.dirname(sys.executable)}:{os.environ['PATH']}"
        named = {"PATH": path, "AMO_REAL": self.bench.worker, "AMO_ROOM": self.room, "AMO_PLAN": plan,
                 "AMO_MISTAKE": self.bench.mistake, "AMO_TEST_BOOT_ID": self.boot,
                 "AMO_CALLS": self.calls, **more}
        return {name: value for name, value in named.items() if value}

    def words(self, command, *words, plan=None):
        worker = f"{HERE}/between.py" if plan else self.bench.worker
        # (Python begins in a fifth of the time without its site packages, and amo_jobs uses none.)
        return [sys.executable, "-I", "-S", self.bench.program, command, "--run", self.run,
                "--worker-program", worker, *(["--file-system", self.file_system] if self.file_system else []), *words]

    def start(self, *more, plan=None, workers=None, command=None, **how):
        """Starts a crew. Its output goes to a file."""
        self.bench.add("crews")
        self.numbers, self.known = workers or self.workers, len(self.kinds)
        words = ["--workers", str(self.numbers), *self.options, *more, self.jobs, "--", *(command or self.command)]
        with open(f"{self.room}/said", "ab") as said:
            crew = subprocess.Popen(self.words("crew", *words, plan=plan), stdin=subprocess.DEVNULL, stdout=said, stderr=said,
                                    env=self.environment(plan), start_new_session=True, **how)
        self.crews.append(crew)
        return crew

    def tale(self):
        """Returns the output of the crews."""
        return folder.read(f"{self.room}/said").decode("utf-8", "replace")

    def ends(self, crew, status, seconds=240):
        """Waits for the end of a crew, which has to have this status."""
        try:
            found = crew.wait(seconds)
        except subprocess.TimeoutExpired:
            raise Wrong(f"it doesn't end: {self.tale()[-500:]}") from None
        want(found == status, f"status {found} in place of {status}: {self.tale()[-500:]}")

    def call(self, command, *words, status=DONE):
        """Returns a command for persons: what it writes. None in place of a status takes any."""
        ran = subprocess.run(self.words(command, *words), stdin=subprocess.DEVNULL,
                             capture_output=True, timeout=240, env=self.environment())
        want(status in (None, ran.returncode), f"{command}: status {ran.returncode}: {(ran.stdout + ran.stderr).decode()[-500:]}")
        return ran.stdout.decode()

    def counts(self, status=None):
        return json.loads(self.call("status", "--json", status=status))

    def look(self):
        return folder.Folder(self.run)

    def let(self, *names: str):
        """Lets the commands go on that wait for these files, `go` and `over`."""
        for name in names:
            open(f"{self.room}/{name}", "w").close()

    def tell(self, line, text):
        with open(f"{self.effects}/{line}", "a") as file:
            file.write(f"{text}\n")

    def tales(self, line):
        """Returns the notes of the commands of a line and of the person, each a list of words."""
        return [it.split(" ") for it in folder.read(f"{self.effects}/{line}").decode().splitlines()]

    def may_doubt(self) -> bool:
        """Returns whether an attempt is pending or in doubt by the journals, or they can't be read.
        (To ask the programs takes as long as a crew.)"""
        try:
            attempts = self.look().intents.values()
        except folder.Refused:
            return True
        return any(it.answer in (None, "doubt") and not it.found for it in attempts)

    def look_on(self):
        """Looks at the doubts, as `person` does, if there may be any."""
        if self.may_doubt():
            self.person()

    def person(self, by_hand=0.3):
        """Looks at the effect of each listed doubt, and answers. Some that were not done are done
        by hand after that."""
        if not os.path.exists(f"{self.run}/jobs"):
            return 0
        found = re.findall(r"^# (\d+\.\d+), line (\d+): (.*)$", self.call("doubts"), re.M)
        for name, line, text in found:
            self.listed.append(name)
            self.tell(line, f"listed {name}")
            is_done = ["did", name] in self.tales(line)
            hand = not is_done and self.bench.draws.random() < by_hand
            verdict = "done" if is_done or hand else "not-done"
            self.answer(name, line, text, verdict)
            self.bench.add("doubts")
            self.bench.add(verdict)
            self.tell(line, f"answered {name} {verdict}")
            if hand:
                self.tell(line, "did by-hand")
        return len(found)

    def answer(self, name: str, line: str, text: str, verdict: str, seconds=240):
        """Answers a doubt, and again if a crew that begins holds it just now. A request here
        arrives at once, so `not-done` needn't wait."""
        end = time.monotonic() + seconds
        words = self.words("answer", *(["--now"] if verdict == "not-done" else []), "--", name, line,
                           text, verdict)
        while True:
            ran = subprocess.run(words, timeout=240, stdin=subprocess.DEVNULL, capture_output=True,
                                 env=self.environment())
            if ran.returncode == DONE:
                return
            told = f"answer {name} {verdict}: status {ran.returncode}: {ran.stderr.decode()[-500:]}"
            want(ran.returncode == LATER and time.monotonic() < end, told)

    def see_out(self, crew=None, seconds=600, pause=0.3, again=True, during=None,
                workers_of=lambda: None):
        """Starts crews, with a person who answers, until no line is open, in doubt or running.
        Returns the status of the last one."""
        end = time.monotonic() + seconds
        crew = crew or self.start(workers=workers_of())
        while True:
            want(time.monotonic() < end, f"it isn't over: {self.statuses[-5:]} {self.tale()[-500:]}")
            try:
                status = crew.wait(pause)
            except subprocess.TimeoutExpired:
                self.look_on()
                if during:
                    during(crew)
                continue
            self.statuses.append(status)
            want(status in self.ends_of_crews, f"status {status}: {self.tale()[-800:]}")
            self.look_on()
            if status == FAILED and again and "untouched" in self.look().kinds().values():
                self.call("again")
            # (Lines that came after its start may be the next one's. Python ends with 1 if a signal
            # comes before it has begun.)
            elif status in (DONE, FAILED) and len(self.kinds) == self.known and os.path.exists(f"{self.run}/jobs"):
                return status
            elif status == DOUBTFUL:
                time.sleep(0.1)
            crew = self.start(workers=workers_of())

    def audit(self):
        """Raises Wrong if the run shows what no run may show."""
        for line in range(1, len(self.kinds) + 1):
            self.audit_line(line, self.tales(line))
        try:
            found = self.look()
        except folder.Refused as refused:
            raise Wrong(f"a journal is refused: {refused}") from refused
        kinds = found.kinds(found.final())
        want(len(kinds) == len(self.kinds), f"the run knows {len(kinds)} of {len(self.kinds)} lines")
        for line, kind in kinds.items():
            want(kind in ("done", "failed", "untouched"), f"line {line} is {kind} at the end")
        for it in found.intents.values():
            told = self.tales(it.line)
            is_true = it.answer != "done" or ["did", it.name()] in told or self.kinds[it.line - 1] in self.orphaned
            want(is_true, f"line {it.line} counts as done by {it.name()}, which did nothing: {told}")
            is_kept = it.answer not in ("unbegun", "untouched") or ["did", it.name()] not in told
            want(is_kept, f"line {it.line} counts as {it.answer} by {it.name()}, which did it: {told}")
        counts = self.counts()
        want({it: counts[it] for it in found.counts()} == found.counts(found.final()), f"the status is {counts}")
        # (A runner removes the locks of its number's earlier commands, so the locks of unused
        # numbers stay.)
        locks = [it for it in os.listdir(self.run) if it.startswith("command.") and int(it.split(".")[1]) <= self.numbers]
        want(not locks, f"locks are left: {locks}")

    def audit_line(self, line, told):
        did = [it for it in told if it[0] == "did"]
        want(len(did) < 2, f"performed twice: line {line}: {told}")
        for place, it in enumerate(told):
            later = [after for after in told[place + 1:] if after[0] == "did"]
            if it[0] == "listed":
                want(["did", it[1]] not in later, f"performed after it was listed: line {line}: {told}")
            if it[0] == "answered" and it[2] == "done":
                want(not later or later == [["did", "by-hand"]], f"performed after it was answered done: line {line}: {told}")

    def close(self):
        """Ends what is left: crews, and their workers and commands, which know the folder by their
        words."""
        for it in self.crews:
            if it.poll() is None:
                it.kill()
                it.wait()
        self.kill(self.processes())

    def kill_crew(self, crew):
        """Kills a crew's supervisor and all of its runners. Workers and commands go on."""
        if crew.poll() is None:
            crew.kill()
        status = crew.wait()
        end = time.monotonic() + 240
        while runners := list(self.runners()):
            want(time.monotonic() < end, "the runners don't die")
            self.kill(runners)
            time.sleep(0.01)
        return status

    @staticmethod
    def kill(processes, number=signal.SIGKILL):
        """Sends a signal to these processes, as far as they are there."""
        for process in processes:
            try:
                os.kill(process, number)
            except ProcessLookupError:
                pass

    def runners(self):
        """Returns the runners of a crew: their words have the supervisor's version."""
        with open(f"{os.path.dirname(self.bench.program)}/VERSION") as file:
            return self.processes(f"--as={file.read().strip()}")

    def tellers(self, crew):
        """Returns the process by which a crew reports to others: it has the crew's words."""
        return sorted(set(self.processes("crew")) - {crew.pid})

    def worker_processes(self):
        """Returns the processes of workers."""
        return sorted(set(self.processes("work")) - set(self.runners()))

    def commands(self):
        """Returns the processes of commands, whose path the words of crews and runners have too."""
        own = {*self.processes("crew"), *self.processes("work")}
        return sorted(set(self.processes(self.command[0])) - own)

    def processes(self, word=""):
        """Yields the processes that have this run's folder, and this word, in their command
        line."""
        return harness.processes_of(self.room, *([word] if word else []))
