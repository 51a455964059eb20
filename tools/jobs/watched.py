"""Views of a run: the report, the live view, the numbers for a monitor and `status --follow`
read without any lock, write nothing, and have the counts of `status`. What a crew reports to others
has these counts too. The report marks each restart."""

import json
import os
import re
import shlex
import shutil
import signal
import subprocess
import sys
import tempfile
import time

HERE = os.path.dirname(os.path.realpath(__file__))
sys.path.insert(0, f"{os.path.dirname(HERE)}/modules")

import schemas

from harness.bench import shown, until
from jobs import storms, unseen
from jobs.scene import Bench, DONE, DOUBTFUL, WRITE, Wrong, changed, want
from worker import folder

DOCS = f"{os.path.dirname(os.path.dirname(HERE))}/docs"
STATES = ("done", "failed", "doubt", "pending", "untouched", "open")
# Calls that open a file, and those that take a lock or change a file, as strace names them.
OPENS = "open,openat,openat2,creat"
CHANGES = ("flock,fcntl,ftruncate,truncate,rename,renameat,renameat2,link,linkat,symlink,symlinkat,unlink,unlinkat,mkdir,"
           "mkdirat,mknod,mknodat,rmdir,fsync,fdatasync,sync_file_range,fallocate,chmod,fchmod,fchmodat,chown,fchown,lchown,"
           "fchownat,utime,utimes,futimesat,utimensat,setxattr,fsetxattr,lsetxattr,removexattr")
STAND_IN = f"{os.path.dirname(HERE)}/worker/stand_in.py"
# Writes the numbers of a run to a file, as the process does by which a crew reports to others. Its
# words: the folder of the package, the folder of the run, the program amo_worker, the file system,
# the number of workers, the file.
TELL = """import sys
sys.dont_write_bytecode = True
sys.path.insert(0, sys.argv[1])
from amo_jobs.settings import Settings
from amo_jobs.worker import Program
from amo_watch.news import News
run, worker, kind, workers, path = sys.argv[2:]
it = News(Settings(run=run, workers=int(workers), metrics=path), Program(worker, kind), print)
it.look()
while not it.found.time:
    it.turn(it.files())
it.end()
"""
# A text of a module of python/amo_watch, and texts that make `report` take a lock, or write in the
# run's folder, each with the words that strace prints of it.
SNAPSHOT = "    found = snapshot_of(program, settings.run)\n    run = Run("
MISTAKES = [
    ("flock", f'    import fcntl\n    fcntl.flock(open(f"{{settings.run}}/runner.1", "rb"), fcntl.LOCK_SH)\n{SNAPSHOT}'),
    ("F_OFD_SETLK|F_SETLK", "    import fcntl\n    file = open(f\"{settings.run}/runner.1\", \"rb\")\n"
     f"    fcntl.lockf(file, fcntl.LOCK_SH)\n{SNAPSHOT}"),
    ("O_CREAT", f'    open(f"{{settings.run}}/report", "w").close()\n{SNAPSHOT}'),
    ("rename", f'    os.rename(f"{{settings.run}}/runner.1", f"{{settings.run}}/runner.1")\n{SNAPSHOT}'),
]


def checked(schema, value):
    """Returns the value, which has to be as a schema in docs/ says."""
    found = list(schemas.faults(schemas.read(f"{DOCS}/{schema}.schema.json"), value))
    want(not found, f"{schema}: {found[:5]}")
    return value


def report(scene):
    """Returns the output of `amo_jobs report --json`."""
    return checked("report", json.loads(scene.call("report", "--json", scene.jobs)))


def followed(scene, *more):
    """Returns the process of `amo_worker status --follow`."""
    words = [scene.bench.worker, "status", scene.run, "--follow", *more, "--boot-id", scene.boot]
    kind = ["--file-system", scene.file_system] if scene.file_system else []
    return subprocess.Popen([*words, *kind], stdin=subprocess.DEVNULL, stdout=subprocess.PIPE,
                            stderr=subprocess.PIPE, env=scene.environment())


def first_line(scene):
    """Returns the output of `amo_worker status --follow --once`."""
    said, told = followed(scene, "--once").communicate(timeout=240)
    want(said.count(b"\n") == 1 and said.endswith(b"\n"), f"{said[:200]}{told[:200]}")
    return checked("follow", json.loads(said))


def watched(scene):
    """The counts that `amo_jobs watch` prints first, without a terminal."""
    process = subprocess.Popen(scene.words("watch", scene.jobs), stdin=subprocess.DEVNULL, stdout=subprocess.PIPE,
                               stderr=subprocess.DEVNULL, env=scene.environment())
    line = process.stdout.readline().decode()
    process.terminate()
    process.communicate()
    names = {"in doubt": "doubt", "running or in doubt": "pending"}
    found = re.findall(r"(\d+) (done|failed|in doubt|running or in doubt|untouched|open)[,;]", line)
    want(len(found) == len(STATES), f"the view begins with: {line}")
    return {names.get(name, name): int(count) for count, name in found}


def tell_words(scene, path):
    """The command that writes the numbers of a run to this file."""
    package = f"{os.path.dirname(scene.bench.program)}/python"
    return [sys.executable, "-I", "-S", "-c", TELL, package, scene.run, scene.bench.worker,
            scene.file_system or "", str(scene.workers), path]


def numbers_in(path):
    """How many lines stand how, by a file of numbers."""
    found = re.findall(r'^amo_lines\{run="[^"]*",state="(\w+)"\} (\d+)$', folder.read(path).decode(), re.M)
    want(sorted(state for state, _ in found) == sorted(STATES), f"the numbers are of {found}")
    return {state: int(count) for state, count in found}


def monitored(scene):
    """The counts in the file of numbers."""
    path = f"{scene.room}/monitored"
    ran = subprocess.run(tell_words(scene, path), stdin=subprocess.DEVNULL, capture_output=True, timeout=240,
                         env=scene.environment())
    want(ran.returncode == DONE and not ran.stdout, f"{(ran.stdout + ran.stderr)[-500:]}")
    return numbers_in(path)


def files_of(run):
    """Returns each file of a run: what it holds, and when it was written last."""
    return {name: (folder.read(f"{run}/{name}"), os.stat(f"{run}/{name}").st_mtime_ns)
            for name in sorted(os.listdir(run))}


def compared(scene, is_looked_at):
    """The counts of the report, the view, the numbers and `--follow` are those of `status`. If nobody
    has looked at the pending attempts, those are running or in doubt."""
    before = files_of(scene.run)
    page, line, view, numbers = report(scene), first_line(scene), watched(scene), monitored(scene)
    scene.call("report", scene.jobs)
    want(files_of(scene.run) == before, "the run's folder has changed while it was watched")
    counts = scene.counts()
    own = {it: line[it] for it in STATES}
    want(page["counts"] == own and view == own and numbers == own, f"{page['counts']}, {view}, {numbers}, {line}")
    compare_status(line, counts, is_looked_at)
    compare_journals(scene, page, line)


def compare_status(line, counts, is_looked_at):
    """The counts of a line of `--follow` are those of `status`."""
    want(line["lines"] == sum(line[it] for it in STATES) == counts["lines"], f"{line}, {counts}")
    for it in ("done", "failed", "untouched", "open"):
        want(line[it] == counts[it], f"{it}: {line[it]} in place of {counts[it]}")
    want(line["doubt"] + line["pending"] == counts["doubt"] + counts["running"],
         f"{line['doubt']} + {line['pending']}, {counts}")
    if is_looked_at:
        want(line["doubt"] == counts["doubt"], f"{line['doubt']} in doubt, {counts}")


def compare_journals(scene, page, line):
    """The attempts of a line of `--follow` and of a report are those of the journals."""
    found = {f"{it[0]}.{it[1]}": it for it in line["attempts"]}
    journal = scene.look().intents.values()
    want(set(found) == {it.name() for it in journal}, "other attempts than the journals have")
    for it in journal:
        row = found[it.name()]
        want((row[2], row[4]) == (it.line, it.answer or "pending"), f"{row}, {vars(it)}")
    for name, state in (("doubts", "doubt"), ("failures", "failed"), ("pending", "pending")):
        want(len(page[name]) == line[state], f"{name}: {len(page[name])}, {line[state]}")
    answers = {it.name(): it.found for it in journal if it.found}
    listed = {it["attempt"]: it["answer"] for it in page["answered"]}
    want(listed == answers, f"answered: {listed} in place of {answers}")


def try_counts(bench):
    """report, watch, the numbers and --follow have the counts of `status`, of runs that were killed, before and
    after somebody looks at the pending attempts and answers"""
    kinds = ["quick", "fail", "nothing", "dies", "slow", "slow", "quick", "fail", "slow", "slow"]
    scene = bench.scene(kinds * (4 if bench.is_long else 1), 3, ["--untouched", "75,76", "--linger", "0.1"])
    for _ in range(12 if bench.is_long else 2):
        crew = scene.start()
        begun = len(scene.look().intents) if os.path.exists(f"{scene.run}/jobs") else 0
        until(lambda: crew.poll() is not None or os.path.exists(f"{scene.run}/jobs")
              and len(scene.look().intents) > begun + bench.draws.randrange(1, 6), "lines are begun")
        scene.kill_crew(crew)
        scene.kill(scene.commands())
        until(lambda: not list(scene.processes()), "all has ended")
        compared(scene, False)
        scene.call("doubts")
        compared(scene, True)
    scene.see_out(again=False)
    compared(scene, True)
    want(report(scene)["counts"]["pending"] == 0, "something is pending at the end")


class Watched(storms.Storm):
    """A storm over a run whose counts are compared after each reboot, and at its end."""

    sizes = [60]

    def __init__(self, bench, draws):
        super().__init__(bench, draws)
        self.left, self.seen = 12 if bench.is_long else 4, 0

    def run(self):
        self.scene.see_out(during=self.befall, workers_of=self.count, pause=0.05)
        self.scene.audit()
        compared(self.scene, True)

    def befall(self, crew):
        """Somebody is killed whenever more attempts have begun; at first, and every second time, it is a reboot."""
        is_begun = os.path.exists(f"{self.scene.run}/record")
        begun = len(self.scene.look().intents) if is_begun and self.left else 0
        if begun > self.seen:
            self.left, self.seen = self.left - 1, begun
            what = "reboot" if self.left % 2 else self.draws.choice(storms.DEADLY)
            self.bench.add(what)
            getattr(self, f"befall_{what}")(crew)

    def befall_reboot(self, crew):
        super().befall_reboot(crew)
        until(lambda: not list(self.scene.processes()), "all has ended")
        compared(self.scene, False)


def try_storm_counts(bench):
    """report, watch, the numbers and --follow have the counts of `status`, of runs that random kills left"""
    return storms.try_kind(bench, Watched, 1)


def try_follow(bench):
    """lines of --follow, while a crew works and a person answers, come to what one line has then"""
    scene = bench.scene(["quick", "dies", "slow", "fail", "nothing", "quick"], 2, ["--untouched", "75,76"])
    crew = scene.start()
    until(lambda: os.path.exists(f"{scene.run}/jobs"), "a round has begun")
    process, lines, shown = followed(scene), [], {}
    scene.see_out(crew, again=False)
    scene.call("again")
    last = first_line(scene)
    # (What the second line after that time has was read after the first one was printed.)
    while len(lines) < 2 or lines[-2]["time"] <= last["time"]:
        line = process.stdout.readline()
        want(line, "it has ended")
        lines.append(checked("follow", json.loads(line)))
        shown.update({tuple(it[:2]): it for it in lines[-1]["attempts"]})
    want(all(lines[-1][it] == last[it] for it in STATES), f"{lines[-1]}, {last}")
    process.kill()
    process.communicate()
    want(sorted(shown.values()) == sorted(last["attempts"]), f"{shown}, {last}")
    want(len(lines) > 1 and sum(len(it["attempts"]) for it in lines) >= len(shown), f"{lines}")
    scene.see_out()


def has_strace(bench):
    """Whether strace is there and may trace; if not, the bench notes what is skipped."""
    if shutil.which("strace") and not subprocess.run(["strace", "-o", os.devnull, "true"], check=False,
                                                     capture_output=True).returncode:
        return True
    bench.skipped.append("the calls of a watcher: strace isn't installed, or may not trace")
    return False


def killed_scene(bench):
    """A run whose crew, workers and commands were killed: attempts are pending, and nobody has looked."""
    scene = bench.scene(["slow"] * 4, 2)
    crew = scene.start()
    until(lambda: len(os.listdir(scene.effects)) > 1, "commands have begun")
    scene.kill_crew(crew)
    scene.kill(scene.commands())
    until(lambda: not scene.worker_processes(), "the workers have ended")
    return scene


def follow_words(scene, worker=None):
    """The command that prints the first line of a run that is followed."""
    kind = ["--file-system", scene.file_system] if scene.file_system else []
    return [worker or scene.bench.worker, "status", scene.run, "--follow", "--once", "--boot-id", scene.boot, *kind]


def try_without_a_lock(bench):
    """no watcher takes a lock, opens a file to write or changes one, as strace shows; `doubts` does"""
    if not has_strace(bench):
        return
    scene = killed_scene(bench)
    for words in (follow_words(scene), scene.words("report", scene.jobs), tell_words(scene, f"{scene.room}/numbers")):
        found = changes_of(scene, words)
        want(not found, f"{words}: {found}")
    found = changes_of(scene, scene.words("doubts"))
    want(any("flock(" in it for it in found), f"`doubts` is found to take no lock: {found}")
    scene.see_out()
    found = changes_of(scene, scene.words("watch", scene.jobs))  # it ends, since all lines are closed
    want(not found, f"watch: {found}")


def try_with_a_lock(bench):
    """control: a follower and a report that take a lock, or write, are caught by the same look at their calls"""
    if not has_strace(bench):
        return None
    scene, shown = killed_scene(bench), []
    for name, wanted in (("follows_by_a_lock", "flock"), ("follows_and_settles", "O_RDWR")):
        found = changes_of(scene, follow_words(scene, STAND_IN), AMO_MISTAKE=name)
        shown.append((name, wanted, found))
    for number, (wanted, text) in enumerate(MISTAKES):
        program = changed(bench.program, f"{bench.room}/watched.{number}", [SNAPSHOT, text])
        words = [program if it == bench.program else it for it in scene.words("report", scene.jobs)]
        shown.append((wanted, wanted, changes_of(scene, words)))
    for name, wanted, found in shown:
        want(any(re.search(wanted, it) for it in found), f"the mistake {name} isn't caught: {found}")
    if os.path.exists(f"{scene.run}/report"):
        os.unlink(f"{scene.run}/report")
    scene.see_out()
    return f"{len(shown)} mistakes caught"


def changes_of(scene, words, **more):
    """Returns the calls of a program on the run's folder that take a lock or change something."""
    log = f"{scene.room}.strace"
    ran = subprocess.run(["strace", "-f", "-y", "-o", log, "-e", f"trace={OPENS},{CHANGES}", *words],
                         stdin=subprocess.DEVNULL, capture_output=True, timeout=240,
                         env=scene.environment(**more))
    want(ran.returncode == DONE, f"{words}: {ran.stderr[-500:]}")
    lines = folder.read(log).decode("utf-8", "replace").splitlines()
    calls = [it for it in whole_calls(lines) if scene.run in it]
    os.unlink(log)
    want(any(re.search(r" open(at2?)?\(", it) for it in calls), "it has read nothing")
    return [it for it in calls if is_change(it)]


def whole_calls(lines):
    """Returns the calls in a log of strace, each in one line, also those that another process interrupted."""
    begun, calls = {}, []
    for line in lines:
        process, _, call = line.partition(" ")
        call = call.strip()
        if call.endswith("<unfinished ...>"):
            begun[process] = call.removesuffix("<unfinished ...>")
            continue
        if resumed := re.match(r"<\.\.\. \w+ resumed>(.*)", call):
            call = begun.pop(process, "") + resumed[1]
        calls.append(f"{process} {call}")
    return calls + [f"{process} {call}" for process, call in begun.items()]


def is_change(call):
    """Whether a call, as strace prints it, takes a lock or changes something."""
    if re.search(r"^\d+ +(open(at2?)?|fcntl)\(", call):
        return bool(re.search(r"O_WRONLY|O_RDWR|O_CREAT|O_TRUNC|F_SETLK|F_OFD_SETLK", call))
    return True


class Terminal:
    """A terminal of tmux in which a command runs."""

    def __init__(self, scene, width, height, words):
        self.socket = f"{scene.room}/tmux.{width}"
        script = f"{shlex.join(words)}; echo ENDED $?; sleep 1000"
        self.call("-f", os.devnull, "new-session", "-d", "-x", str(width), "-y", str(height), script,
                  env={**scene.environment(), "TERM": "screen", "LC_ALL": "C.UTF-8"})

    def call(self, *words, **how):
        """What a command of tmux prints."""
        return subprocess.run(["tmux", "-S", self.socket, *words], stdin=subprocess.DEVNULL, stdout=subprocess.PIPE,
                              stderr=subprocess.DEVNULL, check=False, encoding="utf-8", **how).stdout

    def rows(self):
        """The rows that are shown."""
        return self.call("capture-pane", "-p").splitlines()

    def sees(self, text):
        """Waits until a row holds this text."""
        until(lambda: any(text in it for it in self.rows()), f"`{text}` is shown")


def try_terminals(bench):
    """the live view fits terminals of three sizes and follows another size, has the counts, and takes its keys"""
    if not shutil.which("tmux"):
        bench.skipped.append("the live view in a terminal: tmux isn't installed")
        return
    scene = killed_scene(bench)
    line = first_line(scene)
    for width, height in ((80, 24), (40, 10), (200, 50)):
        terminal = Terminal(scene, width, height, scene.words("watch", scene.jobs))
        try:
            use_keys(terminal, line, width, height)
        finally:
            terminal.call("kill-server")
    scene.see_out()


def use_keys(terminal, line, width, height):
    """Looks at a terminal with the view of a run, and presses the keys."""
    terminal.sees("q quit")
    check_rows(terminal.rows(), line, width, height)
    for key, text in (("s", "Stop the crew?"), ("n", "q quit"), ("d", "no line is recorded as in doubt"), ("s", "Stop the"),
                      ("y", "no crew is at work")):
        terminal.call("send-keys", key)
        terminal.sees(text)
    terminal.call("resize-window", "-x", str(width + 7), "-y", str(height + 2))
    until(lambda: len((terminal.rows() or [""])[0]) == width + 6, "the view has the new width")
    terminal.call("send-keys", "q")
    terminal.sees("ENDED 0")


def check_rows(rows, line, width, height):
    """The view fits its terminal, and has the counts of this line of `--follow`."""
    want(len(rows) == height and max(map(len, rows)) < width, f"{width}x{height}: {rows}")
    want(re.fullmatch(r"\[[#x?=>.]+\]", rows[0]) and len(rows[0]) == width - 1, f"{rows[0]}")
    shown = " ".join(rows[1:3])
    for state, name in (("done", "done"), ("pending", "running or in doubt"), ("open", "open")):
        want(not line[state] or f"{line[state]} {name}" in shown, f"{shown}, {line}")
    begun = [it for it in line["attempts"] if it[7] == "pending"]
    for it in begun:
        want(any(f"line {it[2]}: {it[2]} slow" in row for row in rows), f"line {it[2]} isn't shown: {rows}")


def try_refusals(bench):
    """a damaged journal is refused, and a folder without a run; a reader that is gone ends it"""
    scene = bench.scene(["quick"] * 6, 2)
    scene.see_out()
    process = followed(scene)
    process.stdout.readline()
    process.stdout.close()
    want(process.wait(240) == WRITE, f"{process.poll()}: {process.stderr.read()}")
    process.stderr.close()
    path = max((f"{scene.run}/journal.{worker}" for worker in (1, 2)), key=os.path.getsize)
    data = bytearray(folder.read(path))
    data[3] ^= 1
    with open(path, "wb") as file:
        file.write(data)
    for words in (["report", scene.jobs], ["report", "--json", scene.jobs]):
        scene.call(*words, status=65)
    scene.is_judged = False


def told(scene, crew, status):
    """Returns the reports of a crew that has ended: its events, its numbers, and its
    notifications."""
    want(crew.wait(240) == status, f"{crew.poll()}: {scene.tale()[-500:]}")
    events = [checked("events", json.loads(it)) for it in folder.read(f"{scene.room}/events").splitlines()]
    return events, numbers_in(f"{scene.room}/numbers"), sorted(folder.read(f"{scene.room}/told").decode().splitlines())


def try_told(bench):
    """a crew reports the counts that `status` has, and each doubt once; it goes on if nothing of
    that can be written, and if the reporting process is killed"""
    scene = bench.scene(["quick", "dies", "fail", "nothing", "quick"], 2, ["--untouched", "75,76"])
    options = ["--metrics", f"{scene.room}/numbers", "--events", f"{scene.room}/events", "--notify",
               f'echo "$AMO_EVENT $AMO_LINE" >> {scene.room}/told']
    events, numbers, said = told(scene, scene.start(*options), DOUBTFUL)
    counts = scene.counts()
    want(all(numbers[it] == counts[it] for it in ("done", "failed", "doubt", "untouched", "open")),
         f"{numbers}, {counts}")
    want(events[-1]["event"] == "end" and events[-1]["status"] == DOUBTFUL, f"{events[-1]}")
    want(events[-1]["counts"] == numbers, f"{events[-1]}")
    ends = {it["attempt"] for it in events if it["event"] == "attempt" and it["outcome"] != "pending"}
    want(ends == {it.name() for it in scene.look().intents.values()}, f"{ends}")
    want(said == ["doubt 2", "end "], f"{said}")
    scene.call("again")
    missing = f"{scene.room}/missing/file"
    crew = scene.start("--metrics", missing, "--events", missing, "--notify", "exit 3")
    want(crew.wait(240) == DOUBTFUL, f"{crew.poll()}: {scene.tale()[-500:]}")
    for it in ("--metrics: ", "--events: ", "--notify: "):
        want(scene.tale().count(it) == 1, f"{it}: {scene.tale()}")
    scene.see_out()


def try_share(bench):
    """the numbers of amo_share are those of all chunks that the machine has"""
    room = tempfile.mkdtemp(dir=bench.room)
    os.mkdir(f"{room}/store")
    with open(f"{room}/list", "w") as file:
        file.writelines(f"{k}\n" for k in range(1, 9))
    top = os.path.dirname(DOCS)
    words = ["--name", "pay", "--claim", shlex.quote(f"{top}/stores/folder"), "--chunk", "3", "--run", f"{room}/share",
             "--workers", "2", "--worker-program", bench.worker, "--metrics", f"{room}/numbers", f"{room}/list", "--", "sh", "-c",
             'case $1 in 2|4|8) exit 7;; 5) kill -9 $$;; esac', "sh", "{}"]
    ran = subprocess.run([sys.executable, f"{top}/amo_share", *words], stdin=subprocess.DEVNULL, capture_output=True,
                         timeout=240, env={**os.environ, "AMO_CLAIMS": f"{room}/store"})
    want(ran.returncode == DOUBTFUL, f"status {ran.returncode}: {ran.stderr.decode()[-500:]}")
    found = numbers_in(f"{room}/numbers")
    want(found == {"done": 4, "failed": 3, "doubt": 1, "pending": 0, "untouched": 0, "open": 0}, f"{found}")
    text = folder.read(f"{room}/numbers").decode()
    want(f'amo_crew_running{{run="{room}/share"}} 0\n' in text, text)


def try_teller_killed(bench):
    """a reporting process that is killed changes nothing; one whose supervisor is killed reports
    the end"""
    scene = bench.scene(["slow"] * 6, 2)
    crew = scene.start("--events", f"{scene.room}/events")
    until(lambda: scene.tellers(crew), "the teller lives")
    until(lambda: scene.tales(1), "a command has begun")
    scene.kill(scene.tellers(crew))
    scene.see_out(crew)
    scene.audit()
    want(not scene.listed, f"it is listed as a doubt: {scene.listed}")
    scene = bench.scene(["slow"] * 6, 2)
    crew = scene.start("--events", f"{scene.room}/events")
    until(lambda: scene.tales(1) and scene.tellers(crew), "a command has begun")
    crew.kill()
    until(lambda: b'"event": "end", ' in folder.read(f"{scene.room}/events"), "the end is told")
    want(json.loads(folder.read(f"{scene.room}/events").splitlines()[-1])["status"] is None, "a status")
    until(lambda: not list(scene.processes()), "all has ended")
    scene.see_out()
    scene.audit()


def starts_in(scene, worker):
    """Returns the starts in the file `pace.P` of a worker, by the tests' own reading: kind, time, id of the boot."""
    lines = folder.read(f"{scene.run}/pace.{worker}")[32:].decode().split("\n")[1:]
    return [(kind, int(second), boot) for kind, second, _, boot in (it.split(" ") for it in lines)]


def begun_by(scene, worker, but=0):
    """Waits until a worker's command has begun, at another line than this one. Returns the line."""
    found = []

    def has_begun():
        pending = [it for it in scene.look().intents.values() if it.answer is None and it.name().startswith(f"{worker}.")]
        found[:] = [it.line for it in pending if it.line != but
                    and ["begun", it.name()] in [told[:2] for told in scene.tales(it.line)]]
        return found

    until(has_begun, f"worker {worker} has begun a command")
    return found[0]


def process_of(scene, worker):
    """Returns the process of this worker, by the words of its command line: `work`, the folder, its number."""
    for process in scene.worker_processes():
        words = folder.read(f"/proc/{process}/cmdline").decode().split("\0")
        if words[words.index("work") + 2] == str(worker):
            return process
    raise Wrong(f"worker {worker} has no process")


def restarted(scene):
    """Has a worker, its runner and its crew killed, each once, and the machine started anew. The run is so old by then that
    each of these starts has a mark. All lines are done at the end."""
    crew = scene.start()
    line, due = begun_by(scene, 1), time.time() + 3
    until(lambda: time.time() > due, "the run is three seconds old")
    os.kill(process_of(scene, 1), signal.SIGKILL)
    scene.let(f"go.{line}")
    line = begun_by(scene, 1, line)
    os.kill(unseen.runner_of(scene), signal.SIGKILL)
    scene.let(f"go.{line}")
    begun_by(scene, 1, line)
    scene.kill_crew(crew)
    scene.kill(scene.commands())
    until(lambda: not list(scene.processes()), "all has ended")
    scene.start_machine()
    scene.let(*(f"go.{it}" for it in range(1, len(scene.kinds) + 1)))
    scene.see_out()
    scene.audit()


def try_restarts(bench):
    """the report marks each start of a killed worker, of a killed runner, and of each crew after the first"""
    scene = bench.scene(["gated"] * 8, 2)
    restarted(scene)
    noted = {worker: starts_in(scene, worker) for worker in (1, 2)}
    for worker, kind, count in ((1, "worker", 1), (1, "runner", 1), (2, "worker", 0), (2, "runner", 0)):
        found = [it for it in noted[worker] if it[0] == kind]
        want(len(found) == count, f"{len(found)} starts in place of {count} are noted as {kind}: {noted[worker]}")
    want(len({boot for _, _, boot in noted[1]}) == 2, f"other boots than two are noted: {noted[1]}")
    timeline = report(scene)["timeline"]
    marks = {(it["kind"], it["time"], worker) for it in timeline["marks"] for worker in it["workers"]}
    wanted = {(kind, second, worker) for worker in noted for kind, second, _ in noted[worker]
              if timeline["from"] + 1 < second <= timeline["to"]}
    want(marks == wanted, f"the marks are {sorted(marks)}, and {sorted(wanted)} are noted")
    want({kind for kind, _, _ in marks} == {"crew", "runner", "worker"}, f"a kind has no mark: {sorted(marks)}")


def try_restarts_replaced(bench):
    """control: an amo_jobs that keeps the last start alone is caught by the same test"""
    program = changed(bench.program, f"{bench.room}/restarts", ['"ab") as file', '"wb") as file'])
    wrong = Bench(program, bench.worker, bench.room, False, bench.seed)
    return shown("replaced starts", try_restarts, lambda: wrong, "starts in place of 1 are noted as worker", 1)


PARTS = {"watched": [try_counts, try_storm_counts, try_follow, try_without_a_lock, try_with_a_lock, try_terminals,
                     try_refusals, try_told, try_share, try_teller_killed, try_restarts, try_restarts_replaced]}
