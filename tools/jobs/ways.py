"""The ways of commands, and how amo_jobs takes them: ends, arguments, signals, timeouts, leftovers,
refusals."""

import json
import os
import re
import shlex
import shutil
import signal
import subprocess
import sys

from jobs.scene import (
    BUILD, DONE, DOUBTFUL, FAILED, KILLED, LATER, LEFT, READ, REFUSED, WORDS, WRITE, want
)
from harness.bench import until
from worker import folder, journals


def kinds_of(scene):
    found = scene.look()
    return list(found.kinds(found.final()).values())


def try_ends(bench):
    """each end of a command stands as it is: 0, another status, untouched, a signal"""
    scene = bench.scene(["quick", "fail", "nothing", "dies", "quick"], 1, ["--untouched", "75,76"])
    scene.ends(scene.start(), DOUBTFUL)
    want(kinds_of(scene) == ["done", "failed", "untouched", "doubt", "done"], f"{kinds_of(scene)}")
    told = scene.call("status", status=DOUBTFUL)
    want(told.startswith("5 lines: 2 done, 1 failed, 1 in doubt, 0 running, 1 untouched, 0 open\n"), told)
    told = scene.call("doubts")
    want(re.search(r"^# \d+\.\d+, line 4: 4 dies$", told, re.M), told)
    want(scene.see_out(again=False) == FAILED, "an untouched line and a failed one are status 1")
    scene.call("again")
    want(kinds_of(scene)[2] == "open", "again opens the untouched line")
    want(scene.see_out() == FAILED, "a failed line is status 1")
    scene.audit()
    name = next(it.name() for it in scene.look().intents.values() if it.line == 2)
    scene.call("answer", "--", name, "2", "2 fail", "done")
    scene.ends(scene.start(), DONE)
    scene.call("status", status=DONE)


ODD = ["plain", "two  blanks ", "$(touch broken)", "`touch broken`; touch broken", "-rf", "--run", "{}", "it's \"quoted\"", "*",
       "täglich", "a\ttab", "\x1b[31mred", "back\\slash", "#no comment", "x" * 99999]


def try_arguments(bench):
    """a job is one whole argument, whatever stands in it, and AMO_JOB and AMO_LINE say the same"""
    script = 'printf "%s\\n" "$#" "$1" "$2" "$AMO_JOB" "$AMO_LINE"'
    for where in (["{}", "last"], ["first"]):
        scene = bench.scene([], 2, [])
        with open(scene.jobs, "w") as file:
            file.write("".join(f"{text}\n" for text in ODD))
        scene.ends(scene.start(command=["sh", "-c", script, "sh", *where]), DONE)
        for it in scene.look().intents.values():
            text = ODD[it.line - 1]
            words = [text, "last"] if where[0] == "{}" else ["first", text]
            found = folder.read(f"{scene.run}/out.{it.name()}").decode()
            want(found == "".join(f"{word}\n" for word in ["2", *words, text, str(it.line)]), f"{text[:40]}: {found[:200]}")
        want(not os.path.exists("broken"), "a job was read by a shell")


def try_refusals(bench):
    """another command and another folder are refused without their word, and a job within a longer
    argument always"""
    scene = bench.scene(["quick"])
    for command in (["sh", "-c", "send {}"], ["x{}"], ["{}", "x"]):
        scene.ends(scene.start(command=command), WORDS)
    want(not os.path.exists(scene.run), "a refused call made the folder")
    scene.ends(scene.start(command=["./there-is-none"]), LEFT)
    scene.ends(scene.start(), REFUSED)
    want(kinds_of(scene) in ([], ["open"]), "a command that can't be started performed something")
    scene.ends(scene.start("--command-changed"), DONE)
    first = scene.run
    scene.run = f"{scene.room}/other"
    scene.ends(scene.start(), REFUSED)
    want(not os.path.exists(scene.run), "a refused call made the folder")
    old = folder.read(f"{first}/id").decode().strip()
    scene.ends(scene.start("--new-run", old, command=["true"]), DONE)
    scene.run = first
    scene.ends(scene.start(), REFUSED)
    for words in (["--new-run", "x"], ["--workers", "17"], ["--workers", "0"], ["--timeout", "x"],
                  ["--untouched", "256"], ["--halt", "-1"]):
        scene.ends(scene.start(*words), WORDS)
    scene.call("work", "--worker", "2", "--workers", "1", scene.jobs, "--", "true", status=WORDS)
    scene.call("stat", status=WORDS)
    scene.call("answer", "1.1", "1", status=WORDS)


def try_lists(bench):
    """the door's refusals are handed on, and nothing is performed"""
    for content, status in ((b"a\n\nb\n", REFUSED), (b"a\na\n", REFUSED), (b"a\nb", REFUSED), (None, READ)):
        scene = bench.scene([])
        os.unlink(scene.jobs)
        if content is not None:
            with open(scene.jobs, "wb") as file:
                file.write(content)
        scene.ends(scene.start(), status)
        want(not os.listdir(scene.effects), "something was performed")
    scene = bench.scene([])
    scene.ends(scene.start(), DONE)


def try_answers(bench):
    """the doubts that are printed with tabs are answered by a file, all or none; a wrong text and a
    second answer are refused"""
    scene = bench.scene(["dies", "dies", "quick", "dies"])
    scene.is_judged = False  # the person lies
    scene.ends(scene.start(), DOUBTFUL)
    rows = scene.call("status", "--lines", "doubt").splitlines()
    want([it.split("\t")[1:] for it in rows] == [["1", "1 dies"], ["2", "2 dies"], ["4", "4 dies"]], f"{rows}")
    for name, verdicts, status in (("wrong", ["done", "done", "maybe"], REFUSED), ("right", ["done", "done", "not-done"], DONE),
                                   ("other", ["not-done", "done", "not-done"], REFUSED), ("right", None, DONE)):
        path = f"{scene.room}/{name}"
        if verdicts:
            with open(path, "w") as file:
                file.write("".join(f"{row}\t{verdict}\n" for row, verdict in zip(rows, verdicts)))
        scene.call("answer", "--now", "--from", path, status=status)
        wanted = ["doubt", "doubt", "done", "doubt"] if name == "wrong" else ["done", "done", "done", "open"]
        want(kinds_of(scene) == wanted, f"after {name}: {kinds_of(scene)}")
    scene.call("answer", "--", rows[0].split("\t")[0], "1", "another text", "done", status=REFUSED)


SENDS = 'echo "$1" >> "$0/queue"; while [ -d "$0" ] && ! [ -e "$0/serves" ]; do sleep 0.02; done'


def sent(bench):
    """Returns a run whose command has sent a request and was then killed, with its crew, before the
    bank has taken the request from its queue. The attempt is listed as in doubt."""
    scene = bench.scene([], 1, [])
    with open(scene.jobs, "w") as file:
        file.write("pay alice 100\n")
    crew = scene.start(command=["sh", "-c", SENDS, scene.room])
    until(lambda: requests(scene), "the request is sent")
    scene.kill_crew(crew)
    for process in list(scene.processes("pay alice 100")):
        os.kill(process, signal.SIGKILL)
    until(lambda: scene.call("doubts").startswith("# 1.1, line 1: pay alice 100\n"), "it is listed")
    return scene


def requests(scene):
    """Returns the requests in the bank's queue, which it pays once it serves."""
    return folder.read(f"{scene.room}/queue").decode().splitlines()


def end_of(scene):
    """Returns the status of a crew that begins while the bank serves."""
    scene.let("serves")
    return scene.start(command=["sh", "-c", SENDS, scene.room]).wait(240)


def try_late_request(bench):
    """a request arrives after its command was killed, listed and truly answered `not-done`: the
    answer is refused until the attempt is quiet, and the line isn't performed again"""
    scene = sent(bench)
    words = ["answer", "--quiet", "1000000", "1.1", "1", "pay alice 100"]
    ran = subprocess.run(scene.words(*words, "not-done"), stdin=subprocess.DEVNULL,
                         capture_output=True, timeout=240, env=scene.environment())
    status = end_of(scene)
    want(len(requests(scene)) == 1, f"performed twice: the bank pays {requests(scene)}")
    said = ran.stderr.decode()
    want(ran.returncode == LATER, f"the answer ends with {ran.returncode}: {said}")
    want(re.search(r"^amo_worker: answer 1: its attempt ended at .* GMT, and it is .* GMT now; answer again 1000000 s after that end,"
                   r" or add --now\namo_worker: none of these comes too early from .* GMT on$", said, re.M), said)
    want(status == DOUBTFUL, f"the crew ends with {status}")
    scene.call(*words, "done")
    want(end_of(scene) == DONE, "the line isn't done")
    want(len(requests(scene)) == 1, f"performed twice: the bank pays {requests(scene)}")


def try_late_request_now(bench):
    """the same with `--now`, which takes the answer at once: the bank gets a second request, as the
    page says"""
    scene = sent(bench)
    scene.call("answer", "--now", "1.1", "1", "pay alice 100", "not-done")
    want(end_of(scene) == DONE, "the line isn't done")
    want(len(requests(scene)) == 2, f"the bank has {requests(scene)}")


def try_ages(bench):
    """doubts says how long ago each attempt was recorded as over, for people and as JSON"""
    scene = sent(bench)
    told = scene.call("doubts")
    want(re.search(r"^#   started [-0-9: ]{19} [-+]\d{4} by worker 1, recorded as over [-0-9: ]{19} [-+]\d{4}, \d+ (s|min|h)( \d+ s)? ago$",
                   told, re.M), told)
    found, = json.loads(scene.call("doubts", "--json"))
    recorded, = [it.ended for it in scene.look().intents.values()]
    want(found["ended"] == recorded and found["age"] >= 0, f"{found}, recorded at {recorded}")
    path = f"{scene.run}/journal.1"
    begun = folder.records_in(scene.run, "journal.1")[0]
    for ended, said in ((0, "ended at a time that is not known"),
                        (found["ended"] + 10**6, ", ahead of the clock")):
        records = [begun, b"doubt 1 %d" % ended]
        folder.put(path, journals.journal(folder.id_of(scene.run), "journal.1", records))
        told = scene.call("doubts")
        want(f"{said}\n" in told, told)


def try_status(bench):
    """the status shows who is alive, the status of each line, the pace, and which process holds the
    running ones"""
    scene = bench.scene(["quick", "waits", "quick", "quick", "quick"])
    deep = scene.room + "/a folder with a long name" * 8
    os.makedirs(deep)
    scene.command = [shutil.copy(scene.command[0], deep), scene.room]
    crew = scene.start()
    until(lambda: [it for it in scene.tales(2) if it[0] == "begun"], "the command has begun")
    name, process = scene.tales(2)[0][1:]
    told, words = scene.call("status", status=DOUBTFUL), f"act.sh {scene.room} 2 waits"
    scene.let("go")
    wanted = f"process {process} ({words if len(words) <= 60 else words[:58] + '..'})"
    line = re.search(rf"^running {re.escape(name)}, line 2: 2 waits -- (.*)$", told, re.M)
    want(line and wanted in line[1], told)
    want(re.search(r"^5 lines: \d done, 0 failed, 0 in doubt, 1 running, 0 untouched, \d open\nworkers alive: 1", told), told)
    want(" 1 done" not in told or "a second, over at " in told, told)
    scene.ends(crew, DONE)
    want("workers alive: none" in scene.call("status"), "nobody is alive at the end")


def try_look(bench):
    """the commands that a crew and `doubts` print for a person run as they stand"""
    scene, room = bench.scene([]), bench.scene([]).room
    with open(f"{room}/worker", "w") as file:
        file.write(f"#!/bin/sh\nexec {shlex.quote(bench.worker)} \"$@\"\n")
    os.chmod(f"{room}/worker", 0o755)
    os.symlink(bench.program, f"{room}/amo_jobs")
    how = dict(cwd=room, stdin=subprocess.DEVNULL, capture_output=True, timeout=240, text=True,
               env=scene.environment())
    cases = [([], "this list", "'this list'"), (["--run", "a folder"], "other", "--run 'a folder'")]
    for run, jobs, names in cases:
        with open(f"{room}/{jobs}", "w") as file:
            file.write("it's \"1\"\n-2 {}\n")
        words = ["./amo_jobs", "crew", *run, "--worker-program", "./worker", "--workers", "1", jobs]
        crew = subprocess.run([*words, "--", "sh", "-c", "kill -9 $$", "sh"], **how)
        wanted = f"./amo_jobs doubts --worker-program ./worker {names}"
        line = crew.stderr.rpartition("; see the doubts: ")[2].splitlines()[:1]
        want(line == [wanted] and crew.returncode == DOUBTFUL, f"{line} in place of {wanted}")
        told = subprocess.run(["sh", "-c", wanted], **how).stdout
        commands = re.findall(r"^  .* answer .* ANSWER$", told, re.M)
        want(len(commands) == 2, f"two doubts have two commands: {told}")
        for it in commands:
            ran = subprocess.run(["sh", "-c", answered(it, "done")], **how)
            want(ran.stdout.startswith("recorded: line ") and ran.returncode == DONE, f"{it}: {ran.stderr}")


# A crew stops after ten doubts.
HOSTILE = ["$(touch broken)", "INV-2 ANSWER", "it's \"2\"", "`touch broken`; touch broken | touch broken", "-rf",
           "a\ttab and \x1b[31m", "!touch > broken", "# none", "done", "not-done"]


def answered(line, verdict):
    """Returns a command that `doubts` has printed, with the answer put in."""
    return line[:-len("ANSWER")] + verdict


def try_pasted(bench):
    """a line that `doubts` prints, pasted into bash as it stands, is refused; with the answer put in it
    records that answer of that line; nothing else is recorded or run"""
    scene = bench.scene([], 1, [])
    with open(scene.jobs, "w") as file:
        file.write("".join(f"{text}\n" for text in HOSTILE))
    scene.ends(scene.start(command=["sh", "-c", "kill -9 $$", "sh"]), DOUBTFUL)
    age_doubts(scene, "journal.1")
    lines = [it for it in scene.call("doubts").splitlines() if " answer " in it]
    want(len(lines) == len(HOSTILE), f"{len(HOSTILE)} doubts have {len(lines)} lines to paste")
    wanted = ["doubt"] * len(HOSTILE)
    for place, line in enumerate(lines):
        is_done = place % 2 == 0
        ran = paste(scene, line)
        is_refused = ran.returncode == WORDS and not ran.stdout and "write done if it happened" in ran.stderr
        want(is_refused, f"a line without an answer isn't refused: {line}: {ran}")
        want(kinds_of(scene) == wanted, f"a line without an answer is recorded: {line}: {kinds_of(scene)}")
        ran = paste(scene, answered(line, "done" if is_done else "not-done"))
        is_taken = ran.returncode == DONE and re.fullmatch("recorded: line .*\n", ran.stdout)
        want(is_taken, f"the line isn't one whole answer: {line}: {ran.stderr[-500:]}")
        wanted[place] = "done" if is_done else "open"
        want(kinds_of(scene) == wanted, f"not that answer alone: {kinds_of(scene)} in place of {wanted}")


def try_pasted_text(bench):
    """all that `doubts` prints, pasted into bash as it stands, records and runs nothing"""
    scene = bench.scene([], 1, [])
    with open(scene.jobs, "w") as file:
        file.write("rent 700 to O'Neil; touch broken\nfood $(touch broken) > broken\n")
    scene.ends(scene.start(command=["sh", "-c", 'echo "sending $1"; kill -9 $$', "sh"]), DOUBTFUL)
    told = scene.call("doubts")
    want(told.count(" ANSWER\n") == 2 and told.count("#     | sending") == 2, told)
    before = folder.read(f"{scene.run}/answers")
    ran = paste(scene, told)
    want(ran.stderr.count("write done if it happened") == 2, f"a line isn't refused: {ran}")
    want(folder.read(f"{scene.run}/answers") == before and kinds_of(scene) == ["doubt"] * 2, f"an answer is recorded: {ran}")


def age_doubts(scene, name):
    """Has the doubts of a journal recorded 1000 seconds ago, so that `not-done` needn't wait."""
    old = [re.sub(rb"doubt (\d+) (\d+)", lambda it: b"doubt %s %d" % (it[1], int(it[2]) - 1000), record)
           for record in folder.records_in(scene.run, name)]
    folder.put(f"{scene.run}/{name}", journals.journal(folder.id_of(scene.run), name, old))


def paste(scene, text):
    """Pastes a text into an interactive bash, in a folder of its own that has to stay empty. Returns
    what came of it."""
    room = f"{scene.room}/pasted"
    os.makedirs(room, exist_ok=True)
    ran = subprocess.run(["bash", "--norc", "--noprofile", "-i"], input=f"{text}\n", text=True, cwd=room, timeout=240,
                         capture_output=True, env={**scene.environment(), "HISTFILE": "/dev/null", "PS1": ""})
    want(not os.listdir(room), f"the text runs something else: {text}: {os.listdir(room)}")
    return ran


# A row has the words of a call that fails, with ROOM for the scene's folder, its status, and the
# message, in which `*` stands for any text. Each message is `object: problem; remedy`.
MESSAGES = [
    ("status --worker-program ROOM/none", READ,
     "`ROOM/none`: no such file or directory; check the path"),
    ("status --worker-program ROOM/text", WRITE,
     "`ROOM/text`: exec format error; give it a first line like #!/bin/sh"),
    ("status --worker-program /bin/true", BUILD,
     "`/bin/true`: it isn't the amo_worker of this version; *"),
    ("doubts --worker-program /bin/true", BUILD,
     "`/bin/true`: it isn't the amo_worker of this version; *"),
    ("crew --workers 1 --results ROOM/text/results", WRITE,
     "`ROOM/text/results`: not a directory; check the path"),
    ("crew --workers 1 --damaged", REFUSED, "`ROOM/run/command`: it is damaged; *"),
]
# The arguments of a call that is refused for them, and the message.
USAGE = [
    (["crew", "--workers", "2"], "`crew`: the list is missing; give it, as in: *"),
    (["crew", "--workers", "2", "list"], "`crew`: the command is missing; give it after --, *"),
    (["crew", "--workers", "2", "list", "pay"], "argument `pay`: `crew` doesn't take it; give the *"),
    (["crew", "--workers", "2", "list", "--", "{}"], "command `{}`: a job can't be the program *"),
    (["crew", "--workers", "2", "list", "--", "sh", "pay {}"],
     "argument `pay {}`: it has {} in it, and a shell would read the job's text as commands; make *"),
    (["work", "--worker", "3", "--workers", "2", "list", "--", "pay"],
     "argument --worker: `3` is more than --workers 2; give the number of one of these workers"),
    (["status"], "`status`: an argument is missing; give JOBS or --run DIR, *"),
    (["status", "one", "two"], "argument `two`: `status` doesn't take it; see amo_jobs status *"),
    (["answer", "1.1", "1", "text"], "`answer`: an argument is missing; give JOBS or --run DIR, *"),
    (["answer", "--run", "x", "1.1", "1"], "`answer`: an argument is missing; give P.S LINE TEXT *"),
    (["answer", "list", "1.1", "1", "a\nb", "done"], "text `a\\nb`: no line holds a line feed; *"),
    (["answer", "list", "--", "1.1", "1", "text", "ANSWER"],
     "answer `ANSWER`: it isn't valid; write done if it happened, not-done if it surely did not, *"),
    (["forget"], "`forget`: the list is missing; give it, as in: amo_jobs forget tonight.txt"),
]
OPTIONS = [
    ("--workers", "17", "whole number from 1 to 16"),
    ("--workers", "x", "whole number from 1 to 16"),
    ("--timeout", "-1", "number from 0 to 100000000"),
    ("--untouched", "75,256", "whole number from 1 to 255"),
]


def try_messages(bench):
    """a fault's message for a person is an object, a problem and a remedy, and no trace of
    Python"""
    scene = bench.scene(["quick"])
    with open(f"{scene.room}/text", "w") as file:
        file.write("no program\n")
    os.chmod(f"{scene.room}/text", 0o755)
    scene.ends(scene.start(), DONE)
    for words, status, message in MESSAGES:
        command, *more = words.replace("ROOM", scene.room).split(" ")
        if more[-1] == "--damaged":
            more.pop()
            with open(f"{scene.run}/command", "w") as file:
                file.write("{")
        more += [scene.jobs, "--", *scene.command] if command == "crew" else []
        wanted = re.escape(message.replace("ROOM", scene.room)).replace(r"\*", ".*")
        said(scene, [command, *more], status, wanted)
    for words, message in USAGE:
        ran = subprocess.run([sys.executable, "-I", bench.program, *words], timeout=240, text=True,
                             stdin=subprocess.DEVNULL, capture_output=True, cwd=scene.room)
        told = ran.stderr.splitlines()[-1]
        wanted = re.escape(message).replace(r"\*", ".*")
        is_so = ran.returncode == WORDS and re.fullmatch(f"amo_jobs: {wanted}", told)
        want(is_so and not os.path.exists(f"{scene.room}/list.run"), f"{words}: {ran}")
    for option, word, what in OPTIONS:
        more = ["--workers", "1", option, word, scene.jobs, "--", *scene.command]
        said(scene, ["crew", *more], WORDS,
             rf".*: argument {option}: `{word.split(',')[-1]}` isn't valid; give a {what}")
    shell = ["sh", "-c", '"$@" | true', "sh", *scene.words("status")]
    ran = subprocess.run(shell, env=scene.environment(), timeout=240, capture_output=True,
                         text=True)
    told = ran.stderr.splitlines()[1:]
    want(set(told) <= {"amo_jobs: standard output: broken pipe; correct that, then start again"},
         f"{told}")


def said(scene, words, status, wanted):
    """Runs a command, whose status and last line have to be these."""
    ran = subprocess.run(scene.words(*words), stdin=subprocess.DEVNULL, timeout=240, text=True,
                         capture_output=True, env=scene.environment())
    last = ran.stderr.splitlines()[-1]
    is_so = ran.returncode == status and re.fullmatch(f"amo_jobs(?: crew)?: {wanted}", last)
    want(is_so and "Errno" not in ran.stderr and "Traceback" not in ran.stderr, f"{words}: {ran}")


def try_boot_id(bench):
    """only the tests' variable names a file with the boot id, and each command warns of it once"""
    scene, name = bench.scene(["quick"]), "AMO_TEST_BOOT_ID"
    warning = (f"amo_jobs: {name}: it is set for a test, so the boot id comes from"
               f" `{scene.boot}`, and a line may run twice; unset it for real jobs\n")
    scene.ends(scene.start(), DONE)
    want(scene.tale().startswith(warning) and scene.tale().count(name) == 1, scene.tale())
    boot = folder.read(scene.boot).decode().strip()
    want(folder.record_of(scene.run)["boot"] == boot, "the record has another boot id")
    unset = {it: value for it, value in scene.environment().items() if it != name}
    for environment, wanted in ((scene.environment(), warning), (unset, "")):
        for command in (["status"], ["status", "--lines", "failed"], ["doubts"], ["again"]):
            ran = subprocess.run(scene.words(*command), stdin=subprocess.DEVNULL, timeout=240,
                                 capture_output=True, env=environment)
            want((ran.returncode, ran.stderr.decode()) == (DONE, wanted), f"{command}: {ran}")
    scene.call("status", "--boot-id", scene.boot, status=WORDS)


def try_timeout(bench):
    """a timeout sends TERM and then KILL to the whole group, and the job is in doubt; one that ends
    in time isn't"""
    script = ("""cd "$1"; case $2 in """
              """polite) trap 'echo TERM > polite; exit 0' TERM; sleep 300 & wait;;
        deaf) trap '' TERM; sleep 300; sleep 300;; esac""")
    # (however long a shell takes to begin here, TERM has to come after that)
    for seconds in ("0.4", "3", "20", "100"):
        scene = bench.scene([], 2, ["--timeout", seconds, "--grace", "0.3", "--linger", "0.1"])
        with open(scene.jobs, "w") as file:
            file.write("polite\ndeaf\n")
        scene.ends(scene.start(command=["sh", "-c", script, "sh", scene.room]), DOUBTFUL)
        want(kinds_of(scene) == ["doubt", "doubt"], f"{kinds_of(scene)}")
        if os.path.exists(f"{scene.room}/polite"):
            break
    want(os.path.exists(f"{scene.room}/polite"), "TERM never came")
    scene = bench.scene(["quick"], 1, ["--timeout", "300"])
    scene.ends(scene.start(), DONE)


def try_last_net(bench):
    """if the runner is gone the kernel's timer ends the command"""
    scene = bench.scene(["never"], 1, ["--timeout", "3", "--grace", "0.1"])
    script = "import sys, time; open(sys.argv[1] + '/begun', 'w').close(); time.sleep(1000)"
    crew = scene.start(command=[sys.executable, "-c", script, scene.room])
    until(lambda: os.path.exists(f"{scene.room}/begun"), "the command runs")
    scene.kill_crew(crew)
    is_running = scene.counts(status=DOUBTFUL)["running"] == 1
    want(is_running or not list(scene.processes(script)), "it runs, and isn't running")
    until(lambda: not list(scene.processes(script)), "the timer ends it")
    want(scene.counts(status=DOUBTFUL)["doubt"] == 1, "it is in doubt then")


def try_leftovers(bench):
    """a process that a command leaves running by &, nohup or setsid counts as running until it
    ends; the worker goes on meanwhile"""
    scene = bench.scene(["waits_amp", "waits_nohup", "waits_setsid", "quick", "stays"], 1,
                        ["--linger", "0.05"])
    crew = scene.start()
    until(lambda: [it for it in scene.tales(5) if it[0] == "did"], "it goes on to the last line")
    want(scene.tale().count("something that it started still runs") == 3,
         f"processes that are left behind aren't reported: {scene.tale()}")
    locks = [f"{scene.run}/command.{scene.tales(line)[0][1]}" for line in (1, 2, 3)]
    scene.let("go")
    until(lambda: all(map(folder.is_free, locks)), "all that was left behind ends")
    scene.let("over")
    scene.ends(crew, DONE)
    scene.audit()
    scene = bench.scene([], 1, ["--linger", "0.05"])
    with open(scene.jobs, "w") as file:
        file.write("stays\n")
    script = 'cd "$1"; (while [ -e jobs ] && ! [ -e over ]; do sleep 0.05; done) & echo $! > left'
    scene.ends(scene.start(command=["sh", "-c", script, "sh", scene.room]), DOUBTFUL)
    left = folder.read(f"{scene.room}/left").decode().strip()
    want(f"process {left} (sh -c" in scene.tale(), f"the process that holds it isn't named: {scene.tale()}")
    want(f"process {left} " in scene.call("status", status=DOUBTFUL), "the status names nobody")
    want(scene.call("doubts") == "", "it is listed while it runs")
    scene.call("answer", "1.1", "1", "stays", "not-done", status=LATER)
    scene.let("over")
    until(lambda: scene.call("doubts"), "it is listed once it has ended")


def try_first_signal(bench):
    """the first signal lets the command end and has its end noted; no further job is begun"""
    for number in (signal.SIGINT, signal.SIGTERM, signal.SIGHUP):
        scene = bench.scene(["waits", "quick", "quick"])
        crew = scene.start()
        until(lambda: scene.tales(1), "a command has begun")
        crew.send_signal(number)
        until(lambda: "no further job" in scene.tale(), "the signal is told")
        scene.let("go")
        scene.ends(crew, LEFT)
        want(sorted(kinds_of(scene)) == ["done", "open", "open"], f"{number}: {kinds_of(scene)}")
        want(scene.see_out() == DONE and not scene.listed, "a stop in order leaves no doubt")
        scene.audit()


def try_second_signal(bench):
    """a further signal is handed on to the commands; a hangup that is ignored, as under nohup,
    stops nothing"""
    scene = bench.scene([], 1, [])
    with open(scene.jobs, "w") as file:
        file.write("one\ntwo\n")
    script = """trap 'exit 5' INT; : > "$1/begun"; while :; do sleep 0.1; done"""
    crew = scene.start(command=["sh", "-c", script, "sh", scene.room])
    until(lambda: os.path.exists(f"{scene.room}/begun"), "the command has begun")
    crew.send_signal(signal.SIGTERM)
    until(lambda: "no further job" in scene.tale(), "the first one is told")
    crew.send_signal(signal.SIGINT)
    scene.ends(crew, LEFT)
    want(sorted(kinds_of(scene)) == ["failed", "open"], f"{kinds_of(scene)}")
    scene = bench.scene(["slow", "slow"])
    crew = scene.start(preexec_fn=lambda: signal.signal(signal.SIGHUP, signal.SIG_IGN))
    until(lambda: os.listdir(scene.effects), "a command has begun")
    crew.send_signal(signal.SIGHUP)
    scene.ends(crew, DONE)


def try_halt(bench):
    """failures in a row stop the crew: ten if none was good before, else as many as --halt says"""
    for options, count, good in (([], 10, 0), (["--halt", "3"], 3, 0), (["--halt", "0"], 30, 0), (["--halt", "4"], 5, 1)):
        scene = bench.scene([], 1, options)
        with open(scene.jobs, "w") as file:
            file.write("".join(f"{k}\n" for k in range(1, 31)))
        script = f'[ {good} = 1 ] && [ "$1" = 1 ]'
        scene.ends(scene.start(command=["sh", "-c", script, "sh"]), LEFT if count < 30 else FAILED)
        closed = len([it for it in kinds_of(scene) if it != "open"])
        want(closed == count, f"{options}: {closed} lines are closed, not {count}")


def try_one_runner(bench):
    """a second crew of a run gets no number, and performs nothing"""
    scene = bench.scene(["slow"] * 4, 2)
    crew = scene.start()
    until(lambda: os.listdir(scene.effects), "a command has begun")
    second = scene.start()
    scene.ends(crew, DONE)
    want(second.wait(240) in (DONE, LATER), "the second one ends")
    scene.audit()


def try_work(bench):
    """workers each with a runner of their own"""
    scene = bench.scene(["waits"] * 12)
    words = ["--workers", "3", scene.jobs, "--", *scene.command]
    how = dict(stdin=subprocess.DEVNULL, stderr=subprocess.DEVNULL, env=scene.environment())
    crews = [subprocess.Popen(scene.words("work", "--worker", str(p), *words), **how) for p in (1, 2, 3)]
    scene.crews += crews
    workers = lambda: {it[1].split(".")[0] for line in range(1, 13) for it in scene.tales(line)}
    until(lambda: len(workers()) == 3, "each of them has begun a command")
    scene.let("go")
    for it in crews:
        scene.ends(it, DONE)
    scene.audit()


def cut_off(bench, script, results=None):
    """Returns a run of one line, which is in doubt, and the folder of what its command printed."""
    scene = bench.scene([], 1, ["--results", results] if results else [])
    with open(scene.jobs, "w") as file:
        file.write("pay\n")
    scene.ends(scene.start(command=["sh", "-c", f"{script}; kill -9 $$", "sh"]), DOUBTFUL)
    return scene, f"{results}/{folder.read(f'{scene.run}/id').decode().strip()}" if results else scene.run


def try_outputs(bench):
    """the output of a command is kept, elsewhere if that is asked for, and shown with its doubt"""
    for results in (None, f"{bench.room}/results"):
        scene, place = cut_off(bench, "echo paid; echo slowly >&2", results)
        found = folder.read(f"{place}/out.1.1"), folder.read(f"{place}/err.1.1")
        want(found == (b"paid\n", b"slowly\n"), f"{os.listdir(place)}")
        told = scene.call("doubts")
        want("| paid\n" in told and "| slowly\n" in told and "line 1: pay\n" in told, told)


def try_outputs_of_runs(bench):
    """two runs with one folder for results have no output in common, on the disk or in what is
    shown; nor has a run that was put away with one that takes its place"""
    results = f"{bench.room}/shared"
    first, _ = cut_off(bench, "echo paid by the first", results)
    second, place = cut_off(bench, "true", results)
    for it in (second.call("doubts"), second.call("report", "--json")):
        want("paid by the first" not in it and "out.1.1" not in it, it)
    want("| paid by the first\n" in first.call("doubts"), first.call("doubts"))
    want(os.listdir(place) == [], f"{os.listdir(place)}")
    old, _ = cut_off(bench, "true")
    os.rename(old.run, f"{old.run}.away")
    os.unlink(f"{old.jobs}.run-is")
    path, old.run = old.run, f"{old.run}.away"
    new = bench.scene([], 1, [])
    new.run, new.jobs = path, old.jobs
    new.ends(new.start(command=["sh", "-c", "echo paid anew", "sh"]), DONE)
    want(folder.read(f"{path}/out.1.1") == b"paid anew\n", f"{os.listdir(path)}")
    want("no output was found" in old.call("doubts"), old.call("doubts"))


def try_streams(bench):
    """no standard stream that is closed, and no terminal that is gone, ends a crew"""
    for closing in ("<&- >&- 2>&-", "2>/dev/full", "2>&1 | true"):
        scene = bench.scene(["quick", "amp", "quick"])
        words = scene.words("crew", "--workers", "1", *scene.options, scene.jobs, "--", *scene.command)
        shell = ["sh", "-c", f'"$@" {closing}', "sh", *words]
        subprocess.run(shell, env=scene.environment(), timeout=240, stderr=subprocess.DEVNULL)
        want({*kinds_of(scene)} <= {"done", "doubt", "running"}, f"it has ended before: {kinds_of(scene)}")
        scene.see_out()
        scene.audit()


def try_many_messages(bench):
    """a worker that says of 3,000 lines that other attempts stand against them isn't blocked by
    its messages: the first ten are shown, and at the end how many more there were"""
    scene, worker = bench.scene(["quick"] * 3), bench.worker
    said = "amo_worker: line $k: attempt 2.$k stands against it; not started"
    with open(f"{scene.room}/worker", "w") as file:
        file.write(f"""#!/bin/sh
k=0
if [ "$1" = work ] && mkdir "$0.told" 2>/dev/null; then
  while [ $k -lt 3000 ]; do k=$((k + 1)); echo "{said}"; done >&2
fi
exec {shlex.quote(worker)} "$@"
""")
    os.chmod(f"{scene.room}/worker", 0o755)
    bench.worker = f"{scene.room}/worker"
    scene.ends(scene.start(), DONE)
    bench.worker = worker
    shown = re.findall(r"^amo_jobs: line (\d+): attempt 2\.\1 stands against it; not started$",
                       scene.tale(), re.M)
    want(shown == [str(k) for k in range(1, 11)], f"it shows {shown}: {scene.tale()[-500:]}")
    more = "amo_jobs: 2990 more lines were not started, since another attempt stands against each\n"
    want(more in scene.tale() and "3 lines: 3 done" in scene.tale(), scene.tale()[-500:])


def try_growing(bench):
    """a list may grow while it runs; one that is edited is refused; open lines can be printed"""
    scene = bench.scene(["waits", "slow", "slow"])
    crew = scene.start()
    until(lambda: os.listdir(scene.effects), "a command has begun")
    scene.grow(["quick", "fail"])
    scene.grow(["quick"], end="")
    scene.let("go")
    scene.ends(crew, REFUSED)
    want(kinds_of(scene) == ["done"] * 4 + ["failed"], f"a line without its end is left out: {kinds_of(scene)}")
    want(scene.call("status", "--lines", "failed").endswith("\t5\t5 fail\n"), "lines are printed with tabs")
    with open(scene.jobs, "a") as file:
        file.write("\n")
    scene.see_out()
    scene.audit()
    with open(scene.jobs, "r+") as file:
        file.write("X")
    scene.ends(scene.start(), REFUSED)


def try_killed_in_turn(bench):
    """the crew killed again and again: each kill costs no more doubts than commands that ran"""
    scene, kills = bench.scene(["slow", "quick", "amp", "slow", "fail", "slow"], 2), 0
    for _ in range(3):
        crew, before = scene.start(), sum(len(scene.tales(it)) for it in range(1, 7))
        until(lambda: sum(len(scene.tales(it)) for it in range(1, 7)) > before or crew.poll() is not None, "a command has begun")
        kills += scene.kill_crew(crew) == KILLED
    scene.see_out()
    scene.audit()
    return f"{kills} kills, {len(scene.listed)} doubts"


def try_disk_full(bench):
    """a full disk: nothing is performed without an intent, an end that was seen waits for room, and
    then all goes on"""
    # A run has 100 KiB before its first line, and the ballast 16. The journal needs more room in
    # the middle of the list. A code of three digits moves that place by two bytes.
    told = []
    for kibibytes, long_codes in ((104, 0), (116, 0), (116, 17)):
        scene = bench.scene(["hundred"] * long_codes + ["other"] * (120 - long_codes), 1, ["--halt", "0"])
        disk = f"{scene.room}/disk"
        os.mkdir(disk)
        if subprocess.run(["mount", "-t", "tmpfs", "-o", f"size={kibibytes}k", "tmpfs", disk],
                          stderr=subprocess.DEVNULL).returncode:
            bench.skipped.append("a full disk, since no tmpfs can be mounted")
            return None
        try:
            told.append(fill(scene, disk, kibibytes > 104))
        finally:
            bench.close()
            subprocess.run(["umount", "-l", disk])
    return ", ".join(told)


def fill(scene, disk, is_begun):
    """Returns a run on this small disk, which is full until it has stopped or waits. The disk has
    room for the first lines of the list, or for none."""
    scene.run, scene.file_system = f"{disk}/run", "tmpfs"
    scene.options += ["--results", f"{scene.room}/results"]
    with open(f"{disk}/ballast", "wb") as file:
        file.write(b"x" * 16 * 1024)
    crew = scene.start()
    until(lambda: crew.poll() is not None or "goes on trying" in scene.tale(), "the disk is full")
    waits, count = crew.poll() is None, len(os.listdir(scene.effects))
    want((0 < count < 120) == is_begun == waits, f"the disk is full after {count} of 120: {scene.tale()[-500:]}")
    if not waits:
        scene.ends(crew, WRITE)
        scene.ends(scene.start(), WRITE)
        want(not os.listdir(scene.effects), "something was performed while the disk was full")
    os.unlink(f"{disk}/ballast")
    if waits:
        want(crew.wait(240) in (DONE, FAILED), f"status {crew.poll()}: {scene.tale()[-500:]}")
    want(scene.see_out() in (DONE, FAILED) and not scene.listed, f"a full disk leaves a doubt: {scene.listed}")
    scene.audit()
    return f"full after {count} of 120, " + ("an end waited for room" if waits else "no intent could be put")


PARTS = {"ways": [
    try_ends, try_arguments, try_refusals, try_lists, try_answers, try_late_request, try_late_request_now, try_ages, try_status, try_look, try_pasted,
    try_pasted_text, try_messages, try_boot_id, try_timeout, try_last_net, try_leftovers,
    try_first_signal, try_second_signal, try_halt, try_one_runner, try_work, try_outputs, try_outputs_of_runs, try_streams, try_many_messages, try_growing, try_killed_in_turn,
    try_disk_full,
]}
