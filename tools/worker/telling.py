"""The message of each fault, outputs that fail, times; what is held while a person asks or answers,
and in which order files are read."""

import errno
import fcntl
import json
import os
import re
import signal
import subprocess
import time

from worker import folder, headers, journals
from worker.crowd import Reader
from worker.kills import answerable, state_of
from worker.persons import Says, prepared
from worker.scene import DOOR, LATER, LEFT, OVER, READ, REFUSED, SENSELESS, WORDS, WRITE, Runner, each, live, serve, want


def having(name, data):
    """Puts these bytes into a file of the run."""

    def change(scene):
        with open(f"{scene.run}/{name}", "wb") as held:
            held.write(data)

    return change


def recording(name, *records):
    """Puts a journal or `answers` of these records into the run."""
    return lambda scene: having(name, journals.journal(scene.id(), name, records))(scene)


def spoiling(name, *records):
    """Puts these records there, the first of them with a byte that its checksum doesn't fit."""

    def change(scene):
        data = journals.journal(scene.id(), name, records)
        having(name, data.replace(b" ", b"_", 1))(scene)

    return change


def counting(*more):
    """Puts a header there as of round 4. It counts these records after three of journal.1, but for
    the last of them."""

    def change(scene):
        front = headers.front_of(folder.read(f"{scene.run}/record"))
        records = folder.records_in(scene.run, "journal.1")[:3] + list(more)
        data = headers.text(scene.id(), front.replace(b"\nround 1\n", b"\nround 4\n", 1),
                            folder.read(f"{scene.run}/jobs"), {"journal.1": records})
        having("record", data)(scene)

    return change


def without(*names):
    """Removes these files of the run."""

    def change(scene):
        for name in names:
            os.unlink(f"{scene.run}/{name}")

    return change


def instead(make):
    """Puts something else in the place of the run's folder."""

    def change(scene):
        os.rename(scene.run, f"{scene.room}/old")
        make(scene)

    return change


def made_old(scene):
    """Makes the run one of amo 0.1.0."""
    folder.make_old(scene.run)


def with_lines(*texts):
    return lambda scene: scene.write_jobs([*(f"job {k}" for k in range(1, 5)), *texts])


def other_line(scene):
    scene.write_jobs(["job 1", "other"])


def other_version(scene):
    having("record", folder.read(f"{scene.run}/record").replace(b"amo-run 2\n", b"amo-run 20\n"))(scene)


def boot_of_two_lines(scene):
    with open(scene.boot, "w") as held:
        held.write("a\nb\n")


def others_at_work(scene):
    """Somebody else keeps the round."""
    scene.held = open(f"{scene.run}/lock.round", "ab")
    fcntl.flock(scene.held, fcntl.LOCK_SH | fcntl.LOCK_NB)


def spoiled(scene):
    """Makes its count of claims impossible for its row of three entries, which shows at the 0 after
    them."""
    others_at_work(scene)
    with open(f"{scene.run}/words", "r+b") as words:
        words.seek(512 + 8 * 2)
        words.write((9).to_bytes(8, "little"))


def of_another_round(scene):
    others_at_work(scene)
    with open(f"{scene.run}/words", "r+b") as words:
        words.write(b"amo-words 3")


def same(scene):
    """As it is."""


# (`THE RUN` stands for the path of the run's folder, `THE LIST` for the list's, `THE BOOT` for that
# of the file with the boot id.)
NO_FOLDER = "folder `THE RUN`: it is a file, or a link; name the folder itself"
DAMAGED = "it is damaged, or was edited; undo the edit, or give up this run"
REFUSED_FILE = ("it is damaged, or was edited; leave it as it is, and read"
                " docs/guide/operating.md, `A journal is refused`")
DAMAGED_ENTRY = ("is damaged, or was edited; undo the edit, or give up this run (with an older copy"
                 " lines would be performed twice)")
MISSING = ("this file is missing; put it back, or give up this run (without it nobody knows which"
           " lines were performed)")
EMPTY = ("this file is empty; put its bytes back, or give up this run (without them nobody knows"
         " which lines were performed)")
ROW = ("answer 1: it must be P.S, LINE, TEXT and done or not-done, of one line of the run; copy the"
       " first three from `doubts` or `status`")
NO_ATTEMPT = "no attempt has this number; take the number from `doubts` or `status`"
OTHER_LINE = "the attempt is of another line; take number and line from `doubts` or `status`"
NOT_ASKED = "the attempt was done, or was never begun; it takes no answer"
OLD_RUN = ("folder `THE RUN`: made by amo 0.1.0, without an `id`; start a new run of its open lines"
           " (amo_worker status RUN --lines open) in a new folder")
FORGOTTEN = ("folder `THE RUN`: this run was given up, since `forgotten` is there; start a new run"
             " in another folder")
HAS_ID = ("folder `THE RUN`: it already has an `id`, and --into makes a new run; name another"
          " folder, or go on with this run without --into")
NO_RUN = ("folder `THE RUN`: no folder is there; mount the file system that holds it, or name the"
          " path that it has now")
NO_ID = ("folder `THE RUN`: it has no `id`, so it is not a run's folder; name one, or make one"
         " (amo_worker door RUN --workers M JOBS)")
OTHER_ID = "folder `THE RUN`: its `id` is not the one of --id; name the folder of that run"
NOT_NEW = ("folder `THE RUN`: it has `jobs` and no `id`, so no run can be made there; name another"
           " folder")
VERSION = ("folder `THE RUN`: its `record` is of another version of amo; go on with that version,"
           " or use another folder")
CHANGED = ("list `THE LIST`: line 2 is not the line that the run knows; restore it from the run's"
           " file `jobs`, and add lines only at the end")
BOOT = ("boot id `THE BOOT`: it must be one line of 1 to 200 bytes; name another file with"
        " --boot-id")
IMPOSSIBLE = "has the impossible value 0; stop all workers, and the next round starts with new words"
CLOSED = "runner: it has ended, or closed its pipe; start both again to go on"
KEEP = "leave the file as it is, and read docs/guide/operating.md, `A journal is refused`"
OTHER_ROUND = ("folder `THE RUN`: the current round cannot be joined; start again when all of its"
               " workers have ended")
HELP = "; see amo_worker --help"
# Changes of a run whose four lines are done, in doubt, untouched and open. Each row has a change,
# the arguments of a command, with `_` for a blank, its status, and its message. Three dots in a
# message stand for the system's own text.
FAULTS = [
    (instead(lambda scene: os.symlink("old", scene.run)), "status", DOOR, NO_FOLDER),
    (instead(lambda scene: open(scene.run, "w").close()), "work 1", DOOR, NO_FOLDER),
    (instead(same), "doubts", READ, "folder `THE RUN`: cannot be read: ...; check the path"),
    (other_version, "again", DOOR, VERSION),
    (with_lines(""), "work 1", REFUSED, "list `THE LIST`: line 5 is empty; remove it"),
    (with_lines("a\0"), "door", REFUSED,
     "list `THE LIST`: line 5 has a NUL byte; remove that byte"),
    (with_lines("a\r"), "work 1", REFUSED,
     "list `THE LIST`: line 5 has a carriage return; end lines with a line feed alone"),
    (with_lines("x" * 100001), "work 1", REFUSED,
     "list `THE LIST`: line 5 is longer than 100000 bytes; shorten it"),
    (with_lines("a", "job 2"), "door", REFUSED,
     "list `THE LIST`: line 6 is equal to a line before it; remove it, or make the two differ"),
    (other_line, "work 1", REFUSED, CHANGED),
    (lambda scene: os.unlink(scene.jobs), "work 1", READ,
     "list `THE LIST`: cannot be read: ...; check the path"),
    (having("record", b"amo-run 2\n"), "work 1", REFUSED,
     f"`THE RUN/record`: {REFUSED_FILE}"),
    (having("jobs", b"a\n\n"), "status", REFUSED, f"`THE RUN/jobs`: {REFUSED_FILE}"),
    (recording("journal.16", b"doubt 1 9"), "status", REFUSED,
     f"`THE RUN/journal.16`: append 1 {DAMAGED_ENTRY}"),
    (recording("answers", b"done 1 2 9", b"done 9 9 9"), "doubts", REFUSED,
     f"`THE RUN/answers`: append 2 {DAMAGED_ENTRY}"),
    (spoiling("answers", b"done 1 2 9"), "again", REFUSED,
     "`THE RUN/answers`: append 1: its checksum doesn't fit; ..."),
    (counting(*[b"more"] * 7), "work 1", REFUSED,
     "`THE RUN/journal.1`: it has 4 appends, and 9 were on the disk when round 4 began; " + KEEP),
    (counting(b"another", b"more"), "status", REFUSED,
     "`THE RUN/journal.1`: append 4 is another one than when round 4 began; " + KEEP),
    (lambda scene: os.unlink(scene.boot), "work 1", READ,
     "boot id `THE BOOT`: cannot be read: ...; check the path"),
    (boot_of_two_lines, "work 1", REFUSED, BOOT),
    (same, "answer 1.1 1 job1 done", REFUSED, ROW),
    (same, "answer 1-2 2 job_2 done", REFUSED, ROW),
    (same, "answer 1.9 2 job_2 done", REFUSED, f"answer 1: {NO_ATTEMPT}"),
    (same, "answer 1.2 3 job_3 done", REFUSED, f"answer 1: {OTHER_LINE}"),
    (same, "answer 1.1 1 job_1 done", REFUSED, f"answer 1: {NOT_ASKED}"),
    (recording("answers", b"done 1 2 9"), "answer 1.2 2 job_2 not-done", REFUSED,
     "answer 1: the other answer was given before; an answer stays as it is"),
    (same, "answer 1.2 2 job_2 not-done --quiet 1000000000", LATER,
     "answer 1: its attempt ended at ..., and it is ... now; answer again 1000000000 s after that"
     " end, or add --now\namo_worker: none of these comes too early from ... on"),
    (recording("journal.16", b"intent 1 4 1", b"doubt 1 4000000000"),
     "answer 16.1 4 job_4 not-done", REFUSED,
     "answer 1: its attempt ended at Tue, 02 Oct 2096 07:06:40 GMT, which is ahead of the clock"
     " (...); set the clock right, or add --now"),
    (recording("journal.16", b"intent 1 4 1", b"done 1 3 0"),
     "answer 16.1 4 job_4 not-done --quiet 0", REFUSED,
     "answer 1: no record says when its attempt ended; wait as long as the receiver may take, then"
     " add --now"),
    (same, "answer 1.2 2 job_2 not-done --quiet 1.5", WORDS,
     f"`--quiet`: it must be a whole number from 0 to 1000000000{HELP}"),
    (same, "answer --from /nowhere", READ,
     "answers `/nowhere`: cannot be read: ...; check the path"),
    (same, "answer 1.2 2", WORDS,
     f"`answer`: it must be INTENT LINE TEXT done|not-done, or --from FILE{HELP}"),
    (same, "status --lines closed", WORDS,
     f"`--lines`: it must be done, failed, doubt, untouched, running or open{HELP}"),
    (same, "work 2", WORDS, f"`P`: it must be a whole number from 1 to 1{HELP}"),
    (same, "work 1 --beta 65536", WORDS,
     f"`--beta`: it must be a whole number from 1 to 65535{HELP}"),
    (same, "work 1", LEFT, CLOSED),
    (spoiled, "work 1", SENSELESS, f"`THE RUN/words`: word 6 {IMPOSSIBLE}"),
    (without("journal.3"), "status", REFUSED, f"`THE RUN/journal.3`: {MISSING}"),
    (without("answers"), "door", REFUSED, f"`THE RUN/answers`: {MISSING}"),
    (without("record"), "status", REFUSED, f"`THE RUN/record`: {MISSING}"),
    (without("jobs"), "doubts", REFUSED, f"`THE RUN/jobs`: {MISSING}"),
    (without("lock.round"), "work 1", REFUSED, f"`THE RUN/lock.round`: {MISSING}"),
    (having("journal.16", b""), "doubts", REFUSED, f"`THE RUN/journal.16`: {EMPTY}"),
    (having("answers", b""), "again", REFUSED, f"`THE RUN/answers`: {EMPTY}"),
    (having("id", b"none\n"), "status", REFUSED, f"`THE RUN/id`: {DAMAGED}"),
    (without("id"), "door", REFUSED, f"`THE RUN/id`: {MISSING}"),
    (without("id"), "again", REFUSED, f"`THE RUN/id`: {MISSING}"),
    (made_old, "door", REFUSED, OLD_RUN),
    (made_old, "again", REFUSED, OLD_RUN),
    (without("id", "record"), "door", REFUSED, NOT_NEW),
    (without("id", "record"), "answer 1.2 2 job_2 done", REFUSED, NO_ID),
    (having("forgotten", b""), "work 1", REFUSED, FORGOTTEN),
    (same, f"status --id {32 * '0'}", REFUSED, OTHER_ID),
    (same, f"status --id {31 * '0'}", WORDS,
     f"`--id`: it must be 32 hexadecimal digits, none of them a capital letter{HELP}"),
    (same, "door --into", REFUSED, HAS_ID),
    (instead(same), f"door --id {32 * '0'}", REFUSED, NO_RUN),
    (of_another_round, "work 1", LATER, OTHER_ROUND),
]


def is_message(said, message):
    """Returns whether a program has printed this message, with any text in place of three dots."""
    parts = (re.escape(it) for it in message.split("..."))
    return re.fullmatch(f"amo_worker: {'[^;]+'.join(parts)}\n", said) is not None


def told_one(bench, change, words, status, said):
    """A command that ends with a fault: its status, and its line."""
    scene = prepared(bench, ["done 0", "doubt", "untouched 75"], lines=4)
    change(scene)
    scene.is_judged = False  # the test has spoiled a file
    command, *more = (it.replace("_", " ") for it in words.split(" "))
    more += [*scene.givens(), scene.jobs] if command in ("door", "work") else []
    ended, out, err = scene.call(command, scene.run, *more)
    for mark, path in (("RUN", scene.run), ("LIST", scene.jobs), ("BOOT", scene.boot)):
        said = said.replace(f"THE {mark}", path)
    want(ended == status and is_message(err, said) and err.count("\n") == said.count("\n") + 1,
         f"{words}: status {ended}, {err}, and not {status}, {said}")
    want(not out or words == "work 1", f"{words} says {out}")


def try_lines_of_faults(bench):
    """each fault has its status and its message"""
    if bench.is_slow():
        bench.skipped.append("the stand-in has other words for faults")
        return None
    return f"{each(((bench, *it) for it in FAULTS), told_one)} faults"


def try_lines_of_lives(bench):
    """the end of a life that was asked to leave, or is over; an invalid reply is shown if it is
    UTF-8"""
    if bench.is_slow():
        bench.skipped.append("the stand-in has other words for faults")
        return
    scene = bench.scene(3, 4)
    first, other = Says(scene, 1, ["done 0"]), Runner(scene, 2)
    left = "amo_worker: runner: it told this worker to leave; start the worker again to go on\n"
    want(live(first) == LEFT and first.said == left, f"{first.statuses}: {first.said}")
    others_at_work(scene)
    later = f"amo_worker: folder `{scene.run}`: "
    over = "this round is over for this worker; start again to join the next one\n"
    want(live(other) == LATER and other.said == later + over, other.said)
    first.leaves, first.perform = False, lambda *given: Runner.perform(first, *given)
    want(live(first) == LATER and first.said == later + over, first.said)
    for said, shown in ((b"done 9 0 go\n", "done 9 0 go"), (b"\xff 1 go\n", "(not UTF-8)"),
                        (b"\n", "")):
        runner = Runner(bench.scene(1, 1), 1)
        runner.take = lambda line, runner=runner, said=said: runner.process.stdin.write(said)
        live(runner)
        invalid = f"runner: its reply `{shown}` is invalid; docs/protocol.md lists the replies\n"
        want(runner.said == f"amo_worker: {invalid}", runner.said)


def failing_output(scene, words):
    """A command whose standard output takes nothing."""
    with open("/dev/full", "wb") as out:
        more = scene.bench.kind if "--help" not in words else []
        ran = subprocess.run([*scene.bench.command(), *words, *more], stdin=subprocess.DEVNULL,
                             stdout=out, stderr=subprocess.PIPE, timeout=300,
                             env=scene.environment())
    said = ran.stderr.decode()
    wanted = "standard output: cannot be written: ...; make room, then start again"
    want(ran.returncode == WRITE and is_message(said, wanted),
         f"{words}: status {ran.returncode}, {said}")


def ageless(ended):
    """Returns the end of a call of `doubts`, without the ages of the doubts, which grow."""
    status, out, err = ended
    return status, re.sub(r'"age":\d+|\b\d+$', "age", out, flags=re.MULTILINE), err


def try_outputs(bench):
    """the output of a person's command is written whole, also by calls that are cut short or
    interrupted, or the fault is reported"""
    if bench.is_slow():
        bench.skipped.append("the stand-in has other words for faults")
        return
    scene = prepared(bench, ["done 0", "doubt", "untouched 75"], lines=4)
    for words in (["status"], ["status", "--json"], ["status", "--lines", "open"], ["doubts"], ["doubts", "--json"]):
        failing_output(scene, [words[0], scene.run, *words[1:]])
        scene.logs = True
        whole = scene.call(words[0], scene.run, *words[1:])
        scene.logs, calls = False, scene.logged()
        os.unlink(scene.log)
        number = next(int(it[1]) for it in calls if it[2] == "say")
        for fault in ("short", errno.EINTR):
            again = scene.call(words[0], scene.run, *words[1:], faults=f"{number}:{fault}")
            want(ageless(again) == ageless(whole), f"{words}, {fault}: {again}, and not {whole}")
    for words in (["--help"], ["answer", "--help"]):
        failing_output(scene, words)
        ran = subprocess.run([*bench.command(), *words], stdin=subprocess.DEVNULL,
                             capture_output=True, timeout=300)
        want(ran.returncode == OVER and b"amo_worker" in ran.stdout and not ran.stderr, f"{words}: {ran}")


def try_times(bench):
    """the times in journals, in answers, and of doubts are those at which it was noted"""
    begun = int(time.time())
    scene = prepared(bench, ["done 0", "doubt", "untouched 75", "done 3", "unbegun", "dies"])
    untimed = [it for it in folder.single_records(scene.run, "journal.1")
               if it.startswith((b"doubt ", b"untouched ")) and int(it.split(b" ")[-1]) < begun]
    want(not untimed, f"without its time was noted {untimed}")
    scene.answer(1, 4, 4, "done")
    scene.again()
    ended = int(time.time())
    records = (folder.single_records(scene.run, "journal.1")
               + folder.single_records(scene.run, "answers"))
    timed = [it for it in records if not it.startswith(b"unbegun ")]
    want(len(timed) == 6 + 5 + 2, f"there is {records}")
    times = [int(it.split(b" ")[-1]) for it in timed]
    want(begun <= min(times) and max(times) <= ended, f"between {begun} and {ended} was noted {timed}")
    noted = {it.name(): it.time for it in scene.look().intents.values()}
    shown = {it["intent"]: it["time"] for it in json.loads(scene.call("doubts", scene.run, "--json")[1])}
    listed = {it.split(" ")[1]: int(it.split(" ")[-2]) for it in scene.call("doubts", scene.run)[1].splitlines()}
    want(shown == listed == {name: noted[name] for name in ("1.2", "1.6")}, f"the doubts say {shown}, {listed}")


def locks_of(scene):
    """Returns which of the locks of the doubt are held by somebody."""
    return [name for name in ("journal.1", "runner.1", "command.1.1", "answers") if not folder.is_free(f"{scene.run}/{name}")]


def stopped(bench, words, number, how):
    """Somebody who asks or answers of a doubt, stopped at this call. With no number: the calls that
    it makes."""
    scene = answerable(bench)
    open(f"{scene.run}/command.1.1", "wb").close()
    if not number:
        scene.logs = True
        scene.call(words[0], scene.run, *words[1:])
        return scene.logged()
    reader = Reader(scene, *words, faults=f"{number}:{how}")
    while state_of(reader) not in "TZ":
        time.sleep(0.002)
    held = locks_of(scene)
    reader.process.send_signal(signal.SIGCONT)
    status, _, err = reader.ended()
    want(status == OVER, f"{words}: status {status}, {err}")
    return held


def try_what_is_held(bench):
    """who looks at a doubt holds its three locks until all is read, and none while it is printed;
    who answers, until it is put"""
    whole = ["journal.1", "runner.1", "command.1.1", "answers"]
    for words in (["status"], ["doubts", "--json"]):
        calls = stopped(bench, words, None, None)
        locked = next(int(it[1]) for it in calls if it[2:4] == ["lock", "command.1.1"])
        said = next(int(it[1]) for it in calls if it[2] == "say")
        want(stopped(bench, words, locked, "stop_after") == whole, f"{words} doesn't hold all of a doubt")
        if not bench.is_slow():
            want(stopped(bench, words, said, "stop_before") == [], f"{words} holds locks while it prints")
    words = ["answer", "1.1", "1", "job 1", "not-done", "--now"]
    calls = stopped(bench, words, None, None)
    locked = next(k for k, it in enumerate(calls) if it[2:4] == ["lock", "command.1.1"])
    puts = [int(it[1]) for it in calls[locked:] if it[2] in ("write", "sync") and it[3] == "answers"]
    want(len(puts) == 4, f"an answer is put by {puts}")
    whole.remove("command.1.1")  # which goes once the doubt is recorded
    for number in (puts[0], puts[-1]):
        want(stopped(bench, words, number, "stop_before") == whole, "an answer is put without the locks of its doubt")


def try_order_of_reads(bench):
    """each look reads what persons found out before the journals, and these before the lines, so
    that nothing is of what isn't read; an intent is put before both are read for its clearance; the
    locks are asked for in one order"""
    if bench.is_slow():
        bench.skipped.append("the stand-in reads all twice")
        return
    scene = prepared(bench, ["done 3", "doubt", "untouched 75"], lines=4)
    scene.is_judged = False  # the person lies
    scene.answer(1, 2, 2, "not-done")
    scene.logs, wrongs = True, []
    for words in (["status"], ["doubts"], ["answer", "1.1", "1", "job 1", "done"], ["again"], ["work", "1"]):
        more = [*scene.givens(), scene.jobs] if words[0] == "work" else []
        scene.call(words[0], scene.run, *words[1:], *more)
        calls = scene.logged()
        os.unlink(scene.log)
        locks = [it[3] for it in calls if it[2] == "lock"]
        wanted = ["journal.1", "lock.round", "lock.round"]
        if words[0] != "work":
            wanted = ["answers", *(f"journal.{worker}" for worker in range(1, 17))]
        want(locks == wanted, f"{words} asks for the locks {locks}")
        begins = next((k for k, it in enumerate(calls) if it[2:4] == ["lock", "lock.round"]), 0)
        intent = begins + next((k for k, it in enumerate(calls[begins:]) if it[2:4] == ["write", "journal.1"]), len(calls))
        reads = [it[3].split(".")[0] for it in calls[begins:intent] if it[2] == "read" and it[3] in ("answers", "journal.1", "jobs")]
        places = {name: [k for k, it in enumerate(reads) if it == name] for name in ("answers", "journal", "jobs")}
        want(all(places.values()), f"{words} reads {reads}")
        wrongs += [words] if max(places["answers"]) > max(places["journal"]) else []
        wrongs += [words] if words[0] != "work" and max(places["journal"]) > max(places["jobs"]) else []
        wrongs += [words] if words[0] == "work" and not is_cleared(calls[intent:]) else []
    want(not wrongs, f"in another order: {wrongs}")


def is_cleared(calls):
    """Returns whether `answers` and then each other journal is read after an intent was put, and
    before a line is handed over."""
    end = next((k for k, it in enumerate(calls) if it[2] == "say"), len(calls))
    last = max(k for k, it in enumerate(calls[:end]) if it[2:4] == ["sync", "journal.1"])
    others = {f"journal.{worker}" for worker in range(2, 17)}
    reads = [it[3] for it in calls[last:end] if it[2] == "read" and it[3] in {"answers", *others}]
    places = [k for k, it in enumerate(reads) if it == "answers"]
    return others <= set(reads) and places == list(range(len(places))) != []


def try_cut_while_asked(bench):
    """input that ends while a worker asks what became of an intent: it ends too, and puts
    nothing"""
    scene = answerable(bench)
    runner = Runner(scene, 1)
    runner.take = lambda line: runner.lines.append(line) or runner.process.stdin.close()
    want(live(runner) == LEFT and runner.lines == ["was 1 1 job 1"], f"{runner.statuses}, {runner.lines}: {runner.said}")
    want(len(folder.records_in(scene.run, "journal.1")) == 1, "something is noted")


PARTS = {"persons": [try_lines_of_faults, try_outputs, try_times, try_order_of_reads],
         "commands": [try_lines_of_lives, try_what_is_held, try_cut_while_asked]}
