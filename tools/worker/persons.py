"""The messages to persons and their answers; commands that outlive the process that began them;
words and refusals at the door."""

import errno
import json
import os
import re
import shlex
import shutil
import signal
import subprocess
import tempfile
import time

from worker import journals
from worker.folder import KINDS, put, read, records_in
from worker.scene import (ANSWER, DOOR, KILLED, LATER, LEFT, OVER, REFUSED, WORDS, WRITE, Runner,
                          each, finish, live, see_out, serve, want)


class Says(Runner):
    """A runner that answers each perform with the next of these replies; it replies `done` for a
    performed line."""

    def __init__(self, scene, worker, replies, **more):
        super().__init__(scene, worker, **more)
        self.replies = list(replies)

    def perform(self, serial, line):
        reply = self.replies.pop(0) if self.replies else "unbegun"
        if reply.split(" ")[0] in ("done", "doubt", "dies"):
            self.scene.performed(self.worker, serial, line)
        self.leaves = not self.replies
        if reply == "dies":
            self.kill()
            return None
        return reply


def prepared(bench, replies, lines=6):
    """Returns a run whose first lines were answered so. The last reply asks the worker to leave."""
    scene = bench.scene(lines, 1)
    runner = Says(scene, 1, replies)
    live(runner)
    want(not runner.replies, f"it ends with status {runner.statuses} before {runner.replies}: {runner.said}")
    runner.close()
    return scene


def counts_of(scene, *words):
    """Returns the counts that status prints, as text and as JSON, which must be the same."""
    status, out, err = scene.call("status", scene.run, *words)
    want(status == OVER, f"status: {status}, {err}")
    first = out.split("\n")[0].split(" ")
    counts = dict(zip(first[::2], map(int, first[1::2])))
    want(list(counts) == ["lines", *KINDS], f"status says: {out}")
    return counts, out


def agree(scene):
    """Wants status, its JSON, its lists and doubts to print what the auditor reads."""
    found = scene.look()
    final = found.final()
    counts, out = counts_of(scene)
    kinds = found.kinds(final)
    want(counts == found.counts(final), f"status says {counts}, and there is {found.counts(final)}")
    told = json.loads(scene.call("status", scene.run, "--json")[1])
    want({name: told[name] for name in counts} == counts, f"the JSON says {told}")
    shown = {line: found.of_line(line)[0].name() for line, kind in kinds.items() if kind != "open"}
    texts = [it.decode() for it in found.lines]
    some = {line: kind for line, kind in kinds.items() if kind in ("doubt", "running", "untouched")}
    wanted = sorted(f"{kind} {shown[line]} {line} {texts[line - 1]}" for line, kind in some.items())
    want(sorted(out.split("\n")[2:-1]) == wanted, f"status lists {out}, and there is {wanted}")
    listed = sorted((it["intent"], it["line"], it["text"], it["state"]) for it in told["intents"])
    want(listed == sorted((shown[line], line, texts[line - 1], kind) for line, kind in some.items()), f"the JSON lists {listed}")
    for kind in KINDS[1:]:
        rows = scene.call("status", scene.run, "--lines", kind)[1]
        wanted = "".join(f"{shown.get(line, '-')}\t{line}\t{texts[line - 1]}\n" for line in kinds if kinds[line] == kind)
        want(sorted(rows.splitlines()) == sorted(wanted.splitlines()), f"--lines {kind} says {rows}, and there is {wanted}")
    doubts = [it.split(" ")[1] for it in scene.call("doubts", scene.run)[1].splitlines()]
    listed = [it["intent"] for it in json.loads(scene.call("doubts", scene.run, "--json")[1])]
    wanted = sorted(shown[line] for line, kind in kinds.items() if kind == "doubt")
    want(sorted(doubts) == sorted(listed) == wanted, f"doubts are {doubts}, {listed}, and there is {wanted}")
    return kinds


def try_counts(bench):
    """status, its lists and its JSON, and doubts: as the auditor reads journals, locks and
    answers"""
    scene = prepared(bench, ["done 0", "done 3", "doubt", "untouched 75", "unbegun", "dies"])
    kinds = agree(scene)
    want([kinds[k] for k in range(1, 7)] == ["done", "failed", "doubt", "untouched", "open", "doubt"], f"{kinds}")
    runner, = finish(scene)
    agree(scene)
    counted = counts_of(scene)[1].split("\n")[0]
    want(runner.said.endswith(f"{counted}\n"), f"at the end it says {runner.said}, and the status {counted}")


def answered(scene, name, line, text, verdict, status, taken, *more):
    """This answer has this status, and makes so many entries in `answers`; what it says."""
    before = len(records_in(scene.run, "answers"))
    ended, _, err = scene.call("answer", scene.run, name, str(line), text, verdict, *more)
    after = len(records_in(scene.run, "answers"))
    options = "".join(f" {it}" for it in more)
    said = f"{name} {line} {text} {verdict}{options}: status {ended}, {after - before} taken, {err}"
    want((ended, after - before) == (status, taken), said)
    named = status == LATER or "answer 1" in err
    has_time = re.search(f"{ON}\\Z", err) is not None
    want(status == OVER or err.count("\n") == 1 + has_time and named,
         f"{name} {verdict} is refused without a word: {err}")
    return err


def try_answers(bench):
    """a person's answers: taken for a noted doubt, what failed and what was untouched, of the right
    line, once; others refused"""
    scene = prepared(bench, ["done 0", "done 3", "doubt", "untouched 75", "doubt", "unbegun"])
    agree(scene)
    for name, line, text, verdict, status, taken in [
            ("1.1", 1, "job 1", "not-done", REFUSED, 0), ("1.9", 3, "job 3", "done", REFUSED, 0),
            ("2.1", 3, "job 3", "done", REFUSED, 0), ("1.3", 4, "job 4", "done", REFUSED, 0),
            ("1.3", 3, "job 4", "done", REFUSED, 0), ("1.6", 6, "job 6", "not-done", REFUSED, 0),
            ("1.3", 3, "job 3", "done", OVER, 1), ("1.3", 3, "job 3", "done", OVER, 0),
            ("1.3", 3, "job 3", "not-done", REFUSED, 0),
            ("1.2", 2, "job 2", "done", OVER, 1), ("1.4", 4, "job 4", "done", OVER, 1),
            ("1.4", 4, "job 4", "not-done", REFUSED, 0)]:
        answered(scene, name, line, text, verdict, status, taken)
    want(agree(scene)[3] == "done", "a doubt that was found done isn't done")
    finish(scene)


def try_answers_open(bench):
    """`not-done` opens a line again, once, and its intent can't be answered any more; `again` opens
    what was untouched, once"""
    scene = prepared(bench, ["untouched 75", "untouched 3", "done 5"], lines=3)
    scene.again()
    scene.again()
    want(len(records_in(scene.run, "answers")) == 2,
         "again makes more than one entry for what was untouched")
    kinds = agree(scene)
    want(kinds == {1: "open", 2: "open", 3: "failed"}, f"{kinds}")
    runner = Says(scene, 1, ["untouched 75", "doubt"])
    live(runner)
    runner.close()
    answered(scene, "1.1", 1, "job 1", "done", REFUSED, 0)
    scene.again()
    want(agree(scene)[1] == "open" and agree(scene)[2] == "doubt", "again opens something else")
    finish(scene)


def try_answers_from_file(bench):
    """--from a file: all or nothing, in the form that status prints"""
    scene = prepared(bench, ["doubt", "doubt", "doubt", "done 0"], lines=4)
    rows = scene.call("status", scene.run, "--lines", "doubt")[1].splitlines()
    path = f"{scene.room}/verdicts"

    def given(lines, status, taken, refused=None):
        with open(path, "w") as file:
            file.write("".join(lines))
        before = len(records_in(scene.run, "answers"))
        ended, _, err = scene.call("answer", scene.run, "--from", path)
        count = len(records_in(scene.run, "answers")) - before
        want((ended, count) == (status, taken), f"{lines}: status {ended}, {count} taken, {err}")
        want(refused is None or f"answer {refused}" in err, f"{lines}: answer {refused} is refused, and it says: {err}")

    given(["1.4\t4\tjob 4\tnot-done\n", f"{rows[0]}\tdone\n"], REFUSED, 0, 1)
    given([f"{rows[0]}\tdone\n", "1.4\t4\tjob 4\tnot-done\n"], REFUSED, 0, 2)
    given([f"{rows[0]}\tdone\n", f"{rows[1]}\tperhaps\n"], REFUSED, 0, 2)
    given([f"{rows[0]}\tdone\n", f"{rows[1]}\tdone\n", f"{rows[0]}\tnot-done\n"], REFUSED, 0, 3)
    given([f"{rows[0]}\tdone\n", f"{rows[2]}\tdone\n", f"{rows[0]}\tdone\n"], OVER, 2)
    want(sorted(agree(scene).values()) == ["done", "done", "done", "doubt"], f"{agree(scene)}")
    finish(scene)


def try_many_answers(bench):
    """files of 0 to 11 answers, each of which is taken, and as many lines that are opened again at
    once"""
    scene = prepared(bench, ["doubt"] * 66 + ["untouched 75"] * 12, lines=78)
    rows, path = scene.call("status", scene.run, "--lines", "doubt")[1].splitlines(), f"{scene.room}/verdicts"
    for count in range(12):
        with open(path, "w") as file:
            file.write("".join(f"{row}\tdone\n" for row in rows[:count]))
        status, _, err = scene.call("answer", scene.run, "--from", path)
        rows = rows[count:]
        counts, _ = counts_of(scene)
        want(status == OVER and counts["doubt"] == len(rows), f"of {count} answers: status {status}, {counts}, {err}")
    scene.again()
    want(counts_of(scene)[0]["open"] == 12, "again opens another number of lines")


OUTCOME = re.compile(rb"\b(done (\d+) \d+|doubt (\d+)|untouched (\d+) \d+) \d+")
DATE = r"\w{3}, \d\d \w{3} \d{4} \d\d:\d\d:\d\d GMT"
EARLY = rf"its attempt ended at {DATE}, and it is {DATE} now; answer again \d+ s after that end, or add --now"
AHEAD = rf"its attempt ended at {DATE}, which is ahead of the clock \({DATE}\); set the clock right, or add --now"
ON = rf"amo_worker: none of these comes too early from {DATE} on\n"
UNKNOWN = "no record says when its attempt ended; wait as long as the receiver may take, then add --now"


def ended_at(scene, times):
    """Rewrites journal.1, of which the round counts nothing: the attempts with these serial numbers
    ended at these times."""

    def timed(found):
        time_of = times.get(int(next(it for it in found.groups()[1:] if it)))
        return found[0] if time_of is None else b"%s %d" % (found[1], time_of)

    records = [OUTCOME.sub(timed, it) for it in records_in(scene.run, "journal.1")]
    put(f"{scene.run}/journal.1", journals.journal(scene.id(), "journal.1", records))


def try_not_done_waits(bench):
    """`not-done` of what failed or is in doubt waits until so many seconds have passed since its
    end, and until somebody looks if that is not known or ahead of the clock; `--now` doesn't
    wait"""
    scene, now = prepared(bench, ["done 3", "doubt", "doubt", "doubt"], lines=4), int(time.time())
    scene.is_judged = False  # the person lies
    ended_at(scene, {1: now - 10**6, 2: now - 10**6, 3: now + 10**6, 4: 0})
    long, short = ["--quiet", str(2 * 10**6)], ["--quiet", str(10**6)]
    for serial, more, status, said in [
            (1, long, LATER, EARLY), (2, long, LATER, EARLY), (3, [], REFUSED, AHEAD), (3, ["--quiet", "0"], REFUSED, AHEAD),
            (4, [], REFUSED, UNKNOWN), (4, ["--quiet", "0"], REFUSED, UNKNOWN), (1, short, OVER, None), (2, [], OVER, None),
            (3, ["--now"], OVER, None), (4, ["--now", *long], OVER, None)]:
        err = answered(scene, f"1.{serial}", serial, f"job {serial}", "not-done", status, int(status == OVER), *more)
        wanted = f"amo_worker: answer 1: {said}\n{ON if status == LATER else ''}"
        want(said is None or re.fullmatch(wanted, err), f"1.{serial} {more}: {err}")
    want(set(agree(scene).values()) == {"open"}, f"{agree(scene)}")


def try_now_by_default(bench):
    """a `not-done` waits by default, and with --quiet 0 it doesn't"""
    scene, now = prepared(bench, ["done 3", "doubt"], lines=2), int(time.time())
    scene.is_judged = False  # the person lies
    ended_at(scene, {1: now, 2: now})  # (of a test that takes a minute here nothing is shown)
    for serial in (1, 2):
        name, text = f"1.{serial}", f"job {serial}"
        status, _, err = scene.call("answer", scene.run, name, str(serial), text, "not-done")
        is_late = time.time() > now + 60
        want(status == LATER or is_late, f"{name} not-done: status {status}, {err}")
        if not is_late:
            answered(scene, name, serial, text, "not-done", OVER, 1, "--quiet", "0")


def try_done_at_once(bench):
    """`done` doesn't wait, whenever the attempt ended; nor does any answer to what was untouched,
    nor `again`"""
    scene, now = prepared(bench, ["done 3", "doubt", "doubt", "untouched 75", "untouched 75", "dies"]), int(time.time())
    ended_at(scene, {1: now, 2: now + 10**6, 3: 0, 4: now, 5: now + 10**6})
    for serial, verdict in ((1, "done"), (2, "done"), (3, "done"), (4, "not-done"), (6, "done")):
        answered(scene, f"1.{serial}", serial, f"job {serial}", verdict, OVER, 1, "--quiet", str(10**6))
    scene.again()
    kinds = list(agree(scene).values())
    want(kinds == ["done"] * 3 + ["open"] * 2 + ["done"], f"{kinds}")


def try_sheet_waits(bench):
    """--from a file: one answer that comes too early refuses all, and each such answer is named"""
    scene, now = prepared(bench, ["doubt", "done 3", "doubt", "doubt", "untouched 75", "doubt"]), int(time.time())
    scene.is_judged = False  # the person lies
    ended_at(scene, {1: now, 2: now - 10**6, 3: now, 4: now + 10**6, 5: now, 6: now})
    path = f"{scene.room}/verdicts"

    def given(answers, status, early, *more):
        with open(path, "w") as file:
            file.write("".join(f"1.{serial}\t{serial}\tjob {serial}\t{verdict}\n" for serial, verdict in answers))
        before = len(records_in(scene.run, "answers"))
        ended, _, err = scene.call("answer", scene.run, "--from", path, *more)
        count = len(records_in(scene.run, "answers")) - before
        want((ended, count) == (status, len(answers) if status == OVER else 0), f"{answers}: status {ended}, {count} taken, {err}")
        wanted = "".join(f"amo_worker: answer {place}: {said}\n" for place, said in early)
        wanted += ON if status == LATER else ""
        want(re.fullmatch(wanted, err), f"{answers}: it says {err}, and not {wanted}")

    quiet = ["--quiet", str(10**6)]
    soon = [(1, "done"), (2, "not-done"), (3, "not-done"), (5, "not-done"), (6, "not-done")]
    given(soon, LATER, [(3, EARLY), (5, EARLY)], *quiet)
    given([*soon[:3], (4, "not-done"), *soon[3:]], REFUSED, [(3, EARLY), (4, AHEAD), (6, EARLY)], *quiet)
    given([(4, "not-done"), (3, "done")], REFUSED, [(1, AHEAD)])
    given([(3, "not-done"), (3, "done")], REFUSED, [(2, "the other answer was given before; an answer stays as it is")], *quiet)
    given([(3, "not-done"), (1, "perhaps")], REFUSED, [(2, "it must be P.S, .*")], *quiet)
    given([*soon, (4, "not-done")], OVER, [], *quiet, "--now")
    want(sorted(agree(scene).values()) == ["done"] + ["open"] * 5, f"{agree(scene)}")


def doubts_of(scene):
    """Returns what `doubts` prints on each attempt: when it ended and how long ago, as JSON and as
    a word."""
    told = {it["intent"]: (it["ended"], it["age"]) for it in json.loads(scene.call("doubts", scene.run, "--json")[1])}
    words = {it.split(" ")[1]: it.split(" ")[-1] for it in scene.call("doubts", scene.run)[1].splitlines()}
    want(list(told) == list(words), f"the doubts are {told}, {words}")
    return told, words


def try_ages(bench):
    """doubts says of each attempt when it ended, and how many seconds ago; not of one whose end is
    not known, and no age of one that is ahead of the clock"""
    scene, now = prepared(bench, ["doubt", "doubt", "doubt", "done 3"]), int(time.time())
    ended_at(scene, {1: now - 10**6, 2: now + 10**6, 3: 0})
    told, words = doubts_of(scene)
    later = int(time.time()) - now + 10**6
    want(told["1.1"][0] == now - 10**6 and 10**6 <= told["1.1"][1] <= int(words["1.1"]) <= later, f"1.1: {told}, {words}")
    want(told["1.2"] == (now + 10**6, None) and words["1.2"] == "ahead", f"1.2: {told}, {words}")
    want(told["1.3"] == (None, None) and words["1.3"] == "unknown", f"1.3: {told}, {words}")


def left_pending(bench):
    """Returns a run with one attempt that is final and that nobody has recorded."""
    scene = prepared(bench, ["done 0", "dies"], lines=3)
    want(scene.look().final() == {(1, 2)}, "no attempt is final")
    open(f"{scene.run}/command.1.2", "wb").close()
    return scene


def try_recorded(bench):
    """who lists a doubt that nobody has recorded, or answers it, records it with the time; the
    status and `again` don't"""
    scene, words = left_pending(bench), ["1.2", "2", "job 2", "not-done"]
    for call in ("status", "again"):
        scene.call(call, scene.run)
        want(scene.look().pending(), f"{call} records a doubt")
    for asks in (["doubts"], ["doubts", "--json"], ["answer", *words], ["answer", *words[:3], "done"]):
        scene, begun = left_pending(bench), int(time.time())
        status, _, err = scene.call(asks[0], scene.run, *asks[1:])
        wanted = LATER if asks[-1] == "not-done" and time.time() < begun + 60 else status
        want(status == wanted, f"{asks}: status {status}, {err}")
        it = scene.look().intents[1, 2]
        want(it.answer == "doubt" and begun <= it.ended <= time.time(), f"{asks}: {it.answer} is recorded, at {it.ended}")
        if it.found != "done":
            told, _ = doubts_of(scene)
            want(told["1.2"][0] == it.ended, f"{asks}: the doubts are {told}")
            scene.answer(1, 2, 2, "done")
        runner = Runner(scene, 1)
        runner.was = lambda serial, line: want(False, "it is asked what became of what is recorded")
        see_out([runner])
        runner.close()


def try_listed_though_full(bench):
    """a doubt that the disk doesn't take is listed all the same, and it isn't known when it ended;
    the next one who asks records it"""
    scene = left_pending(bench)
    scene.logs = True
    scene.call("doubts", scene.run)
    calls = scene.logged()
    locked = next(k for k, it in enumerate(calls) if it[2:4] == ["lock", "command.1.2"])
    numbers = [int(it[1]) for it in calls[locked:] if it[2] in ("write", "sync") and it[3] == "journal.1"]
    want(len(numbers) == 4, f"a doubt is recorded by {numbers}")
    for number in numbers:
        for error in (errno.EIO, errno.ENOSPC):
            scene = left_pending(bench)
            scene.is_judged = False  # the person lies
            status, out, err = scene.call("doubts", scene.run, "--json", faults=f"{number}:{error}")
            want(status == OVER, f"doubts at a failed call {number}: status {status}, {err}")
            told = [(it["intent"], it["ended"], it["age"]) for it in json.loads(out)]
            want(told == [("1.2", None, None)], f"doubts at a failed call {number}: {told}")
            said = ["answer", scene.run, "1.2", "2", "job 2", "not-done", "--quiet", "0"]
            calm = scene.call(*said)
            want(calm[0] == OVER, f"once the disk takes it: status {calm[0]}, {calm[2]}")
            want(scene.look().intents[1, 2].answer == "doubt", "it isn't recorded")
    return f"{2 * len(numbers)} failed calls"


class Lasting(Runner):
    """A runner whose command goes on until it gets a signal, also without its runner."""

    def perform(self, serial, line):
        self.command = serial, line, self.taken(f"command.{self.worker}.{serial}")

    def leave_behind(self):
        """Dies, and leaves the command running."""
        self.close()
        return self.command


def try_commands_that_stay(bench):
    """a command that outlives its runner: listed as running, and neither a doubt nor to be answered
    until it has ended"""
    scene = bench.scene(6, 1)
    runner = Lasting(scene, 1)
    serve([runner.start()], until=lambda: runner.lines)
    want(agree_running(scene, alive=[1]) == 1, "the command isn't told as running")
    serial, line, held = runner.leave_behind()
    want(agree_running(scene, alive=[]) == 1, "the command that was left isn't reported as running")
    answered(scene, f"1.{serial}", line, f"job {line}", "not-done", LATER, 0)
    want(scene.doubts() == [], "a running command is listed as a doubt")
    runner = Runner(scene, 1)
    see_out([runner])
    want(line not in [it[2] for it in scene.effects()], "it is performed")
    want(scene.doubts() == [], "a running command is listed as a doubt")
    scene.performed(1, serial, line)
    held.close()
    runner.close()
    want(scene.doubts() == [(1, serial, line)], "a command that has ended is not listed as a doubt")
    agree(scene)
    scene.answer(1, serial, line, "done")
    finish(scene)
    want(len(scene.effects()) == 6, f"{scene.effects()}")


def try_pending(bench):
    """a line that was begun, and of which nobody knows more, is closed to the other workers"""
    scene = bench.scene(5, 2)
    runner = Says(scene, 1, ["done 0", "dies"])
    live(runner)
    runner.close()
    finish(scene, (2,))
    agree(scene)
    finish(scene, (1, 2))
    want(len(scene.effects()) == 5, f"performed: {scene.effects()}")


def agree_running(scene, alive):
    """Returns how many lines are listed as running, while these workers are alive."""
    counts, out = counts_of(scene)
    want(out.split("\n")[1].split(" ") == ["alive", *map(str, alive)] or not alive and out.split("\n")[1].strip() == "alive",
         f"alive are {alive}: {out}")
    return counts["running"]


def try_locks_of_a_doubt(bench):
    """a pending intent is no doubt while anybody holds its journal, its runner's lock or its
    command's"""
    scene = bench.scene(3, 1)
    runner = Lasting(scene, 1)
    serve([runner.start()], until=lambda: runner.lines)
    serial, line, held = runner.leave_behind()
    held.close()
    for name in ("journal.1", "runner.1", f"command.1.{serial}"):
        other = Runner(scene, 2, is_stray=True)
        held = other.taken(name)
        want(scene.doubts() == [] and counts_of(scene)[0]["running"] == 1, f"a doubt is listed while {name} is held")
        if name.startswith("command."):  # (the other two: try_answers_that_wait)
            answered(scene, f"1.{serial}", line, f"job {line}", "not-done", LATER, 0)
        held.close()
    want(scene.doubts() == [(1, serial, line)], "the doubt is not listed")
    scene.answer(1, serial, line, "not-done")
    finish(scene)


def try_senseless_answers(bench):
    """impossible answers: the status shows it and the line is printed; an answer without its end is
    the end of input"""
    for said in ("done 9 0 go", "done 1 256 go", "done 1 go", "doubt 1 stay", "", "done  1 0 go", "done 01 0 go", "perhaps 1 go",
                 "running 1 0 go", None):
        status = ANSWER if said is not None else LEFT
        scene = bench.scene(2, 1)
        runner = Runner(scene, 1)
        runner.perform = lambda serial, line: None
        serve([runner.start()], until=lambda: runner.lines)
        runner.process.stdin.write(b"done 1 0 go" if said is None else said.encode() + b"\n")
        if said is None:
            runner.process.stdin.close()
            runner.process.stdin = open(os.devnull, "wb")
        serve([runner])
        want(runner.statuses == [status] and (status == LEFT or said in runner.said), f"{said}: {runner.statuses}, {runner.said}")
        want(len(records_in(scene.run, "journal.1")) == 1, f"{said}: something is noted")
        runner.close()


def try_ends(bench):
    """leave and end of input: the status shows it, the intent of the latter stays pending, and the
    words let others go on"""
    for lines in (5, 2):
        scene = bench.scene(lines, 1)
        runner = Says(scene, 1, ["done 0", "done 0"])
        want(live(runner) == LEFT, f"told to leave at line 2 of {lines}: status {runner.statuses}, {runner.said}")
        runner.close()
        finish(scene)
    scene = bench.scene(3, 1)
    runner = Runner(scene, 1)
    runner.take = lambda line: runner.process.stdin.close()
    serve([runner.start()])
    want(runner.statuses == [LEFT], f"{runner.statuses}: {runner.said}")
    runner.close()
    want([it.name() for it in scene.look().pending()] == ["1.1"], "the intent isn't pending")
    want(counts_of(scene)[0]["doubt"] == 1, "it is no doubt")
    runner = Runner(scene, 1)
    runner.leaves = True
    want(live(runner) == LEFT and runner.lines == ["was 1 1 job 1"], f"{runner.lines}, {runner.statuses}")
    runner.close()
    finish(scene)


def try_no_partner(bench):
    """nobody reads what the worker says: it ends, and what it had begun is a doubt at most"""
    scene = bench.scene(3, 1)
    runner = Runner(scene, 1).start()
    kept = runner.process.stdout
    runner.process.stdout = open(os.devnull, "rb")
    kept.close()
    runner.process.stdin.close()
    status = runner.process.wait(300)
    want(status in (LEFT, WRITE, -signal.SIGPIPE), f"status {status}")
    runner.close()
    scene.doubts()
    finish(scene)


def refused_jobs(bench, data, line):
    """This jobs' file is refused, by the number of its line, and nothing is begun."""
    scene = bench.scene(1, 1)
    with open(scene.jobs, "wb") as file:
        file.write(data)
    for command in (["door", scene.run], ["work", scene.run, "1"]):
        status, out, err = scene.call(*command, *scene.givens(), scene.jobs)
        named = "jobs" in err.replace(scene.run, "") and str(line) in err.replace(scene.room, "")
        want(status == REFUSED and named and not out, f"{command[0]}, {data[:30]}: {status}, {err}")
    want(not os.path.exists(f"{scene.run}/record") and not os.path.exists(f"{scene.run}/jobs"), "a round was begun")


def try_jobs(bench):
    """the jobs' file: an empty line, NUL, CR, what is no UTF-8, a line too long, equal lines, a
    last line without its end"""
    rows = [(b"a\n\nb\n", 2), (b"a\nb\0c\n", 2), (b"a\nb\r\n", 2), (b"a\n\xff\n", 2), (b"a\n" + b"x" * 100001 + b"\n", 2),
            (b"a\nb\na\n", 3), (b"a\nb", 2), (b"\n", 1), (b"a\n\xed\xa0\x80\n", 2), (b"a\n\xc0\x80\n", 2),
            (b"a\n\xf4\x90\x80\x80\n", 2)]
    each(((bench, *it) for it in rows), refused_jobs)
    scene = bench.scene(1, 1)
    with open(scene.jobs, "wb") as file:
        file.write(b"x" * 100000 + b"\n" + "\u00e9\U0001f600 \u2028 a\tb\n".encode())
    finish(scene)
    want(len(scene.effects()) == 2, "a line of 100000 bytes isn't taken")
    scene = bench.scene(0, 1)
    want(scene.call("work", scene.run, "1", *scene.givens(), scene.jobs)[0] == OVER, "no lines are not all done")
    agree(scene)


def try_words(bench):
    """invalid words: status 64, and nothing is made"""
    scene = bench.scene(2, 2, makes=False)
    run, jobs = scene.run, scene.jobs
    for words in [[], ["walk", run], ["work", run, "1", jobs], ["work", run, "1", "--workers", "17", jobs],
                  ["work", run, "0", "--workers", "2", jobs], ["work", run, "3", "--workers", "2", jobs],
                  ["work", run, "1", "--workers", "2", "--beta", "65536", jobs],
                  ["work", run, "1", "--workers", "2", "--beta", "0", jobs], ["work", run, "1", "--workers", "02", jobs],
                  ["work", run, "--workers", "2", jobs], ["door", run, "--workers", "2"], ["status"],
                  ["status", run, "--lines", "all"], ["status", run, "more"], ["doubts", run, "--lines", "open"],
                  ["answer", run, "1.1", "1"], ["again"], ["work", run, "1", "--workers", "2", "--json", jobs],
                  ["work", run, "1", "--workers", "two", jobs], ["status", run, "--json", "--lines", "open"],
                  ["answer", run, "--from", jobs, "1.1", "1", "job 1", "done"], ["answer", run],
                  *(["answer", run, "--quiet", it, "1.1", "1", "job 1", "done"] for it in ("-1", "01", "1.5", "", str(10**9 + 1))),
                  ["doubts", run, "--now"], ["again", run, "--quiet", "0"],
                  ["doubts", run, "--from", jobs],
                  ["work", run, "1", "--workers", "2", "--into", jobs], ["status", run, "--into"],
                  *(["door", run, "--workers", "2", "--id", it, jobs]
                    for it in ("", "1" * 31, "1" * 33, "A" * 32)),
                  *([it, run, "--id", "0" * 31 + "g"] for it in ("status", "doubts", "again"))]:
        ran = subprocess.run([*bench.command(), *words], stdin=subprocess.DEVNULL,
                             capture_output=True, timeout=300)
        want(ran.returncode == WORDS and ran.stderr.count(b"\n") >= 1, f"{words}: status {ran.returncode}, {ran.stderr}")
    want(not os.path.exists(run), "the folder was made")


def try_door(bench):
    """refused at the door: RUN a link, a file, or of another version"""
    scene = bench.scene(2, 1)
    link = f"{scene.room}/link"
    os.symlink(scene.run, link)
    for run in (link, scene.jobs):
        refuse_run(scene, run)
    finish(scene)
    record = read(f"{scene.run}/record")
    for version in (b"amo-run 1\n", b"amo-run 3\n", b"amo-run 20\n"):
        put(f"{scene.run}/record", record.replace(b"amo-run 2\n", version, 1))
        refuse_run(scene, scene.run)


def refuse_run(scene, run, *more):
    """No command takes this folder."""
    for command in (["door", run, *scene.givens(), scene.jobs], ["work", run, "1", *scene.givens(), scene.jobs], ["status", run],
                    ["doubts", run], ["answer", run, "1.1", "1", "job 1", "done"], ["answer", run, "--from", scene.jobs], ["again", run]):
        status, out, err = scene.call(*command, *more)
        want(status == DOOR and not out and err.count("\n") == 1, f"{command[0]} {run} {more}: status {status}, {err}")


def try_file_system(bench):
    """refused at the door: RUN on a file system in memory; taken where its type is named"""
    scene = bench.scene(2, 1)
    mounts = [it.split(" ") for it in read("/proc/self/mountinfo").decode().splitlines()]
    if not any(it[4] == "/dev/shm" and it[it.index("-") + 1] == "tmpfs" for it in mounts):
        bench.skipped.append("no file system in memory is at /dev/shm")
        return
    memory = tempfile.mkdtemp(dir="/dev/shm")
    try:
        refuse_run(scene, memory)
        refuse_run(scene, memory, "--file-system", "ext9")
        status, _, err = scene.call("door", memory, *scene.givens(), scene.jobs, "--file-system", "tmpfs")
        want(status == OVER, f"a file system that is named is refused: {err}")
    finally:
        shutil.rmtree(memory)


def try_owner(bench):
    """refused at the door: a folder of somebody else"""
    scene = bench.scene(2, 1)
    if os.geteuid() != 0:
        bench.skipped.append("not root, so no folder of somebody else")
        return
    os.chown(scene.run, 12345, -1)
    refuse_run(scene, scene.run)


def try_partner_of_shell(bench):
    """tools/worker/partner.sh, a partner in shell: two of them, whose workers are killed once each,
    perform each line once"""
    scene = bench.scene(0, 2)
    texts = ["one", " two  blanks ", "three 'quotes\" $HOME `id`", "-n", "back\\slash\\n", "*"] + [f"job {k}" for k in range(6)]
    scene.write_jobs(texts)
    script = f"{os.path.dirname(os.path.realpath(__file__))}/partner.sh"
    done, program = f"{scene.room}/done", f"{scene.room}/program"
    with open(program, "w") as file:
        file.write(f"""#!/bin/sh
[ -e {scene.room}/once.$3 ] || {{ : >{scene.room}/once.$3; export AMO_FAULTS={bench.draws.randint(20, 200)}:kill_after; }}
exec {shlex.join(bench.command())} "$@" {shlex.join(scene.common())}
""")
    os.chmod(program, 0o700)
    words = [scene.jobs, "sh", "-c", f"""printf '%s\\n' "$0" >>{done}; cat"""]
    streams = {"stdin": subprocess.DEVNULL, "stdout": subprocess.DEVNULL, "stderr": subprocess.PIPE}
    made = [subprocess.Popen(["sh", script, program, scene.run, str(p), "2", *words], **streams,
                             env={**scene.environment(), "TMPDIR": scene.room}) for p in (1, 2)]
    ends = [(it.communicate(timeout=300)[1], it.returncode) for it in made]
    want(all(status == 0 for _, status in ends), f"it ends with {ends}")
    performed = read(done).decode().split("\n")[:-1]
    doubted = [texts[line - 1] for _, _, line in scene.doubts()]
    want(len(doubted) < 3 and sorted(performed + [it for it in doubted if it not in performed]) == sorted(texts),
         f"performed {performed}, in doubt {doubted}")
    scene.audit(is_over=False)
    want(set(agree(scene).values()) <= {"done", "doubt"}, f"{agree(scene)}")
    want(not [it for it in os.listdir(scene.run) if it.startswith("command.")], "a command's lock is left")


PARTS = {"persons": [try_counts, try_answers, try_answers_open, try_answers_from_file, try_many_answers, try_not_done_waits,
                     try_now_by_default, try_done_at_once, try_sheet_waits, try_ages, try_recorded, try_listed_though_full],
         "commands": [try_commands_that_stay, try_pending, try_locks_of_a_doubt, try_senseless_answers, try_ends, try_no_partner],
         "door": [try_jobs, try_words, try_door, try_file_system, try_owner],
         "shell": [try_partner_of_shell]}
