"""The commands status, doubts, answer and again: how lines stand, and what an operator answers.

Begin with `status`.
"""

from __future__ import annotations

import json
import os
import sys
import time
from contextlib import suppress
from typing import Any, Collection, Dict, Iterator, List

from amo_jobs.mark import id_of
from amo_jobs.messages import confirm, Screen, visible
from amo_jobs.processes import holders
from amo_jobs.run_folder import FORGOTTEN, folders_of_outputs, name_run
from amo_jobs.settings import Settings, next_command
from amo_jobs.statuses import KINDS, Status
from amo_jobs.worker import Program
from amo_watch.texts import dated, lasting, Output, outputs_of

# Each answer that the operator may give, with the text above its command in a report.
ANSWERS = {"done": "If it happened:", "not-done": "If it surely did not happen:"}
BLANK = "ANSWER"  # in a printed command, in place of an answer; it is refused as it stands
# Printed below all doubts, with the run's id: no lock shows these processes.
NOTES = (f"# Put done in place of {BLANK} if it happened, not-done if it surely did not happen.\n"
         "# If a runner was killed, list the processes that its commands left, before an answer:\n"
         "  grep -lszx AMO_RUN_ID={} /proc/[0-9]*/environ | cut -d/ -f3"
         " | xargs -rn1 ps -o pid=,args= -p")
NO_PROCESS = "its runner is at work, or a process of another user"


def status(settings: Settings, program: Program) -> int:
    """Prints how all lines stand, and returns the exit status."""
    name_run(settings, program)
    if settings.damaged:
        return program.shown("status", settings.run, "--damaged")
    if settings.lines:
        sys.stdout.buffer.write(program.call("status", settings.run, "--lines", settings.lines))
        return Status.DONE
    found = program.status(settings.run)
    pace = pace_of(settings.run, found["alive"])
    if settings.json:
        print(json.dumps({**found, "pace": round(pace, 3)}))
    else:
        print(counted(found))
        alive = " ".join(map(str, found["alive"])) or "none"
        print(f"workers alive: {alive}{outlook(pace, found['open'])}")
        print("".join(f"{it}\n" for it in listed(settings.run, found, KINDS)), end="")
    return status_of(found, Status.LATER) if found["lines"] else Status.LATER


def doubts(settings: Settings, program: Program) -> int:
    """Prints each doubt that is final, with all that is known of it; returns the exit status."""
    name_run(settings, program)
    found, folders = program.told("doubts", settings.run), folders_of_outputs(settings.run)
    if settings.json:
        print(json.dumps(found))
        return Status.DONE
    for it in found:
        name, line, text = it["intent"], str(it["line"]), it["text"]
        print(f"# {name}, line {line}: {visible(text)}")
        print(f"#   started {dated(it['time'])} by worker {name.split('.')[0]}, {how_old(it)}")
        print("".join(map(shown, outputs_of(folders, name))) or "#   no output was found\n", end="")
        print(" ", next_command(settings, "answer", "--", name, line, text, BLANK))
    if found:
        print(NOTES.format(id_of(settings.run)))
    elif running := program.status(settings.run)["running"]:
        Screen.tell(f"no line is in doubt, and {running} still run; ask again once they have ended")
    return Status.DONE


def answer(settings: Settings, program: Program) -> int:
    """Records what the operator found out; returns the exit status. The answer is handed on as a
    row of a file, so that nothing in the text is taken for an option."""
    import tempfile  # which no other command needs, and which takes as long as half of the others
    with tempfile.NamedTemporaryFile() as file:
        file.write(b"\t".join(map(os.fsencode, settings.words)) + b"\n")
        file.flush()
        name_run(settings, program)
        quiet = ["--now"] if settings.now else ["--quiet", str(settings.quiet)]
        program.call("answer", settings.run, *quiet, "--from", settings.source or file.name)
    name, line, text, verdict = settings.words or ["", "", "", ""]
    ends = "is open again" if verdict == "not-done" else "is done, and never run again"
    if verdict == "not-done" and os.path.lexists(f"{settings.run}/{FORGOTTEN}"):
        ends = ("is open, and no crew takes it, since its run is put away; to run it, put it on a"
                " new list")
    confirm(f"recorded: line {line} {ends}: {visible(text)}" if name else "recorded")
    return Status.DONE


def again(settings: Settings, program: Program) -> int:
    """Opens each untouched line once more, and prints how many there are; returns the exit
    status."""
    name_run(settings, program)
    count = program.status(settings.run)["untouched"]
    program.call("again", settings.run)
    confirm(f"untouched lines that are open again: {count}")
    return Status.DONE


def status_of(found: Dict[str, Any], if_open: int) -> int:
    """Returns the exit status by the counts of all lines; `if_open` if lines are open, and none is
    in doubt or running."""
    if found["doubt"] or found["running"]:
        return Status.DOUBTFUL
    if found["open"]:
        return if_open
    return Status.FAILED if found["failed"] or found["untouched"] else Status.DONE


def counted(found: Dict[str, Any]) -> str:
    """Returns the counts of all lines, as a sentence."""
    return f"{found['lines']} lines: " + ", ".join(
        f"{found[it]} {'in doubt' if it == 'doubt' else it}" for it in KINDS)


def outlook(pace: float, count: int) -> str:
    """Returns the pace, in lines a second, and when so many lines will be over, as the end of a
    sentence. The text is empty if the end can't be expected."""
    if not pace or count <= 0:
        return ""
    return (f", {pace:.3g} a second, over at"
            f" {time.strftime('%H:%M:%S', time.localtime(time.time() + count / pace))}")


def pace_of(run: str, workers: List[int]) -> float:
    """Returns how many commands end in a second, by the files `pace.P` of the present runners."""
    pace = 0.0
    for number in workers:
        with suppress(OSError, ValueError), open(f"{run}/pace.{number}") as file:
            begun, ended = map(float, file.readline().split())
            if begun >= int(os.stat(f"{run}/runner.{number}").st_mtime):  # else an earlier one's
                pace += ended / max(time.time() - begun, 1)
    return pace


def listed(run: str, found: Dict[str, Any], states: Collection[str]) -> Iterator[str]:
    """Yields a text for each line in one of these states, with the processes that hold it."""
    rows = [it for it in found["intents"] if it["state"] in states]
    held = holders(run, [it["intent"] for it in rows if it["state"] == "running"])
    for it in rows:
        more = (f" -- {', '.join(dict.fromkeys(held[it['intent']])) or NO_PROCESS}"
                if it["intent"] in held else "")
        yield f"{it['state']} {it['intent']}, line {it['line']}: {visible(it['text'])}{more}"


def how_old(doubt: Dict[str, Any]) -> str:
    """Returns when an attempt was recorded as over, and how long ago. It ended then or earlier."""
    if doubt["ended"] is None:
        return f"ended {dated(None)}"
    since = f"{lasting(doubt['age'])} ago" if doubt["age"] is not None else "ahead of the clock"
    return f"recorded as over {dated(doubt['ended'])}, {since}"


def shown(output: Output) -> str:
    """Returns the end of what a command wrote to a file, as lines that a shell passes over."""
    end = "".join(f"#     | {visible(line)}\n" for line in output.end)
    return f"#   {visible(output.path)}, {output.size} bytes:\n{end}"
