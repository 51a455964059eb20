"""Shares a list among several machines. Each machine takes chunks of the list, and runs a command
for each line of its chunks, at most once.

  amo_share --name NAME --claim CMD --chunk N --run DIR --workers M [OPTIONS] JOBS -- COMMAND..
            takes one free chunk after another, and runs its lines
  amo_share status --run DIR [OPTIONS]
            prints for each chunk whether it is free, who owns it, and how far it is if it is here

Two examples:
  ./amo_share --name tonight --claim stores/etcd --chunk 100 --run /var/lib/pay --workers 4 \\
      tonight.txt -- ./send-payment {}
  ./amo_share status --run /var/lib/pay

Give the same arguments and the same list on each machine. DIR is the machine's own folder, on a
local disk. Chunk K is the lines (K-1)N+1 to KN. `CMD claim NAME K MARK DIGEST` (stores/etcd,
stores/postgres or stores/folder) creates the chunk's entry in a store that all machines reach. It
prints the mark and the digest that have the chunk. If they are this machine's, `amo_jobs crew` runs
the chunk in DIR/chunk.K. A chunk never changes its machine, so there is no lease. The mark lies in
the chunk's folder, beside the journals, and is lost with them.

Statuses: 0 no chunk is free, and all that is here is done; 1 some lines failed; 2 some lines are in
doubt or running; 65 refused; 69 stopped in order; 75 another amo_share works in DIR, or, of
`status`, chunks are free or have open lines. All others are as of amo_jobs.
docs/guide/machines.md explains the rest.
"""

from __future__ import annotations

import argparse
import hashlib
import json
import os
import pathlib
import re
import shlex
from typing import Any, Dict, List, Tuple

from amo_jobs import cli
from amo_jobs.calls import keep_signals
from amo_jobs.chunk import Chunk, Sharing, pause, tell
from amo_jobs.files import content, place
from amo_jobs.locks import locked
from amo_jobs.messages import End, end_of, refused, visible
from amo_jobs.statuses import Status
from amo_jobs.worker import Program, boot_id_warning, version

NAME = re.compile(r"\w[\w.-]{0,63}", re.A)


def words_of(text: str) -> List[str]:
    """Returns the words of a text, as a shell reads them."""
    try:
        return shlex.split(text)
    except ValueError:
        raise argparse.ArgumentTypeError(
            f"`{visible(text)}` has a quote without its end; close the quote") from None


# The options of a machine that shares, and from `--run` on those of `status` too. Sharing has the
# defaults.
OPTIONS: List[Tuple[str, Dict[str, Any]]] = [it[1:] for it in (
    cli.option((), "--name NAME", "the list's name in the store, up to 64 of A-Z a-z 0-9 . _ -"
               " (required)", required=True),
    cli.option((), "--claim CMD", "the claim program, with its arguments (required)", words_of,
               required=True),
    cli.option((), "--chunk N", "the number of lines of a chunk (required)",
               cli.within(int, 1, 10**9), required=True),
    cli.option((), "--workers M", "the number of workers on this machine, 1 to 16 (required)",
               cli.within(int, 1, 16), required=True),
    cli.option((), "--crew WORDS", "more options for amo_jobs, such as --crew='--timeout 60'"
               " (default: none)", words_of),
    cli.option((), "--metrics FILE", "keep FILE up to date with numbers for Prometheus, of all"
               " chunks that are here (default: none)", os.path.abspath),
    cli.option((), "--moved", "the folder or the claim program was moved, and no other copy of it"
               " exists (default: refused)"),
    cli.option((), "--machine-id FILE",
               "the file with this machine's id (default: /etc/machine-id)"),
    ((), "jobs", dict(type=os.path.abspath, metavar="JOBS", help="the list, a job a line")),
    cli.option((), "--run DIR", "the folder of this machine (required)", os.path.abspath,
               required=True),
    *(it for it in cli.OPTIONS if it[1] in ("--worker-program", "--file-system")),
)]


def status(sharing: Sharing, program: Program) -> int:
    """Prints how each chunk stands, and returns the exit status."""
    found = {int(Status.DONE)}
    note = content(f"{sharing.run}/shared", True)
    if note is None:
        raise End(Status.READ, f"`{sharing.run}/shared`: it is missing; give the folder of an"
                               " amo_share: --run DIR")
    for it in chunks(sharing, program, note):
        code, text = it.standing()
        print(f"{it.title}: {text}", flush=True)
        found.add(code)
    order = (Status.DOUBTFUL, Status.LATER, Status.FAILED, Status.DONE)
    return next(it for it in order if it in found)


def share(sharing: Sharing, program: Program) -> int:
    """Takes one chunk after the other, and returns the exit status. Before that, checks that no
    other amo_share has the folder, and that the list and the size of a chunk are as they were."""
    data, statuses = list_of(sharing), []
    enter(sharing, program)
    note = note_of(sharing, data)
    check_note(sharing, note)
    if not sharing.machine:
        raise refused(f"`{sharing.machine_id}`: it is empty; give a file with this machine's id:"
                      " --machine-id FILE")
    if pathlib.Path(sharing.jobs).read_bytes() != data:
        raise refused(f"list `{sharing.jobs}`: it changed while it was read; start again when it is"
                      " complete")
    # This syncs the folder too, even if another process made what is there.
    place(f"{sharing.run}/shared", json.dumps(note))
    found = chunks(sharing, program, note)
    for it in (it for it in found if os.path.isdir(it.folder)):
        it.check()
    keep_signals(sharing.signals.append)
    for it in found:
        pause(sharing, 0)
        if it.take():
            statuses.append(it.work())
    tell(f"{len(found)} chunks: none is free; {len(statuses)} are here,"
         f" {statuses.count(Status.DONE)} of them done")
    return max(statuses, default=Status.DONE)


def list_of(sharing: Sharing) -> bytes:
    """Returns the bytes of the list, and keeps its lines."""
    data = pathlib.Path(sharing.jobs).read_bytes()
    sharing.texts = data.split(b"\n")[:-1]
    if data and not data.endswith(b"\n"):
        raise refused(f"list `{sharing.jobs}`: line {len(sharing.texts) + 1} has no line feed at"
                      " its end; add one when the line is complete")
    return data


def enter(sharing: Sharing, program: Program) -> None:
    """Makes the folder, or finds it; takes its lock, and reads the machine's id."""
    run = sharing.run
    if os.path.exists(f"{run}/shared") and not os.path.exists(f"{run}/id"):
        raise End(Status.REFUSED, f"folder `{run}`: it has no `id`, so amo 0.1.0 made it; go on"
                                  " with that version (`amo_share status --run"
                                  f" {shlex.quote(run)}` still reads it)")
    program.call("door", run, "--workers", str(sharing.workers), sharing.jobs)
    sharing.lock = locked(f"{run}/lock", True)
    sharing.machine = pathlib.Path(sharing.machine_id).read_text("ascii", "replace").strip()
    if sharing.lock is None:
        raise End(Status.LATER, f"folder `{run}`: another amo_share works in it; wait until that"
                                " one has ended, or stop it")


def note_of(sharing: Sharing, data: bytes) -> Dict[str, Any]:
    """Returns what the folder keeps of a list. The digest is of the list and the size of a
    chunk."""
    return {"name": sharing.name, "chunk": sharing.chunk, "lines": len(sharing.texts),
            "claim": sharing.claim,
            "digest": hashlib.sha256(b"%d\n" % sharing.chunk + data).hexdigest()}


def check_note(sharing: Sharing, note: Dict[str, Any]) -> None:
    """Refuses a list that differs from the one that was shared in this folder before."""
    before = content(f"{sharing.run}/shared", True) or note
    for it in note:
        if before[it] != note[it] and not (it == "claim" and sharing.moved):
            remedy = ("; if only the claim program was moved: --moved" if it == "claim" else
                      "; give that again, or share the list under a new --name in a new folder")
            raise End(Status.REFUSED, f"folder `{sharing.run}`: a list that is shared is fixed, but"
                                      f" its {it} was `{before[it]}`, and is `{note[it]}`"
                                      f" now{remedy}")


def chunks(sharing: Sharing, program: Program, note: Dict[str, Any]) -> List[Chunk]:
    """Returns the chunks of the list that this note describes."""
    sharing.name, sharing.chunk, sharing.lines, sharing.claim, sharing.digest = (
        note["name"], note["chunk"], note["lines"], note["claim"], note["digest"])
    count = -(-sharing.lines // sharing.chunk)
    return [Chunk(sharing, program, number) for number in range(1, count + 1)]


def refuse_words(sharing: Sharing) -> None:
    """Refuses a name, a claim program, options of a crew, or a command that can't be used."""
    if not NAME.fullmatch(sharing.name):
        raise End(Status.WORDS, f"argument --name: `{visible(sharing.name)}` isn't valid; give up"
                                " to 64 of A-Z a-z 0-9 . _ -, and begin with none of . and -")
    if not sharing.claim:
        raise End(Status.WORDS, "argument --claim: it is empty; give a claim program, such as"
                                " stores/etcd")
    for it in sharing.crew:
        if it.partition("=")[0] in ("--results", "--help", "-h"):
            raise End(Status.WORDS, f"argument --crew: `{visible(it)}` isn't possible here; leave"
                                    " it out, and find the output in the chunks' folders")
    if not sharing.command:
        raise End(Status.WORDS, "command: it is missing; give it after --, as in: JOBS --"
                                " ./send-payment {}")


def sharing_of(words: List[str]) -> Sharing:
    """Returns what the words ask for."""
    is_status, cut = words[:1] == ["status"], words.index("--") if "--" in words else len(words)
    top = argparse.ArgumentParser("amo_share", None, __doc__, argument_default=argparse.SUPPRESS,
                                  formatter_class=argparse.RawDescriptionHelpFormatter)
    if not is_status:
        shown = f"amo_share {version()}" if words[:1] == ["--version"] else ""
        top.add_argument("--version", action="version", version=shown)
    for name, how in OPTIONS[9:] if is_status else OPTIONS:
        top.add_argument(name, **how)
    sharing = Sharing(is_status=is_status, command=words[cut + 1:])
    top.parse_args(words[is_status:cut], sharing)
    if not is_status:
        refuse_words(sharing)
        if "/" in sharing.claim[0]:
            sharing.claim[0] = os.path.abspath(sharing.claim[0])
    return sharing


def main(words: List[str]) -> int:
    """Does what the words ask for, and returns the exit status."""
    code, text = end_of(lambda: called(words), "how all chunks stand: amo_share status --run DIR")
    tell(text or "")
    return code


def called(words: List[str]) -> int:
    """Does what the words ask for, and returns the exit status."""
    sharing = sharing_of(words)
    program = Program(sharing.worker_program, sharing.file_system)
    tell(boot_id_warning())
    return (status if sharing.is_status else share)(sharing, program)
