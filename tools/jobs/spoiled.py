"""Registers that aren't true, and files of a run that are damaged, at moments that a test chooses.
No test here depends on which process is faster: a command waits until the test lets it go on."""

import os
import re
import subprocess
from typing import List, Optional

from harness.bench import until
from jobs.scene import REFUSED, Bench, Scene, Wrong, want
from worker import folder
from worker.headers import FILES
from worker.registers import Registers
from worker.scene import SENSELESS

LINES = 8
LONGEST = 240  # seconds, far longer than a loaded machine needs for anything here
READABLE = ("record", "jobs", *FILES)  # what `status --damaged` shows


def flip(path: str, place: int, bit: int) -> None:
    """Flips a bit of a file, in place."""
    file = os.open(path, os.O_RDWR)
    try:
        byte = os.pread(file, 1, place)
        os.pwrite(file, bytes([byte[0] ^ 1 << bit]) if byte else b"", place)
    finally:
        os.close(file)


def refused_file(run: str) -> Optional[str]:
    """Returns the file of a run by which everybody has to refuse it; None if a crew may go on.
    Nobody writes there meanwhile."""
    for name in ("id", *folder.PARTS):
        if not os.path.exists(f"{run}/{name}"):
            return name
    try:
        folder.Folder(run)
    except folder.Refused as refused:
        return refused.args[0]
    return None


def let_end(scene: Scene) -> None:
    """Waits until nothing is left of any command: nobody holds a lock."""
    def locks() -> List[str]:
        return [it for it in os.listdir(scene.run) if it.startswith("command.")]

    until(lambda: all(folder.is_free(f"{scene.run}/{it}") for it in locks()), "all commands end")


def audit_lines(scene: Scene) -> None:
    """No line was performed twice, or after it was listed or answered."""
    for line in range(1, len(scene.kinds) + 1):
        scene.audit_line(line, scene.tales(line))


def kept(run: str) -> dict:
    """Returns the contents of the files that decide which lines are open."""
    return {name: folder.read(f"{run}/{name}") for name in READABLE}


def status_of(crew: subprocess.Popen) -> int:
    """Returns the status with which a crew ends."""
    try:
        return crew.wait(LONGEST)
    except subprocess.TimeoutExpired:
        raise Wrong("the crew doesn't end") from None


def see_refused(scene: Scene, name: str) -> None:
    """A crew refuses this run by the name of a file, changes nothing and starts nothing, and so do
    those who ask. Nobody has performed a line twice."""
    before, place = kept(scene.run), len(scene.tale())
    status = status_of(scene.start())
    let_end(scene)
    audit_lines(scene)
    said = scene.tale()[place:]
    want(status == REFUSED and name in said, f"{name} is damaged: status {status}: {said[-500:]}")
    want(kept(scene.run) == before, f"{name} is damaged, and a crew changes something")
    scene.call(scene.bench.draws.choice(["status", "doubts"]), status=REFUSED)
    if name in READABLE:
        see_shown(scene, name)


def see_shown(scene: Scene, name: str) -> None:
    """Wants the readable part to be shown: the fault of this file, and each attempt that was
    performed and that stands in another file. No line may be called open."""
    shown = scene.call("status", "--damaged", status=REFUSED)
    is_named = re.search(rf"^{re.escape(name)}: .*(damaged|missing)", shown, re.M)
    want(is_named, f"{name} is damaged, and isn't named: {shown[:500]}")
    attempts = {}
    for line, text in re.findall(r"^line (\d+): (.*)$", shown, re.M):
        found = re.fullmatch(r"not known|attempted by (\d+\.\d+(?: \d+\.\d+)*)", text)
        want(found, f"{name} is damaged, and line {line} is {text}")
        attempts[int(line)] = (found[1] or "").split(" ")
    for line in range(1, len(scene.kinds) + 1):
        for _, attempt in (it for it in scene.tales(line) if it[0] == "did"):
            is_gone = attempt == "by-hand" or name == f"journal.{attempt.partition('.')[0]}"
            want(is_gone or attempt in attempts.get(line, []),
                 f"{name} is damaged, and attempt {attempt} at line {line} isn't shown: {shown}")


def end_all(scene: Scene, crew: Optional[subprocess.Popen] = None) -> None:
    """Kills the crew and its workers. Commands go on."""
    if crew and crew.poll() is None:
        crew.kill()
        crew.wait()

    def is_over() -> bool:
        scene.kill(scene.processes("work"))
        return not any(scene.processes("work"))

    until(is_over, "all workers end")


def begun_by(scene: Scene, attempt: str) -> int:
    """Waits until the command of this attempt has begun; its line."""
    lines: List[int] = []

    def has_begun() -> bool:
        lines.extend(line for line in range(1, len(scene.kinds) + 1)
                     if any(it[:2] == ["begun", attempt] for it in scene.tales(line)))
        return bool(lines)

    until(has_begun, f"the command of attempt {attempt} has begun")
    return lines[0]


def draw(registers: Registers, first: int, third: int) -> None:
    """Gives each register a value that a worker may leave there, drawn at random. The round's
    participant 1, which has performed the first line, comes to the third one, and not as the last
    that it knows. It takes the lowest line that is free for it, as long as there are two. (The
    registers of participant 2 show which line it wants, and, up to the first 0, which it has
    performed.)"""
    count, shared = registers.givens()
    begin, free = 2 * shared + count + 2, set()
    while third not in free or max(free) == third:
        words = [registers.draws.randint(0, count) for _ in registers.words()]
        row = words[begin:begin + count]
        done = set(row[:row.index(0)] if 0 in row else range(1, count + 1))
        free = set(range(1, count + 1)) - done - {first, words[2]}
    registers.put(words)


def give_again(bench: Bench, is_drawn: bool) -> None:
    """The round's participant 1 has a line in hand, and participant 2 has performed one and has
    another in hand, when the registers are spoiled. Participant 1 goes on by them, and comes to the
    line that the other has: it isn't handed over. The worker that begins the round is its
    participant 1."""
    scene = bench.scene(["gated"] * LINES, 2)
    scene.ends_of_crews.add(SENSELESS)
    registers, crew = Registers(scene, bench.draws), scene.start()
    lines = {worker: begun_by(scene, f"{worker}.1") for worker in (1, 2)}
    begins = folder.record_of(scene.run)["first"]
    first, second, other = lines[begins], lines[3 - begins], f"{3 - begins}.2"
    registers.keep()
    scene.let(f"go.{second}")
    third = begun_by(scene, other)
    if is_drawn:
        draw(registers, first, third)
    else:
        registers.earlier()
    scene.let(*(f"go.{line}" for line in range(1, LINES + 1) if line != third))
    taken = f"line {third}: attempt {other} stands against it; not started"
    until(lambda: taken in scene.tale() or len(scene.tales(third)) > 1,
          f"worker {begins} comes to line {third}")
    scene.let(f"go.{third}")
    scene.see_out(crew)
    scene.audit()


def try_earlier_registers(bench: Bench) -> None:
    """registers that come back as they were earlier in the round give a line a second time, and it
    isn't handed over"""
    give_again(bench, False)


def try_drawn_registers(bench: Bench) -> None:
    """registers that are drawn at random give a line a second time, and it isn't handed over"""
    give_again(bench, True)


def place_in(path: str, number: int, where: str) -> int:
    """Returns a place in a line of the file, which is an append if the file has appends."""
    lines = folder.read(path).split(b"\n")[:-1]
    begin = sum(len(it) + 1 for it in lines[:number])
    end = begin + len(lines[number])
    return {"commit byte": begin, "record": begin + 3, "checksum": end - 2, "line feed": end}[where]


# A file, a line of it, and the place of a bit there; the last one once an operator has answered.
DAMAGES = [("journal.1", 0, "record"), ("journal.1", 2, "commit byte"),
           ("journal.1", 3, "checksum"), ("journal.1", -1, "line feed"), ("record", 3, "record"),
           ("answers", 0, "record")]


def try_damage(bench: Bench) -> str:
    """a bit that is flipped in an append or in the header: a crew refuses the file by its name; in
    the byte after the last append, as a crash may leave it: the crew goes on"""
    scene = bench.scene(["quick"] * 5 + ["stays"])
    crew = scene.start()
    until(lambda: [it for it in scene.tales(6) if it[0] == "did"], "line 6 is performed")
    end_all(scene, crew)
    scene.let("over")
    let_end(scene)
    for name, number, where in DAMAGES:
        if name == "answers":
            scene.person(by_hand=0)
        path, bit = f"{scene.run}/{name}", bench.draws.randrange(8)
        place = place_in(path, number, where)
        flip(path, place, bit)
        see_refused(scene, name)
        flip(path, place, bit)
    for name in ("journal.1", "answers"):
        path = f"{scene.run}/{name}"
        flip(path, os.path.getsize(path) - 1, bench.draws.randrange(8))
        scene.grow(["quick"])
        scene.ends(scene.start(), 0)
    scene.audit()
    return f"{len(DAMAGES)} damages"


PARTS = {"spoiled": [try_earlier_registers, try_drawn_registers, try_damage]}
