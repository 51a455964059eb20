"""Registers that don't say what is so: brought back as they were earlier within one boot, zeroed,
exchanged or drawn at random while workers are at work. By the journals alone no line is performed
twice. And journals that are changed under a worker that reads them: it comes back later."""

import os
import random
import re
import shutil
import signal
import time
from typing import Callable, Iterable, List, Optional, Tuple

from worker import folder, journals
from worker.folder import put, read
from worker.kills import changes, state_of
from worker.persons import Says
from worker.scene import (
    KILLED, LATER, OVER, REFUSED, SENSELESS, Bench, Runner, Scene, each, finish, live, serve, want,
)

HEAD = 512  # bytes of `words` before the first word
GIVENS = re.compile(rb"\ngivens ([0-9]+) ([0-9]+) [0-9]+\n")
FAR = 2**32 + 1
# How a worker may end if its registers aren't true.
ENDS = {OVER, LATER, SENSELESS, KILLED}


class Registers:
    """The words of a round, as they are spoiled and brought back."""

    def __init__(self, scene: Scene, draws: random.Random):
        scene.has_true_registers = False
        self.path, self.draws, self.kept = f"{scene.run}/words", draws, []

    def keep(self) -> None:
        """Keeps a copy of the words as they are now, and forgets those of another round."""
        now = read(self.path)
        self.kept = [it for it in self.kept if it[:HEAD] == now[:HEAD]] + [now]

    def givens(self) -> Tuple[int, int]:
        """Returns how many jobs and workers the round has, or 0 without a round."""
        found = GIVENS.search(read(self.path)[:HEAD])
        return (int(found[1]), int(found[2])) if found else (0, 0)

    def put(self, words: List[int]) -> None:
        """Writes these words into the file that workers have open, if it is one of so many."""
        data = b"".join(it.to_bytes(8, "little") for it in words)
        if os.path.exists(self.path) and os.path.getsize(self.path) == HEAD + len(data):
            with open(self.path, "r+b", buffering=0) as file:
                file.seek(HEAD)
                file.write(data)

    def words(self, data: Optional[bytes] = None) -> List[int]:
        """Returns the words in these bytes of the file, or in those of now."""
        data = (read(self.path) if data is None else data)[HEAD:]
        return [int.from_bytes(data[at:at + 8], "little") for at in range(0, len(data), 8)]

    def zeroed(self) -> None:
        """Each word is zero, as at the beginning of a round."""
        self.put([0] * len(self.words()))

    def earlier(self) -> None:
        """The words are as they were at some time since the round began."""
        now = read(self.path)[:HEAD]
        if kept := [it for it in self.kept if it[:HEAD] == now]:
            self.put(self.words(self.draws.choice(kept)))

    def exchanged(self) -> None:
        """Each worker has the words of another one."""
        (n, m), words = self.givens(), self.words()
        if len(words) != m * (n + 3) + 1 or m < 2:
            return
        rows = [words[2 * m + p * (n + 1) + 1:2 * m + (p + 1) * (n + 1) + 1] for p in range(m)]
        front = words[2:m + 1] + words[1:2] + words[m + 2:2 * m + 1] + words[m + 1:m + 2]
        self.put(words[:1] + front + sum(rows[1:] + rows[:1], []))

    def drawn(self) -> None:
        """Some words have values drawn at random, most of them such as a worker may leave."""
        words, most = self.words(), self.givens()[0]
        for _ in range(self.draws.randint(1, max(len(words) // 2, 1)) if words else 0):
            value = self.draws.randint(0, most) if self.draws.random() < 0.98 else FAR
            words[self.draws.randrange(len(words))] = value
        self.put(words)


def hold(scene: Scene, worker: int, count: int = 1) -> Runner:
    """Returns a worker at work, with the line in hand that it was given as this one, counted from
    1."""
    runner = Runner(scene, worker)

    def perform(serial: int, line: int) -> Optional[str]:
        return Runner.perform(runner, serial, line) if len(runner.lines) < count else None

    runner.perform = perform
    serve([runner.start()], until=lambda: len(runner.lines) >= count)
    want(runner.process, f"worker {worker} ends with status {runner.statuses}: {runner.said}")
    return runner


def in_hand(runner: Runner) -> Tuple[int, int]:
    """Returns the number of the attempt that this worker asks for, and its line."""
    serial, line = map(int, runner.lines[-1].split(" ")[1:3])
    return serial, line


def go_on(runner: Runner, reply: Optional[str] = None) -> None:
    """The line in hand is performed, or answered so."""
    serial, line = in_hand(runner)
    del runner.perform
    runner.answer(serial, line, reply or runner.perform(serial, line))


def see_out(scene: Scene, *never: int) -> None:
    """Worker 1 alone sees the run out, in rounds with new words. (If all is done, one of several
    may still come into the round with spoiled words.) Each line was performed once, but for these,
    which were not, and for doubts."""
    finish(scene)
    performed = [it[2] for it in scene.effects()]
    doubts = {it[2] for it in scene.doubts()}
    lines = set(range(1, len(scene.look().lines) + 1))
    want(len(set(performed)) == len(performed) and not set(performed) & set(never),
         f"performed: {sorted(performed)}")
    want(set(performed) | doubts == lines, f"performed: {sorted(performed)}, in doubt: {doubts}")


def take_one(bench: Bench, reply: str) -> None:
    """Zeroes all words while worker 2 has performed three lines and has a fourth in hand. The
    registers give worker 1 each of them but the first, and it must hand over none. Then the fourth
    is answered so, or its worker and its runner die."""
    scene = bench.scene(8, 2)
    registers, second = Registers(scene, bench.draws), hold(scene, 2, 4)
    lines = [int(it.split(" ")[2]) for it in second.lines]
    registers.zeroed()
    first = Runner(scene, 1)
    live(first)
    if reply != "dies":
        go_on(second, None if reply == "done" else reply)
        serve([second])
    wanted = {(1, line, f"2.{serial}") for serial, line in enumerate(lines, 1) if serial > 1}
    want(first.statuses == [LATER] and set(scene.taken) == wanted,
         f"status {first.statuses}, taken are {scene.taken}, and not {wanted}: {first.said}")
    said = f"amo_worker: line {lines[3]}: attempt 2.4 stands against it; not started"
    want(said in first.said.splitlines() and first.said.count("\n") == 4, f"says {first.said!r}")
    attempts = [it for it in scene.look().intents.values() if it.worker == 1 and it.line in lines]
    want([it.answer for it in attempts] == 3 * ["unbegun"], f"{[it.answer for it in attempts]}")
    first.close()
    second.close()
    see_out(scene, *([lines[3]] if reply == "dies" else []))


def try_taken(bench) -> None:
    """a line that another worker has in hand, and that zeroed registers give: reported on standard
    error, and not handed over; the next round takes it only if it was not begun"""
    each(((bench, it) for it in ("done", "unbegun", "dies")), take_one)


def try_own_attempts(bench) -> None:
    """a worker that is killed, and whose registers are zeroed, is given its own lines again: it
    hands over none of them"""
    scene = bench.scene(9, 2)
    registers, second = Registers(scene, bench.draws), hold(scene, 2)
    first = hold(scene, 1, 3)
    lines = [int(it.split(" ")[2]) for it in first.lines]
    first.kill()
    serve([first])
    del first.perform
    registers.zeroed()
    want(live(first) == LATER, f"status {first.statuses}: {first.said}")
    wanted = {(1, line, f"1.{serial}") for serial, line in enumerate(lines, 1)}
    want(wanted <= set(scene.taken), f"taken are {scene.taken}, and not {wanted}")
    go_on(second)
    serve([second])
    first.close()
    second.close()
    see_out(scene, lines[2])


def calls_of_a_line(bench: Bench, *others: int) -> List[int]:
    """Returns the calls by which worker 2 comes from its first line to its second, and that change
    something, while these others keep the round."""
    scene = bench.scene(8, 2)
    runners = [hold(scene, p) for p in others]
    scene.logs = True
    second = hold(scene, 2, 2)
    with scene.still():
        calls = changes([it for it in scene.logged() if int(it[0]) == second.process.pid])
    for it in (*runners, second):
        it.close()
    says = [k for k, it in enumerate(calls) if it[2] == "say"]
    return [int(it[1]) for it in calls[says[0]:says[1] + 1]]


def stop_one(bench: Bench, number: int) -> None:
    """Stops worker 2 before this call, while the registers are brought back as they were when the
    round began, and worker 1 works to the end. Then worker 2 goes on."""
    scene = bench.scene(8, 2)
    registers, second = Registers(scene, bench.draws), Runner(scene, 2)
    serve([second.start(f"{number}:stop_before")], until=lambda: state_of(second) in "TZ")
    want(second.process, f"it isn't stopped, and ends with {second.statuses}: {second.said}")
    registers.zeroed()
    first = Runner(scene, 1)
    live(first)
    second.process.send_signal(signal.SIGCONT)
    serve([second])
    for it in (first, second):
        want(it.statuses == [LATER], f"worker {it.worker} ends with {it.statuses}: {it.said}")
        it.close()
    see_out(scene)


def kill_one(bench: Bench, number: int) -> None:
    """Worker 2 is killed at this call, while worker 1 keeps the round; the registers are brought
    back as they were earlier, and worker 2 is started again."""
    scene = bench.scene(8, 2)
    registers, first = Registers(scene, bench.draws), hold(scene, 1)
    registers.keep()
    second = Runner(scene, 2)
    want(live(second, f"{number}:kill_after") == KILLED, "it isn't killed")
    registers.earlier()
    live(second)
    go_on(first)
    serve([first])
    for it in (first, second):
        want(it.statuses[-1] == LATER, f"worker {it.worker} ends with {it.statuses}: {it.said}")
        it.close()
    see_out(scene)


def try_stopped_and_brought_back(bench) -> str:
    """a worker is stopped at each call between two lines, and goes on once the registers were
    brought back and another has worked: each line is performed once"""
    numbers = calls_of_a_line(bench)
    numbers = numbers[-8:] if bench.is_slow() else numbers
    return f"{each(((bench, it) for it in numbers), stop_one)} stops"


def try_killed_and_brought_back(bench) -> str:
    """a worker is killed at each call between two lines, and started again with registers of
    before: each line is performed once, or in doubt"""
    numbers = bench.sample(calls_of_a_line(bench, 1), 3 if bench.is_slow() else 20)
    return f"{each(((bench, it) for it in numbers), kill_one)} kills"


def work_a_while(runners: List[Runner], most: int) -> None:
    """Starts the workers that have ended, and serves all until so many more lines are performed, or
    for a moment."""
    scene = runners[0].scene
    end = time.monotonic() + (0.4 if scene.bench.is_slow() else 0.05)
    for it in runners:
        if not it.process and it.statuses[-1:] != [OVER]:
            it.start()
    count = len(scene.effects()) + most
    serve(runners, until=lambda: len(scene.effects()) >= count or time.monotonic() > end)


def spoil_one(bench: Bench, kind: str, workers: int, seed: str) -> None:
    """Has so many workers work. Now and then one is killed, and at random moments the registers are
    spoiled in this way. Then all leave, and new ones see the run out."""
    draws = random.Random(seed)
    scene = bench.scene(12 * workers, workers)
    registers = Registers(scene, draws)
    runners = [Runner(scene, p) for p in range(1, workers + 1)]
    for _ in range(8 if bench.is_slow() else 16):
        work_a_while(runners, draws.randint(1, 4))
        registers.keep()
        getattr(registers, kind)()
        if draws.random() < 0.3:
            draws.choice(runners).kill()
    for it in runners:
        it.leaves = True
    serve(runners)
    for it in runners:
        wrong = set(it.statuses[:-1]) - ENDS
        want(not wrong, f"worker {it.worker} ends with {it.statuses}: {it.said}")
        it.close()
    see_out(scene)


def spoiled(bench: Bench) -> Iterable[tuple]:
    """Yields the ways to spoil registers, each with crews that work meanwhile."""
    sizes = (2, 3, 4) if not bench.is_slow() or bench.is_long else (3,)
    for turn in range(20 if bench.is_long else 1):
        for workers in sizes:
            for kind in ("zeroed", "earlier", "exchanged", "drawn"):
                yield bench, kind, workers, f"{bench.seed}.{turn}.{kind}.{workers}"


def try_spoiled(bench) -> str:
    """registers zeroed, brought back, exchanged and drawn at random while 2 to 4 workers work: no
    line is performed twice, and each is performed once, or in doubt"""
    return f"{each(spoiled(bench), spoil_one)} crews"


def copied(scene: Scene, name: str) -> None:
    """The file is removed, and put back as another one of the same bytes."""
    path = f"{scene.run}/{name}"
    shutil.copy(path, f"{scene.room}/copy")
    os.unlink(path)
    os.rename(f"{scene.room}/copy", path)


def flipped(scene: Scene, name: str) -> None:
    """A bit of the checksum of the last append is flipped."""
    data = bytearray(read(f"{scene.run}/{name}"))
    data[data.rindex(b"\n") - 1] ^= 1
    put(f"{scene.run}/{name}", bytes(data))


def cut_off(scene: Scene, name: str) -> None:
    """The last append is gone, as after a sync that failed."""
    records = folder.records_in(scene.run, name)
    put(f"{scene.run}/{name}", journals.journal(scene.id(), name, records[:-1]))


def another(scene: Scene, name: str) -> None:
    """The last append is another one of the same length, with a checksum that fits."""
    *records, last = folder.records_in(scene.run, name)
    last = last[:-1] + (b"1" if last[-1:] == b"2" else b"2")
    put(f"{scene.run}/{name}", journals.journal(scene.id(), name, [*records, last]))


def before_change(bench: Bench, name: str) -> Tuple[Scene, Runner]:
    """Returns a run in which worker 2 has worked, and a person has answered if `answers` is the
    file. Worker 1 has its second line in hand, so it has read the file."""
    scene = bench.scene(12, 2)
    second = Says(scene, 2, ["done 0", "untouched 75" if name == "answers" else "done 0"])
    live(second)
    second.close()
    if name == "answers":
        scene.answer(2, 2, in_hand(second)[1], "not-done")
    return scene, hold(scene, 1, 2)


def forget(scene: Scene, name: str) -> None:
    """Stops looking for the last append of this file. The test has taken it away, so the log isn't
    judged."""
    scene.is_judged = False
    if name == "answers":
        scene.answers.clear()
    else:
        attempt = int(name.rpartition(".")[2]), 2
        scene.acknowledged[attempt] = scene.acknowledged[attempt][0], None


def change_one(bench: Bench, name: str, change: Callable[[Scene, str], None]) -> None:
    """The file is changed so while worker 1 has a line in hand: it hands over no further one, and
    ends with 75. Started again it refuses the file by its name, or it goes on."""
    scene, first = before_change(bench, name)
    kept = read(f"{scene.run}/{name}")
    change(scene, name)
    go_on(first)
    serve([first])
    is_own, said = name == "journal.1", f"{change.__name__}: it ends with {first.statuses}"
    want(first.statuses == [LATER] and name in first.said and len(first.lines) == 2,
         f"{said}, after {first.lines}: {first.said}")
    last = folder.records_in(scene.run, "journal.1")[-1]
    want(last == b"unbegun 3" or is_own, f"the last record of its own journal is {last}")
    if change is cut_off or is_own:
        forget(scene, name)
    status = live(first)
    if change is flipped:
        want(status == REFUSED and name in first.said and not first.lines,
             f"{said}, and then with {status}, after {first.lines}: {first.said}")
        put(f"{scene.run}/{name}", kept)
    else:
        want(status in (LATER, OVER) and first.lines, f"{said}, and then {status}: {first.said}")
    first.close()
    see_out(scene)


def try_changed_journals(bench) -> str:
    """the name of a journal or of `answers` gets another file, or its last append is damaged, gone
    or another one, while a worker works that has read it: the worker ends with 75, performs nothing
    more, and refuses the file when it is started again, or goes on"""
    rows = [("journal.1", copied), *((name, change) for name in ("journal.2", "answers")
                                     for change in (copied, flipped, cut_off, another))]
    rows = bench.sample(rows, 5) if bench.is_slow() else rows
    return f"{each(((bench, *it) for it in rows), change_one)} changes"


PARTS = {"registers": [try_taken, try_own_attempts, try_stopped_and_brought_back,
                       try_killed_and_brought_back, try_spoiled, try_changed_journals]}
