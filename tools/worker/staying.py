"""Workers that stay for the next round: one waits after `over`, and meanwhile its runner, its pipe,
another worker, the folder or the list isn't what it was."""

import os
import shutil
from typing import Callable, List

from worker import folder
from worker.kills import changes, is_over, want_all_told
from worker.persons import Says
from worker.registers import go_on, hold
from worker.scene import (
    ANSWER, KILLED, LATER, LEFT, OVER, REFUSED, Bench, Runner, Scene, each, finish, live, see_out,
    serve, want,
)

# Lines that are no answer to `over`.
INVALID = [b"stay", b"go 1", b" go", b"go ", b"GO", b"", b"done 1 0 go", b"leave now", b"over",
           b"go\r", b"\xffgo"]


class Held(Runner):
    """A runner that doesn't answer `over` before the test does."""

    def over(self) -> None:
        self.acknowledge()
        self.overs += 1


def waiting(scene: Scene, worker: int = 1) -> Held:
    """Returns a worker whose part of a round is over, and that waits for the answer."""
    runner = Held(scene, worker)
    serve([runner.start()], until=lambda: runner.overs)
    want(runner.process and runner.overs == 1,
         f"worker {worker} doesn't wait: status {runner.statuses}, {runner.said}")
    return runner


def ended(runner: Runner, data: bytes = b"go\n") -> int:
    """Sends this to a worker that waits, and closes its pipe once it waits again. Returns the
    status with which it ends."""
    before = runner.overs
    runner.tell(data)
    serve([runner], until=lambda: runner.overs > before)
    if runner.process:
        runner.process.stdin.close()
        serve([runner])
    return runner.statuses[-1]


def finished(scene: Scene, *runners: Runner) -> None:
    """Ends these runners, and sees the run out: each line was performed once."""
    for it in runners:
        it.close()
    finish(scene, range(1, scene.workers + 1))
    performed = sorted(it[2] for it in scene.effects())
    want(performed == list(range(1, len(scene.look().lines) + 1)), f"performed: {performed}")


def try_one_process(bench: Bench) -> None:
    """a worker that stays does all lines in one process, in several rounds, and its serial numbers
    go on"""
    scene = bench.scene(20, 2, beta=4)
    runner = Runner(scene, 1)
    runner.stays = True
    status = live(runner)
    want(status == OVER and runner.overs > 1, f"status {status}, {runner.overs} rounds:"
                                              f" {runner.said}")
    rounds = folder.record_of(scene.run)["round"]
    want(rounds == runner.overs, f"{runner.overs} times over, in {rounds} rounds")
    serials = [serial for _, serial, _ in scene.effects()]
    want(serials == list(range(1, 21)), f"the attempts are {serials}")
    finished(scene, runner)


def end_one(bench: Bench, data: bytes, status: int) -> None:
    """Sends this to a worker that waits, and then nothing more. It must end so, and have done
    nothing."""
    scene = bench.scene(9, 2)
    runner = waiting(scene)
    before = folder.contents(scene.run)
    runner.tell(data)
    runner.perform = lambda serial, line: None
    if not data.endswith(b"\n"):
        runner.process.stdin.close()
    serve([runner], until=lambda: runner.overs > 1 or runner.lines[8:])
    want(runner.statuses == [status] and runner.overs == 1,
         f"status {runner.statuses} after {data!r}, over {runner.overs} times: {runner.said}")
    want(folder.contents(scene.run) == before, f"it writes something after {data!r}")
    text = data[:-1].decode(errors="replace") if data != b"\xffgo\n" else ""
    want(status != ANSWER or text in runner.said, f"{data!r} isn't shown: {runner.said}")
    finished(scene, runner)


def try_ends(bench: Bench) -> str:
    """a worker that waits is asked to leave, or its runner's pipe ends, or it gets something else:
    it ends with the status for that, and the next one goes on"""
    rows = [(b"leave\n", LEFT), (b"", LATER), (b"go", LATER), (b"leave", LATER),
            *((it + b"\n", ANSWER) for it in INVALID)]
    return f"{each(((bench, *it) for it in rows), end_one)} answers"


def try_holds(bench: Bench) -> None:
    """a worker that waits keeps its number, and holds no round: another begins the next one"""
    scene = bench.scene(9, 2, beta=3)
    first = waiting(scene)
    held = [it for it in ("journal.1", "lock.round") if not folder.is_free(f"{scene.run}/{it}")]
    want(held == ["journal.1"], f"it holds {held}")
    again = Runner(scene, 1, is_stray=True)
    want(live(again) == LATER and not again.lines, f"a second worker 1: {again.statuses}")
    before, second = folder.record_of(scene.run)["round"], Says(scene, 2, ["done 0"])
    want(live(second) == LEFT and folder.record_of(scene.run)["round"] == before + 1,
         f"nobody begins a round beside it: {second.statuses}, {second.said}")
    finished(scene, first, second, again)


def try_next_round(bench: Bench) -> None:
    """another begins a round while a worker waits: it joins that one, by its header and its
    registers"""
    scene = bench.scene(16, 2, beta=6)
    first = waiting(scene)
    second = hold(scene, 2)
    record, before = folder.record_of(scene.run), len(scene.effects())
    first.tell(b"go\n")
    serve([first], until=lambda: first.overs > 1)
    want(first.process and len(scene.effects()) > before,
         f"it does nothing in the next round: status {first.statuses}, {first.said}")
    want(folder.record_of(scene.run) == record, "another round was begun")
    scene.audit(is_over=False)
    want(ended(first) == LATER, f"status {first.statuses}: {first.said}")
    go_on(second)
    serve([second])
    finished(scene, first, second)


def try_no_seat(bench: Bench) -> None:
    """another begins a round of few lines while a worker waits, which has no seat in it: it says
    `over`, holds nothing but its number, and has a part in a later round"""
    scene = bench.scene(9, 2, beta=3)
    first, second = waiting(scene), hold(scene, 2)
    want(folder.record_of(scene.run)["m"] == 1, "the round has two seats")
    passed_by(first)
    go_on(second)
    serve([second], until=lambda: second.overs)
    want(folder.is_free(f"{scene.run}/lock.round"), "it holds the lock of a round that is over")
    with open(scene.jobs, "a") as file:
        file.write("".join(f"job {k}\n" for k in range(10, 31)))
    before, overs = len(scene.effects()), first.overs
    first.tell(b"go\n")
    serve([first], until=lambda: first.overs > overs)
    want(first.process and len(scene.effects()) > before,
         f"it does nothing in a later round: status {first.statuses}, {first.said}")
    finished(scene, first, second)


def passed_by(runner: Held) -> None:
    """Has a worker that waits go on, and take no part in the round that it finds. It must print
    `over` again, each time, and nothing else."""
    lines, effects = list(runner.lines), len(runner.scene.effects())
    for _ in range(3):
        before = runner.overs
        runner.tell(b"go\n")
        serve([runner], until=lambda: runner.overs > before)
        want(runner.process and runner.lines == lines,
             f"it doesn't wait: status {runner.statuses}, {runner.said}, {runner.lines}")
    want(len(runner.scene.effects()) == effects, "it has performed a line")


def try_new_without_seat(bench: Bench) -> None:
    """a new process that has no part in the round of others waits too, and takes part in the next
    round; so does one that has gone on"""
    scene = bench.scene(3, 4)
    second = hold(scene, 2)
    first = waiting(scene)
    passed_by(first)
    second.leaves = True
    go_on(second)
    serve([second])
    before = len(scene.effects())
    first.tell(b"go\n")
    serve([first], until=lambda: first.overs > 4)
    want(first.process and len(scene.effects()) > before,
         f"it does nothing in the next round: status {first.statuses}, {first.said}")
    finished(scene, first, second)


def try_same_round(bench: Bench) -> None:
    """a worker goes on while another is still in the round: it prints `over` again, and begins no
    other round"""
    scene = bench.scene(40, 2, beta=4)
    second = hold(scene, 2)
    first = waiting(scene)
    record = folder.record_of(scene.run)
    passed_by(first)
    want(folder.record_of(scene.run) == record, "another round was begun")
    go_on(second)
    serve([second])
    finished(scene, first, second)


def try_all_done(bench: Bench) -> None:
    """another does the rest while a worker waits: all is done"""
    scene = bench.scene(9, 2)
    first, second = waiting(scene), Runner(scene, 2)
    see_out([second])
    status = ended(first)
    want(status == OVER and "all done" in first.said, f"status {status}: {first.said}")
    finished(scene, first, second)


def try_grown(bench: Bench) -> None:
    """the list grows while a worker waits: it performs the new lines"""
    scene = bench.scene(9, 2)
    first = waiting(scene)
    with open(scene.jobs, "a") as file:
        file.write("".join(f"job {k}\n" for k in range(10, 31)))
    status = ended(first)
    want(status == LATER and len(scene.effects()) > 20, f"status {status}: {scene.effects()}")
    finished(scene, first)


def try_another_boot(bench: Bench) -> None:
    """the boot id is read again: the next round has that of now"""
    scene = bench.scene(9, 2, beta=3)
    first = waiting(scene)
    scene.start_machine()
    status = ended(first)
    boot = folder.read(scene.boot).decode().strip()
    want(status == LATER and folder.record_of(scene.run)["boot"] == boot,
         f"status {status}, the round is of another boot than {boot}: {first.said}")
    finished(scene, first)


def moved(scene: Scene) -> None:
    """Moves the folder, and puts a copy in its place."""
    os.rename(scene.run, f"{scene.run}.moved")
    shutil.copytree(f"{scene.run}.moved", scene.run)


def given_up(scene: Scene) -> None:
    """Gives the run up."""
    folder.put(f"{scene.run}/forgotten", scene.jobs.encode() + b"\n")


def journal_copied(scene: Scene) -> None:
    """Puts a copy in the place of the worker's journal."""
    data = folder.read(f"{scene.run}/journal.1")
    os.rename(f"{scene.run}/journal.1", f"{scene.run}/moved")
    folder.put(f"{scene.run}/journal.1", data)


def change_one(bench: Bench, change: Callable[[Scene], None], status: int) -> None:
    """The folder is changed while a worker waits: it ends so, and writes nothing there."""
    scene = bench.scene(9, 2, beta=3)
    first = waiting(scene)
    change(scene)
    before = folder.contents(scene.run)
    found = ended(first)
    want(found == status, f"{change.__name__}: status {found}: {first.said}")
    want(folder.contents(scene.run) == before, f"{change.__name__}: it writes there")
    first.close()


def try_another_folder(bench: Bench) -> None:
    """the folder or the worker's journal is replaced, or the run is given up, while a worker waits:
    it begins no round there"""
    rows = [(moved, LATER), (journal_copied, LATER), (given_up, REFUSED)]
    each(((bench, *it) for it in rows), change_one)


def try_running(bench: Bench) -> None:
    """a worker of which an attempt still runs doesn't wait: its next process asks for that"""
    scene = bench.scene(9, 2)
    runner = Says(scene, 1, ["done 0", "running", "done 0"])
    replies = iter(["done 0", "running", *["done 0"] * 9])
    runner.perform = lambda serial, line: replied(scene, serial, line, next(replies))
    runner.stays, runner.was = True, lambda serial, line: "running"
    for _ in range(2):  # by `perform`, and then by `was`
        want(live(runner) == LATER and not runner.overs,
             f"status {runner.statuses}, over {runner.overs} times: {runner.said}")
    want(runner.lines[0].startswith("was 2 "), f"it asks for nothing: {runner.lines}")
    runner.was = lambda serial, line: "done 0"
    see_out([runner])
    finished(scene, runner)


def replied(scene: Scene, serial: int, line: int, reply: str) -> str:
    """Performs a line, and returns this reply."""
    scene.performed(1, serial, line)
    return reply


def try_owes_nothing(bench: Bench) -> None:
    """a worker that waits owes its journal nothing: each attempt has its outcome"""
    scene = bench.scene(9, 2)
    first = waiting(scene)
    owed = [it.name() for it in scene.look().intents.values() if it.answer is None]
    want(not owed, f"it waits, and has not noted what became of {owed}")
    finished(scene, first)


def try_killed_waiting(bench: Bench) -> None:
    """a worker is killed while it waits: nothing is in doubt, and the next one goes on"""
    scene = bench.scene(9, 2)
    first = waiting(scene)
    first.kill()
    serve([first])
    want(not scene.doubts() and scene.call("status", scene.run)[0] == OVER, "a doubt is listed")
    finished(scene, first)


def later_calls(bench: Bench) -> List[list]:
    """Returns the calls of a life of several rounds from the first `over` on."""
    scene = bench.scene(6, 2)
    scene.logs, runner = True, Runner(scene, 1)
    runner.stays = True
    want(live(runner) == OVER and runner.overs > 1, f"{runner.statuses}: {runner.said}")
    runner.close()
    calls = scene.logged()
    return calls[next(k for k, it in enumerate(calls) if is_over(it)):]


def kill_one(bench: Bench, number: int) -> None:
    """A worker that stays is killed at this call; its runner lives on."""
    scene = bench.scene(6, 2)
    runner = Runner(scene, 1)
    runner.stays = True
    want(live(runner, f"{number}:kill_after") == KILLED, f"it isn't killed: {runner.statuses}")
    see_out([runner])
    runner.close()
    scene.audit()
    want_all_told(scene)


def try_killed_later(bench: Bench) -> str:
    """killed at each call from the first `over` on: the next life goes on, and each line is
    performed once, or the one in hand is in doubt"""
    numbers = [int(it[1]) for it in changes(later_calls(bench))]
    return f"{each(((bench, it) for it in bench.sample(numbers, 24)), kill_one)} kills"


PARTS = {"staying": [
    try_one_process, try_ends, try_holds, try_next_round, try_no_seat, try_new_without_seat,
    try_same_round, try_all_done, try_grown,
    try_another_boot, try_another_folder, try_running, try_owes_nothing, try_killed_waiting,
    try_killed_later,
]}
