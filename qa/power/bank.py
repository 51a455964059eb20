"""The bank outside of the guest: its book of what was performed, and the rules that must hold.

No cut takes the book. Begin with `Bank.take`, which gets each line of the guest.
"""

from __future__ import annotations

import json
import random
import re
from collections import Counter
from typing import Callable, Dict, List, NamedTuple, Optional, Set

KINDS = "done failed doubt running untouched open".split()
# The statuses with which a crew may end: done, doubts, stopped in order, and start again later.
CREW_ENDS = {0, 2, 69, 75}
KILLED = {71, 137}  # a crew or a command that was killed, or whose amo_worker was
FAULTY = {73, 74, 125}  # a file can't be written or read, as on a disk that fails
MOST_FAULTY = 3  # crews that end so in one boot; then the file system takes nothing any more
TO_WAIT = 75
TORN_COMMIT = re.compile(r"journal transaction \d+ on \S+ is corrupt")
OF_PROCESSES = "begin before after receives replies gone".split()
CALLS = [*OF_PROCESSES, "starts", "started", "ended"]  # how lines of the log of calls begin
BOOT_STEP = 1_000_000  # processes of boot N get numbers from N times this one on


class Dangers(NamedTuple):
    """The dangers to the processes of one boot, in addition to its cut."""

    has_kills: bool = False
    fails: bool = False  # the disk fails one request
    fills: bool = False  # the disk is full now and then


class Event(NamedTuple):
    """The duty of a disk that is cut after the bank has received so many lines."""

    heard: int
    kind: str  # performed or answered
    what: object  # the line, or the attempt


class Bank:
    """The book of one list, over all boots. `wrongs` has what must not be."""

    def __init__(self, lines: int, draws: random.Random, is_control: bool):
        """Takes the number of lines. A control's program prints no states."""
        self.lines, self.draws, self.is_control = lines, draws, is_control
        self.begun: Dict[int, List[str]] = {}  # of a line the attempts, with their boots
        self.performed: Dict[int, List[str]] = {}
        self.listed: Dict[int, str] = {}  # lines in doubt that nobody has opened again
        self.closed: Set[int] = set()  # lines that were answered `done`
        self.done: Set[int] = set()  # by the first look of the last boot
        self.wrongs: List[str] = []
        self.counts: Counter[str] = Counter()
        self.heard = 0  # lines, over all boots
        self.history: List[Event] = []
        self.sent: List[str] = []  # attempts of the answers that the guest gives now
        self.taken: Set[str] = set()  # attempts of answers that were taken
        self.calls: List[str] = []  # the log of calls
        self.alive: Set[str] = set()  # processes that the log of calls has
        self.boot_ids: Set[str] = set()
        self.boot, self.dangers, self.is_first_look = 0, Dangers(), True
        self.allowed, self.faulty = CREW_ENDS, 0
        self.last: Optional[dict] = None  # how the lines stood last
        self.is_over = self.is_stuck = self.is_refused = self.needs_fsck = False

    def wrong(self, kind: str, text: str) -> None:
        self.wrongs.append(f"{kind}: boot {self.boot}: {text}")

    def boot_anew(self, boot: int, dangers: Dangers) -> None:
        """The power was cut, and the machine starts again."""
        self.calls += [f"gone {it}" for it in sorted(self.alive)]
        self.alive.clear()
        self.boot, self.dangers, self.is_first_look, self.is_stuck = boot, dangers, True, False
        self.faulty = 0
        self.allowed = (CREW_ENDS | (KILLED if dangers.has_kills else set())
                        | (FAULTY if dangers.fails or dangers.fills else set()))

    def take(self, text: str) -> Optional[str]:
        """Takes a line of the guest. Returns the host's reply, if there is one."""
        self.heard += 1
        if not text.endswith(" ."):
            self.wrong("garbled", repr(text))
            return None
        word, _, rest = text[:-2].partition(" ")
        self.counts[word] += 1
        if word in CALLS:
            self.take_call(text[:-2])
        elif word in STEPS:
            return STEPS[word](self, rest)
        else:
            self.wrong("garbled", repr(text))
        return None

    def take_call(self, text: str) -> None:
        """Takes a line of the log of calls. The numbers of processes differ from boot to boot."""
        words = text.split(" ")
        if words[0] in OF_PROCESSES:
            words[1] = str(int(words[1]) + BOOT_STEP * self.boot)
            if words[0] == "begin":
                self.alive.add(words[1])
            elif words[0] == "gone":
                self.alive.discard(words[1])
        self.calls.append(" ".join(words))

    def take_up(self, rest: str) -> None:
        boot_id = rest.split()[1]
        if boot_id in self.boot_ids:
            self.wrong("boot id twice", boot_id)
        self.boot_ids.add(boot_id)

    def take_begun(self, rest: str) -> None:
        attempt, line = rest.split()
        self.begun.setdefault(int(line), []).append(f"{attempt} in boot {self.boot}")
        self.see_closed("begun", int(line), attempt)

    def take_performed(self, rest: str) -> None:
        """A line is performed: the money has moved."""
        attempt, number = rest.split()
        line = int(number)
        acts = self.performed.setdefault(line, [])
        acts.append(f"{attempt} in boot {self.boot}")
        self.history.append(Event(self.heard, "performed", line))
        self.calls.append(f"performed {attempt} {line}")
        if len(acts) > 1:
            self.wrong("performed twice", f"line {line}: {acts}")
        self.see_closed("performed", line, attempt)

    def see_closed(self, what: str, line: int, attempt: str) -> None:
        """Nothing of a line may happen once it was listed, unless it was answered `not-done`."""
        if line in self.listed:
            self.wrong(f"{what} after it was listed",
                       f"line {line} by {attempt}, listed as {self.listed[line]}")
        if line in self.closed:
            self.wrong(f"{what} after it was answered done", f"line {line} by {attempt}")

    def take_doubts(self, rest: str) -> str:
        """Answers some of the listed doubts truthfully, by the book, as an operator does."""
        share, rows = self.draws.choice((1, 1, 1, 0.5, 0)), []
        self.sent = []
        for it in json.loads(rest):
            line, attempt = it["line"], it["intent"]
            self.counts["doubts listed"] += 1
            if attempt in self.taken:
                self.wrong("answer lost", f"line {line}, attempt {attempt}")
            self.listed[line] = attempt
            if self.draws.random() < share:
                rows.append(f"{attempt}\t{line}\t{it['text']}\t{self.answer(line)}\n")
                self.sent.append(attempt)
        return "".join(rows) + ".\n"

    def answer(self, line: int) -> str:
        """Returns the book's entry on a line, and notes that the operator answers so."""
        word = "done" if line in self.performed else "not-done"
        self.counts[f"answers {word}"] += 1
        if word == "done":
            self.closed.add(line)
        else:
            del self.listed[line]
        return word

    def take_answered(self, rest: str) -> None:
        code = int(rest.split()[0])
        if code == 0:
            self.taken.update(self.sent)
            self.history += [Event(self.heard, "answered", it) for it in self.sent]
        elif code == TO_WAIT:
            self.counts["answers that must wait"] += 1
        elif code not in self.allowed:
            self.wrong("answer", rest)

    def take_crew(self, rest: str) -> None:
        code = int(rest.split()[0])
        self.counts[f"crew ended with {code}"] += 1
        self.faulty += code in FAULTY
        self.is_stuck = self.dangers.fails and self.faulty == MOST_FAULTY
        if code not in self.allowed:
            self.wrong(f"crew ended with {code}", rest)

    def take_forgot(self, rest: str) -> None:
        if int(rest.split()[0]) not in self.allowed:
            self.wrong("forget", rest)

    def take_refused(self, rest: str) -> None:
        """The program refuses to show how the lines stand, or the kernel to mount the disk: ext4 does
        so if the cut has torn the last block of a commit, and e2fsck mends it."""
        if self.dangers.has_kills and rest.startswith("status 137"):
            self.counts["looks that were killed"] += 1
        elif self.allowed >= FAULTY and re.match("status 7[34]", rest):
            self.counts["looks that failed"] += 1
        elif self.dangers.fails and rest.startswith("mount"):  # the next boot must mount it
            self.counts["mounts that failed"] += 1
            self.is_stuck = True
        elif rest.startswith("mount") and TORN_COMMIT.search(rest):
            self.counts["mounts that need e2fsck"] += 1
            self.is_stuck = self.needs_fsck = True
        else:
            self.is_refused = True
            self.wrong("refused", rest)

    def take_state(self, rest: str) -> None:
        """Compares the statuses of the lines, as the program prints them, with the book."""
        if rest == "none":
            if self.performed and not self.dangers.fails:  # that disk may give no name any more
                self.wrong("lost", f"no run, and {len(self.performed)} lines are performed")
            return
        text, _, numbers = rest.partition(" open")
        told, opened = json.loads(text), {int(it) for it in numbers.split()}
        self.last = {it: told[it] for it in ["lines", *KINDS]}
        stated = {it["line"] for it in told["intents"]}
        done = set(range(1, told["lines"] + 1)) - opened - stated
        self.see_counts(told, opened, done)
        self.see_lines(opened, done)
        if self.is_first_look:
            if told["running"]:
                self.wrong("running after a boot", text)
            for line in sorted(self.done - done):
                self.wrong("done was lost", f"line {line}")
            self.done = done
        self.is_first_look = False

    def see_counts(self, told: dict, opened: Set[int], done: Set[int]) -> None:
        """The counts must be those of the lines, and each line has one place."""
        if told["lines"] not in (0, self.lines) or told["lines"] == 0 and self.performed:
            self.wrong("lost", f"the run has {told['lines']} lines of {self.lines}")
        is_sum = sum(told[it] for it in KINDS) == told["lines"]
        if not is_sum or told["open"] != len(opened) or told["done"] != len(done):
            self.wrong("counts", f"{told}, open are {sorted(opened)}")
        if told["failed"] or told["untouched"]:
            self.wrong("counts", f"no command fails, and {told}")

    def see_lines(self, opened: Set[int], done: Set[int]) -> None:
        """An open line has no effect, and a done one has it."""
        for line in sorted(opened & set(self.performed)):
            self.wrong("performed and open", f"line {line}: {self.performed[line]}")
        for line in sorted(done - set(self.performed)):
            self.wrong("done and not performed", f"line {line}: {self.begun.get(line)}")
        for line in sorted(opened & set(self.listed)):
            self.wrong("listed and open", f"line {line}, listed as {self.listed[line]}")

    def take_over(self, rest: str) -> None:
        """The list is at its end: each line must be performed, and stand as done."""
        missing = sorted(set(range(1, self.lines + 1)) - set(self.performed))
        if missing:
            self.wrong("over and not performed", f"lines {missing}")
        if not self.is_control and (not self.last or self.last["done"] != self.lines):
            self.wrong("over and not done", str(self.last))

    def take_forgotten(self, rest: str) -> None:
        """The run is put away. Its folder, list and mark must be there under their new names."""
        self.take_over(rest)
        self.is_over, names = True, rest.split()
        if not self.is_control and ("jobs.txt" in names or "run" in names
                                    or not any(it.startswith("run.forgotten-") for it in names)):
            self.wrong("forget", rest)

    def twice(self) -> int:
        """Returns how many lines were performed more than once."""
        return sum(len(it) > 1 for it in self.performed.values())


STEPS: Dict[str, Callable[[Bank, str], Optional[str]]] = {
    "@up": Bank.take_up, "begun": Bank.take_begun, "performed": Bank.take_performed,
    "@doubts": Bank.take_doubts, "@answered": Bank.take_answered, "@crew": Bank.take_crew,
    "@forgot": Bank.take_forgot, "@refused": Bank.take_refused, "@state": Bank.take_state,
    "@over": Bank.take_over, "@forgotten": Bank.take_forgotten,
    **{it: lambda bank, rest: None for it in
       "@mounted @listed @begins @answering @forgetting @killed @next".split()},
}


def kinds(wrongs: List[str]) -> Dict[str, int]:
    """Returns how many breaches there are of each kind."""
    return dict(Counter(it.partition(":")[0] for it in wrongs))
