"""The runner of the stand-in for the worker: lines to standard output, and from standard input."""

import os
import time
from typing import Optional, Tuple

from stand_calls import LOG, line_text, shown
from stand_files import LATER, MISTAKE, End, called, number, refused_folder

# How many words each answer has.
ANSWERS = {b"done": 4, b"doubt": 3, b"unbegun": 3, b"untouched": 4, b"running": 3}


class Partner:
    """The runner of one worker."""

    def __init__(self):
        self.kept, self.has_running = b"", False

    def exchange(self, data: bytes) -> Optional[bytes]:
        """Says a line. Returns the line that answers it, without its end; None if none comes."""
        LOG.note("before", "say", line_text(data))
        try:
            said = self.reply_to(data)
        except End:
            LOG.note("after", "say", "failed")
            raise
        LOG.note("after", "say", "none" if said is None else shown(said))
        return said

    def reply_to(self, data: bytes) -> Optional[bytes]:
        """Writes the line, and waits for the one that answers it."""
        while data:
            data = data[called(69, "standard output", os.write, 1, data):]
        while b"\n" not in self.kept:
            part = called(69, "standard input", os.read, 0, 4096)
            if not part:
                return None
            self.kept += part
        said, _, self.kept = self.kept.partition(b"\n")
        return said

    def ask(self, kind: bytes, serial: int, line: int, text: bytes) -> Tuple[Optional[bytes], bool]:
        """Returns what became of it, as an answer of the journal or None, and whether to leave."""
        said = self.exchange(b"%s %d %d %s\n" % (kind, serial, line, text))
        if said is None:
            raise End(69, "runner: it has ended, or closed its pipe; start both again to go on")
        words = said.split(b" ")
        wanted = ANSWERS.get(words[0])
        fits = wanted == len(words) and number(words[1]) == serial and words[-1] in (b"go", b"leave")
        if not fits or wanted == 4 and number(words[2], 255) is None:
            raise invalid(said)
        self.has_running |= words[0] == b"running"
        has_time = words[0] in (b"doubt", b"untouched") and MISTAKE != "outcomes_without_times"
        if words[0] == b"done" or has_time:
            words.insert(-1, b"%d" % time.time())
        return None if words[0] == b"running" else b" ".join(words[:-1]), words[-1] == b"leave"

    def stay(self, it) -> None:
        """Says that this worker's part of the round is over, and waits until it is to go on."""
        if self.has_running and MISTAKE != "stays_though_one_runs":
            raise is_over(it)
        said = self.exchange(b"over\n")
        if said is None:
            raise is_over(it)
        if said == b"leave" and MISTAKE != "stays_though_told_to_leave":
            raise told_to_leave()
        if said not in (b"go", b"leave") and MISTAKE != "any_answer_is_go":
            raise invalid(said)


def told_to_leave() -> End:
    """Returns the end of a worker whose runner asked it to leave."""
    return End(69, "runner: it told this worker to leave; start the worker again to go on")


def is_over(it) -> End:
    """Returns the end of a worker whose part of a round is over, and which doesn't stay."""
    return refused_folder(it, LATER, "this round is over for this worker; start again to join the"
                                     " next one")


def invalid(said: bytes) -> End:
    """Returns the end of a worker whose runner sent this."""
    return End(76, f"runner: its reply `{said.decode(errors='replace')}` is invalid;"
                   " docs/protocol.md lists the replies")
