"""The lines between the runners of a crew and their supervisor, by a pipe in each direction.

A report is a line: its values in their order, with tabs between them. An order is a word: `go`
after a line that failed, `stop`, `pass N` for a further signal, and `news` if another runner has
ended, or another worker has begun a round or come to the end of its part.
"""

from __future__ import annotations

import codecs
from typing import NamedTuple

from amo_jobs.statuses import IN_ORDER

ESCAPE = codecs.lookup("unicode_escape")  # loaded now, since later there may be too many files
GO, STOP, PASS, NEWS = "go", "stop", "pass", "news"
# The kinds of reports.
ENDED = "ended"  # a command has ended, and nothing of it is left
UNBEGUN = "unbegun"  # a command could not be started; the text has the reason
LOST = "lost"  # nobody saw the end of an attempt of an earlier runner: it is in doubt
RUNS = "runs"  # a command has run for a moment
ROUND = "round"  # the worker has its first line of a round, or its part of the round is over
LEFT_BEHIND = "left"  # a command has ended, and something of it still runs
WAITS = "waits"  # the runner would end, and waits for these processes; the text names them
TAKEN = "taken"  # another attempt stands against a line, which the text names
TRIES = "tries"  # the worker fails, and is started again since ends aren't recorded yet
SHORT = "short"  # the worker has too little memory, and is started again
ASKED = "asked"  # the runner itself got a signal (the code)
SAYS = "says"  # a text for the operator
OVER = "over"  # the last report, with the worker's status (the code) and its message


class Report(NamedTuple):
    """What a runner has to say. Most kinds need only some of these."""
    kind: str
    serial: int = 0
    line: int = 0
    word: str = ""  # what came of the attempt: done, doubt or untouched
    code: int = 0
    is_late: bool = False  # whether the timeout ended it
    text: str = ""

    def is_failure(self) -> bool:
        """Returns whether no command may be started before the supervisor says `go`."""
        is_bad_end = self.word == "doubt" or self.word == "done" and self.code != 0
        return self.kind in (UNBEGUN, LOST) or self.kind == ENDED and is_bad_end

    def is_end_in_order(self) -> bool:
        """Returns whether a worker has ended, and needn't be looked at."""
        return self.kind == OVER and self.code in IN_ORDER


def line_of(report: Report) -> bytes:
    """Returns the line of a report."""
    kind, serial, line, word, code, is_late, text = report
    shown = ESCAPE.encode(text)[0].decode() if text else ""
    return f"{kind}\t{serial}\t{line}\t{word}\t{code}\t{is_late:d}\t{shown}\n".encode()


def report_of(line: bytes) -> Report:
    """Returns the report of a line. Raises ValueError if it is none."""
    kind, serial, number, word, code, is_late, text = line.split(b"\t")
    return Report(kind.decode(), int(serial), int(number), word.decode(), int(code),
                  bool(int(is_late)), ESCAPE.decode(text)[0])
