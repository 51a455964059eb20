"""The state of a runner, the events that it takes, and the actions by which it acts.
`runner_rules` has the rules between them."""

from __future__ import annotations

from enum import Enum
from typing import Collection, Dict, NamedTuple, Optional, Tuple, Union

from amo_jobs.reports import Report
from amo_jobs.settings import Settings
from amo_jobs.statuses import Status

SHORTEST, LONGEST = 0.1, 4.0  # seconds of a pause
PERFORM, WAS, STAY = "perform", "was", "over"  # what a worker says
PAUSE, TIMEOUT, GRACE, LINGER, MOMENT = "pause", "timeout", "grace", "linger", "moment"  # timers
# The starts that are noted: a crew's first one of a runner, one more, one more of the worker.
BY_CREW, RUNNER_AGAIN, WORKER_AGAIN = "crew", "runner", "worker"


class Rest(Enum):
    """How much of an attempt is left."""

    NOTHING = 0  # its lock was got by a handle opened anew, and it has no descendant
    SEEN = 1  # whoever is left holds its lock, so everybody sees that it runs
    UNSEEN = 2  # a descendant is left that only its runner sees


class Plain(Enum):
    """An event of which there is no more to say."""

    UNANSWERED = 0  # the last answer didn't reach the worker
    STOP = 1  # no further command may be started
    ACKNOWLEDGED = 2  # the supervisor knows of a failure, and lets the runner go on
    HELD = 3  # a report isn't sent yet: the supervisor's pipe is full
    SENT = 4  # all reports are sent
    DESERTED = 5  # the supervisor is gone
    NEWS = 6  # another runner has ended, or its worker has begun a round or is over with it


class Said(NamedTuple):
    """The event that the worker has said a whole line."""

    kind: str
    serial: int = 0
    line: int = 0
    text: bytes = b""
    is_alive: bool = True  # whether the worker still lived when the line was read


# The worker has ended and all that it said was read, or it could not be started.
WorkerEnded = NamedTuple("WorkerEnded", [("status", int), ("message", str)])
# A command was not started: no process of it was made, or none is left.
StartFailed = NamedTuple("StartFailed", [("why", str)])
# The process of the command has ended. None: the system doesn't report how.
CommandEnded = NamedTuple("CommandEnded", [("status", Optional[int])])
# The runner has looked what is left of an attempt of its number.
Looked = NamedTuple("Looked", [("serial", int), ("rest", Rest)])
Elapsed = NamedTuple("Elapsed", [("timer", str), ("serial", int)])  # a time is over
PassOn = NamedTuple("PassOn", [("number", int)])  # a further signal, which is for the commands
Event = Union[Plain, Said, WorkerEnded, StartFailed, CommandEnded, Looked, Elapsed, PassOn]

# Start the worker. `has_failed`: it was killed, or has failed, before that.
StartWorker = NamedTuple("StartWorker", [("has_failed", bool)])
Answer = NamedTuple("Answer", [("text", str)])  # answer the worker
# Start the command of a line. If that fails, the next event is StartFailed.
Begin = NamedTuple("Begin", [("serial", int), ("line", int), ("text", bytes)])
Look = NamedTuple("Look", [("serial", int)])  # what is left of an attempt: Looked comes next
# Have an Elapsed come after so many seconds, and a pause after a random part of them.
Wait = NamedTuple("Wait", [("timer", str), ("serial", int), ("seconds", float)])
Send = NamedTuple("Send", [("serial", int), ("number", int)])  # a signal to all that is left
Tell = NamedTuple("Tell", [("report", Report)])  # report to the supervisor
End = NamedTuple("End", [("status", int)])  # end, with the worker's last status
Action = Union[StartWorker, Answer, Begin, Look, Wait, Send, Tell, End]


class Attempt:
    """An attempt of this runner, until nothing of it is left."""

    def __init__(self, line: int, status: Optional[int] = None):
        self.line, self.status = line, status  # the status of its process, once that has ended
        self.is_late = False  # TERM was sent, since its time was over
        self.is_killed = False  # KILL was sent
        self.has_lingered: Optional[bool] = None  # None: it isn't waited for yet
        self.rest = Rest.UNSEEN

    def outcome(self, untouched: Collection[int]) -> Tuple[str, int]:
        """Returns what came of it. Any status counts as performed. An end by a signal is a doubt,
        and so is an end by the timeout, and one that the system doesn't report."""
        if self.is_late or self.status is None or self.status < 0:
            return "doubt", 0
        return ("untouched" if self.status in untouched else "done"), self.status


class State:
    """What a runner knows."""

    def __init__(self, settings: Settings):
        self.settings = settings
        self.has_worker = False
        self.is_pausing = False  # before the worker is started again
        self.is_in_round = False  # whether the worker has performed a line of its round
        self.asks: Optional[Said] = None  # the line of the worker that has no answer yet
        self.last: Optional[int] = None  # the attempt whose answer was the worker's last one
        self.top: Optional[int] = None  # the highest attempt that a worker of this runner has said
        self.has_said = False  # whether the worker has said something new since the last pause
        self.pause = SHORTEST / 2
        # The ends of attempts: those that aren't recorded yet, those of them that no worker has
        # asked for, and what is to be reported once a worker has the answer.
        self.seen: Dict[int, str] = {}
        self.found: Dict[int, str] = {}
        self.untold: Dict[int, Report] = {}
        self.attempts: Dict[int, Attempt] = {}
        self.current: Optional[int] = None  # the attempt that the worker waits for
        self.is_stopping = self.is_held = self.is_unacknowledged = False
        self.is_last_wait = False  # nothing is to be done, but for what is left and unseen
        self.status, self.message = int(Status.LATER), ""  # of the worker at last
        self.warned: Optional[int] = None
        self.is_over = False

    def asks_for(self, serial: int, kind: str) -> bool:
        """Returns whether the worker waits for an answer of this kind about this attempt."""
        asks = self.asks
        return asks is not None and asks.serial == serial and asks.kind == kind
