"""The log of calls of the stand-in for the worker, in the form of that of amo_worker: a line before
each call and one after it, in the file that AMO_CALLS names. docs/dev/tests.md explains the
lines."""

import contextlib
import hashlib
import os
from typing import Iterator, List, Optional

from stand_files import End

PATH = os.environ.get("AMO_CALLS")
LONGEST = 200


class CallLog:
    """Appends lines to the log, if there is one."""

    def __init__(self) -> None:
        self.file: Optional[int] = None
        self.worker = 0

    def begin(self, worker: int, run: str) -> None:
        """Opens the log for this worker of this run, or for an operator's command, which has the
        number 0."""
        if PATH is None:
            return
        flags = os.O_WRONLY | os.O_APPEND | os.O_CREAT | os.O_CLOEXEC
        self.file, self.worker = os.open(PATH, flags, 0o600), worker
        self.note("begin", "run", run)

    def note(self, side: str, call: str, *words: object) -> None:
        """Appends a line."""
        if self.file is not None:
            text = " ".join(str(it) for it in (side, os.getpid(), self.worker, call, *words))
            os.write(self.file, f"\n{text} .".encode())


LOG = CallLog()


@contextlib.contextmanager
def noted(call: str, *words: object) -> Iterator[None]:
    """Notes a call before it is made, and how it has ended."""
    LOG.note("before", call, *words)
    try:
        yield
    except End:
        LOG.note("after", call, "failed")
        raise
    LOG.note("after", call)


def shown(data: bytes) -> str:
    """Returns a text as it is, or its length and SHA-256 if it is long or has other bytes than
    words."""
    if len(data) <= LONGEST and all(0x20 <= it <= 0x7e for it in data):
        return data.decode()
    return f"{len(data)} {hashlib.sha256(data).hexdigest()}"


def line_text(line: bytes) -> str:
    """Returns the first three words of a line to the runner, and the length and SHA-256 of the
    rest. A line of fewer words is shown whole."""
    words = line[:-1].split(b" ", 3)
    if len(words) < 4:
        return shown(line[:-1])
    texts = [it.decode() for it in words[:3]]
    return " ".join([*texts, str(len(words[3])), hashlib.sha256(words[3]).hexdigest()])


def attempts_text(lines: List[int]) -> str:
    """Returns how many attempts have these lines, the last line, and the SHA-256 of all."""
    text = "".join(f"{it} " for it in lines)
    last = lines[-1] if lines else 0
    return f"{len(lines)} {last} {hashlib.sha256(text.encode()).hexdigest()}"
