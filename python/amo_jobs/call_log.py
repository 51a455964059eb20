"""The log of calls, for tests. The environment variable AMO_CALLS names its file. Begin with
`note`. Workers write into the same file. docs/dev/tests.md explains the lines."""

from __future__ import annotations

import os
from typing import NoReturn, Optional

from amo_jobs.messages import lowered
from amo_jobs.statuses import Status

CALLS = "AMO_CALLS"
FLAGS = os.O_WRONLY | os.O_APPEND | os.O_CREAT


def end(why: str) -> NoReturn:
    """Ends this process, since a log with a gap shows nothing."""
    os.write(2, os.fsencode(f"amo_jobs: `{CALLS}`: cannot be written: {why}; name a file that can"
                            " be written, or unset the variable\n"))
    os._exit(Status.WRITE)


def opened(path: Optional[str]) -> Optional[int]:
    """Opens the log, if there is one. A later limit on open files doesn't concern it then."""
    try:
        return None if path is None else os.open(path, FLAGS, 0o600)
    except OSError as error:
        end(lowered(error))


LOG = opened(os.environ.get(CALLS))


def note(*words: object) -> None:
    """Appends a line to the log, if there is one."""
    if LOG is None:
        return
    line = os.fsencode("\n" + " ".join(map(str, words)) + " .")
    try:
        if os.write(LOG, line) < len(line):
            end("a line was cut off")
    except OSError as error:
        end(lowered(error))


def line_text(line: bytes) -> str:
    """Returns a line of a worker as the log shows it: its first three words, and the length and
    the SHA-256 of the rest. A line of fewer words is shown whole."""
    import hashlib  # which takes long to import, and which no other call needs
    words = line.split(b" ", 3)
    if len(words) < 4:
        return line.decode("utf-8", "replace")
    texts = [it.decode("utf-8", "replace") for it in words[:3]]
    return " ".join([*texts, str(len(words[3])), hashlib.sha256(words[3]).hexdigest()])
