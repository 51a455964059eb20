"""Reports of a crew to others while it works: `--metrics`, `--events` and `--notify`.

A process of its own does it, the teller. It begins before its crew, which waits for no child that
was there before. A pipe from the supervisor has the crew's messages, and at last its status. If the
teller fails or is killed, the crew goes on. Begin with `told`.
"""

from __future__ import annotations

import json
import os
import select
import signal
import sys
from contextlib import contextmanager, suppress
from typing import Any, Callable, Iterator, List, Protocol, Tuple

from amo_jobs.locks import close_all
from amo_jobs.messages import End, end_of, reason, Screen
from amo_jobs.pipes import Writer
from amo_jobs.settings import Settings
from amo_jobs.worker import Program
from amo_watch.news import News

PATIENCE = 20.0  # seconds for which a crew waits for its teller, before and after its work
Send = Callable[[str, object], None]


class Crew(Protocol):
    """A supervisor that has the lock of its folder."""

    def run(self) -> int:
        """Runs the crew to its end, and returns its status."""


def told(settings: Settings, program: Program, made: Callable[[], Crew]) -> int:
    """Runs a crew, and tells others of it, also if it fails. Returns the crew's status."""
    with telling(settings, program) as (send, looked):
        code, text = end_of(lambda: run(made, send, looked), f"the run `{settings.run}`")
        send("end", int(code))
    if text:
        raise End(code, text)
    return code


def run(made: Callable[[], Crew], send: Send, looked: int) -> int:
    """Runs a crew, and returns its status. The teller looks at the run once the crew has its
    folder's lock, before a runner starts: what is so then is no news."""
    crew = made()
    send("begin", None)
    select.select([looked], [], [], PATIENCE)
    return crew.run()


@contextmanager
def telling(settings: Settings, program: Program) -> Iterator[Tuple[Send, int]]:
    """Has a teller run meanwhile. Yields a call that sends it a message, and a pipe that can be
    read once it has looked at the run."""
    reads, writes = os.pipe()  # messages
    looked, looks = os.pipe()
    waits, ends = os.pipe()  # whose end is the teller's
    middle = os.fork()
    if middle == 0:
        begin([writes, looked, waits], lambda: tell(settings, program, reads, looks))
    os.waitpid(middle, 0)
    close_all([reads, looks, ends])
    pipe = Writer(writes)  # which keeps what has no room now, unless the teller is gone

    def send(kind: str, value: object) -> None:
        pipe.send(json.dumps([kind, value]).encode() + b"\n")

    Screen.also = lambda text: send("message", text)
    try:
        yield send, looked
    finally:
        Screen.also = None
        while pipe.unsent and select.select([], pipe.files, [], PATIENCE)[1]:
            pipe.send()
        pipe.close()
        select.select([waits], [], [], PATIENCE)
        close_all([looked, waits])


def begin(others: List[int], call: Callable[[], None]) -> None:
    """Makes the call in a process of its own, which outlives this one."""
    try:
        if os.fork() == 0:
            close_all(others)
            os.setsid()
            for number in (signal.SIGINT, signal.SIGTERM, signal.SIGHUP):
                signal.signal(number, lambda *_: None)  # the end of the pipe ends it
            call()
    except OSError as error:
        Screen.tell(f"--metrics, --events, --notify: {reason(error)}; the crew goes on")
    except Exception:
        sys.excepthook(*sys.exc_info())
    finally:
        os._exit(0)


def tell(settings: Settings, program: Program, reads: int, looks: int) -> None:
    """Tells others until the supervisor is gone."""
    news, rest, is_open = News(settings, program, Screen.tell), b"", True
    while is_open:
        files = [reads, *news.files()]
        ready = select.select(files, [], [], 1.0)[0]
        if reads in ready:
            part = os.read(reads, 1 << 16)
            is_open = bool(part)
            *lines, rest = (rest + part).split(b"\n")
            for line in lines:
                take(news, looks, *json.loads(line))
        news.turn([it for it in ready if it != reads])
    news.end()


def take(news: News, looks: int, kind: str, value: Any) -> None:
    """Takes a message of the supervisor."""
    if kind != "begin":
        news.hear(kind, value)
        return
    news.look()
    with suppress(OSError):  # the supervisor is gone
        os.write(looks, b".")
