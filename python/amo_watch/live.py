"""The command `watch`: a live view of a run, on a terminal by curses, else as lines.

Begin with `watch`. `picture` in `view` decides what is shown; this module draws it and takes keys.
"""

from __future__ import annotations

import curses
import locale
import os
import select
import signal
import sys
import time
from contextlib import suppress
from typing import Any, Dict, List

from amo_jobs import calls
from amo_jobs.messages import End
from amo_jobs.processes import signer
from amo_jobs.run_folder import folders_of_outputs, name_run
from amo_jobs.settings import Settings
from amo_jobs.statuses import Status
from amo_jobs.worker import Program
from amo_watch.snapshot import alive, began, Follower, Snapshot
from amo_watch.texts import Lines, outputs_of
from amo_watch.view import Answer, Facts, picture, summary, View

WAIT, SELDOM = 0.5, 30.0  # seconds, seconds between two lines
MOST_OUTPUTS, MOST_TEXTS = 32, 200  # commands whose last output is read, lines with a text


class Live:
    """A run that is watched."""

    def __init__(self, settings: Settings, program: Program):
        """Begins to follow the run. Raises OSError."""
        self.settings, self.program = settings, program
        self.found, self.texts = Snapshot(), {}  # type: Snapshot, Dict[int, str]
        self.lines, self.alive = Lines(settings.run), []  # type: Lines, List[int]
        self.follower = Follower(program, settings.run)
        self.view, self.folders = View(), folders_of_outputs(settings.run)

    def read(self, seconds: float, *others: Any) -> bool:
        """Waits for so many seconds for a line or a key; returns whether a line came. Raises an end
        if the run can't be followed."""
        ready = select.select([self.follower.file, *others], [], [], seconds)[0]
        if self.follower.file not in ready:
            return False
        said = self.follower.said()
        if said is None:
            self.begin_again()
        for it in said or ():
            self.found.take(it)
        self.alive = alive(self.settings.run, self.found.workers or 0)
        self.found.since = began(self.settings.run, self.alive)
        self.read_texts()
        return bool(said)

    def begin_again(self) -> None:
        """Follows the run anew if a file was replaced meanwhile. Else raises the worker's end."""
        status = self.follower.close()
        if status != Status.LATER:
            raise End(status if status > 0 else Status.MEMORY, None)
        time.sleep(WAIT)
        self.follower, self.found = Follower(self.program, self.settings.run), Snapshot()

    def read_texts(self) -> None:
        """Reads the texts of the lines that the view may show."""
        wanted = {it.line for state in ("pending", "doubt")
                  for it in self.found.of(state)[:MOST_TEXTS]}
        missing = wanted - set(self.texts)
        if missing:
            self.texts.update(self.lines.texts(missing))

    def facts(self) -> Facts:
        """Returns what is shown now."""
        outputs: Dict[str, str] = {}
        for it in self.found.of("pending")[:MOST_OUTPUTS]:
            ends = [output.end for output in outputs_of(self.folders, it.name)]
            outputs[it.name] = next((end[-1] for end in reversed(ends) if end), "")
        return Facts(self.found, self.texts, outputs, self.alive)

    def crew(self) -> int:
        """Returns the process of the crew's supervisor; 0 if none is at work. It has signed the
        file `crew`, and has that file open, which it locks as long as it lives."""
        return signer(f"{os.path.realpath(self.settings.run)}/crew")

    def stop(self) -> str:
        """Ends the crew in order; returns what came of that."""
        process = self.crew()
        if not process:
            return "no crew is at work in this folder"
        start = calls.start_of(process)
        if start is None or self.crew() != process:
            return "the crew has ended meanwhile"
        calls.send(calls.Process(process, start), signal.SIGTERM)
        return f"sent TERM to {process}; commands go on"


def watch(settings: Settings, program: Program) -> int:
    """Shows a run until it is over, or until the operator ends it; returns the exit status."""
    name_run(settings, program)
    live = Live(settings, program)
    for number in (signal.SIGTERM, signal.SIGHUP):  # the terminal is left as it was
        signal.signal(number, signal.default_int_handler)
    try:
        if sys.stdout.isatty() and sys.stdin.isatty() and os.environ.get("TERM", "dumb") != "dumb":
            locale.setlocale(locale.LC_ALL, "")
            curses.wrapper(lambda screen: on_screen(live, screen))
        else:
            as_lines(live)
    except KeyboardInterrupt:
        pass
    finally:
        live.follower.close()
    return Status.DONE


def as_lines(live: Live) -> None:
    """Prints a line at first, every half a minute, and when all lines are closed."""
    due = 0.0
    while True:
        live.read(WAIT)
        if not live.found.time:
            continue
        is_over = not (live.found.counts["open"] or live.found.counts["pending"])
        if time.monotonic() >= due or is_over:
            due = time.monotonic() + SELDOM
            print(summary(live.found), flush=True)
        if is_over:
            return


def on_screen(live: Live, screen: Any) -> None:
    """Draws the view, and takes keys, until `q`."""
    with suppress(curses.error):  # a terminal may have no invisible cursor
        curses.curs_set(0)
    screen.nodelay(True)
    draw(screen, live)
    while live.view.answer is not Answer.QUIT:
        is_new = live.read(WAIT, sys.stdin)
        is_pressed = take_keys(screen, live.view)
        if live.view.answer is Answer.STOP:
            live.view.answer, live.view.note = Answer.NONE, live.stop()
        if is_new or is_pressed:
            draw(screen, live)


def take_keys(screen: Any, view: View) -> bool:
    """Has the view take the keys that were pressed, and returns true if there are any. A new size
    of the terminal comes as a key, which nobody has pressed."""
    keys: List[int] = []
    while (key := screen.getch()) != -1:
        keys.append(key)
        if key != curses.KEY_RESIZE:
            view.take(chr(key) if 0 < key < 128 else "")
    return bool(keys)


def draw(screen: Any, live: Live) -> None:
    """Draws the view as large as the terminal is."""
    height, width = screen.getmaxyx()
    screen.erase()
    rows = picture(live.facts(), live.view, width - 1, height)
    for place, (text, is_strong) in enumerate(rows[:height]):
        with suppress(curses.error):  # the terminal became smaller meanwhile
            screen.addstr(place, 0, text, curses.A_BOLD if is_strong else curses.A_NORMAL)
    screen.refresh()
