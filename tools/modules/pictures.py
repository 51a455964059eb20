"""The pictures of the pages: the parts of amo, the life of a line, an append, and clearance.

`PICTURES` is where to start reading. `drawing.py` has the shapes.
"""

from __future__ import annotations

import os

from drawing import LETTER, arrow, box, frame, legend, line, picture, text

FOLDER = "docs/pictures"
KINDS = [("proved", "proved"), ("tested", "only tested"), ("assumed", "assumed")]


def architecture() -> str:
    """Returns the parts of amo, from the list to the disk, with what covers each."""
    shapes = [
        box(20, 20, 150, ["the list", "one job a line"], "plain"),
        box(250, 20, 240, ["amo_jobs", "supervisor, runners (Python, C)"], "tested"),
        box(570, 20, 230, ["your command", "one line, once at most"], "assumed"),
        box(570, 130, 230, ["the receiver", "a bank, a server"], "assumed"),
        box(20, 130, 150, ["you", "answer the doubts"], "assumed"),
        box(250, 130, 240, ["amo_worker, 1 to 16 times", "which line is next, journals,",
                            "status, doubts, answers"], "proved"),
        box(250, 240, 240, ["the host over files", "open, lock, read, sync, pipe"], "tested"),
        box(250, 334, 240, ["the kernel and the disk", "locks exclude, a sync stays"], "assumed"),
        box(570, 240, 230, ["the run's folder", "journals: each attempt, and",
                            "its outcome", "words: each worker's jobs"], "plain"),
        arrow([(170, 44), (250, 44)]), arrow([(490, 44), (570, 44)]),
        arrow([(685, 68), (685, 130)]),
        arrow([(370, 68), (370, 130)], both=True), text(380, 104, "lines of text", "f"),
        arrow([(170, 154), (250, 154)]),
        arrow([(370, 194), (370, 240)], both=True), text(380, 222, "the trait Host", "f"),
        arrow([(370, 288), (370, 334)], both=True),
        arrow([(490, 264), (570, 264)], both=True),
        legend(20, 410, KINDS),
    ]
    return picture(820, 426, "The parts of amo",
                   "The list goes to amo_jobs, which is only tested. It starts your command, which"
                   " calls the receiver; both are assumed. It speaks in lines of text with"
                   " amo_worker, whose logic is proved. You answer the doubts. amo_worker calls the"
                   " host over files, which is only tested, over the kernel and the disk, which"
                   " are assumed. Journals and words stand in the run's folder.", shapes)


def life() -> str:
    """Returns the life of a line of a list."""
    ends = [(20, "done", "status 0", "proved"), (88, "failed", "another status", "tested"),
            (156, "untouched", "it reports: did nothing", "tested"),
            (224, "in doubt", "killed, timeout, power cut", "assumed")]
    shapes = [
        box(20, 120, 120, ["open", "not started"], "plain"),
        box(200, 120, 200, ["attempted", "its intent is on the disk"], "plain"),
        box(470, 120, 140, ["running", "the command runs"], "plain"),
        *(box(680, y, 210, [name, how], kind) for y, name, how, kind in ends),
        arrow([(140, 144), (200, 144)]), arrow([(400, 144), (470, 144)]),
        text(415, 136, "clear", "f"),
        *(arrow([(610, 144), (645, 144), (645, y + 24), (680, y + 24)]) for y, *_ in ends),
        arrow([(300, 120), (300, 80), (80, 80), (80, 120)]),
        text(150, 72, "not started", "f"),
        *(line([(890, y + 24), (915, y + 24)]) for y, *_ in ends[1:]),
        arrow([(915, 248), (915, 44), (890, 44)]), text(925, 48, "you answer done", "f"),
        arrow([(915, 248), (915, 310), (80, 310), (80, 168)]),
        text(330, 304, "you answer not-done, or `again` if it is untouched", "f"),
        text(20, 340, "Once a command was started, nothing leads back to open automatically."),
        text(20, 360, "If another attempt stands, the command isn't started, and that attempt"
             " decides."),
    ]
    return picture(1050, 376, "The life of a line",
                   "An open line is attempted: its intent is on the disk. If no other attempt"
                   " stands, its command runs. It is then done, failed, untouched or in doubt. A"
                   " line that was not started is open again. If another attempt stands, that"
                   " attempt decides. If a line failed, is untouched or in"
                   " doubt, the operator's answer not-done opens it, and the answer done closes"
                   " it.", shapes)


def append_step(y: int, what: str, before: str, after: str, cut: str) -> list[str]:
    """Returns a row of the picture of an append: a call, the bytes after it, and a power cut."""
    return [text(20, y, what), text(250, y, before, "f"),
            text(250 + LETTER * len(before), y, after, "proved"), text(620, y, cut, "f")]


def append() -> str:
    """Returns one append to a journal, with what a power cut leaves after each call."""
    old = "..ae009a8c "
    rows = [
        ("(at rest)", old, "-", "the journal as it was"),
        ("1. write after the closed byte", old, "-done 1 ..; intent 2 .. 989516bb -",
         "any part of it, torn: recovery cuts it off"),
        ("2. sync", old, "-done 1 ..; intent 2 .. 989516bb -", "all of it, closed: recovery cuts"),
        ("3. write + over the closed byte", old, "+done 1 ..; intent 2 .. 989516bb -",
         "- or +: without the append, or with it"),
        ("4. sync: acknowledged", old, "+done 1 ..; intent 2 .. 989516bb -",
         "the append, for good"),
        ("5. the line is handed over", old, "+done 1 ..; intent 2 .. 989516bb -",
         "the append: its line is closed"),
    ]
    shapes = [text(20, 28, "call"), text(250, 28, "the file as it is read"),
              text(620, 28, "a power cut now leaves")]
    for k, row in enumerate(rows):
        y = 60 + 34 * k
        shapes += [frame(12, y - 20, 936, 30, "plain"), *append_step(y, *row)]
    shapes.append(text(20, 272, "+ is an open commit byte, - a closed one. An append counts only"
                       " after an open one. Both records are there, or none.", "i"))
    return picture(960, 288, "One append to a journal",
                   "At rest the file ends with a closed commit byte. The append is written after"
                   " it and synced, and doesn't count yet. Then the commit byte is opened and"
                   " synced: the append is acknowledged. Only then is the line handed over. A power"
                   " cut at each point leaves the journal without the append, or with it.", shapes)


def lane(x: int, name: str, steps: list[tuple[int, str, str]]) -> list[str]:
    """Returns a worker's lane: its name, and steps at heights, each with a kind."""
    shapes = [text(x, 60, name), f'<path class="l" d="M{x + 6} 70V262"/>']
    for y, words, kind in steps:
        shapes += [f'<circle class="{kind}" cx="{x + 6}" cy="{y}" r="5"/>',
                   text(x + 20, y + 4, words, kind)]
    return shapes


def clearance() -> str:
    """Returns two workers that attempt one line, in the two orders that there are."""
    both = [(100, "intent 1.1 of line 7 is kept", "i"), (170, "reads journal 2: finds 2.1", "f"),
            (200, "taken: not started", "tested")]
    other = [(130, "intent 2.1 of line 7 is kept", "i"), (224, "reads journal 1: finds 1.1", "f"),
             (254, "taken: not started", "tested")]
    first = [(100, "intent 1.1 of line 7 is kept", "i"), (130, "reads journal 2: nothing", "f"),
             (160, "clear: starts the command", "proved")]
    second = [(184, "intent 2.1 of line 7 is kept", "i"), (224, "reads journal 1: finds 1.1", "f"),
              (254, "taken: not started", "tested")]
    shapes = [
        text(20, 28, "one looks before the other has its intent"),
        *lane(20, "worker 1", first), *lane(260, "worker 2", second),
        text(530, 28, "both have their intents before either looks"),
        *lane(530, "worker 1", both), *lane(770, "worker 2", other),
        text(20, 294, "Time runs downwards. Each looks only after its own intent is on the disk, so"
             " the later of the two looks finds the other's intent."),
    ]
    return picture(1010, 312, "Two workers and clearance",
                   "Two workers attempt line 7. Each keeps its intent on the disk, and then reads"
                   " the other's journal. If one looks before the other has its intent, it starts"
                   " the command, and the other finds the line taken. If both have their intents"
                   " before either looks, both find the line taken, and it waits for a later"
                   " round.", shapes)


PICTURES = {"architecture": architecture, "life": life, "append": append, "clearance": clearance}


def path_of(root: str, name: str) -> str:
    """Returns the path of a picture, from the top of the repository."""
    return f"{root}/{FOLDER}/{name}.svg"


def write(root: str) -> None:
    """Writes all pictures."""
    os.makedirs(f"{root}/{FOLDER}", exist_ok=True)
    for name, draw in PICTURES.items():
        with open(path_of(root, name), "w", encoding="utf-8") as file:
            file.write(draw())


def is_current(root: str, name: str) -> bool:
    """Returns true if the file of a picture is what is drawn."""
    path = path_of(root, name)
    if not os.path.isfile(path):
        return False
    with open(path, encoding="utf-8") as file:
        return file.read() == PICTURES[name]()
