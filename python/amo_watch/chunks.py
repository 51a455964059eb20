"""The other chunks of a shared list that this machine has, for the numbers of all of them."""

from __future__ import annotations

import os
import re
import time
from contextlib import suppress
from typing import Dict, Iterator, List

from amo_jobs.files import content
from amo_jobs.messages import End
from amo_jobs.settings import Settings
from amo_jobs.worker import Program
from amo_watch.figures import Figures, figures_of
from amo_watch.snapshot import snapshot_of

EVERY = 60.0  # seconds; an operator may answer, which changes the numbers of a chunk
CHUNK = re.compile(r"chunk\.[1-9][0-9]*")


class OtherChunks:
    """The chunks in the folder of an amo_share, but for the one whose crew this is."""

    def __init__(self, settings: Settings, program: Program):
        self.folder, self.own = settings.shared, os.path.basename(settings.run)
        self.program = Program(program.path, settings.file_system)  # each has its own id
        self.found: Dict[str, Figures] = {}
        self.due = 0.0

    def figures(self) -> List[Figures]:
        """Returns the figures of these chunks. Each is read at first, and once a minute unless all
        of its lines are done."""
        if time.monotonic() >= self.due:
            self.due = time.monotonic() + EVERY
            for name in self.names():
                if not (name in self.found and os.path.exists(f"{self.folder}/{name}/over")):
                    self.read(name)
        return list(self.found.values())

    def names(self) -> Iterator[str]:
        """Yields the folders of the chunks that this machine has."""
        for name in os.listdir(self.folder):
            mark = content(f"{self.folder}/{name}/mark", True) if CHUNK.fullmatch(name) else None
            owner = content(f"{self.folder}/{name}/owner", True) if mark else None
            if name != self.own and mark and owner and owner["mark"] == mark["mark"]:
                yield name

    def read(self, name: str) -> None:
        """Reads a chunk. One that can't be read keeps its numbers; `amo_share` reports it."""
        with suppress(End, OSError):
            self.found[name] = figures_of(snapshot_of(self.program, f"{self.folder}/{name}"))
