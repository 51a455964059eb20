"""The lines of a log of calls, as docs/dev/tests.md explains them."""

from typing import List, NamedTuple, Set

from worker.folder import read

END = b" ."
OPERATOR = 0  # the worker's number in the lines of an operator's command


class Line(NamedTuple):
    """A line of a log: its words, and its number."""

    number: int
    words: List[str]

    @property
    def kind(self) -> str:
        return self.words[0]

    @property
    def process(self) -> int:
        return int(self.words[1])

    @property
    def worker(self) -> int:
        return int(self.words[2])

    @property
    def call(self) -> str:
        return self.words[3]

    @property
    def more(self) -> List[str]:
        return self.words[4:]


def lines_in(data: bytes) -> List[Line]:
    """Returns the whole lines of a log. A line begins with its line feed and ends with a dot. One
    without a dot was cut off by a kill of its process, so it counts as not written."""
    found = [(number, it) for number, it in enumerate(data.split(b"\n"), 1) if it.endswith(END)]
    return [Line(number, it[:-len(END)].decode().split(" ")) for number, it in found]


def lines_of(path: str) -> List[Line]:
    """Returns the whole lines of the log of this path; none if it is missing."""
    return lines_in(read(path))


def runs_in(lines: List[Line]) -> Set[str]:
    """Returns the folders of the runs whose processes have written these lines."""
    return {" ".join(it.more) for it in lines if it.kind == "begin"}
