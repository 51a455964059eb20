"""One file of appends, as it stands between a process that appends to it and a stop of the machine.

Journals and the operators' resolutions have this form. The model decides the content of an append.
"""

from __future__ import annotations

from typing import Any, Iterator, NamedTuple, Tuple

Appends = Tuple[Any, ...]


class Journal(NamedTuple):
    """The appends of a file. By the design at most one append is loose or hidden."""
    kept: Appends = ()  # every stop leaves these
    loose: Appends = ()  # is read, but a stop may take it, and it may vanish without a stop
    hidden: Appends = ()  # its append failed: it isn't read, but a stop may leave it

    def visible(self) -> Appends:
        """Returns the appends that a reader finds."""
        return self.kept + self.loose

    def acknowledged(self, append: Any) -> Journal:
        """Returns the journal after its writer learned that this append is kept."""
        return Journal(self.visible() + (append,))

    def unconfirmed(self, append: Any) -> Journal:
        """Returns the journal after an append that took effect, which its writer never learned."""
        return Journal(self.kept, self.loose + (append,))

    def failed(self, append: Any) -> Journal:
        """Returns the journal after an append that failed, and may be on the disk all the same."""
        return Journal(self.kept, self.loose, (append,))

    def recovered(self) -> Journal:
        """Returns the journal after the holder of its lock has recovered it."""
        return Journal(self.visible())

    def stopped(self) -> Iterator[Journal]:
        """Yields what a stop of the machine may leave."""
        tail = self.loose + self.hidden
        for length in range(len(tail) + 1):
            yield Journal(self.kept + tail[:length])
