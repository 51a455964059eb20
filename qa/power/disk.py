"""A disk with a volatile write cache, which qemu reaches by the protocol of NBD.

A cut may lose the writes that the guest hasn't flushed: all of them, none, or any of their sectors.
Each write and each flush stands in a log, of which `states.py` makes further disks.
"""

from __future__ import annotations

import mmap
import os
import random
import socket
import struct
import subprocess
from operator import ne
from typing import Callable, Dict, Iterator, List, NamedTuple, Tuple

# The bytes that a disk writes whole. README.md says why they differ.
SECTOR = {"ext4": 512, "xfs": 4096, "btrfs": 4096}
SUPERBLOCK = range(1024, 2048)  # of ext4; it is written whole
# The greeting in NBD's old form, which offers nothing to agree on.
MAGIC, OLD_MAGIC, REPLY_MAGIC = b"NBDMAGIC", 0x420281861253, 0x67446698
HAS_FLAGS, SENDS_FLUSH, SENDS_FUA, FORCED = 1, 4, 8, 1
READ, WRITE, DISCONNECT, FLUSH = 0, 1, 2, 3
HEAD, MOST_READ, EIO = 28, 1 << 20, 5
RECORD = b"intent "  # in each write that has a page of a journal
# How a cut treats what wasn't flushed; see `left_of`.
HOWS = ("none", "all", "drawn", "drawn", "front", "writes")

Piece = Tuple[int, bytes]  # a place, and the bytes there
Fault = Tuple[str, int]  # `write`, `flush` or `append`, and which one of them fails once, from 1
NO_FAULT: Fault = ("", 0)


class Entry(NamedTuple):
    """A request to the disk, or what a cut has left: `force` is a write that is kept at once."""

    kind: str  # write, force, flush or cut
    place: int
    data: bytes
    mark: int  # how many lines of the guest came before


class Disk:
    """One disk, from a boot to its cut. `now` is what a read returns, and `kept` what every cut
    leaves. `loose` has the writes since the last flush."""

    def __init__(self, path: str, fs: str, fault: Fault = NO_FAULT, lies: bool = False):
        """Takes the file of the disk. If it `lies`, it acknowledges a flush and does nothing."""
        self.path, self.fs, self.fault, self.lies = path, fs, fault, lies
        self.log: List[Entry] = []
        self.loose: List[Piece] = []
        self.counts: Dict[str, int] = dict.fromkeys("write append flush read failed".split(), 0)
        self.mark: Callable[[], int] = lambda: 0
        self.served: Callable[[], None] = lambda: None
        copy_sparse(path, f"{path}.now")
        self.kept, self.now = mapped(path), mapped(f"{path}.now")
        self.connection, self.of_qemu = socket.socketpair()
        flags, self.rest = HAS_FLAGS | SENDS_FLUSH | SENDS_FUA, b""
        greeting = struct.pack(">QQI124x", OLD_MAGIC, len(self.now), flags)
        self.connection.sendall(MAGIC + greeting)

    def note(self, kind: str, place: int = 0, data: bytes = b"") -> None:
        self.log.append(Entry(kind, place, data, self.mark()))

    def write(self, place: int, data: bytes, is_forced: bool) -> None:
        """Takes a write."""
        self.now[place:place + len(data)] = data
        self.note("force" if is_forced and not self.lies else "write", place, data)
        if is_forced and not self.lies:
            self.kept[place:place + len(data)] = data
        else:
            self.loose.append((place, data))

    def flush(self) -> None:
        """Keeps all writes that came before."""
        if not self.lies:
            self.note("flush")
            put_all(self.kept, self.loose)
            self.loose = []

    def cut(self, how: str, draws: random.Random) -> Tuple[int, int]:
        """Leaves what a cut leaves. Returns how many sectors were loose, and how many stay."""
        count, stay = left_of(self.loose, how, draws, SECTOR[self.fs])
        for place, data in stay:
            self.note("force", place, data)
        self.note("cut")
        put_all(self.kept, stay)
        self.connection.close()
        self.of_qemu.close()
        self.kept.close()
        self.now.close()
        os.unlink(f"{self.path}.now")
        return count, len(stay)

    def serve(self) -> bool:
        """Reads what has come, and serves each whole request. Returns False at the end."""
        data = self.connection.recv(MOST_READ)
        self.rest += data
        place = 0
        while taken := self.take(self.rest[place:place + HEAD], place):
            place += taken
        self.rest = self.rest[place:]
        return bool(data)

    def take(self, head: bytes, place: int) -> int:
        """Serves a request. Returns how many bytes it has; 0 if it isn't whole."""
        if len(head) < HEAD:
            return 0
        _, flags, kind, handle, at, length = struct.unpack(">IHHQQI", head)
        size = HEAD + (length if kind == WRITE else 0)
        if len(self.rest) - place < size:
            return 0
        if kind == DISCONNECT:
            return size
        error, data = 0, b""
        if kind == READ:
            self.counts["read"] += 1
            data = self.now[at:at + length]
        else:
            error = self.change(kind, at, self.rest[place + HEAD:place + size], flags & FORCED)
        self.connection.sendall(struct.pack(">IIQ", REPLY_MAGIC, error, handle) + data)
        if kind != READ:
            self.served()
        return size

    def appends(self, at: int, data: bytes) -> bool:
        """Returns whether a write completes an append to a journal: it changes one byte."""
        return RECORD in data and sum(map(ne, self.now[at:at + len(data)], data)) == 1

    def change(self, kind: int, at: int, data: bytes, is_forced: int) -> int:
        """Takes a write or a flush, and returns the error number. One that fails does nothing."""
        names = ["write", "append"][:1 + self.appends(at, data)] if kind == WRITE else ["flush"]
        for name in names:
            self.counts[name] += 1
        if self.fault in [(it, self.counts[it]) for it in names]:
            self.counts["failed"] += 1
            return EIO
        if kind == WRITE:
            self.write(at, data, bool(is_forced))
        else:
            self.flush()
        return 0


def mapped(path: str) -> mmap.mmap:
    """Returns the bytes of a file, to be read and written in place."""
    with open(path, "r+b") as file:
        return mmap.mmap(file.fileno(), 0)


def copy_sparse(source: str, target: str) -> None:
    subprocess.run(["cp", "--sparse=always", source, target], check=True)


def put_all(target: mmap.mmap, pieces: List[Piece]) -> None:
    """Writes these pieces in their order."""
    for place, data in pieces:
        target[place:place + len(data)] = data


def sectors_of(place: int, data: bytes, sector: int) -> Iterator[Piece]:
    """Yields the parts of a write of which each is written whole."""
    done = 0
    while done < len(data):
        at = place + done
        end = at // sector * sector + sector
        if sector < SUPERBLOCK.stop and at in SUPERBLOCK:
            end = SUPERBLOCK.stop
        yield at, data[done:end - place]
        done = end - place


def left_of(loose: List[Piece], how: str, draws: random.Random,
            sector: int) -> Tuple[int, List[Piece]]:
    """Returns how many sectors are loose, and the pieces that a cut leaves.

    `none` and `all` are the extremes. `drawn` leaves each sector by chance, `front` all before a
    place in the order of writes, and `writes` whole writes by chance. A sector may stay as any of
    the writes left it.
    """
    sectors = [it for place, data in loose for it in sectors_of(place, data, sector)]
    if how == "front":
        return len(sectors), sectors[:draws.randrange(len(sectors) + 1)]
    if how == "writes":
        return len(sectors), [it for it in loose if draws.random() < 0.5]
    share = {"none": 0.0, "all": 1.0, "drawn": draws.choice((0.1, 0.5, 0.9))}[how]
    return len(sectors), [it for it in sectors if draws.random() < share]
