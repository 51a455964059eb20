"""System calls of a process: as the tables of docs/assurance/host.md name them, and as strace logs
them."""

from __future__ import annotations

import os
import re
from typing import Iterator, NamedTuple, Optional

SYNCS = ("fsync", "fdatasync")
# Calls that a method makes as often as it has bytes or names to move.
MOVES = ("read", "pread", "write", "getdents64", "readlink")
NAMES = {"pread64": "pread", "pwrite64": "pwrite", "statx": "stat", "newfstatat": "stat",
         "renameat": "rename", "renameat2": "rename", "unlinkat": "unlink", "linkat": "link",
         "mkdirat": "mkdir", "readlinkat": "readlink", "nanosleep": "sleep",
         "clock_nanosleep": "sleep"}
LINE = re.compile(r"(\w+)\((.*)\) += (-?\d+|\?)[^ ]*(?: (E[A-Z0-9]+) .*)?")
TEXT = re.compile(r'"((?:[^"\\]|\\.)*)"')
HANDLE = re.compile(r"(\d+)<([^>]*)>")
STREAMS = {"0": "IN", "1": "OUT", "2": "ERR"}
# Paths of the system, and by which names a table calls them.
SYSTEM = {r"/proc/self": "/proc/self", r"/proc/(self|\d+)/fdinfo/\d+": "fdinfo",
          r"/proc/(self|\d+)/mountinfo": "mountinfo", r"/proc/fs/ext4/[^/]+/options": "options",
          r"/proc/sys/kernel/random/uuid": "uuid", r"/sys(/.*)?": "device"}
# The names that a door draws: of a file in the run's folder, and of a folder in the one above.
DRAWN_FILE = re.compile(r"door\.[0-9a-f]{32}\.new")
DRAWN_FOLDER = re.compile(r"\.new-[0-9a-f]{32}(?:/(.+))?")

Call = tuple[str, ...]


class Row(NamedTuple):
    """A row of a table: the calls of a method, and how many of them are syncs."""

    calls: list[Call]
    syncs: int


Rows = dict[str, Row]


def syncs_in(calls: list[Call]) -> int:
    """Returns how many of these calls are syncs."""
    return sum(call[0] in SYNCS for call in calls)


def shown(calls: list[Call]) -> str:
    """Returns calls as a table shows them."""
    return ", ".join(f"`{' '.join(call)}`" for call in calls) or "nothing"


# The tables.

def cells_of(line: str) -> list[str]:
    """Returns the cells of a line of a table."""
    return [cell.strip() for cell in line.strip().strip("|").split("|")]


def calls_in(cell: str) -> list[Call]:
    """Returns the calls that a cell names, each between backticks."""
    return [tuple(text.split()) for text in re.findall(r"`([^`]*)`", cell)]


def lines_of(page: str) -> Iterator[tuple[str, list[str]]]:
    """Yields the lines of the tables, each with the heading above it."""
    title = ""
    for line in page.splitlines():
        if line.startswith("#"):
            title = line.strip("# `")
        elif line.startswith("| `"):
            yield title, cells_of(line)


def replaced(calls: list[Call], file: str) -> list[Call]:
    """Returns the calls with this file in place of F."""
    return [tuple(re.sub(r"\bF\b", file, word) for word in call) for call in calls]


def expanded(calls: list[Call], groups: dict[str, list[Call]]) -> list[Call]:
    """Returns the calls with those of a group in the place of its name."""
    found = []
    for call in calls:
        group = groups.get(call[0])
        if group is None:
            found.append(call)
        else:
            found += expanded(replaced(group, (*call, "F")[1]), groups)
    return found


def read_tables(page: str, titles: tuple[str, ...]) -> Rows:
    """Returns the rows of the tables of methods, which have these titles. A method's row is named
    by its table and its name."""
    groups: dict[str, list[Call]] = {}
    rows: Rows = {}
    for title, cells in lines_of(page):
        name = cells[0].replace("`", "").replace(",", "")
        if title == "Groups":
            groups[name.split()[0]] = calls_in(cells[1])
        elif title in titles:
            rows[f"{title} {name}"] = Row(expanded(calls_in(cells[1]), groups), int(cells[2]))
    return rows


# The logs.

class Names(NamedTuple):
    """The paths of a run, and by which names a table calls their files."""

    run: str
    jobs: str
    boot: str

    def of(self, path: str) -> Optional[str]:
        """Returns the name of a path, if it has one."""
        path = path.removesuffix(" (deleted)").rstrip("/")
        known = {self.run: "run", self.jobs: "list", self.boot: "boot",
                 os.path.dirname(self.run): "above"}
        if path in known:
            return known[path]
        for form, name in SYSTEM.items():
            if re.fullmatch(form, path):
                return name
        return self.behind(path[len(self.run):]) if path.startswith(self.run) else None

    @staticmethod
    def behind(rest: str) -> Optional[str]:
        """Returns the name of what stands behind the run's path: a file in that folder, or the
        folder that gets its name later, or a file of that."""
        if rest.startswith("/"):
            return "beside" if DRAWN_FILE.fullmatch(rest[1:]) else rest[1:]
        found = DRAWN_FOLDER.fullmatch(rest)
        if not found:
            return None
        return f"beside.{found[1]}" if found[1] else "beside"


def mode_of(words: str) -> str:
    """Returns the way in which a file is opened: r, rw, rwc, wct or wcx."""
    how = "rw" if "O_RDWR" in words else "w" if "O_WRONLY" in words else "r"
    return how + "".join(letter for letter, flag in (("c", "O_CREAT"), ("t", "O_TRUNC"),
                                                     ("x", "O_EXCL")) if flag in words)


def files_in(at: bool, words: str, names: Names) -> list[Optional[str]]:
    """Returns the files that a call names: by their paths, else by its handle. If `at` is true,
    the paths are those of files in the folder of the handle."""
    paths = [path for path in TEXT.findall(words) if path]
    handle = HANDLE.match(words)
    if not handle or words.startswith("AT_FDCWD"):
        return [names.of(path) for path in paths]
    if at:
        return [names.of(os.path.normpath(f"{handle[2]}/{path}")) for path in paths]
    return [STREAMS.get(handle[1]) or names.of(handle[2])]


def more_of(name: str, words: str) -> list[str]:
    """Returns the further cells of a table on a call."""
    if name == "openat":
        return [mode_of(words)]
    if name == "flock":
        how = "ex" if "LOCK_EX" in words else "sh" if "LOCK_SH" in words else "un"
        return [how] if "LOCK_NB" in words else [how, "waits"]
    return []


def name_of(call: str, words: str) -> str:
    """Returns the name by which a table calls a call."""
    name = NAMES.get(call, call)
    if name == "fcntl" and "F_DUPFD" in words:
        return "dup"
    if name == "stat" and "AT_EMPTY_PATH" in words:
        return "fstat"
    return name


def call_in(line: str, names: Names) -> Optional[Call]:
    """Returns the call of a line of the log, if it is one that counts."""
    found = LINE.match(line)
    if not found:
        return None
    name, words, error = name_of(found[1], found[2]), found[2], found[4]
    if name == "sleep":
        return (name,)
    files = files_in(found[1] in ("openat", "unlinkat"), words, names)
    if name == "readlink":
        return (name, "device") if files[0] == "device" else None
    if name in ("fcntl", "lseek", "execve") or not files or None in files or "device" in files:
        return None
    return (name, *[str(it) for it in files], *more_of(name, words), *([error] if error else []))


def read_log(path: str, names: Names) -> list[Call]:
    """Returns the calls of a log. Those that move the bytes of a file one after the other are
    one."""
    calls: list[Call] = []
    with open(path, encoding="utf-8", errors="replace") as file:
        for line in file:
            call = call_in(line, names)
            repeats = calls and call == calls[-1] and call[0] in MOVES and call[1] != "words"
            if call and not repeats:
                calls.append(call)
    return calls
