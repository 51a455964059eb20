"""The calls of the system that runners and crews make, each in a few lines and without a rule.

`runner` and `crew` decide nothing here. They need Linux 5.3 (pidfd) and Python 3.9. What each line
of a list costs is in `calls.c`.
"""

from __future__ import annotations

import ctypes
import fcntl
import os
import select
import signal
import time
from contextlib import suppress
from typing import AbstractSet, Any, Callable, Dict, List, NamedTuple, Optional, Tuple

from amo_jobs.call_log import note
from amo_jobs.library import library
from amo_jobs.locks import close_all
from amo_jobs.worker import TEST_BOOT_ID

SET_CHILD_SUBREAPER = 36  # of prctl
ABOVE = 100  # no process gets one of its files under so high a number
SIGNALS = (signal.SIGINT, signal.SIGTERM, signal.SIGHUP)  # by which a program is stopped
IGNORED_BY_PYTHON = (signal.SIGPIPE, signal.SIGXFSZ)  # and handed on by exec, if nobody resets them
LONGEST, PART = 1e6, 512  # seconds of one wait, and bytes of one read
BOOT_ID = "/proc/sys/kernel/random/boot_id"
FRONT = 32  # bytes of `pace.P` for the pace; after them each start has a line


class Process(NamedTuple):
    """A process. A number is given again after its end, so its start belongs to its name."""
    number: int
    start: int  # in ticks since the machine was started


CHILDREN = (ctypes.c_int * 4096)()  # what amo_others has found


def become_subreaper() -> None:
    """Has the kernel make every orphan below this process its child. Raises OSError, also if this
    system can't name a process by a descriptor."""
    os.close(os.pidfd_open(os.getpid()))
    call = ctypes.CDLL(None, use_errno=True).prctl
    if call(SET_CHILD_SUBREAPER, 1, 0, 0, 0):
        raise OSError(ctypes.get_errno(), os.strerror(ctypes.get_errno()), "PR_SET_CHILD_SUBREAPER")


def open_children() -> int:
    """Opens the list of this process's children, which `read_others` reads again and again."""
    path = f"/proc/self/task/{os.getpid()}/children"
    return os.open(path, os.O_RDONLY | os.O_CLOEXEC)


def read_others(file: int, known: int = 0) -> List[int]:
    """Returns the numbers of the children in such a list, those that nobody has reaped too, but
    without one that is known.

    The list is exact for this process's own children, since nobody else reaps them. Raises OSError.
    """
    count = library().amo_others(file, known, CHILDREN, len(CHILDREN))
    if count < 0:
        raise OSError(-count, os.strerror(-count))
    return CHILDREN[:count]


def children_of(number: int) -> List[int]:
    """Returns the children of another process, of all of its threads; none if it is gone."""
    found: List[int] = []
    with suppress(OSError):
        for thread in os.listdir(f"/proc/{number}/task"):
            with suppress(OSError), open(f"/proc/{number}/task/{thread}/children", "rb") as file:
                found += [int(it) for it in file.read().split()]
    return found


def start_of(number: int) -> Optional[int]:
    """Returns when a process was started; None if there is none with this number."""
    with suppress(OSError), open(f"/proc/{number}/stat", "rb") as file:
        return int(file.read().rpartition(b")")[2].split()[19])
    return None


def program_of(number: int) -> str:
    """Returns the base name of the file that a process executes; an empty text if the system
    doesn't show it."""
    with suppress(OSError):
        path = os.readlink(f"/proc/{number}/exe")
        deleted = " (deleted)"
        return os.path.basename(path[:-len(deleted)] if path.endswith(deleted) else path)
    return ""


def words_of(number: int) -> List[str]:
    """Returns the words of a process's command line; none if the system doesn't show them."""
    with suppress(OSError), open(f"/proc/{number}/cmdline", "rb") as file:
        text = file.read().rstrip(b"\0").decode("utf-8", "replace")
        return text.split("\0") if text else []
    return []


def files_of(number: int, is_locked: bool = False) -> List[str]:
    """Returns the paths of a process's open files, as far as the system shows them. If `is_locked`,
    returns those whose lock it holds, and not those that it has opened anew."""
    found: List[str] = []
    with suppress(OSError):
        for file in os.listdir(f"/proc/{number}/fd"):
            with suppress(FileNotFoundError):
                if not is_locked or has_lock(f"/proc/{number}/fdinfo/{file}"):
                    found.append(os.readlink(f"/proc/{number}/fd/{file}"))
    return found


def has_lock(path: str) -> bool:
    """Returns whether the system shows a lock in this description of a file's handle."""
    with open(path, "rb") as file:
        return b"\nlock:" in file.read()


def send(process: Process, number: int) -> None:
    """Sends a signal to this process and to no other one. Raises OSError, but not if the process is
    gone."""
    with suppress(ProcessLookupError):
        handle = os.pidfd_open(process.number)
        try:
            if start_of(process.number) == process.start:
                signal.pidfd_send_signal(handle, number)
        finally:
            os.close(handle)


def keep_from_commands() -> None:
    """Has exec close the descriptors that the caller of this program left open. (Python's own files
    are made so.)"""
    for file in map(int, os.listdir("/proc/self/fd")):
        with suppress(OSError):
            os.set_inheritable(file, file < 3)


def drawn(low: float, high: float) -> float:
    """Returns a random number between these two. (The module for that takes long to import.)"""
    return low + (high - low) * int.from_bytes(os.urandom(4), "big") / (1 << 32)


def reap() -> Tuple[Dict[int, int], bool]:
    """Reaps the children that have ended. Returns their statuses by their numbers, and whether any
    child is left. A status below 0 is the negative of a signal."""
    found: Dict[int, int] = {}
    try:
        while True:
            number, status = os.waitpid(-1, os.WNOHANG)
            if not number:
                return found, True
            found[number] = os.waitstatus_to_exitcode(status)
            note("gone", number)
    except ChildProcessError:
        return found, False


def spawn(words: List[bytes], files: Dict[int, int]) -> int:
    """Starts a program in a session of its own, and returns its process. It gets these files alone:
    each number has one of this process's descriptors. Standard input is empty if it isn't given.

    Raises OSError only if no process was made, or if the program could not be executed and the
    child was reaped.
    """
    lifted: List[int] = []  # those whose number one of the child's files has
    actions: List[Any] = [(os.POSIX_SPAWN_OPEN, 0, os.devnull, os.O_RDWR, 0)]
    try:
        for number, file in files.items():
            if file in files:
                file = fcntl.fcntl(file, fcntl.F_DUPFD_CLOEXEC, ABOVE)
                lifted.append(file)
            actions.append((os.POSIX_SPAWN_DUP2, file, number))
        return os.posix_spawnp(words[0], words, os.environb, file_actions=actions, setsid=True,
                               setsigdef=IGNORED_BY_PYTHON)
    finally:
        close_all(lifted)


def sign(path: str) -> None:
    """Writes this process's number into a file whose lock it has, so that others can name it."""
    with suppress(OSError), open(path, "w", encoding="ascii") as file:
        file.write(f"{os.getpid()}\n")


def signed(path: str) -> int:
    """Returns the number of the process that has signed this file; 0 if none has."""
    with suppress(OSError, ValueError), open(path, encoding="ascii") as file:
        return int(file.read())
    return 0


def this_boot() -> Tuple[str, int]:
    """Returns the id of this boot, and when it was, in seconds since 1970. Raises OSError."""
    with open(os.environ.get(TEST_BOOT_ID) or BOOT_ID) as file:
        return file.read().strip(), int(time.time() - time.clock_gettime(time.CLOCK_BOOTTIME))


def note_start(run: str, worker: int, what: str) -> None:
    """Notes in `pace.P` that a process of a worker is about to be started, for a report alone: if
    it can't be written, it is left out. A line that a kill cuts off doesn't touch the next one. The
    caller has the lock of this number."""
    with suppress(OSError), open(f"{run}/pace.{worker}", "ab") as file:
        boot, booted = this_boot()
        text = f"\n{what} {int(time.time())} {booted} {boot}"
        file.write(b" " * (FRONT - file.tell()) + text.encode())


def note_pace(run: str, worker: int, begun: float, ended: int) -> None:
    """Notes since when a runner has been at work, and how many commands have ended."""
    with suppress(OSError), open(f"{run}/pace.{worker}", "r+b", 0) as file:
        file.write(b"%19.3f %12d" % (begun, ended))


def keep_signals(take: Callable[[int], object]) -> None:
    """Hands SIGNALS to a call. One that was ignored at the start, as under nohup, stays ignored."""
    for number in SIGNALS:
        if number == signal.SIGTERM or signal.getsignal(number) != signal.SIG_IGN:
            signal.signal(number, lambda number, _: take(number))


class Bell:
    """A pipe that wakes a process which waits, whenever a child has ended or a signal has come."""

    def __init__(self) -> None:
        self.wake, self.ring = os.pipe2(os.O_NONBLOCK | os.O_CLOEXEC)
        self.signals: List[int] = []
        self.set_files([], [])
        signal.set_wakeup_fd(self.ring, warn_on_full_buffer=False)
        signal.signal(signal.SIGCHLD, lambda *_: None)
        keep_signals(lambda number: self.signals.append(number))

    def wait(self, reads: List[int], writes: List[int], seconds: float) -> AbstractSet[int]:
        """Waits until it rings, one of these files is ready, or so many seconds are over. Returns
        the files that are ready; `wake` is one of them if it has rung. Raises OSError."""
        if reads != self.reads or writes != self.writes:
            self.set_files(reads, writes)
        ready = dict(self.poll(1000 * min(max(seconds, 0), LONGEST))).keys()
        if self.wake in ready:
            os.read(self.wake, PART)
        return ready

    def set_files(self, reads: List[int], writes: List[int]) -> None:
        """Takes the files that are to be polled."""
        self.reads, self.writes, files = [*reads], [*writes], select.poll()
        for file in (self.wake, *reads):
            files.register(file, select.POLLIN)
        for file in writes:
            files.register(file, select.POLLOUT)
        self.poll = files.poll

    def taken(self) -> List[int]:
        """Returns the signals that came since the last call, in their order."""
        found, self.signals = self.signals, []
        return found
