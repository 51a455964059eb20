"""The registers that the workers of a run share. Begin with `File`."""

from __future__ import annotations

import ctypes
import errno
import fcntl
import mmap
import os
import struct
import threading
from contextlib import suppress
from functools import partial
from multiprocessing.shared_memory import SharedMemory
from typing import Any, Callable, Dict, NoReturn, Optional, Protocol, Union

from amo._processes import is_forked, is_starting, is_variable
from amo.library import Library, calls, whole

__all__ = ["File", "Shared", "Memory", "Registers", "Guard", "Taken", "size"]
_KEEP_LENGTH = 1  # FALLOC_FL_KEEP_SIZE


class Taken(RuntimeError):
    """Another process, or another part of this one, acts as this worker."""


class Registers(Protocol):
    """What a worker needs of the registers: loads and stores of numbers from 0 to 2^64 - 1.

    All registers are 0 at first, only workers of one run write to them, and all processes see the
    accesses in one order. Any object with these two methods will do. If it has a third method,
    `guard(number)`, that returns a `Guard` or raises `Taken`, a worker calls it when it begins.

    **Without `guard`, make sure that no two workers of one number live at once.** Otherwise jobs
    are performed twice, and nothing shows it.
    """

    def load(self, place: int) -> int:
        """Returns the value of the register at this place."""
        ...

    def store(self, place: int, value: int) -> None:
        """Stores a value in the register at this place, and returns once all see it.

        It may raise an exception, whether the value was stored or not. **A store that fails must
        never land after it returned**, as a request over a network may: the worker reads the
        register anew. Otherwise a job may be performed twice."""
        ...


class Guard:
    """The number of a worker, which is held until this is closed or its process is gone."""

    def __init__(self, give_up: Callable[[], None], file: int = -1):
        """`give_up` gives the number up, and `file` is the descriptor that holds it, if any."""
        self._give_up, self._file, self.is_open = give_up, file, True

    def fileno(self) -> int:
        """Returns the descriptor that holds the number, as does each command that inherits it.
        Raises OSError if no descriptor does."""
        if self._file < 0 or not self.is_open:
            raise OSError(errno.EBADF, "no descriptor holds the number of this worker")
        return self._file

    def close(self) -> None:
        """Gives the number up."""
        if self.is_open:
            self.is_open = False
            self._give_up()

    def __del__(self) -> None:
        self.close()

    def __reduce__(self) -> NoReturn:
        raise TypeError("guard: a copy would give the number up while this one holds it; call the"
                        " `guard` of the registers in the process that holds the number")


def size(workers: int, jobs: int) -> int:
    """Returns how many bytes the registers of a run take.

    >>> size(workers=3, jobs=10)
    320
    """
    return 8 * Library(jobs, workers).word_count()


class _Words:
    """Registers in memory that this process can write, loaded and stored by libamo."""

    _instead = "give each process the path, and open an amo.File there"  # the remedy of errors

    def __init__(self, buffer: Any, workers: int, jobs: int):
        """Takes a buffer that stays where it is, and is 0 at first. Raises ValueError if it is too
        short, or not aligned."""
        self._calls, self._length, self._is_early = calls(), size(workers, jobs), is_starting()
        self.numbers = whole(workers), whole(jobs)
        if memoryview(buffer).nbytes < self._length:
            raise ValueError(f"registers: they have {memoryview(buffer).nbytes} bytes; give"
                             f" {self._length}, or the numbers of the run that made them")
        self._bytes: Any = (ctypes.c_char * self._length).from_buffer(buffer)
        self._start = ctypes.addressof(self._bytes)
        if self._start % 8:
            raise ValueError("registers: they aren't aligned; give a buffer at a multiple of 8")

    def load(self, place: int) -> int:
        """Returns the value of the register at this place."""
        return int(self._calls.amo_load(self._address(place)))

    def store(self, place: int, value: int) -> None:
        """Stores a value in the register at this place."""
        self._calls.amo_store(self._address(place), value)

    def close(self) -> None:
        """Lets go of the memory. No access may follow."""
        self._length, self._start, self._bytes = 0, 0, None

    def _check_process(self) -> None:
        """Raises RuntimeError if each process has registers of its own."""
        if self._is_made_anew():
            raise RuntimeError(f"registers: an import in process {os.getpid()} of multiprocessing"
                               f" has made them, so other processes have others; {self._instead}")

    def _is_made_anew(self) -> bool:
        return False

    def __reduce__(self) -> NoReturn:
        raise TypeError(f"registers: they can't be copied, or sent to a process; {self._instead}")

    def _address(self, place: int) -> int:
        if not 0 <= 8 * place < self._length:
            raise IndexError(f"register {place}: there are {self._length // 8}; open the registers"
                             " anew if they were closed")
        return self._start + 8 * place


class Memory(_Words):
    """Registers for the threads of one process.

    >>> registers = Memory(workers=2, jobs=3)
    >>> registers.load(1)
    0

    **If each process makes a Memory, each performs every job.** Take a `File` for processes.
    """

    _instead = "open an amo.File in each process. A Memory is for threads of one process: make it" \
               " in a function, as a local variable"

    def __init__(self, workers: int, jobs: int):
        """Raises ValueError if a number is beyond its limit."""
        super().__init__(bytearray(size(workers, jobs)), workers, jobs)
        self._process = os.getpid()
        self._locks: Dict[int, threading.Lock] = {it: threading.Lock()
                                                  for it in range(1, workers + 1)}

    def guard(self, number: int) -> Guard:
        """Holds the number of a worker. Raises Taken if another part of this process holds it, and
        RuntimeError in another process."""
        self._check_process()
        lock = self._locks[number]
        if not lock.acquire(blocking=False):
            raise Taken(f"worker {number}: another part of this process has this number; close that"
                        " Worker, or give another number")
        return Guard(lock.release)

    def _check_process(self) -> None:
        if os.getpid() != self._process:
            raise RuntimeError(f"registers: this Memory belongs to process {self._process}, and"
                               f" process {os.getpid()} has a copy; open an amo.File in each")
        super()._check_process()

    def _is_made_anew(self) -> bool:
        return self._is_early or is_variable(self)


class Shared(_Words):
    """Registers in a shared memory, for processes of `multiprocessing`.

    >>> memory = SharedMemory(create=True, size=size(workers=2, jobs=3))
    >>> registers = Shared(memory, workers=2, jobs=3)
    >>> registers.load(1)
    0
    >>> registers.close()  # before the memory
    >>> memory.close()
    >>> memory.unlink()  # once all processes have ended

    Make the memory in the process above them, in a function, and hand it to each. **The memory goes
    with the last process of the tree that made it**: Python unlinks it then. **Begin no new
    registers over the same jobs**, unless a journal of yours shows which jobs were begun. If the
    whole program may be started again, take a `File`. Until Python 3.13, a process that wasn't
    started by `multiprocessing` unlinks the memory when it ends. From then on, SharedMemory takes
    track=False.
    """

    _instead = "make the SharedMemory in a function of the process above, give it to each process" \
               " as an argument, and make an amo.Shared there"

    def __init__(self, memory: SharedMemory, workers: int, jobs: int):
        """Raises ValueError if the memory is too short for the numbers, and OSError."""
        super().__init__(memory.buf, workers, jobs)
        # kept, and freed after the bytes, since a memory that is in use can't be closed
        self._memory, self._path = memory, f"/dev/shm/{memory.name.lstrip('/')}"
        self._inode = os.stat(getattr(memory, "_fd", self._path)).st_ino

    def guard(self, number: int) -> Guard:
        """Holds the number of a worker, by a lock on a byte of the memory's file. Raises Taken if
        another process holds it, and OSError, also if the memory was unlinked."""
        self._check_process()
        try:
            return _guard_by(self._path, os.O_RDWR, number, partial(self._take, number))
        except FileNotFoundError as error:
            raise OSError(error.errno, f"memory `{self._memory.name}`: it was unlinked, so no lock"
                                       f" can hold worker {number}; unlink a memory once all its"
                                       " processes have ended") from None

    def _take(self, number: int, file: int) -> None:
        if os.fstat(file).st_ino != self._inode:
            raise FileNotFoundError(errno.ENOENT, "another memory has the name")
        lock = struct.pack("hhqqi", fcntl.F_WRLCK, os.SEEK_SET, number, 1, 0)
        fcntl.fcntl(file, fcntl.F_OFD_SETLK, lock)

    def _is_made_anew(self) -> bool:
        if not getattr(self._memory, "_flags", 0) & os.O_CREAT:  # it was found by its name
            return False
        return not is_forked() and (self._is_early or is_variable(self, self._memory))


class File(_Words):
    """Registers in a file, which is made if it is missing. Programs in C and Rust may share it.

    >>> import tempfile
    >>> folder = tempfile.TemporaryDirectory()
    >>> registers = File(f"{folder.name}/words", workers=2, jobs=3)
    >>> registers.load(1)
    0

    Choose a file on a local disk, in a folder that nobody cleans: /tmp and /dev/shm aren't. Each
    worker has a lock, the file `PATH.NUMBER`. `PATH.boot` has the boot of the machine, and the
    numbers of workers and jobs. The registers are refused after another boot, since they may lack
    stores. They are refused if `PATH` or `PATH.boot` is gone, and so is a copy or a hard link.

    **Never remove these files to go on with the same jobs**: each job would be handed out again.
    Remove all of them once no worker lives and no job is to come.
    """

    def __init__(self, path: Union[str, "os.PathLike[str]"], workers: int, jobs: int):
        """Raises ValueError if the file belongs to a run with other numbers or to an earlier boot
        of the machine, or if its registers or `PATH.boot` are gone. Raises OSError, also if a
        standard stream is closed."""
        # a link, or another working folder later, leads to the same locks
        self._path, length = os.path.realpath(path), size(workers, jobs)
        _check_streams()
        file = os.open(self._path, os.O_RDWR | os.O_CREAT | os.O_CLOEXEC, 0o600)
        try:
            fcntl.flock(file, fcntl.LOCK_EX)  # since another process may make it too
            self._make_or_check(file, length, _note_of(workers, jobs))
            fcntl.flock(file, fcntl.LOCK_UN)
            super().__init__(mmap.mmap(file, length), workers, jobs)
        finally:
            os.close(file)

    def _make_or_check(self, file: int, length: int, note: str) -> None:
        """Makes the registers of an empty file, or checks those of another one. While the note has
        the last line `making`, no worker has begun: so the next process goes on after a kill."""
        boot, making = f"{self._path}.boot", f"{note}making\n"
        if os.fstat(file).st_size == 0:
            _take_room(self._path, file, length)  # since a store without room ends the process
            _make_note(boot, making)
        if os.fstat(file).st_size in (0, length) and _text_of(boot) == making:
            os.truncate(file, length)
            os.truncate(boot, len(note))
            if not os.path.samestat(os.stat(self._path), os.fstat(file)):
                raise ValueError(f"`{self._path}`: it was removed while it was made; never do that,"
                                 " and use another path")
        _check_note(boot, note)
        if os.fstat(file).st_size != length:
            raise ValueError(f"`{self._path}`: it has {os.fstat(file).st_size} bytes, and its"
                             f" registers have {length}; perform no job of them again, and use"
                             " another path for other jobs")

    def guard(self, number: int) -> Guard:
        """Holds the number of a worker, by a lock on the file `PATH.NUMBER`. Raises Taken if
        another process holds it, and OSError."""
        return _guard_by(f"{self._path}.{number}", os.O_RDWR | os.O_CREAT, number,
                         lambda file: fcntl.flock(file, fcntl.LOCK_EX | fcntl.LOCK_NB))


def _note_of(workers: int, jobs: int) -> str:
    """Returns the text that shows that registers of these numbers were made in this boot."""
    with open("/proc/sys/kernel/random/boot_id", encoding="ascii") as file:
        return f"{file.read()}{whole(workers)} {whole(jobs)}\n"


def _make_note(path: str, note: str) -> None:
    """Makes the file that shows that registers are made, and has it on the disk when this returns.
    Raises ValueError if it has another text: then registers were made, and are gone."""
    found = _text_of(path)
    if found not in (None, note):
        raise ValueError(f"`{path}`: it shows that registers were made, and they are gone; perform"
                         " no job of them again, and use another path for other jobs")
    with open(path, "x" if found is None else "r+", encoding="ascii") as file:
        file.write(note)
    for name in (path, os.path.dirname(os.path.abspath(path))):  # a folder has its files' names
        synced = os.open(name, os.O_RDONLY)
        os.fsync(synced)
        os.close(synced)


def _text_of(path: str) -> Optional[str]:
    """Returns the text of a note; None if the file is missing."""
    with suppress(FileNotFoundError), open(path, encoding="ascii", errors="replace") as file:
        return file.read()
    return None


def _check_note(path: str, note: str) -> None:
    """Raises ValueError if the file is missing, or has another boot or other numbers."""
    found = _text_of(path)
    if found is None:
        raise ValueError(f"`{path}`: it is missing, so the registers may be a copy, or have another"
                         " name; give the path by which they were made, or another path for other"
                         " jobs")
    first, numbers = note.splitlines(keepends=True)
    if not found.startswith(first):
        raise ValueError(f"`{path}`: the registers are of an earlier boot of the machine, so stores"
                         " may be lost; perform no job of them again, and use another path for"
                         " other jobs")
    if found != note:
        raise ValueError(f"`{path}`: its second line isn't `{numbers.strip()}`, the workers and"
                         " jobs that are given; give those of the run that made it. Use another"
                         " path only for other jobs: there each job is handed out again")


def _check_streams() -> None:
    """Raises OSError if a standard stream is closed. A file would get the number of that stream:
    then what is printed goes into the registers, and a new stream drops a lock."""
    for number in (0, 1, 2):
        try:
            os.fstat(number)
        except OSError as error:
            raise OSError(error.errno, f"standard stream {number}: it is closed, so a file would"
                                       " get its number; open it, on /dev/null for example, and"
                                       " begin again") from None


def _take_room(path: str, file: int, length: int) -> None:
    """Takes room on the disk for a file, which keeps its length, if the file system can do so.
    Raises OSError if there is no room."""
    take = ctypes.CDLL(None, use_errno=True).fallocate
    take.argtypes = [ctypes.c_int, ctypes.c_int, ctypes.c_int64, ctypes.c_int64]
    if take(file, _KEEP_LENGTH, 0, length) != 0:
        code = ctypes.get_errno()
        if code not in (errno.EOPNOTSUPP, errno.ENOSYS):
            raise OSError(code, os.strerror(code), path)


def check_registers(registers: Registers, workers: int, jobs: int) -> None:
    """Raises ValueError if the registers are those of this module, and were made for other numbers,
    and RuntimeError if they aren't those of all processes."""
    if not isinstance(registers, _Words):
        return
    registers._check_process()
    if registers.numbers != (workers, jobs):
        made = registers.numbers
        raise ValueError(f"registers: they were made for {made[0]} workers and {made[1]} jobs; give"
                         " these numbers, or other registers for other jobs")


def _guard_by(path: str, flags: int, number: int, lock: Callable[[int], object]) -> Guard:
    """Returns the guard of a number by a lock on this file. The kernel drops the lock with the last
    process that has it."""
    _check_streams()
    file = os.open(path, flags | os.O_CLOEXEC, 0o600)
    try:
        lock(file)
    except BaseException as error:
        os.close(file)
        if not isinstance(error, BlockingIOError):
            raise
        raise Taken(f"worker {number}: another process, or another part of this one, holds its lock"
                    f" `{path}`; give another number, or wait until that has ended, and each child"
                    " that it has forked") from None
    return Guard(lambda: os.close(file), file)
