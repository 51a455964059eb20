#!/usr/bin/env python3
"""Shows that an example program refuses registers that are gone, copied, of an earlier boot or of
other numbers, and that two of them wait for each other.

  boot.py FOLDER LIBRARIES CREW OTHER [CHECK]

CREW is crew, and OTHER another example that may share its file, such as examples/python/crew.py.
Each is given FILE JOBS WORKERS P. The folder LIBRARIES has tools/kill_after.c and tools/c/relink.c,
built as shared libraries. The files lie in FOLDER. With CHECK, which names a function here, CREW
has a mistake, and that check must find it.

The last line has the number of checks; the status is 0 if all was so.
"""

from __future__ import annotations

import fcntl
import os
import shlex
import shutil
import subprocess
import sys
import time
from typing import Callable, Dict, List, Optional, Tuple

ALL = [1, 2, 3]  # one worker alone performs all 3 jobs
REAL = "/proc/sys/kernel/random/boot_id"
EARLIER = "00000000-0000-0000-0000-000000000000\n"
NUMBERS = "1 3\n"  # 1 worker and 3 jobs, in the second line of FILE.boot
MAKING = "making\n"  # its third line until FILE has registers
LONGEST = 120  # seconds that a process may take


class Wrong(Exception):
    """A mistake of a program."""


def want(so: object, what: str) -> None:
    if not so:
        raise Wrong(what)


class Room:
    """The folder, the programs, and the files of one check."""

    def __init__(self, folder: str, libraries: str, crew: str, other: str):
        os.makedirs(folder)
        self.folder, self.crew, self.other = folder, crew, other
        self.killer, self.relink = f"{libraries}/kill_after.so", f"{libraries}/relink.so"
        self.file = f"{folder}/words"
        self.boot = f"{self.file}.boot"
        self.jobs, self.workers = 3, 1

    def words(self, program: str, file: str = "") -> List[str]:
        return [*shlex.split(program), file or self.file, str(self.jobs), str(self.workers), "1"]

    def run(self, program: str, file: str = "", **more: str) -> Tuple[int, List[int], str]:
        """Runs a program as worker 1, which is the only one of 3 jobs unless a check sets other
        numbers. Returns its status, the jobs that it has performed, and what it printed on standard
        error."""
        ran = subprocess.run(self.words(program, file), stdin=subprocess.DEVNULL, timeout=LONGEST,
                             capture_output=True, text=True, env={**os.environ, **more})
        return ran.returncode, [int(it.split()[1]) for it in ran.stdout.splitlines()], ran.stderr

    def run_in_shell(self, program: str, streams: str) -> int:
        """Runs a program with other standard streams, such as `<&-`. Returns its status."""
        words = ["bash", "-c", f'exec "$@" {streams}', "bash", *self.words(program)]
        return subprocess.run(words, stdin=subprocess.DEVNULL, timeout=LONGEST,
                              capture_output=True).returncode

    def refuses(self, program: str, why: str, file: str = "") -> None:
        """Has a program refuse the registers, and perform no job."""
        status, jobs, said = self.run(program, file)
        want(status not in (0, -9) and not jobs and why in said,
             f"{program}: status {status}, jobs {jobs}, `{why}` isn't in: {said}")

    def performs(self, program: str, jobs: List[int], file: str = "") -> None:
        """Has a program perform these jobs."""
        found = self.run(program, file)
        want(found[:2] == (0, jobs), f"{program}: {found}; it must perform {jobs}")


def gone(room: Room) -> None:
    """Registers that are gone are refused. If FILE.boot is gone too, which is a wrong use, each job
    is performed again."""
    room.performs(room.crew, ALL)
    os.unlink(room.file)
    for program in (room.crew, room.crew, room.other):  # the first one leaves an empty file
        room.refuses(program, "they are gone")
    os.unlink(room.boot)
    room.performs(room.crew, ALL)


def gone_for_another(room: Room) -> None:
    """Registers that another program has made, and that are gone, are refused."""
    room.performs(room.other, ALL)
    os.unlink(room.file)
    room.refuses(room.crew, "they are gone")


def earlier_boot(room: Room) -> None:
    """Registers of an earlier boot are refused, and those of this boot are gone on with."""
    room.performs(room.crew, ALL)
    for text in (EARLIER, f"{EARLIER}{NUMBERS}", ""):
        with open(room.boot, "w", encoding="ascii") as file:
            file.write(text)
        for program in (room.crew, room.other):
            room.refuses(program, "of an earlier boot")
    with open(room.boot, "w", encoding="ascii") as file, open(REAL, encoding="ascii") as real:
        file.write(real.read() + NUMBERS)
    for program in (room.crew, room.other):
        room.performs(program, [])


def without_note(room: Room) -> None:
    """Registers beside which FILE.boot is missing are refused: a copy, a hard link, and those whose
    FILE.boot was moved away."""
    room.performs(room.crew, ALL)
    shutil.copy(room.file, f"{room.file}.copy")
    os.link(room.file, f"{room.file}.hard")
    for file in (f"{room.file}.copy", f"{room.file}.hard"):
        for program in (room.crew, room.other):
            room.refuses(program, "it is missing", file)
    os.rename(room.boot, f"{room.boot}.kept")
    room.refuses(room.crew, "it is missing")
    os.symlink("nowhere", room.boot)
    room.refuses(room.crew, "it is missing")
    os.unlink(room.boot)
    os.symlink("words.boot", room.boot)  # a link to itself, which can't be looked at
    room.refuses(room.crew, room.boot)
    os.rename(f"{room.boot}.kept", room.boot)
    room.performs(room.crew, [])


def other_numbers(room: Room) -> None:
    """Registers of other numbers are refused, also if they are as many."""
    # beside word 0: 2 announcements, 2 claims and 2 rows of 10, or 3 of each and 3 rows of 6
    room.jobs, room.workers = 9, 2
    want(room.run(room.crew)[0] == 0, "it doesn't perform 9 jobs of 2 workers")
    room.jobs, room.workers = 5, 3
    for program in (room.crew, room.other):
        room.refuses(program, "its second line isn't")
    room.jobs, room.workers = 9, 2
    with open(room.boot, "r+", encoding="ascii") as file:
        file.truncate(len(file.readline()))
    for program in (room.crew, room.other):
        room.refuses(program, "its second line isn't")


def closed_stream(room: Room) -> None:
    """While a standard stream is closed, no file is opened, which would get its number."""
    for program in (room.crew, room.other):
        for streams in ("<&-", ">&-", "2>&-"):
            status = room.run_in_shell(program, streams)
            want(status not in (0, -9) and not os.path.exists(room.boot),
                 f"{program} {streams}: status {status}")
    room.performs(room.crew, ALL)


def unprinted_doubt(room: Room) -> None:
    """A doubt that can't be printed isn't recorded, so the next process reports it."""
    want(room.run_in_shell(room.crew, ">/dev/full") == 1, "it takes a job for written")
    for program in (room.crew, room.other):
        want(room.run_in_shell(program, "2>/dev/full") == 1,
             f"{program}: it goes on without its report")
    found = room.run(room.crew)
    want(found == (0, [2, 3], "job 1 is in doubt\n"), f"it prints {found}")


def relinked(room: Room) -> None:
    """If a link leads elsewhere while it is resolved, registers and locks are those of one file."""
    one, two, link = (f"{room.file}.{it}" for it in ("one", "two", "link"))
    room.performs(room.crew, ALL, one)
    room.run(room.crew, two, LD_PRELOAD=room.killer, KILLED_AFTER="5")  # the registers are made
    os.symlink("words.one", link)
    found = room.run(room.crew, link, LD_PRELOAD=room.relink, RELINKED=link, TARGET="words.two")
    want(found[:2] == (0, ALL) and os.path.exists(f"{two}.1"),
         f"{found}; it must perform the jobs of the second file, by the lock of that file")


def without_room(room: Room) -> None:
    """The registers have room on the disk once they are made, before the first store."""
    room.run(room.crew, LD_PRELOAD=room.killer, KILLED_AFTER="5")
    found = os.stat(room.file)
    want(0 < found.st_size <= 512 * found.st_blocks, f"{found.st_blocks} blocks have room")


def noted_first(room: Room) -> None:
    """FILE.boot is on the disk, with its name, before FILE has registers."""
    calls = f"{room.folder}/calls"
    room.run(room.crew, LD_PRELOAD=room.killer, CALLS=calls)
    with open(calls, encoding="utf-8") as file:
        found = file.read().splitlines()
    expected = [f"write {room.boot}", f"sync {room.boot}", f"sync {room.folder}",
                f"cut {room.file}", f"cut {room.boot}"]
    want(found == expected, f"the calls are {found}, and must be {expected}")


def stopped_between(room: Room) -> None:
    """After a kill at each of these calls, or its failure, the next process goes on, and performs
    what the first one hasn't. If FILE.boot could not be written, it refuses the registers."""
    for number in (1, 2, 3, 4, 5, 6):
        for how in ("KILLED_AFTER", "FAILED"):
            file = f"{room.file}.{how}.{number}"
            first = room.run(room.crew, file, LD_PRELOAD=room.killer, **{how: str(number)})
            if number == 6:  # there is no such call
                want(first[:2] == (0, ALL), f"without a stop: {first}")
                room.performs(room.crew, [], file)
                continue
            want(first[0] == (-9 if how == "KILLED_AFTER" else 1) and not first[1],
                 f"{how} {number}: {first}")
            if (how, number) == ("FAILED", 1):
                room.refuses(room.crew, "they are gone", file)
            else:
                room.performs((room.crew, room.other)[number % 2], ALL, file)


def unfinished(room: Room) -> None:
    """Registers that a process has begun to make are gone on with for this boot and these numbers
    alone, and not if their file was cut."""
    with open(REAL, encoding="ascii") as real:
        boot = real.read()
    cases = [(f"{EARLIER}{NUMBERS}{MAKING}", 0, "they are gone"), ("", 0, "they are gone"),
             (f"{boot}1 4\n{MAKING}", 0, "they are gone"), (f"{boot}{NUMBERS}", 0, "they are gone"),
             (f"{boot}{NUMBERS}{MAKING}", 8, "its second line isn't")]
    for text, size, why in cases:
        with open(room.boot, "w", encoding="ascii") as note, open(room.file, "wb") as file:
            note.write(text)
            file.truncate(size)
        for program in (room.crew, room.other):
            room.refuses(program, why)


def removed_meanwhile(room: Room) -> None:
    """If FILE is removed while a process makes the registers, that process refuses them."""
    found = room.run(room.crew, LD_PRELOAD=room.killer, REMOVED_AFTER="4", REMOVED=room.file)
    want(found[0] == 1 and not found[1] and "it was removed while it was made" in found[2],
         f"{found}; it must refuse the registers")


def made_by_two(room: Room) -> None:
    """While another process makes the registers, the program waits, and then goes on with them."""
    first = f"{room.file}.first"
    room.performs(room.crew, ALL, first)
    with open(room.file, "wb") as maker:
        fcntl.flock(maker, fcntl.LOCK_EX)
        program = subprocess.Popen(room.words(room.crew), stdin=subprocess.DEVNULL,
                                   stdout=subprocess.PIPE, stderr=subprocess.PIPE, text=True)
        waits = await_wait(program)
        if waits:
            shutil.copy(f"{first}.boot", room.boot)
            maker.truncate(os.stat(first).st_size)
    out, said = program.communicate(timeout=LONGEST)
    want(waits, "it doesn't wait for the lock on FILE")
    want((program.returncode, out) == (0, "job 1\njob 2\njob 3\n"), f"{out}{said}")


def one_number(room: Room) -> None:
    """By a link to FILE too, the program waits while another process has its number."""
    room.performs(room.crew, ALL)
    os.symlink("words", f"{room.file}.link")
    with open(f"{room.file}.1", "wb") as lock:
        fcntl.flock(lock, fcntl.LOCK_EX)
        program = subprocess.Popen(room.words(room.crew, f"{room.file}.link"), text=True,
                                   stdin=subprocess.DEVNULL, stdout=subprocess.PIPE)
        waits = await_wait(program)
    out = program.communicate(timeout=LONGEST)[0]
    want(waits, "it doesn't wait for the lock of its number")
    want((program.returncode, out) == (0, ""), f"status {program.returncode}: {out}")


def await_wait(program: subprocess.Popen[str]) -> bool:
    """Waits until a process waits for a lock. Returns false if the process has ended instead."""
    while program.poll() is None:
        with open("/proc/locks", encoding="ascii") as file:
            rows = [it.split() for it in file]
        if any(it[1] == "->" and str(program.pid) in it for it in rows):
            return True
        time.sleep(0.01)
    return False


CHECKS: Dict[str, Callable[[Room], None]] = {
    it.__name__: it for it in (gone, gone_for_another, earlier_boot, without_note, other_numbers,
                               noted_first, stopped_between, unfinished, removed_meanwhile,
                               made_by_two, one_number, closed_stream, unprinted_doubt, relinked,
                               without_room)}


def mistake_of(check: Callable[[Room], None], room: Room) -> Optional[Wrong]:
    """Returns what a check finds, or None."""
    try:
        check(room)
    except Wrong as wrong:
        return wrong
    return None


def main(folder: str, libraries: str, crew: str, other: str, planted: str = "") -> int:
    if planted:
        found = mistake_of(CHECKS[planted], Room(f"{folder}/{planted}", libraries, crew, other))
        print(f"found: {found}" if found else f"{planted}: the mistake isn't found")
        return int(not found)
    for name, check in CHECKS.items():
        found = mistake_of(check, Room(f"{folder}/{name}", libraries, crew, other))
        if found:
            print(f"{name}: {found}")
            return 1
    print(f"{len(CHECKS)} checks")
    return 0


if __name__ == "__main__":
    sys.exit(main(*sys.argv[1:]))
