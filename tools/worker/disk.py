"""A simulated disk: the files that a cut of power may leave of a run, by the log of the calls.

For each file it has the bytes that the last sync kept, and the writes and cuts since; for the
folder its names as they were kept, and the makes, renames and removals since. A cut of power leaves
each of the latter there or not, each write torn byte by byte, and each shortening there or not. We
assume that each byte of a torn write is then the old one or the new one, or, after the end that the
file had on the disk, 0 or the new one. After a sync that failed, each byte that it should have kept
is there or not for good: no later sync keeps it, unless it is written again; and so is a
shortening, unless the file is cut again.
"""

import os
import shutil

from worker import headers, journals
from worker.folder import PARTS
from worker.scene import Wrong, want


def records_left(run: str, name: str, data: bytes) -> list:
    """Returns the records in what a disk holds of a journal; it is never damaged."""
    try:
        return journals.records_of(run, name, data)
    except journals.Damaged as damaged:
        raise Wrong(f"{name} would be refused: {damaged}") from damaged


class File:
    """A file: the bytes that are read of it, those that the disk keeps, and the calls since."""

    def __init__(self, data=b""):
        self.now, self.kept, self.pending = bytearray(data), bytearray(data), []

    def write(self, place, data):
        self.now[len(self.now):] = bytes(max(place - len(self.now), 0))
        self.now[place:place + len(data)] = data
        self.pending.append((place, bytes(data)))

    def cut(self, length):
        self.now = self.now[:length].ljust(length, b"\0")
        self.pending.append((length, None))

    def left(self, draws, how):
        """Returns the bytes that a cut of power leaves: nothing of the pending calls, the first of
        them, all of them, or a drawn part."""
        data = bytearray(self.kept)
        for place, new in self.pending[:1 if how == "first" else None]:
            if how in ("first", "all") or how == "drawn" and draws.random() < 0.3:
                data[len(data):] = bytes(max(place - len(data), 0))
                data[place:] = new + data[place + len(new):] if new is not None else b""
            elif how == "drawn" and new is None:
                data = data[:max(place, draws.randint(min(place, len(data)), len(data)))]
            elif how == "drawn" and draws.random() < 0.8:
                self.tear(data, place, new, draws)
        return data

    @staticmethod
    def tear(data, place, new, draws):
        """Tears a write. Each byte is the old one or the new one. After the old end, up to an end
        that is drawn, it is 0 or the new one."""
        end = draws.randint(len(data), max(len(data), place + len(new)))
        data[len(data):] = bytes(end - len(data))
        for at in range(place, min(place + len(new), end)):
            if draws.random() < 0.5:
                data[at] = new[at - place]

    def sync(self):
        self.kept, self.pending = self.left(None, "all"), []

    def fail(self, draws, how):
        how = how or draws.choice(["none", "none", "all", "drawn"])
        self.kept, self.pending = self.left(draws, how), []


class Disk:
    """The files of a run and the jobs' file, from a moment at which all of them are kept."""

    def __init__(self, scene, draws, fails=None):
        self.scene, self.draws, self.fails = scene, draws, fails
        self.names, self.moves, self.handles, self.journals, self.performs, self.lies = {}, [], {}, {}, 0, False
        self.beside = {}  # of each folder beside: what stands in it, and of that what is kept
        self.jobs, self.is_there, self.is_kept = File(content(scene.jobs)), os.path.isdir(scene.run), os.path.isdir(scene.run)
        for name in os.listdir(scene.run) if self.is_there else ():
            if os.path.isfile(f"{scene.run}/{name}"):
                self.names[name] = File(content(f"{scene.run}/{name}"))
        self.kept = dict(self.names)

    def replay(self):
        for call in self.scene.logged():
            self.take_call(call)

    def take_call(self, call):
        """Does what a call of the log did."""
        process, _, name, file, descriptor, place, _, result, more = call
        self.take((process, descriptor), name, file, int(place), int(result), more)

    def take(self, handle, name, file, place, result, more):
        if name == "open" and result >= 0:
            self.open(handle, file, more)
        elif name == "copy" and result >= 0:
            self.handles[handle] = self.handles.get((handle[0], str(place)))
        elif name in ("write", "cut", "sync"):
            held = self.jobs if file == "JOBS" else self.handles.get(handle)
            if name == "sync" and (file in (".", "..") or file in self.beside):
                self.sync_folder(file, result)
            elif name == "sync":
                held.sync() if result >= 0 else held.fail(self.draws, self.fails)
                self.lies = self.lies or result < 0 and file == "JOBS"  # no program writes that file again
            elif name == "write" and result > 0:
                held.write(place, bytes.fromhex(more))
            elif name == "cut" and result >= 0:
                held.cut(place)
        elif name == "rename" and result >= 0:
            self.rename(file, more)
        elif name == "link" and result >= 0:
            self.names[more] = self.names[file]
            self.moves.append((None, more, self.names[more]))
        elif name == "remove" and result >= 0 and not file.startswith("new-"):
            self.moves.append((file, None, self.names.pop(file, None)))
        elif name == "folder" and result >= 0 and file != ".":
            self.beside[file] = {}, {}
        elif name == "folder" and result >= 0:
            self.is_there, self.is_kept = True, False
        elif name == "say" and result > 0 and self.scene.bench.watches:
            self.see_said(handle[0], bytes.fromhex(more))

    def rename(self, old: str, new: str) -> None:
        """Gives a file another name, or the run's name to a folder that was made next to it."""
        if new != ".":
            self.names[new] = self.names.pop(old)
            self.moves.append((old, new, self.names[new]))
            if new == "record" and self.scene.bench.watches:
                self.see_header()
            return
        now, self.kept = self.beside.pop(old)
        self.names, self.is_there, self.is_kept = dict(now), True, False
        self.moves = [(None, name, now[name]) for name in now if name not in self.kept]

    def see_header(self) -> None:
        """When a header gets its name, it has to be on the disk for certain, and so has all that it
        counts."""
        record, jobs = self.names["record"], self.names["jobs"]
        run = bytes(self.names["id"].now).decode().strip()
        header = headers.Header(run, bytes(record.kept))
        want(header.is_there and header.is_sound and not record.pending, "record isn't synced")
        want(header.has_jobs(bytes(jobs.kept)), "record has other jobs than the disk")
        for name in headers.FILES:
            lost = header.lost(name, journals.checksums(run, name, self.records_kept(name)))
            want(not lost, f"record counts what isn't on the disk: {name}: {lost}")

    def open(self, handle, file, more):
        if file in (".", "..", "JOBS") or file in self.beside:
            return
        folder, _, name = file.rpartition("/")
        if folder:
            self.handles[handle] = self.beside[folder][0].setdefault(name, File())
            return
        if file not in self.names:
            if "c" not in more:  # a file that this log doesn't know, as the runner's
                self.handles[handle] = File()
                return
            self.names[file] = File()
            self.moves.append((None, file, self.names[file]))
        self.handles[handle] = self.names[file]
        if "t" in more and self.names[file].now:
            self.names[file].cut(0)
        if file.startswith("journal.") and "w" in more:
            self.journals[handle[0]] = file

    def sync_folder(self, file, result):
        if result >= 0 and file == "..":
            self.is_kept = self.is_there
        elif result >= 0 and file in self.beside:
            self.beside[file] = self.beside[file][0], dict(self.beside[file][0])
        elif result >= 0:
            self.kept, self.moves = dict(self.names), []

    def see_said(self, process, text):
        """Wants the intent to be on the disk for certain before a perform is printed, and each name
        on which it rests."""
        for said in (it for it in text.split(b"\n") if it.startswith(b"perform ")):
            serial, line, name = *said.split(b" ")[1:3], self.journals.get(process, "journal.1")
            journal, jobs = self.names[name], self.names.get("jobs")
            self.performs += 1
            what = f"{name} says perform {serial.decode()}"
            want(not journal.pending, f"{what}, and something of it isn't synced")
            last = journals.parts((self.records_kept(name) or [b""])[-1])[-1]
            is_last = last.startswith(b"intent %s %s " % (serial, line))
            want(is_last, f"{what}, and the last record on the disk is {last}")
            want(jobs and bytes(jobs.kept).count(b"\n") >= int(line) and not jobs.pending, f"{what}, and jobs isn't synced")
            is_kept = self.lies or self.jobs.kept.startswith(jobs.kept)
            want(is_kept, f"{what}, and the jobs' file isn't synced as far as jobs holds it")
            for _, new, _ in self.moves:
                is_rested_on = new in (name, "jobs", "record", "id") or new in PARTS
                want(not is_rested_on, f"{what}, and the folder isn't synced since there is {new}")
            want(self.is_kept, f"{what}, and the folder above isn't synced since the run's folder was made")

    def records_kept(self, name: str) -> list:
        """Returns the records of a journal that are on the disk."""
        run = bytes(self.names["id"].now).decode().strip()
        return records_left(run, name, bytes(self.names[name].kept))

    def cut(self, how):
        """Returns the folder, as it may be after a cut of power: names and their bytes; None where
        the folder itself is gone."""
        if not self.is_kept and (how == "none" or how == "drawn" and self.draws.random() < 0.5):
            return None
        names = dict(self.kept)
        for old, new, file in self.moves:
            if how == "all" or how == "drawn" and self.draws.random() < 0.5:
                names.pop(old, None)
                if new:
                    names[new] = file
        return {name: bytes(file.left(self.draws, how)) for name, file in names.items() if file is not None}


def content(path):
    with open(path, "rb") as file:
        return file.read()


class Power:
    """A scene whose power can be cut: all runs of workers are logged with what they write."""

    def __init__(self, scene, draws, fails=None, begins=True):
        self.scene, self.draws, self.performs, self.fails = scene, draws, 0, fails
        scene.logs = scene.keeps = True
        open(scene.log, "wb").close()
        self.disk = Disk(scene, draws, fails)
        if begins:
            self.begin()

    def begin(self):
        """Makes the folder by the door if it is missing."""
        if not os.path.isdir(self.scene.run):
            self.scene.door()

    def cut(self, runners=(), how="drawn", begins=True):
        """Ends all at one moment, and leaves the folder as the disk may have kept it; the machine
        starts anew."""
        with self.scene.still():
            for it in runners:
                it.close()
            self.disk.replay()
            self.performs += self.disk.performs
            left = self.disk.cut(how)
            jobs = bytes(self.disk.jobs.left(self.draws, self.draws.choice(["none", "all"]) if how == "drawn" else how))
            if left is not None:
                left.update(dict.fromkeys(self.runners_files(how), b""))
            self.rebuild(left, jobs)
            self.keep(left, jobs)
        self.scene.start_machine()
        self.disk = Disk(self.scene, self.draws, self.fails)
        if begins:
            self.begin()

    def keep_all(self):
        """From now on all that there is is on the disk."""
        with self.scene.still():
            self.performs = self.close()
            os.truncate(self.scene.log, 0)
            self.disk = Disk(self.scene, self.draws, self.fails)

    def keep(self, left, jobs):
        """Puts the log and what was left away, for who looks for the cause of something wrong, and
        begins another log."""
        os.rename(self.scene.log, f"{self.scene.log}.{self.scene.boots}")
        open(self.scene.log, "wb").close()
        with open(f"{self.scene.room}/left.{self.scene.boots}", "w") as file:
            file.write("".join(f"{name} {data}\n" for name, data in [("JOBS", jobs), *(left or {}).items()]))

    def runners_files(self, how):
        """Returns those of the locks of runners, which nobody syncs, that are left."""
        there = os.listdir(self.scene.run) if os.path.isdir(self.scene.run) else ()
        names = [it for it in there if it.startswith(("runner.", "command."))]
        return [it for it in names if how == "all" or how == "drawn" and self.draws.random() < 0.5]

    def rebuild(self, left, jobs):
        shutil.rmtree(self.scene.run, ignore_errors=True)
        with open(self.scene.jobs, "wb") as file:
            file.write(jobs)
        if left is None:
            return
        os.mkdir(self.scene.run, 0o700)
        for name, data in left.items():
            with open(os.open(f"{self.scene.run}/{name}", os.O_WRONLY | os.O_CREAT, 0o600), "wb") as file:
                file.write(data)

    def close(self):
        """Replays the log since the last cut, for the bytes that must be on the disk before each
        perform. Returns how many performs were printed."""
        self.disk.replay()
        return self.performs + self.disk.performs

    def grow(self, text):
        """A line more in the jobs' file, which nobody has synced."""
        with self.scene.still(), open(self.scene.log, "ab") as log, open(self.scene.jobs, "ab") as jobs:
            place = jobs.tell()
            jobs.write(text)
            log.write(f"0 0 write JOBS 0 {place} {len(text)} {len(text)} {text.hex()}\n".encode())
