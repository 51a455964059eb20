"""The folder of a run, as the stand-in for the worker makes and checks it."""

import errno
import fcntl
import os
import time

from stand_files import (
    MISTAKE, LATER, PATIENCE, PARTS, OLD_RUN, VERSION, End, called, failed, missing, refused_folder,
    opened, content, put_at, sync, sync_folder, has_lock, check_part,
)

LOCAL = "ext2 ext3 ext4 xfs btrfs f2fs zfs".split()
REFUSED_OPTIONS = {b"nobarrier", b"barrier=0", b"data=writeback"}
FIXED = {*PARTS, *("id forgotten record jobs words command crew shared lock record.new jobs.new"
                   " words.new command.new").split()}
NUMBERED = {"journal": 1, "runner": 1, "pace": 1, "command": 2, "out": 2, "err": 2, "chunk": 1}


def mount_of(it, path):
    """Returns the type, the options and the device of the mount on which a folder lies."""
    file = opened(path, os.O_RDONLY | os.O_DIRECTORY, 74)
    words = (content(f"/proc/self/fdinfo/{file}") or b"").split()
    os.close(file)
    number = words[words.index(b"mnt_id:") + 1]
    for line in (content("/proc/self/mountinfo") or b"").splitlines():
        words, more = (it.split(b" ") for it in line.split(b" - "))
        if words[0] == number or MISTAKE == "mount_by_path" and words[4] == os.fsencode(path):
            return more[0].decode(), {*words[5].split(b","), *more[2].split(b",")}, more[1]
    raise refused_folder(it, 77, "/proc/self/mountinfo doesn't list its mount, as in a chroot; use"
                                 " a folder on a volume that is mounted there")


def check_mount(it, path):
    """Refuses a folder on another file system than the known ones,
    or with a mount that may lose synced data."""
    kind, options, device = mount_of(it, path)
    if kind not in [*LOCAL, it.kind]:
        raise refused_folder(it, 77, f"its file system is `{kind}`, which may lose synced data; put"
                                     " it on a local disk, or use it anyway: --file-system"
                                     f" {kind}")
    if kind == "ext4":
        name = os.path.basename(os.path.realpath(os.fsdecode(device)))
        options |= set((content(f"/proc/fs/ext4/{name}/options") or b"").split())
    if options & REFUSED_OPTIONS and MISTAKE != "options_are_taken":
        option = min(options & REFUSED_OPTIONS).decode()
        raise refused_folder(it, 77, f"its file system is mounted with `{option}`, so a power cut"
                                     f" may lose synced data; mount it without `{option}`")


def is_made(name):
    """Returns whether amo makes files of this name in a run's folder."""
    kind, *said = (name.removesuffix(".new").split(".") if name.startswith("chunk.")
                   else name.split("."))
    return name in FIXED or (len(said) == NUMBERED.get(kind)
                             and all(it.isdigit() and it.isascii() for it in said))


def is_there(path):
    try:
        called(None, path, os.lstat, path)
    except FileNotFoundError:
        return False
    except OSError as error:
        raise failed(74, path, error) from error
    return True


def drawn():
    """32 hexadecimal digits that were never there before."""
    return (content("/proc/sys/kernel/random/uuid") or b"").strip().replace(b"-", b"")


def first_bytes(name):
    return drawn() + b"\n" if name == "id" else b"" if name == "lock.round" else b"-"


def write_new(path, data):
    """A new file with these bytes, on the disk."""
    file = opened(path, os.O_RDWR | os.O_CREAT | os.O_EXCL, 73)
    put_at(file, path, data, 0)
    sync(file, path)
    os.close(file)


def make_folder(it):
    """Makes the folder under its own name, if it isn't there by then."""
    try:
        called(None, it.run, os.mkdir, it.run, 0o700)
    except FileExistsError:
        pass
    except OSError as error:
        raise failed(73, it.run, error) from error


def make_beside(it):
    """Makes the folder whole next to its place, and gives it its name. If something has that name
    by then, it goes on with that."""
    new = f"{it.run}.new-{drawn().decode()}"
    called(73, new, os.mkdir, new, 0o700)
    try:
        for name in [*PARTS, "id"]:
            write_new(f"{new}/{name}", first_bytes(name))
        sync_folder(new)
        called(None, it.run, os.rename, new, it.run)
    except (End, OSError) as error:
        for name in os.listdir(new):
            os.unlink(f"{new}/{name}")
        os.rmdir(new)
        if isinstance(error, End):
            raise
        if error.errno not in (errno.EEXIST, errno.ENOTEMPTY, errno.EBUSY, errno.ENOTDIR):
            raise failed(73, it.run, error) from error


def make_in_place(it):
    """Makes what is missing in a folder without `id`, each file with its bytes before its name,
    and `id` last."""
    found = set(called(74, it.run, os.listdir, it.run))
    if "id" in found:
        return
    made = [name for name in found if is_made(name)]
    is_cut_off = all(name in PARTS and os.path.getsize(f"{it.run}/{name}") < 2
                     for name in made if is_there(f"{it.run}/{name}"))
    if not is_cut_off and MISTAKE == "leftovers_are_taken":
        is_cut_off = "record" not in made
    if not is_cut_off or MISTAKE == "users_files_are_refused" and found - set(made):
        if is_there(f"{it.run}/id"):  # by another door, meanwhile
            return
        other = (f"it has `{min(made, default='files')}` and no `id`, so no run can be made there;"
                 " name another folder")
        if (content(f"{it.run}/record") or b"").startswith(VERSION + b"\n"):
            raise missing(f"{it.run}/id")
        raise refused_folder(it, 65, OLD_RUN if "record" in made else other)
    for name in ["id", *PARTS] if MISTAKE == "id_first" else [*PARTS, "id"]:
        if name == "id" and MISTAKE != "id_before_the_sync":
            sync_folder(it.run)  # so that no cut of power keeps this name and loses another
        path, new = f"{it.run}/{name}", f"{it.run}/door.{drawn().decode()}.new"
        if name in found:
            fill_empty(path, first_bytes(name))
            continue
        write_new(new, first_bytes(name))
        try:
            called(None, path, os.link, new, path)
        except FileExistsError:
            pass
        except OSError as error:
            raise failed(73, path, error) from error
        called(73, new, os.unlink, new)
    sync_folder(it.run)


def fill_empty(path, data):
    """Gives a file that is empty its first bytes, under its lock: so nobody has begun to write
    there. (Renamed over it, another file might take the place of one in which a worker has written
    meanwhile.)"""
    file, end = opened(path, os.O_RDWR, 73), time.monotonic() + PATIENCE
    while data and os.fstat(file).st_size == 0:
        if has_lock(file, path, fcntl.LOCK_EX) and os.fstat(file).st_size == 0:
            put_at(file, path, data, 0)
            sync(file, path)
        elif time.monotonic() > end:
            raise End(LATER, f"`{path}`: another process has its lock; start again in a second")
        else:
            time.sleep(0.02)
    os.close(file)


def check_id(it, found):
    """Refuses a folder whose id is invalid, or another one than was named."""
    if len(found) != 33 or found[32:] != b"\n" or set(found[:32]) - set(b"0123456789abcdef"):
        raise End(65, f"`{it.run}/id`: it is damaged, or was edited; undo the edit, or give up this"
                      " run")
    if it.id and it.id.encode() != found[:32] and MISTAKE != "id_is_not_compared":
        raise refused_folder(it, 65, "its `id` is not the one of --id; name the folder of that run")


def check_whole(it, found, reads):
    """Refuses a folder whose id is invalid or another one, that was forgotten, or of which a file
    is missing or empty."""
    check_id(it, found)
    if (not reads and it.command != "answer" and MISTAKE != "forgotten_is_taken"
            and is_there(f"{it.run}/forgotten")):
        raise refused_folder(it, 65, "this run was given up, since `forgotten` is there; start a"
                                     " new run in another folder")
    for name in PARTS:
        is_one = is_there(f"{it.run}/{name}")
        check_part(it, name, os.path.getsize(f"{it.run}/{name}") if is_one else None)
