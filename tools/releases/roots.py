"""Makes roots: folders with a small Debian, in which a release is tried. Runs scripts in them.

A root has the packages of its list in packaging/roots, and what Debian needs. It has no toolchain
and no repository. Roots stay in the folder KEPT, each beside the list that it was made by.
"""

from __future__ import annotations

import os
import shlex
import shutil
import subprocess
from typing import List

HERE = os.path.dirname(os.path.realpath(__file__))
LISTS = f"{os.path.dirname(os.path.dirname(HERE))}/packaging/roots"
KEPT = os.environ.get("AMO_ROOTS", "/var/cache/amo-roots.kept")
SUITE, MIRROR = "bookworm", os.environ.get("AMO_MIRROR", "http://deb.debian.org/debian")
LONGEST = 3600  # seconds that a script or the making of a root may take
ENDS = ["setpriv", "--pdeathsig", "KILL"]  # a process that is started so ends with its parent
ENVIRONMENT = ["PATH=/usr/local/sbin:/usr/local/bin:/usr/sbin:/usr/bin:/sbin:/bin", "HOME=/root",
               "LC_ALL=C.UTF-8", "DEBIAN_FRONTEND=noninteractive"]


def packages_of(name: str) -> List[str]:
    """Returns the packages of a root, beside those that Debian needs."""
    with open(f"{LISTS}/{name}", encoding="utf-8") as file:
        return file.read().split()


def is_kept(name: str) -> bool:
    """Returns whether the root is there, made by the list that stands in the repository."""
    try:
        with open(f"{KEPT}/{name}.list", encoding="utf-8") as file:
            return file.read().split() == packages_of(name) and os.path.isdir(f"{KEPT}/{name}")
    except FileNotFoundError:
        return False


def make(name: str) -> None:
    """Makes a root by mmdebstrap, or by debootstrap. Its list is written last.

    Raises FileNotFoundError if neither is installed, and SubprocessError if the call fails.
    """
    packages, place = ",".join(packages_of(name)), f"{KEPT}/{name}"
    for path in (place, f"{place}.new"):
        shutil.rmtree(path, ignore_errors=True)
    os.makedirs(KEPT, exist_ok=True)
    if shutil.which("mmdebstrap"):
        words = ["mmdebstrap", "--mode=root", "--variant=minbase"]
    else:
        words = ["debootstrap", "--variant=minbase"]
    subprocess.run([*words, f"--include={packages}", SUITE, f"{place}.new", MIRROR],
                   timeout=LONGEST, stdin=subprocess.DEVNULL, check=True)
    os.rename(f"{place}.new", place)
    with open(f"{KEPT}/{name}.list", "w", encoding="utf-8") as file:
        file.write("".join(f"{it}\n" for it in packages_of(name)))


def can_enter() -> bool:
    """Returns whether this process may enter a root: that takes the rights of root, and the second
    form of control groups."""
    words = ["unshare", "--mount", "--pid", "--net", "--cgroup", "--fork", "mount", "-t", "cgroup2",
             "none", "/mnt"]
    return os.geteuid() == 0 and subprocess.run(words, stderr=subprocess.DEVNULL).returncode == 0


def run(name: str, room: str, words: List[str]) -> str:
    """Runs a command in a root, without network, and returns what it printed.

    The root stays as it is: changes go to a layer in `room`. The folder `room`/srv is /srv there.
    The control group has the name of `room`, so several scripts may run at once.
    If the root has systemd, that is its first process, and the command is a unit. Raises
    TimeoutExpired if it takes too long.
    """
    for folder in ("srv", "upper", "work", "root", "groups"):
        os.makedirs(f"{room}/{folder}", exist_ok=True)
    first = ["env", "-i", *ENVIRONMENT, *words]
    boots = os.path.exists(f"{KEPT}/{name}/lib/systemd/systemd")
    if boots:
        put_unit(room, words)
        first = ["env", "-i", "container=amo", *ENVIRONMENT, "/lib/systemd/systemd",
                 "--unit=trial.service", "--log-target=null", "--show-status=0"]
    group = f"{room}/groups/{os.path.basename(room)}"
    steps = [f"mount -t cgroup2 none {shlex.quote(room)}/groups", f"mkdir -p {shlex.quote(group)}",
             f"echo $$ >{shlex.quote(group)}/cgroup.procs",
             f"{shlex.join(ENDS)} unshare --mount --pid --net --ipc --uts --cgroup --fork"
             f" --kill-child sh -euc {shlex.quote(entering(name, room, first))} || true",
             f"echo $$ >{shlex.quote(room)}/groups/cgroup.procs",
             f"find {shlex.quote(group)} -depth -type d -exec rmdir {{}} +"]
    ran = subprocess.run([*ENDS, "unshare", "--mount", "sh", "-euc", "\n".join(steps)],
                         stdin=subprocess.DEVNULL, stdout=subprocess.PIPE,
                         stderr=subprocess.STDOUT, text=True, errors="replace", timeout=LONGEST)
    return ran.stdout + (said_in(room) if boots else "")


def entering(name: str, room: str, first: List[str]) -> str:
    """Returns the steps by which a process in its own name spaces becomes the first one of a
    root."""
    root = shlex.quote(f"{room}/root")
    layers = shlex.quote(f"lowerdir={KEPT}/{name},upperdir={room}/upper,workdir={room}/work")
    return "\n".join([
        f"mount -t overlay overlay -o {layers} {root}",
        f"mount --bind {shlex.quote(room)}/srv {root}/srv",
        f"mount -t proc proc {root}/proc", f"mount -t devpts devpts {root}/dev/pts",
        f"mkdir -p {root}/dev/shm", f"mount -t tmpfs tmpfs {root}/dev/shm",
        f"mount -t tmpfs tmpfs {root}/run", f"mount -t tmpfs tmpfs {root}/sys",
        f"mkdir -p {root}/sys/fs/cgroup", f"mount -t cgroup2 none {root}/sys/fs/cgroup",
        f"exec chroot {root} {shlex.join(first)}"])


def put_unit(room: str, words: List[str]) -> None:
    """Writes the unit that runs a command, and then ends the root's first process."""
    folder = f"{room}/upper/etc/systemd/system"
    os.makedirs(folder, exist_ok=True)
    given = " ".join(f'"{it}"' for it in ENVIRONMENT)
    with open(f"{folder}/trial.service", "w", encoding="utf-8") as file:
        file.write("[Unit]\nDefaultDependencies=no\n[Service]\nType=oneshot\n"
                   f"Environment={given}\nExecStart=/usr/bin/env {shlex.join(words)}\n"
                   "StandardOutput=file:/srv/said\nStandardError=inherit\n"
                   "ExecStopPost=/bin/systemctl exit 0\n")


def said_in(room: str) -> str:
    """Returns what the unit printed; an empty text if it never ran."""
    try:
        with open(f"{room}/srv/said", encoding="utf-8", errors="replace") as file:
            return file.read()
    except FileNotFoundError:
        return ""
