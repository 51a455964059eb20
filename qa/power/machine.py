"""A guest in qemu, whose power is cut by SIGKILL. Its lines come through a pipe, which has the bytes
before a write of the guest returns: no line can be lost with the guest."""

from __future__ import annotations

import contextlib
import fcntl
import os
import selectors
import shutil
import subprocess
import tempfile
from typing import Callable, Dict, Optional

from disk import Disk
from guest import Guest

KERNEL_WORDS = ("console=ttyS0 quiet panic=-1 mitigations=off nokaslr tsc=reliable no_timer_check"
                " random.trust_cpu=on rcupdate.rcu_expedited=1 init_on_alloc=0 cryptomgr.notests"
                " apparmor=0 selinux=0 audit=0")  # without these and qboot, a boot takes 2 s more
MACHINE = ("qemu-system-x86_64 -accel tcg -M q35 -bios qboot.rom -cpu Nehalem,+rdrand -m 256"
           " -nodefaults -display none -no-reboot -device virtio-serial-pci,ioeventfd=off"
           " -device virtconsole,chardev=port -device virtio-blk-pci,drive=disk,write-cache=on")
NBD = ("driver=raw,node-name=disk,cache.direct=off,cache.no-flush=off,file.driver=nbd,"
       "file.server.type=fd,file.server.str=")
PIPE_SIZE = 1 << 20  # bytes; qemu drops what doesn't fit
SET_PIPE_SIZE = 1031  # F_SETPIPE_SZ, which Python names from 3.10 on
WHOLE = b" ."


class Machine:
    """One boot of a guest. Call `turn` until the power is to be cut, then `cut`."""

    def __init__(self, guest: Guest, words: Dict[str, object], disk: Disk,
                 hear: Callable[[str], Optional[str]]):
        """Starts the guest. `hear` takes each line of the guest, and returns the host's reply."""
        self.hear_line, self.disk, self.rest, self.is_cut = hear, disk, b"", False
        self.room = tempfile.mkdtemp()
        self.selector = selectors.DefaultSelector()
        self.selector.register(disk.connection, selectors.EVENT_READ)
        appended = " ".join([KERNEL_WORDS, *(f"{name}={value}" for name, value in words.items())])
        with open(f"{self.room}/qemu", "wb") as errors:
            self.process = subprocess.Popen(
                [*MACHINE.split(), "-kernel", guest.kernel, "-initrd", guest.archive,
                 "-append", appended, "-serial", f"file:{self.room}/console",
                 "-chardev", "stdio,id=port,signal=off",
                 "-blockdev", f"{NBD}{disk.of_qemu.fileno()}"], stdin=subprocess.PIPE,
                stdout=subprocess.PIPE, stderr=errors, pass_fds=[disk.of_qemu.fileno()])
        disk.of_qemu.close()
        assert self.process.stdin and self.process.stdout
        self.to_guest, self.pipe = self.process.stdin, self.process.stdout.fileno()
        fcntl.fcntl(self.pipe, SET_PIPE_SIZE, PIPE_SIZE)
        os.set_blocking(self.pipe, False)
        self.selector.register(self.pipe, selectors.EVENT_READ)

    def hear(self) -> bool:
        """Takes all lines that have come. Returns False at the end of the pipe."""
        while True:
            try:
                data = os.read(self.pipe, PIPE_SIZE)
            except BlockingIOError:
                return True
            if not data:
                return False
            *lines, self.rest = (self.rest + data).split(b"\n")
            if self.rest.endswith(WHOLE):  # the next line begins with the line feed
                lines, self.rest = [*lines, self.rest], b""
            for line in filter(None, lines):  # nothing stands between two line feeds
                self.send(self.hear_line(line.decode("utf-8", "replace")) or "")

    def send(self, text: str) -> None:
        """Sends a text to the guest, unless its power is cut."""
        if text and not self.is_cut:
            with contextlib.suppress(OSError):  # if the guest has ended, `turn` reports it
                self.to_guest.write(text.encode())
                self.to_guest.flush()

    def turn(self, seconds: float) -> bool:
        """Waits up to so many seconds for something to happen. The guest's lines are taken before
        the requests to its disk. Returns False if qemu has ended on its own."""
        ready = [key.fileobj for key, _ in self.selector.select(max(seconds, 0))]
        is_alive = self.hear()
        if self.disk.connection in ready and not self.disk.serve():
            self.selector.unregister(self.disk.connection)
        return is_alive

    def cut(self) -> str:
        """Cuts the power, and takes the lines that were on their way. Returns what the kernel and
        qemu have printed."""
        self.is_cut = True
        self.process.kill()
        self.process.wait()
        os.set_blocking(self.pipe, True)
        self.hear()
        for stream in (self.process.stdin, self.process.stdout):
            with contextlib.suppress(OSError):
                stream.close()
        printed = b""
        for name in ("console", "qemu"):
            with open(f"{self.room}/{name}", "rb") as file:
                printed += file.read()
        shutil.rmtree(self.room)
        return printed.decode("utf-8", "replace")
