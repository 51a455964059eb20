"""The program amo_worker, which alone knows what the journals state."""

from __future__ import annotations

import os
from typing import Any, Dict

from amo_jobs.messages import End, Screen, signal_name, visible
from amo_jobs.statuses import Status

# The folder of the programs.
HERE = os.path.dirname(os.path.dirname(os.path.dirname(os.path.realpath(__file__))))
TEST_BOOT_ID = "AMO_TEST_BOOT_ID"  # the variable that names a file with the boot id, for tests


def version() -> str:
    """Returns the version of the programs here."""
    with open(f"{HERE}/VERSION", encoding="ascii") as file:
        return file.read().strip()


def boot_id_warning() -> str:
    """Returns the warning that the boot id is a test's; an empty text if it is the system's."""
    path = os.environ.get(TEST_BOOT_ID, "")
    return path and (f"{TEST_BOOT_ID}: it is set for a test, so the boot id comes from"
                     f" `{visible(path)}`, and a line may run twice; unset it for real jobs")


class Program:
    """The program amo_worker of this call. `more` are the options that each start of it gets."""

    def __init__(self, path: str, file_system: str):
        """Takes the options --worker-program and --file-system; each is empty if it isn't given."""
        self.path = os.path.abspath(path) if path else self.built()
        options = {"--file-system": file_system, "--boot-id": os.environ.get(TEST_BOOT_ID)}
        self.more = [word for name, value in options.items() if value for word in (name, value)]

    @staticmethod
    def own() -> str:
        """Returns the path of the program that belongs to this package. A release has it beside
        amo_jobs."""
        in_clone = os.path.isdir(f"{HERE}/crates")
        return f"{HERE}/crates/amo_worker/out/amo_worker" if in_clone else f"{HERE}/amo_worker"

    @staticmethod
    def built() -> str:
        """Returns the path of the program that belongs to this package. Builds it first if it is
        missing, or if its sources have changed."""
        front, program = f"{HERE}/amo_worker", Program.own()
        if front == program:
            return front
        if not os.path.exists(program):
            Screen.tell("amo_worker: it isn't built yet, so it is proved and built now, once; wait"
                        " 7 to 15 minutes on 4 processors")
        import subprocess
        if subprocess.run([front, "--help"], stdin=subprocess.DEVNULL,
                          stdout=subprocess.DEVNULL).returncode:
            raise End(Status.BUILD, "amo_worker: it could not be built; correct what the lines"
                                    " above report, then try: ./amo_worker --help")
        return program

    def call(self, *words: str) -> bytes:
        """Returns what the program writes. If it fails, raises its status; it has reported why,
        unless it was killed."""
        import subprocess  # no runner needs it
        ended = subprocess.run([self.path, *words, *self.more], stdin=subprocess.DEVNULL,
                               stdout=subprocess.PIPE, start_new_session=True)
        if ended.returncode > 0:
            raise End(ended.returncode, None)
        if ended.returncode < 0:
            raise End(Status.MEMORY, f"`{visible(self.path)}`: it was ended by"
                                     f" {signal_name(-ended.returncode)}; allow it more memory if a"
                                     " limit did that, then try again")
        return ended.stdout

    def shown(self, *words: str) -> int:
        """Returns the status with which the program ends; what it writes is shown as it comes."""
        import subprocess
        ended = subprocess.run([self.path, *words, *self.more], stdin=subprocess.DEVNULL,
                               start_new_session=True)
        return ended.returncode if ended.returncode >= 0 else Status.MEMORY

    def told(self, *words: str) -> Any:
        """Returns what the program prints as JSON."""
        import json  # no runner needs it
        try:
            return json.loads(self.call(*words, "--json"))
        except ValueError:
            raise End(Status.BUILD, f"`{visible(self.path)}`: it isn't the amo_worker of this"
                                    " version; give that one by --worker-program, or leave out the"
                                    " option") from None

    def status(self, run: str) -> Dict[str, Any]:
        """Returns how the lines of a run stand: counts, living workers and intents."""
        found: Dict[str, Any] = self.told("status", run)
        return found
