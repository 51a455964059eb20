"""The exit statuses of amo_jobs, amo_share and amo_worker, and the kinds of lines.

The plan programs amo and amo_show have statuses of their own, which docs/formats.md lists.
"""

from __future__ import annotations

import enum


class Status(enum.IntEnum):
    """The exit status of a program."""

    DONE = 0  # each line is done, or the call did what it was asked to do
    FAILED = 1  # no line is open, and some failed or stand untouched
    DOUBTFUL = 2  # some lines are in doubt or running
    WORDS = 64  # a usage error: an unknown or malformed command or option
    REFUSED = 65  # a list, a folder, a file or an answer is refused
    LEFT = 69  # stopped in order, and lines are open
    REGISTERS = 70  # the shared words hold a value that no worker stores
    MEMORY = 71  # out of memory, or a program was killed
    WRITE = 73  # a file can't be written
    READ = 74  # a file can't be read
    LATER = 75  # not now: start again later
    ANSWER = 76  # a runner's answer to its worker is invalid
    FOLDER = 77  # the folder, or its file system, is refused
    BUILD = 125  # amo_worker could not be built, or a program has failed internally


IN_ORDER = (Status.DONE, Status.LEFT, Status.LATER)  # by which a worker ends in order
# The kinds of lines, in the order in which they are counted.
KINDS = ("done", "failed", "doubt", "running", "untouched", "open")
