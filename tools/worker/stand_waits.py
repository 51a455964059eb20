"""From when on the stand-in for the worker takes an answer `not-done`: a request that the attempt
had sent may arrive late."""

import time
from email.utils import formatdate
from typing import Optional

from stand_files import MISTAKE

UNKNOWN = ("no record says when its attempt ended; wait as long as the receiver may take, then add"
           " --now")


def dated(seconds: int) -> str:
    """Returns a time in seconds since 1970, as a date."""
    return formatdate(seconds, usegmt=True)


def age_of(ended: int):
    """Returns how many seconds ago something ended; `unknown`, or `ahead` of the clock."""
    now = int(time.time())
    return "unknown" if not ended else "ahead" if now < ended else now - ended


def wait_of(intent, verdict: bytes, seconds: int) -> Optional[tuple]:
    """Returns why this answer comes too early, with the time from which on it is taken, or 0 if
    nobody knows that; None if it doesn't come too early."""
    waits = [b"doubt", b"done", None]
    if MISTAKE == "failed_is_quiet":
        waits.remove(b"done")
    kind = intent.answer and intent.answer[0]
    must_wait = verdict == b"not-done" and kind in waits or MISTAKE == "done_waits"
    if not must_wait or MISTAKE == "not_done_at_once":
        return None
    ended, now = intent.ended(), int(time.time())
    if not ended:
        return UNKNOWN, 0
    if now < ended and MISTAKE != "ahead_is_old":
        return (f"its attempt ended at {dated(ended)}, which is ahead of the clock ({dated(now)});"
                " set the clock right, or add --now"), 0
    if abs(now - ended) < seconds:
        return (f"its attempt ended at {dated(ended)}, and it is {dated(now)} now; answer again"
                f" {seconds} s after that end, or add --now"), ended + seconds
    return None


class Sheet:
    """The answers of one call that come too early. With no number of seconds, none does."""

    def __init__(self, seconds: Optional[int]):
        self.seconds, self.early, self.ends = seconds, [], []

    def take(self, place: int, intent, verdict: bytes) -> None:
        """Notes the answer of this number, if it comes too early."""
        if self.seconds is None or MISTAKE == "first_row_alone_waits" and place > 1:
            return
        wait = wait_of(intent, verdict, self.seconds)
        if wait:
            self.early.append(f"answer {place}: {wait[0]}")
            self.ends.append(wait[1])

    def are_timed(self) -> bool:
        """Returns true if waiting is enough."""
        return all(self.ends)

    def said(self) -> list[str]:
        """Returns a message for each answer that comes too early, and how long to wait."""
        last = f"none of these comes too early from {dated(max(self.ends))} on"
        return [*self.early, *([last] if self.are_timed() else [])]
