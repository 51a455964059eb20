"""Clearance, as the stand-in for the worker has it: whether a line may be handed over, by the
journals alone."""

import os
import sys
from typing import Dict, List, Optional, Tuple

from stand_attempts import COPIES, Intent, journal_of
from stand_calls import noted
from stand_files import (
    DAMAGED, LATER, MISTAKE, MOST_WORKERS, End, called, check_part, numbers, opened_part, whole,
)
from stand_header import header_of
from stand_journal import Journal, appends_of

SKIPPED = 2  # the worker whose journal is skipped by mistake


class Clearance:
    """The part of `answers` and of all journals that a worker has read since it began. It reads all
    of them anew at each intent."""

    def __init__(self, it, own: Journal):
        self.it, self.own, self.before = it, own, None
        self.files: Dict[str, Tuple[int, int]] = {}
        self.checksums: Dict[str, List[bytes]] = {}

    def takes(self, serial: int, line: int, count: int) -> bool:
        """Returns whether the line is taken. Then it is recorded that the attempt was not begun. Of
        a list with this count of lines."""
        if MISTAKE == "no_clearance":
            return False
        try:
            other = (self.before if MISTAKE == "clears_before_the_intent"
                     else self.standing(serial, line, count))
            self.compare_own()
        except End:
            self.give_back(serial)
            raise
        if other:
            self.own.owe(b"unbegun %d" % serial)
            print(f"amo_worker: line {line}: attempt {other.name()} stands against it; not started",
                  file=sys.stderr, flush=True)
        return other is not None

    def look(self, serial: int, line: int, count: int) -> None:
        """Looks before the intent, which is a mistake."""
        self.before = self.standing(serial, line, count)

    def give_back(self, serial: int) -> None:
        """Records that the attempt was not begun, if the journal still takes it."""
        try:
            self.own.put(b"unbegun %d" % serial)
        except End:
            pass

    def standing(self, serial: int, line: int, count: int) -> Optional[Intent]:
        """Returns the first other attempt at the line that isn't opened."""
        header = header_of(self.it)
        answers = self.read(header, "answers")
        journals = []
        for worker in range(1, MOST_WORKERS + 1):
            is_left = MISTAKE == "leaves_a_journal_unread" and worker == SKIPPED
            records = [] if is_left else self.read(header, f"journal.{worker}")
            journals.append(self.attempts(worker, records, count))
        self.take_answers(answers, journals)
        for intent in (intent for journal in journals for intent in journal):
            is_own = (intent.worker, intent.serial) == (self.it.worker, serial)
            if intent.line == line and not is_own and stands(self.it, intent):
                return intent
        return None

    def attempts(self, worker: int, records: List[bytes], count: int) -> List[Intent]:
        """Returns the attempts of these records. If they are impossible, the worker has to come
        back."""
        try:
            return journal_of(worker, self.it, records, count)
        except End as end:
            raise End(LATER, end.args[1]) from end

    def take_answers(self, answers: List[bytes], journals: List[List[Intent]]) -> None:
        """Takes what persons found out."""
        for place, record in enumerate(answers, 1):
            kind, *rest = record.split(b" ")
            worker, serial, _ = numbers(rest, 3) or (0, 0, 0)
            if not (1 <= worker <= MOST_WORKERS and 1 <= serial <= len(journals[worker - 1])):
                raise End(LATER, f"`{self.it.run}/answers`: append {place} is {DAMAGED} {COPIES}")
            journals[worker - 1][serial - 1].found = kind

    def read(self, header, name: str) -> List[bytes]:
        """Returns the records of a file, which has to begin with all that was read of it before."""
        with noted("read_on", name):
            return self.read_now(header, name)

    def read_now(self, header, name: str) -> List[bytes]:
        """Reads a file, and compares it with what was read before."""
        try:
            found = appends_of(self.it, header, name, self.bytes_of)
        except End as end:
            raise End(LATER if end.args[0] == 65 else end.args[0], end.args[1]) from end
        known = self.checksums.get(name, [])
        if found.checksums[:len(known)] != known and MISTAKE != "others_are_not_compared":
            raise End(LATER, f"`{self.it.run}/{name}`: its last append that was read has changed;"
                             " start again")
        self.checksums[name] = found.checksums
        return found.records

    def bytes_of(self, it, name: str) -> bytes:
        """Returns the bytes of a file, which has to be the one that was read before; the own
        journal is read as it is open."""
        path = f"{it.run}/{name}"
        if path == self.own.path:
            return whole(self.own.file, path)
        file = opened_part(it, name, os.O_RDONLY)
        try:
            found = file_of(os.fstat(file))
            is_same = self.files.setdefault(name, found) == found
            if not is_same and MISTAKE != "others_are_not_compared":
                raise other_file(path)
            data = whole(file, path)
        finally:
            os.close(file)
        check_part(it, name, len(data))
        return data

    def compare_own(self) -> None:
        """Compares the file that has the name of the own journal with the one that is written."""
        found = called(74, self.own.path, os.stat, self.own.path)
        if (file_of(found) != file_of(os.fstat(self.own.file))
                and MISTAKE != "own_name_is_not_compared"):
            raise other_file(self.own.path)


def file_of(found: os.stat_result) -> Tuple[int, int]:
    """Returns which file it is."""
    return found.st_dev, found.st_ino


def other_file(path: str) -> End:
    """Returns the end of a worker for which another file has this name now."""
    return End(LATER, f"`{path}`: another file has this name now; start again")


def stands(it, intent: Intent) -> bool:
    """Returns whether this attempt of another number keeps its line from being handed over."""
    if MISTAKE == "own_attempts_are_not_looked_at" and intent.worker == it.worker:
        return False
    if MISTAKE == "skips_a_journal" and intent.worker == SKIPPED != it.worker:
        return False
    if MISTAKE == "pending_is_opened" and intent.answer is None:
        return False
    return intent.closes()
