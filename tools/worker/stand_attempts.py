"""The attempts that a journal has, as the stand-in for the worker reads them."""

from stand_files import DAMAGED, MISTAKE, End, numbers

COPIES = "(with an older copy lines would be performed twice)"


class Intent:
    """An intent, its answer as words, and what a person found out."""

    def __init__(self, worker, serial, line, time):
        self.worker, self.serial, self.line, self.time = worker, serial, line, time
        self.answer, self.found, self.is_final = None, None, False

    def name(self):
        return f"{self.worker}.{self.serial}"

    def closes(self):
        if MISTAKE == "pending_is_open" and self.answer is None:
            return False
        return not (self.answer and self.answer[0] == b"unbegun" or self.found == b"not-done")

    def ended(self):
        """Returns when it ended, in seconds since 1970; 0 if no record has that."""
        kind, *rest = self.answer or [None]
        count = {b"done": 2, b"doubt": 1, b"untouched": 2}.get(kind)
        return int(rest[-1]) if count == len(rest) else 0

    def state(self):
        """Returns its status, of KINDS, if it closes its line."""
        if self.found == b"done":
            return "done"
        if self.answer is None:
            return "doubt" if self.is_final else "running"
        if self.answer[0] == b"done":
            return "done" if self.answer[1] == b"0" else "failed"
        return self.answer[0].decode()


# How many numbers follow the first word of a record; in a folder of 0.1.0 some had no time.
WANTED = {b"intent": 3, b"done": 3, b"doubt": 2, b"unbegun": 1, b"untouched": 3}
OLD_WANTED = {**WANTED, b"doubt": 1, b"untouched": 2}


def records_in(append):
    """Returns the records of an append, one or two. More than two are invalid."""
    records = append.split(b"; ")
    if MISTAKE == "reads_three_records":
        return records
    return records if len(records) <= 2 else [append]


def journal_of(worker, it, appends, count):
    """Returns the intents that appends say; each of their records has to be one that may stand
    there."""
    intents, has_times = [], not it.is_old and MISTAKE != "outcomes_without_times"
    name = f"{it.run}/journal.{worker}"
    for place, record in ((place, it) for place, append in enumerate(appends, 1)
                          for it in records_in(append)):
        kind, *rest = record.split(b" ")
        wanted = (WANTED if has_times else OLD_WANTED).get(kind)
        said = numbers(rest, wanted) if wanted else None
        is_next = said and kind == b"intent" and said[0] == len(intents) + 1 and 1 <= said[1] <= count
        is_answer = said and kind != b"intent" and 1 <= said[0] <= len(intents) and intents[said[0] - 1].answer is None
        if is_answer and kind in (b"done", b"untouched"):
            is_answer = said[1] <= 255
        if is_next:
            intents.append(Intent(worker, *said))
        elif is_answer:
            intents[said[0] - 1].answer = [kind, *rest[1:]]
        else:
            raise End(65, f"`{name}`: append {place} is {DAMAGED} {COPIES}")
    return intents
