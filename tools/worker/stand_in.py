#!/usr/bin/env -S python3 -S
"""A worker in Python with the words, files, lines and statuses of amo_worker, to try the tests of that program on.

  stand_in.py door RUN --workers M [--beta B] [--into] JOBS
  stand_in.py work RUN P --workers M [--beta B] JOBS
  stand_in.py status RUN [--json] [--lines KIND]          stand_in.py doubts RUN [--json]
  stand_in.py status RUN --damaged                        stand_in.py status RUN --follow [--once]
  stand_in.py answer RUN P.S LINE TEXT done|not-done      stand_in.py answer RUN --from FILE      stand_in.py again RUN
  (answer: [--quiet SECONDS] [--now])

Each takes --id ID, --file-system TYPE and --boot-id FILE too.

It is plain and slow, and nobody should work with it. AMO_MISTAKE names one of MISTAKES, which it
then makes: the tests must show each of them.
"""

import contextlib
import errno
import fcntl
import os
import sys
import time

sys.dont_write_bytecode = True
sys.path.insert(0, os.path.dirname(os.path.realpath(__file__)))

import stand_memory  # so it comes before the others
from stand_attempts import COPIES, journal_of
from stand_calls import LOG, noted
from stand_clearance import Clearance
from stand_damaged import tell_damage
from stand_files import (
    DAMAGED, MISTAKES, MISTAKE, MOST_JOBS, MOST_WORKERS, MOST_BYTES, VERSION, LATER, PATIENCE,
    NO_ID, OLD_RUN, End, called, failed, missing, number, numbers, refused_folder, opened, content,
    put_at, sync, sync_folder, has_lock, opened_part,
)
from stand_folder import (
    check_mount, is_there, drawn, make_folder, make_beside, make_in_place, check_whole,
)
from stand_follow import follow
from stand_header import check_version, header_of, read_appends, text_of
from stand_journal import Journal
from stand_waits import Sheet, age_of
from stand_partner import Partner, told_to_leave

KINDS = "done failed doubt running untouched open".split()
IMPOSSIBLE = "stop all workers, and the next round starts with new words"
HELP = "; see amo_worker --help"


class Ledger:
    """The content of record, answers, journals and jobs, read in this order."""

    def __init__(self, it):
        run = it.run
        self.header, self.found = read_appends(it)
        self.jobs = content(f"{run}/jobs")
        self.header.check_jobs(it, self.jobs)
        self.lines = (self.jobs or b"").split(b"\n")[:-1]
        self.journals = [journal_of(p, it, self.found[f"journal.{p}"].records, len(self.lines))
                         for p in range(1, MOST_WORKERS + 1)]
        self.closing = {}
        for place, record in enumerate(self.found["answers"].records, 1):
            kind, *rest = record.split(b" ")
            said = numbers(rest, 3)
            intent = said and kind in (b"done", b"not-done") and self.intent(*said[:2])
            if not intent or intent.found:
                raise End(65, f"`{run}/answers`: append {place} is {DAMAGED} {COPIES}")
            intent.found = kind
        for it in (it for journal in self.journals for it in journal):
            if it.closes():
                self.closing.setdefault(it.line, []).append(it)
            elif MISTAKE == "last_journal_wins":
                self.closing.pop(it.line, None)

    def intent(self, worker, serial):
        there = 1 <= worker <= MOST_WORKERS and 1 <= serial <= len(self.journals[worker - 1])
        return self.journals[worker - 1][serial - 1] if there else None

    def kinds(self):
        """Returns the kind of each line, and the intent by which it is closed."""
        for line in range(1, len(self.lines) + 1):
            closing = sorted(self.closing.get(line, []), key=lambda it: it.state() != "running")
            yield (line, closing[0].state(), closing[0]) if closing else (line, "open", None)

    def open_lines(self):
        return [line for line in range(1, len(self.lines) + 1) if line not in self.closing]


def final_ledger(it, records=False):
    """Returns the ledger with the locks of all pending intents that can be got, and the files of
    those locks. These intents are final, and are recorded as in doubt if that is asked for and the
    disk takes it. In a folder of 0.1.0 nothing is written, and nobody holds a missing file."""
    held, final, unrecorded = [], set(), set()
    for journal in Ledger(it).journals:
        if any(intent.answer is None for intent in journal):
            worker = journal[0].worker
            file, runner = Journal(it, f"journal.{worker}"), f"{it.run}/runner.{worker}"
            held.append(file.file)
            if file.lock() and is_got(
                    runner, os.O_RDONLY if it.is_old else os.O_RDWR | os.O_CREAT, held):
                if MISTAKE == "old_run_is_settled" and it.is_old:
                    file.file = opened(file.path, os.O_RDWR, 73)
                is_sure = MISTAKE != "lists_without_settling" and not it.is_old
                if is_sure or MISTAKE == "old_run_is_settled":
                    file.recover(header_of(it))
                ended = [intent.serial for intent in journal if intent.answer is None
                         and is_got(f"{it.run}/command.{intent.name()}", os.O_RDONLY, held)]
                final |= {(worker, serial) for serial in ended}
                if records and is_sure and MISTAKE != "doubts_are_not_recorded":
                    unrecorded |= {(worker, serial) for serial in record(file, ended)}
    ledger = Ledger(it)
    for journal in ledger.journals:
        for intent in journal:
            intent.is_final = (intent.worker, intent.serial) in final
            if (intent.worker, intent.serial) in unrecorded:  # the disk may yet lose it
                intent.answer = None
    return ledger, held


def record(file, ended):
    """Records these intents as in doubt, and removes the locks of their commands, as long as the
    disk takes that; those that it has not taken."""
    left = list(ended)
    with contextlib.suppress(End):
        while left:
            doubt = b"doubt %d %d" % (left[0], time.time())
            with noted("put_doubt", doubt.decode()):
                file.append(doubt)
            with contextlib.suppress(OSError):
                os.unlink(f"{file.it.run}/command.{file.name.rpartition('.')[2]}.{left[0]}")
            left.pop(0)
    return left


def is_got(path, flags, held):
    """Returns whether the lock of this file is got, and held from now on; a missing file counts as
    got."""
    try:
        file = opened(path, flags, None)
    except FileNotFoundError:
        return True
    except OSError as error:
        raise failed(73, path, error) from error
    held.append(file)
    return has_lock(file, path, fcntl.LOCK_EX)


def why_refused(line, seen):
    """Returns why a line of the list is refused, with what to do; None if it isn't."""
    if not line:
        return "is empty; remove it"
    if b"\0" in line:
        return "has a NUL byte; remove that byte"
    if b"\r" in line:
        return "has a carriage return; end lines with a line feed alone"
    try:
        line.decode()
    except UnicodeDecodeError:
        return "isn't UTF-8; convert the file to UTF-8"
    if len(line) > MOST_BYTES:
        return "is longer than 100000 bytes; shorten it"
    return ("is equal to a line before it; remove it, or make the two differ" if line in seen
            else None)


def jobs_of(jobs, known, is_first):
    """Returns the jobs' file, without a last line that has no end, and whether there is one; in the
    first round that is refused."""
    data = content(jobs)
    if data is None:
        raise failed(74, jobs, FileNotFoundError(errno.ENOENT, os.strerror(errno.ENOENT)))
    file = opened(jobs, os.O_RDONLY, 74)
    called(74, jobs, os.fsync, file)
    os.close(file)
    if not data.startswith(known or b""):
        line = os.path.commonprefix([known, data]).count(b"\n") + 1
        raise End(65, f"list `{jobs}`: line {line} is not the line that the run knows; restore it"
                      " from the run's file `jobs`, and add lines only at the end")
    lines, seen = data.split(b"\n"), set()
    last = lines.pop()
    for place, line in enumerate(lines, 1):
        if why := why_refused(line, seen):
            raise End(65, f"list `{jobs}`: line {place} {why}")
        seen.add(line)
    if last and is_first:
        raise End(65, f"list `{jobs}`: line {len(lines) + 1} has no line feed at its end; add one"
                      " once the line is whole")
    return data[:len(data) - len(last)], bool(last)


def make_whole(run, name, data, is_synced=True):
    path = f"{run}/{name}.new"
    file = opened(path, os.O_RDWR | os.O_CREAT | os.O_TRUNC, 73)
    put_at(file, path, data, 0)
    if is_synced:
        sync(file, path)
    os.close(file)
    called(73, path, os.rename, path, f"{run}/{name}")
    if is_synced:
        sync_folder(run)


def begin_round(it):
    """Under the exclusive lock of rounds: header and words of the lines that are open. Ends where
    none is."""
    ledger = Ledger(it)
    data, is_begun = jobs_of(it.jobs, ledger.jobs, ledger.jobs is None)
    if data != ledger.jobs:
        make_whole(it.run, "jobs", data)
        ledger.lines = data.split(b"\n")[:-1]
    lines = ledger.open_lines()[:MOST_JOBS]
    if not lines and is_begun:
        jobs_of(it.jobs, ledger.jobs, True)
    if not lines:
        raise End(0, f"all done: {counts(ledger)}")
    n = len(lines)
    m = min(it.workers, n // 4 + 1)
    beta = max(it.beta, m) if m > 1 and n >= 2 * (it.beta + m - 2) else m
    front = b"%s\nround %d\nboot %s\n" % (VERSION, ledger.header.round + 1, it.boot)
    front += b"givens %d %d %d\nworkers %d %d\n" % (n, m, beta, it.workers, it.worker)
    front += b"".join(b"%d\n" % line for line in lines)
    make_whole(it.run, "record", text_of(it, front, data, ledger.found))
    words = header_of(it).head() + bytes(8 * (m * (n + 3) + 1))
    make_whole(it.run, "words", words, is_synced=False)


class Words:
    """The words of a round, of one of its workers."""

    def __init__(self, run, record, seat):
        self.path, self.n, self.m, self.seat = f"{run}/words", record.jobs, record.shared, seat
        self.file = opened(self.path, os.O_RDWR, 74)

    def load(self, word, most):
        data = b""
        while len(data) < 8 and (part := called(74, self.path, os.pread, self.file, 8 - len(data), 512 + 8 * word + len(data))):
            data += part
        value = int.from_bytes(data, "little")
        if len(data) < 8 or value > most:
            raise End(70, f"`{self.path}`: word {word} has the impossible value {value};"
                          f" {IMPOSSIBLE}")
        return value

    def store(self, word, value):
        put_at(self.file, self.path, value.to_bytes(8, "little"), 512 + 8 * word)

    def entry(self, p, k):
        return 2 * self.m + (p - 1) * (self.n + 1) + k

    def row(self, p, k):
        return self.load(self.entry(p, k), self.n)

    def announced(self, p):
        return self.load(p, self.n)

    def come_back(self):
        """Returns the jobs of the own row; one that was claimed and isn't filed is filed."""
        row = []
        if MISTAKE == "own_words_forgotten":
            return row
        while len(row) < self.n and (job := self.row(self.seat, len(row) + 1)):
            row.append(job)
        claims, job = self.load(self.m + self.seat, self.n), self.announced(self.seat)
        if claims not in (len(row), len(row) + 1) or len(set(row)) < len(row) or claims > len(row) and (not job or job in row):
            raise End(70, f"`{self.path}`: word {self.m + self.seat} has the impossible value"
                          f" {claims}; {IMPOSSIBLE}")
        if claims > len(row):
            row.append(job)
            self.store(self.entry(self.seat, len(row)), job)
        return row


def work_in(words, beta, perform):
    """Works until too few jobs are open, or it is asked to leave. Returns whether it was."""
    n, m, p = words.n, words.m, words.seat
    row = words.come_back()
    known, tried, others = set(row), set(), [q for q in range(1, m + 1) if q != p]
    front = dict.fromkeys(others, 0)
    while True:
        jobs = [j for j in range(1, n + 1) if j not in known and j not in tried]
        if len(jobs) < beta:
            return False
        spare = n - len(known) - (m - 1)
        job, tried = jobs[(p - 1) * spare // m if spare >= m else p - 1], set()
        words.store(p, job)
        tried |= {words.announced(q) for q in others} - {0}
        for q in others:
            while found := words.row(q, front[q] + 1):
                known.add(found)
                front[q] += 1
        if job in known or job in tried:
            continue
        if MISTAKE != "claim_after_the_act":
            words.store(m + p, len(row) + 1)
        leaves = perform(job)
        if MISTAKE == "claim_after_the_act":
            words.store(m + p, len(row) + 1)
        row.append(job)
        known.add(job)
        words.store(words.entry(p, len(row)), job)
        if leaves:
            words.store(p, 0)
            return True


def taken(it):
    """Returns the end of a worker whose number another process has."""
    return refused_folder(it, LATER, "another process has this number; wait for its end, or start"
                                     " another worker")


def guard(it):
    """Returns the journal of this worker, once nobody else has its number."""
    if MISTAKE == "guard_is_removed":
        path = f"{it.run}/guard.{it.worker}"
        file = opened(path, os.O_RDWR | os.O_CREAT, 73)
        if not has_lock(file, path, fcntl.LOCK_EX):
            raise taken(it)
        return Journal(it, f"journal.{it.worker}")
    journal = Journal(it, f"journal.{it.worker}")
    if not journal.lock():
        held = readers_lock(it)  # so that it is no reader who has it
        if not journal.lock():
            raise taken(it)
        held.close()
    return journal


def readers_lock(it):
    """Returns the lock of answers, once no reader has it: each keeps it as long as it holds locks
    of workers. A folder of 0.1.0 in which nobody has answered has none."""
    file = Journal(it, "answers")
    if MISTAKE != "readers_without_a_lock" and file.file is not None:
        called(73, file.path, fcntl.flock, file.file, fcntl.LOCK_EX)
    return file


def share_round(it):
    """Begins a round if nobody is at work; the record of the round, and the handle that has the
    shared lock on it."""
    path = f"{it.run}/lock.round"
    file = opened_part(it, "lock.round", os.O_RDWR)
    sync_folder(it.run)
    if has_lock(file, path, fcntl.LOCK_EX):
        begin_round(it)
        has_lock(file, path, fcntl.LOCK_UN)
    for _ in range(100):
        if has_lock(file, path, fcntl.LOCK_SH):
            break
        time.sleep(0.02)
    else:
        raise refused_folder(it, LATER, "another worker is beginning a round; start again in a"
                                        " second")
    record = header_of(it)
    words = content(f"{it.run}/words") or b""
    if MISTAKE == "words_of_another_boot" and record.boot:
        return record, file
    if record.boot != it.boot or words[:512] != record.head() or len(words) != 512 + 8 * (record.shared * (record.jobs + 3) + 1):
        raise refused_folder(it, LATER, "the current round cannot be joined; start again when all"
                                        " of its workers have ended")
    return record, file


def work(it):
    enter(it)
    journal = guard(it)
    journal.recover(header_of(it))
    ledger = Ledger(it)
    own, partner = ledger.journals[it.worker - 1], Partner()
    for intent in [it for it in own if it.answer is None]:
        answer, leaves = partner.ask(b"was", intent.serial, intent.line, ledger.lines[intent.line - 1])
        if answer:
            journal.put(answer)
        if leaves:
            raise told_to_leave()
    hands = Hands(it, journal, partner, len(own))
    while True:
        hands.take_part()
        partner.stay(it)
        hands.come_back()


class Hands:
    """A worker in one round after the other: its journal, its runner, and the round."""

    def __init__(self, it, journal, partner, serial):
        self.it, self.journal, self.partner, self.serial = it, journal, partner, serial
        self.clearance = Clearance(it, journal)
        self.record, self.words, self.lines = None, None, []

    def take_part(self):
        """Begins or joins a round, and works in it until its part of that is over, if it has
        one."""
        lock = self.join()
        if lock is None:
            return
        try:
            has_left = work_in(self.words, self.record.beta, self.perform)
        except End:
            with contextlib.suppress(End):
                self.journal.pay()
            raise
        if MISTAKE != "owes_while_it_waits":
            self.journal.pay()
        if has_left:
            raise told_to_leave()
        if MISTAKE != "keeps_the_round_lock":
            os.close(lock)

    def join(self):
        """Begins or joins a round; the handle that has its shared lock, or None if it takes no
        part."""
        it = self.it
        record, lock = share_round(it)
        if self.passes_by(record):
            if MISTAKE != "waits_in_the_round":
                os.close(lock)
            return None
        self.lines = (content(f"{it.run}/jobs") or b"").split(b"\n")[:-1]
        if MISTAKE == "stays_in_the_former_round" and self.record:
            return lock
        seat = (it.worker - record.first) % record.workers + 1
        is_late = MISTAKE == "stays_with_the_former_words" and self.words
        self.record, words = record, Words(it.run, record, seat)
        if is_late:
            words.file = self.words.file
        self.words = words
        return lock

    def passes_by(self, record):
        """Returns whether it takes no part in a round: it has no seat there, or has joined it
        before."""
        it = self.it
        place = (it.worker - record.first) % record.workers
        has_seat = place < record.shared and it.worker <= record.workers
        if MISTAKE == "ends_without_a_seat" and not has_seat:
            raise refused_folder(it, LATER, "this worker has no seat in the current round")
        is_same = self.record and (record.round == self.record.round
                                   or MISTAKE == "passes_by_each_round")
        return not has_seat or is_same and MISTAKE != "stays_in_the_former_round"

    def come_back(self):
        """Looks at the folder again after a wait between two rounds."""
        if MISTAKE != "number_is_not_compared":
            check_whole(self.it, content(f"{self.it.run}/id") or b"", False)
            self.clearance.compare_own()
        if MISTAKE != "stays_on_the_former_boot":
            self.it.read_boot()

    def perform(self, job):
        """Has the job's line performed, if it is clear; whether the worker is to leave."""
        line, self.serial, count = self.record.lines[job - 1], self.serial + 1, len(self.lines)
        serial = self.serial
        intent = b"intent %d %d %d" % (serial, line, time.time())
        if MISTAKE == "clears_before_the_intent":
            self.clearance.look(serial, line, count)
        if MISTAKE != "intent_after_the_act":
            self.journal.put(intent)
            if self.clearance.takes(serial, line, count):
                return False
        place = line % count if MISTAKE == "says_the_next_line" else line - 1
        answer, leaves = self.partner.ask(b"perform", serial, line, self.lines[place])
        if MISTAKE == "intent_after_the_act":
            self.journal.put(intent)
        if answer:
            self.journal.owe(answer)
        return leaves


def check_list(it):
    """Refuses a list that can't be that of the run."""
    header = header_of(it) if it.run_id else None
    known = content(f"{it.run}/jobs")
    if header:
        header.check_jobs(it, known)
    jobs_of(it.jobs, known, known is None)


def make(it):
    """Makes the run's folder, or what is missing in it."""
    above = os.path.dirname(os.path.abspath(it.run))
    if not is_there(it.run):
        if it.id:
            raise refused_folder(it, 65, "no folder is there; mount the file system that holds it,"
                                         " or name the path that it has now")
        check_mount(it, above)
        check_list(it)
        (make_folder if it.is_into else make_beside)(it)
        it.has_made = True
    enter_folder(it)
    if not is_there(f"{it.run}/id"):
        if it.id:
            raise refused_folder(it, 65, NO_ID)
        check_list(it)
        make_in_place(it)
    elif it.is_into:
        raise refused_folder(it, 65, "it already has an `id`, and --into makes a new run; name"
                                     " another folder, or go on with this run without --into")
    if MISTAKE == "id_is_replaced":
        make_whole(it.run, "id", drawn() + b"\n")


def enter_folder(it):
    """Refuses a folder that isn't the user's own, or lies at a wrong place, or is of another
    version."""
    found = called(74, it.run, os.lstat, it.run)
    if (found.st_mode & 0o170000) != 0o040000 or found.st_uid != os.geteuid():
        is_folder = (found.st_mode & 0o170000) == 0o040000
        foreign = "it belongs to another user; run this as that user, or name a folder of your own"
        other = "it is a file, or a link; name the folder itself"
        raise refused_folder(it, 77, foreign if is_folder else other)
    check_mount(it, it.run)
    if not it.is_damaged:
        it.is_of_now = check_version(it)


def enter(it):
    """Refuses a folder that isn't this run's, or of which something is missing;
    only the door makes something."""
    if it.command == "door":
        make(it)
    enter_folder(it)
    found = content(f"{it.run}/id")
    it.is_old = found is None
    reads = it.command in ("status", "doubts")
    if it.is_old and it.is_of_now:
        raise missing(f"{it.run}/id")
    if it.is_old and (it.id or not reads and MISTAKE != "old_run_is_worked"):
        is_run = not reads and is_there(f"{it.run}/record")
        raise refused_folder(it, 65, OLD_RUN if is_run else NO_ID)
    if not it.is_old:
        check_whole(it, found, reads)
        it.run_id = found[:32]
    header_of(it)
    if it.jobs:
        check_list(it)
        if it.command == "door":
            sync_folder(it.run)
        if it.has_made or MISTAKE != "above_synced_by_the_maker_alone":
            sync_folder(os.path.dirname(os.path.abspath(it.run)))


def counts(ledger):
    kinds = [kind for _, kind, _ in ledger.kinds()]
    return f"lines {len(kinds)} " + " ".join(f"{kind} {kinds.count(kind)}" for kind in KINDS)


def alive(it):
    """Yields the workers whose journals are locked."""
    for p in range(1, MOST_WORKERS + 1):
        file = opened_part(it, f"journal.{p}", os.O_RDONLY)
        if file is None:
            continue
        if not has_lock(file, f"{it.run}/journal.{p}", fcntl.LOCK_SH):
            yield p
        os.close(file)


def status(it):
    if it.is_damaged:
        enter_folder(it)
        tell_damage(it)
        return
    enter(it)
    if it.follows:
        follow(it, Ledger, it.is_once)
        return
    _readers = readers_lock(it)
    living = list(alive(it))
    ledger, _ = final_ledger(it)
    told = [(kind, found, line) for line, kind, found in ledger.kinds()]
    if it.is_json:
        import json
        kinds = [kind for kind, _, _ in told]
        intents = [{"intent": found.name(), "line": line, "text": ledger.lines[line - 1].decode(), "state": kind}
                   for kind, found, line in told if kind in ("doubt", "running", "untouched")]
        counted = {kind: kinds.count(kind) for kind in KINDS}
        print(json.dumps({"lines": len(told), **counted, "alive": living, "intents": intents}))
    elif it.lines:
        for kind, found, line in told:
            if kind == it.lines:
                say(f"{found.name() if found else '-'}\t{line}\t", ledger.lines[line - 1])
    else:
        say(counts(ledger))
        say(" ".join(["alive", *map(str, living)]))
        for kind, found, line in told:
            if kind in ("doubt", "running", "untouched"):
                say(f"{kind} {found.name()} {line} ", ledger.lines[line - 1])


def say(text, line=b""):
    sys.stdout.buffer.write(text.encode() + line + b"\n")


def doubts(it):
    enter(it)
    _readers = readers_lock(it)
    ledger, _ = final_ledger(it, records=True)
    told = [(line, found, age_of(found.ended())) for line, kind, found in ledger.kinds() if kind == "doubt"]
    if it.is_json:
        import json
        print(json.dumps([{"intent": found.name(), "line": line, "text": ledger.lines[line - 1].decode(),
                           "state": "doubt", "time": found.time, "ended": found.ended() or None,
                           "age": age if isinstance(age, int) else None}
                          for line, found, age in told]))
    else:
        for line, found, age in told:
            say(f"doubt {found.name()} {line} ", ledger.lines[line - 1] + f" {found.time} {age}".encode())


RUNNING = "its attempt may still run; answer once `doubts` lists it"
AGAIN = "the other answer was given before; an answer stays as it is"
NO_ROW = ("it must be P.S, LINE, TEXT and done or not-done, of one line of the run; copy the first"
          " three from `doubts` or `status`")


def refusal(ledger, name, line, text, verdict):
    """Returns why this answer is refused, or None; one that was given before is taken again."""
    words = name.split(b".")
    said = numbers(words, 2)
    found = ledger.intent(*said) if said else None
    if verdict not in (b"done", b"not-done") or not found:
        is_row = verdict in (b"done", b"not-done") and said
        return ("no attempt has this number; take the number from `doubts` or `status`" if is_row
                else NO_ROW)
    if b"%d" % found.line != line or ledger.lines[found.line - 1] != text:
        return "the attempt is of another line; take number and line from `doubts` or `status`"
    if found.found:
        return None if found.found == verdict else AGAIN
    kind, closing = next((kind, it) for line, kind, it in ledger.kinds() if line == found.line)
    if closing is not found:
        return "another attempt closes the line now; answer that one, as `status` lists it"
    if kind == "running":
        return RUNNING
    return (None if kind in ("doubt", "untouched", "failed")
            else "the attempt was done, or was never begun; it takes no answer")


def answer(it):
    """Takes the answers, all or none; one to what still runs waits a while for its end."""
    enter(it)
    if it.source:
        rows = [line.split(b"\t", 2) for line in (content(it.source) or b"").split(b"\n")[:-1]]
        rows = [[*row[:2], *row[2].rsplit(b"\t", 1)] if len(row) == 3 and b"\t" in row[2] else [b""] * 4 for row in rows]
    else:
        rows = [[os.fsencode(word) for word in it.words]]
    end = time.monotonic() + PATIENCE
    while said := answer_once(it, rows):
        if time.monotonic() > end:
            raise End(LATER, said)
        time.sleep(0.05)


def answer_once(it, rows):
    """Takes the answers. If one is to a running attempt, none is taken, and it prints a message."""
    file = readers_lock(it)
    file.recover(header_of(it))
    ledger, held = final_ledger(it, records=True)
    try:
        verdicts, running, sheet = {}, None, Sheet(it.quiet)
        for place, row in enumerate(rows, 1):
            is_new = row[0] not in verdicts
            why = (refusal(ledger, *row)
                   or (AGAIN if verdicts.setdefault(row[0], row[3]) != row[3] else None))
            said = f"answer {place}: {why}"
            if why == RUNNING and MISTAKE != "running_is_refused":
                running = running or said
            elif why:
                raise End(65, said)
            elif is_new and not (found := ledger.intent(*numbers(row[0].split(b"."), 2))).found:
                sheet.take(place, found, row[3])
        if sheet.early:
            raise End(LATER if sheet.are_timed() else 65, "\namo_worker: ".join(sheet.said()))
        for name, verdict in verdicts.items() if not running else ():
            said = numbers(name.split(b"."), 2)
            if not ledger.intent(*said).found:
                put_answer(file, verdict, *said)
        return running
    finally:
        file.close()
        for lock in held:
            os.close(lock)


def put_answer(file, verdict, worker, serial):
    """Appends what an operator found out about an attempt."""
    with noted("put_answer", verdict.decode(), worker, serial):
        file.append(b"%s %d %d %d" % (verdict, worker, serial, time.time()))


def again(it):
    enter(it)
    file = readers_lock(it)
    file.recover(header_of(it))
    for intent in (intent for journal in Ledger(it).journals for intent in journal):
        if intent.answer and intent.answer[0] == b"untouched" and not intent.found:
            if MISTAKE == "again_waits" and intent.ended() + 60 > time.time():
                raise End(LATER, f"attempt {intent.name()}: it is too young; wait")
            put_answer(file, b"not-done", intent.worker, intent.serial)


class Given:
    """The words of the command line."""

    def __init__(self, words):
        self.words, options = [], {}
        wants = {"--workers": 1, "--beta": 1, "--json": 0, "--lines": 1, "--from": 1,
                 "--file-system": 1, "--boot-id": 1, "--id": 1, "--into": 0, "--damaged": 0,
                 "--quiet": 1, "--now": 0, "--follow": 0, "--once": 0}
        while words:
            word = words.pop(0)
            if word.startswith("--") and self.words[:1] != ["answer"] or word in wants:
                if word not in wants or word in options or len(words) < wants[word]:
                    raise End(64, f"`{word}`: there is no such option here{HELP}")
                options[word] = words.pop(0) if wants[word] else True
            else:
                self.words.append(word)
        shapes = {"door": (3, 3), "work": (4, 4), "status": (2, 2), "doubts": (2, 2), "again": (2, 2),
                  "answer": (2, 2) if "--from" in options else (6, 6)}
        taken = {"door": "--workers --beta --into", "work": "--workers --beta",
                 "status": "--json --lines --damaged --follow --once", "doubts": "--json",
                 "answer": "--from --quiet --now"}
        self.command = self.words[0] if self.words else None
        if self.command not in shapes or not shapes[self.command][0] <= len(self.words) <= shapes[self.command][1]:
            raise End(64, "`amo_worker`: it must be followed by door, work, status, doubts, answer"
                          f" or again, and RUN{HELP}")
        if set(options) - {*taken.get(self.command, "").split(),
                           "--file-system", "--boot-id", "--id"}:
            raise End(64, f"`{self.command}`: it has no such option{HELP}")
        self.run, self.kind = self.words[1].rstrip("/"), options.get("--file-system")
        self.id, self.is_into, self.is_old = options.get("--id"), "--into" in options, False
        self.has_made, self.run_id, self.is_of_now = False, None, False
        self.is_damaged = "--damaged" in options
        self.follows, self.is_once = "--follow" in options, "--once" in options
        if self.id is not None and (len(self.id) != 32 or set(self.id) - set("0123456789abcdef")):
            raise End(64, "`--id`: it must be 32 hexadecimal digits, none of them a capital letter"
                          f"{HELP}")
        self.jobs = self.words[-1] if self.command in ("door", "work") else None
        self.is_json, self.lines, self.source = "--json" in options, options.get("--lines"), options.get("--from")
        if self.lines not in (None, *KINDS) or self.lines and self.is_json:
            raise End(64, "`--lines`: it must be done, failed, doubt, untouched, running or open"
                          f"{HELP}")
        if self.follows and (self.is_json or self.lines or self.is_damaged):
            raise End(64, f"`--follow`: it goes with no other option but --once{HELP}")
        if self.is_once and not self.follows:
            raise End(64, f"`--once`: it must be given with --follow{HELP}")
        if self.is_damaged and (self.is_json or self.lines):
            raise End(64, f"`--damaged`: it goes with no other option of status{HELP}")
        if self.jobs:
            self.workers = self.number("--workers", options.get("--workers", ""), MOST_WORKERS)
            self.beta = self.number("--beta", options.get("--beta", "1"), 65535)
            self.worker = (self.number("P", self.words[2], self.workers)
                           if self.command == "work" else None)
        self.words = self.words[2:]
        self.quiet = number(options.get("--quiet", "60").encode(errors="surrogateescape"), 10**9)
        if self.quiet is None:
            raise End(64, f"`--quiet`: it must be a whole number from 0 to {10**9}{HELP}")
        if "--now" in options and MISTAKE != "now_is_ignored":
            self.quiet = None
        self.boot_path = options.get("--boot-id", "/proc/sys/kernel/random/boot_id")
        self.read_boot()

    def read_boot(self):
        """Reads the id that the machine has since it was started."""
        self.boot = (content(self.boot_path) or b"").split(b"\n")[0]

    @staticmethod
    def number(name, word, most):
        found = number(word.encode(errors="surrogateescape"), most)
        if not found:
            raise End(64, f"`{name}`: it must be a whole number from 1 to {most}{HELP}")
        return found


def main(words):
    if MISTAKE not in (None, "", *MISTAKES):
        sys.exit(f"no such mistake: {MISTAKE}")
    it = None
    try:
        it = Given(words)
        LOG.begin(it.worker if it.command == "work" else 0, it.run)
        {"door": enter, "work": work, "status": status, "doubts": doubts, "answer": answer, "again": again}[it.command](it)
        sys.stdout.flush()
    except End as end:
        print(f"amo_worker: {end.args[1]}", file=sys.stderr)
        return end.args[0]
    finally:
        if MISTAKE == "guard_is_removed" and it and it.command == "work" and os.path.exists(f"{it.run}/guard.{it.worker}"):
            os.unlink(f"{it.run}/guard.{it.worker}")
    return 0


if __name__ == "__main__":
    sys.exit(main(sys.argv[1:]))
