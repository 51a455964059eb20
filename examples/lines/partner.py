#!/usr/bin/env python3
"""Worker P of M by lines, over one SQLite database that the runners of one machine share.

  partner.py WORKER DATABASE P M BETA JOBS COMMAND..

It performs line J of JOBS, which stays as it is, as COMMAND.. LINE: each line at most once. The table
`journal` holds what became of each line. The status is that of the worker, or 75 if another process has
number P. If something can't be kept, the runner ends, and the worker with it.
"""

import fcntl
import sqlite3
import subprocess
import sys
from contextlib import suppress


def opened(path):
    """The database, in which a commit stays whatever happens after it."""
    database = sqlite3.connect(path, timeout=60, isolation_level=None)
    database.execute("PRAGMA journal_mode = WAL")
    database.execute("PRAGMA synchronous = FULL")
    database.execute("CREATE TABLE IF NOT EXISTS words (word INTEGER PRIMARY KEY, value INTEGER NOT NULL)")
    database.execute("CREATE TABLE IF NOT EXISTS journal (worker INTEGER, job INTEGER, what TEXT)")
    return database


class Partner:
    def __init__(self, database, worker, jobs, command, lock):
        self.database, self.worker, self.jobs, self.command, self.lock = database, worker, jobs, command, lock
        self.job = 0

    def note(self, job, what):
        self.database.execute("INSERT INTO journal VALUES (?, ?, ?)", (self.worker, job, what))
        return "ok"

    def standing(self, job):
        """How many attempts at a job stand, by the journals of all numbers in one snapshot. An attempt doesn't stand if it is recorded as
        not begun."""
        standing = "SELECT sum(what = 'intent') - sum(what = 'unbegun') FROM journal WHERE job = ?"
        return self.database.execute(standing, (job,)).fetchone()[0]

    def clear(self, job):
        """Whether a job may be handed over: if one attempt stands, that is the one whose intent was kept just now."""
        if self.standing(job) == 1:
            return "clear"
        print(f"job {job}: another attempt at it stands; not started", file=sys.stderr)
        return "taken"

    def perform(self, serial, job):
        """Performs a job. Its command has the lock of the number too, so nobody goes on in our place while it runs."""
        command = [*self.command, self.jobs[job - 1]]
        code = subprocess.run(command, stdin=subprocess.DEVNULL, pass_fds=[self.lock.fileno()]).returncode
        return f"doubt {serial} go" if code < 0 or code > 128 else f"done {serial} {code} go"

    def answer(self, said):
        """What is answered to a line of the worker."""
        word, *rest = said.split()
        if word == "load":
            found = self.database.execute("SELECT value FROM words WHERE word = ?", (int(rest[0]),)).fetchone()
            return str(found[0] if found else 0)
        if word == "store":
            self.database.execute("INSERT OR REPLACE INTO words VALUES (?, ?)", (int(rest[0]), int(rest[1])))
            return "ok"
        if word == "found":
            return self.note(int(rest[0]), "found")
        if word == "intend":
            self.job = int(rest[1])
            return self.note(self.job, "intent")
        if word == "clear":
            return self.clear(int(rest[1]))
        if word == "perform":
            return self.perform(int(rest[0]), int(rest[1]))
        return self.note(self.job, " ".join([rest[0], *rest[2:]]))


def main(program, path, p, workers, beta, list_of_jobs, *command):
    with open(list_of_jobs, encoding="utf-8") as held:
        jobs = held.read().splitlines()
    with open(f"{path}.lock.{p}", "a", encoding="ascii") as lock:
        try:
            fcntl.flock(lock, fcntl.LOCK_EX | fcntl.LOCK_NB)
        except BlockingIOError:
            return 75
        partner = Partner(opened(path), int(p), jobs, command, lock)
        words = [program, "lines", "--protocol", "2", p, workers, beta, str(len(jobs))]
        with subprocess.Popen(words, stdin=subprocess.PIPE, stdout=subprocess.PIPE, encoding="ascii", bufsize=1) as worker:
            with suppress(BrokenPipeError):  # the worker was killed
                for said in worker.stdout:
                    print(partner.answer(said), file=worker.stdin, flush=True)
        return worker.returncode


if __name__ == "__main__":
    sys.exit(main(*sys.argv[1:]))
