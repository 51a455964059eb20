"""The programs that perform the list of bench/jobs, each as its own pages advise.

A contender has a folder of its own with the list, `jobs`. `words` is the command with which its
user starts it, and starts it again. `stand` is what its own record says: of each line "done" or
"doubt", and nothing of a line that isn't begun. `worker` is a word by which a worker's process is
known, if it has other processes than the runner.
"""

import glob
import json
import os
import shutil
import sqlite3
import subprocess
import sys
import tempfile

HERE = os.path.dirname(os.path.realpath(__file__))
ACT, EVER, AMO_JOBS = f"{HERE}/jobs_act", "1e9", [sys.executable, f"{HERE}/../amo_jobs"]
# Starts several workers. Its arguments are M, Python, a program, its first argument, and all of its
# arguments after the worker's number.
CREW = ["sh", "-c", 'workers=$1 python=$2 program=$3 first=$4; shift 4; for p in $(seq "$workers"); do'
        ' "$python" "$program" "$first" "$p" "$@" & done; wait', "crew"]
# One command of xargs, and its line in the log once it has ended: its status, and the text.
LOGGED = 'log=$1; shift; "$@"; echo "$? $3" >> "$log"'
PSQL = ["psql", "-XqAt", "-v", "ON_ERROR_STOP=1", "-U", "postgres", "-d", "postgres", "-h"]


def content(path):
    """Returns all bytes of a file, or none if it is missing."""
    if not os.path.exists(path):
        return b""
    with open(path, "rb") as file:
        return file.read()


def kind_of(code):
    """Returns a command that was killed may have done its work, or not."""
    return "done" if 0 <= int(code) <= 128 else "doubt"


class Contender:
    name, title, program, worker = "", "", "sh", None

    def __init__(self, given, room):
        self.given, self.room, self.jobs, self.log, self.run = given, room, f"{room}/jobs", f"{room}/log", f"{room}/run"
        self.workers, self.act = str(given.workers), [ACT, f"{room}/effects/file"]

    def prepare(self):
        """Does what its user does once, before the first start."""


class Parallel(Contender):
    """GNU parallel. Started again with --resume it skips the lines in its log, which gets a line
    once a command has ended. So a command that ran at the kill is begun again. (--resume-failed
    would begin killed commands again too.) It syncs nothing."""
    name, title, program = "parallel", "GNU parallel, `--resume`", "parallel"

    def words(self):
        return ["parallel", "--will-cite", "-j", self.workers, "--joblog", self.log, "--resume", "-a", self.jobs, *self.act, "{}"]

    def stand(self):
        rows = [row.split(b"\t") for row in content(self.log).split(b"\n")[1:]]
        return {int(row[0]): kind_of(row[6]) if row[7] == b"0" else "doubt" for row in rows if len(row) > 8}


class Xargs(Contender):
    """Its commands append to a log when they end. Started again it gets the lines that the log
    doesn't have, so what ran is begun again, while it may still run. It stops when a shell that it
    has started is killed. Nothing is synced."""
    name, title, program, worker = "xargs", "`xargs -P`, a log of ends", "xargs", LOGGED

    def words(self):
        known = {line.split(b" ", 1)[1] for line in content(self.log).splitlines()}
        with open(f"{self.room}/rest", "wb") as file:
            file.writelines(line for line in content(self.jobs).splitlines(True) if line.rstrip() not in known)
        return ["xargs", "-a", f"{self.room}/rest", "-r", "-d", "\\n", "-n", "1", "-P", self.workers, "sh", "-c", LOGGED, "sh",
                self.log, *self.act]

    def stand(self):
        return {int(line.split()[1]): kind_of(line.split()[0]) for line in content(self.log).splitlines()}


class Plain(Contender):
    """Keeps no record, so it is never started again."""
    name, title, program = "plain", "`xargs -P`", "xargs"

    def words(self):
        return ["xargs", "-a", self.jobs, "-d", "\\n", "-n", "1", "-P", self.workers, *self.act]

    def stand(self):
        return {int(line): "done" for line in content(f"{self.room}/effects/file").split()}


class Flock(Contender):
    """A journal under flock. Started again its workers take lines without an intent, so a line that
    was begun and has no end stays in doubt. Workers that outlive their runner go on next to the new
    ones."""
    name, title, worker = "flock", "a journal under `flock`", f"{HERE}/worker_flock"

    def words(self):
        return [*CREW, self.workers, sys.executable, self.worker, self.run, self.jobs, EVER, *self.act]

    def stand(self):
        rows = [line.split() for line in content(f"{self.run}/journal").splitlines()]
        return {int(row[1]): "doubt" if row[0] == b"intent" else kind_of(row[2]) for row in rows}


class Sqlite(Flock):
    """Started again its workers take rows without a worker, as those of the journal take lines."""
    name, title, worker = "sqlite", "SQLite, claim committed first", f"{HERE}/worker_sqlite"

    def stand(self):
        base = sqlite3.connect(f"{self.run}/jobs.db", timeout=60)
        has_table = base.execute("select 1 from sqlite_master where name = 'jobs'").fetchall()
        rows = base.execute("select line, code from jobs where worker is not null").fetchall() if has_table else []
        base.close()
        return {line: "doubt" if code is None else kind_of(code) for line, code in rows}


class Held(Contender):
    """PostgreSQL with a row locked through the job. If a worker ends, its transaction is rolled
    back, and its line is handed out again, by the workers that live or by those that are started
    then."""
    name, title, worker, way = "held", "PostgreSQL, row locked through the job", f"{HERE}/worker_postgres", "held"

    def prepare(self):
        values = ", ".join(f"({line}, '{text}')" for line, text in enumerate(content(self.jobs).decode().splitlines(), 1))
        self.given.base.ask("drop table if exists jobs; create table jobs (line integer primary key, text text,"
                            " state text default 'open', worker integer, code integer);"
                            " create index still_open on jobs (line) where state = 'open';"
                            f" insert into jobs (line, text) values {values}; analyze jobs")

    def words(self):
        return [*CREW, self.workers, sys.executable, self.worker, self.given.base.folder, self.way, *self.act]

    def stand(self):
        rows = self.given.base.ask("select line, coalesce(code, -1) from jobs where state <> 'open'").split()
        return {int(line): kind_of(code) for line, code in (row.split("|") for row in rows)}


class Claimed(Held):
    """Started again its workers take open rows, so one that was claimed and isn't noted as done
    stays in doubt."""
    name, title, way = "claimed", "PostgreSQL, claim committed first", "claimed"


class Amo(Contender):
    """amo_jobs. Started again with the same words it goes on. A line that was begun and has no end
    is in doubt, once nothing of it runs any more."""
    name, title, program, worker = "amo_jobs", "`amo_jobs crew`", AMO_JOBS[1], "work"

    def words(self):
        return [*AMO_JOBS, "crew", "--worker-program", self.given.worker, "--workers", self.workers, self.jobs, "--", *self.act]

    def status(self):
        return [*AMO_JOBS, "status", "--worker-program", self.given.worker, self.jobs]

    def stand(self):
        words = self.status()
        told, still_open = (subprocess.run([*words, *more], stdout=subprocess.PIPE, stderr=subprocess.DEVNULL).stdout
                            for more in (["--json"], ["--lines", "open"]))
        found = json.loads(told or '{"lines": 0, "intents": []}')
        doubts = {it["line"] for it in found["intents"] if it["state"] in ("doubt", "running")}
        begun = set(range(1, found["lines"] + 1)) - {int(line.split(b"\t")[1]) for line in still_open.splitlines()}
        return {line: "doubt" if line in doubts else "done" for line in begun}


class Base:
    """A PostgreSQL of one's own in a folder, with its settings as they come, by which it syncs each
    commit. root has it run as postgres, since it refuses root."""

    def __init__(self, above, is_wanted):
        places = [os.environ["PATH"], *sorted(glob.glob("/usr/lib/postgresql/*/bin"), reverse=True)]
        self.programs = os.path.dirname(os.path.realpath(shutil.which("initdb", path=os.pathsep.join(places)) or "initdb"))
        self.folder, self.is_begun = tempfile.mkdtemp(dir=above), False
        if is_wanted and os.path.exists(f"{self.programs}/initdb") and shutil.which("psql"):
            if os.geteuid() == 0:
                shutil.chown(self.folder, "postgres")
            self.is_begun = self.call("initdb", "-U", "postgres", "-A", "trust", "-E", "UTF8") and self.call(
                "pg_ctl", "-w", "-l", f"{self.folder}/log", "-o", f"-k {self.folder} -c listen_addresses=", "start")

    def call(self, program, *words):
        user = ["runuser", "-u", "postgres", "--"] if os.geteuid() == 0 else []
        return subprocess.run([*user, f"{self.programs}/{program}", "-D", f"{self.folder}/data", *words], cwd="/",
                              stdin=subprocess.DEVNULL, stdout=subprocess.DEVNULL, stderr=subprocess.DEVNULL).returncode == 0

    def ask(self, text):
        return subprocess.run([*PSQL, self.folder], input=text.encode(), stdout=subprocess.PIPE, stderr=subprocess.DEVNULL,
                              check=True).stdout.decode()

    def close(self):
        if self.is_begun:
            self.call("pg_ctl", "-w", "-m", "fast", "stop")
        shutil.rmtree(self.folder)


EVERY = [Parallel, Xargs, Plain, Flock, Sqlite, Held, Claimed, Amo]
