"""Random runs: machines are killed and stopped, in part and as a whole, folders are lost, and the
store is hurt."""

import os
import shutil
import signal
import subprocess
import tempfile
import time

from harness.bench import want
from machines import directed
from machines.scene import Scene
from machines.stores import CLAIMS, store_of

BLOWS = ["share", "crew", "command", "machine", "machine", "stop", "stop", "store"]


class Storm:
    """One run."""

    def __init__(self, bench, store, machines, lines, size, blows, loses):
        self.bench, self.draws, self.store, self.blows, self.loses = bench, bench.draws, store, blows, loses
        self.scene, self.stopped, self.healing = Scene(bench, store, lines, size, machines, f"run{len(bench.closing)}"), [], None

    def run(self):
        scene = self.scene
        scene.see_out(during=self.turn)
        self.heal()
        for it in scene.machines:
            it.rests()
        scene.see_out()
        scene.audit()
        self.bench.add("runs")

    def turn(self):
        """Now and then a blow; and the end of earlier ones."""
        now, living = time.monotonic(), [it for it in self.scene.machines if it.process and it.process.poll() is None]
        all_stand_still = set(living) <= {machine for _, machine in self.stopped}
        for it in [it for it in self.stopped if now > it[0] or all_stand_still]:
            self.stopped.remove(it)
            it[1].signal(signal.SIGCONT)
        if self.healing and now > self.healing:
            self.heal()
        if self.blows and living and self.draws.random() < 0.15:
            self.blows -= 1
            self.blow(self.draws.choice(BLOWS), self.draws.choice(living))

    def blow(self, kind, machine):
        if kind == "store":
            hurt = None if self.healing else self.store.hurt(self.draws)
            if hurt:
                self.bench.add(hurt)
                self.healing = time.monotonic() + 1 + 2 * self.draws.random()
        elif kind == "stop":
            machine.signal(signal.SIGSTOP)
            self.bench.add("stops")
            self.stopped.append((time.monotonic() + self.draws.choice([0.5, 3, 1000]), machine))
        elif kind == "machine":
            if self.loses and self.draws.random() < 0.3:
                self.loses -= 1
                self.lose(machine)
            else:
                machine.kill_all()
            machine.start()
            self.bench.add("kills")
        else:
            words = {"share": ["--claim"], "crew": ["crew"], "command": [f"{directed.HERE}/act.sh"]}[kind]
            self.bench.add("kills", bool(machine.signal(signal.SIGKILL, *words)))

    def lose(self, machine):
        """All of it, or the folder of one chunk."""
        here = [it for it in self.scene.chunks() if machine.marks(it)[0]]
        machine.kill_all()
        if here:
            self.scene.lose(machine, self.draws.choice([None, *here]))

    def heal(self):
        for _, machine in self.stopped:
            machine.signal(signal.SIGCONT)
        self.stopped.clear()
        self.store.heal()
        self.healing = None


def storms(bench, kind, percent, runs):
    """Makes so many runs over one store, or in the long form as many as there is time for."""
    store, count = store_of(bench, kind, percent), 0
    while count < runs or bench.is_long and bench.end and bench.has_time():
        machines, size = bench.draws.randint(3, 5), bench.draws.randint(2, 4)
        Storm(bench, store, machines, size * bench.draws.randint(3, 6), size, machines * 3, bench.draws.randint(0, 1)).run()
        count += 1
    for name, more in store.answers().items():
        bench.add(name, more)
    return bench.told()


def try_storm(bench):
    """a small random run over a folder whose answers are lost, cut, late and repeated"""
    store = store_of(bench, "folder", 30)
    Storm(bench, store, 3, 6, 2, 6, 1).run()
    return bench.told()


def try_folder_storms(bench):
    """random runs over such a folder"""
    return storms(bench, "folder", 30, 3)


def try_etcd_claims(bench):
    """stores/etcd over three nodes: of many that claim at once one has it"""
    return directed.try_claim_programs(bench, "etcd")


def try_etcd_storms(bench):
    """random runs over three nodes of etcd, of which one or two are killed or stopped, with answers
    lost, late and repeated"""
    return storms(bench, "etcd", 30, 2)


def try_postgres_claims(bench):
    """stores/postgres over a server: of many that claim at once one has it"""
    return directed.try_claim_programs(bench, "postgres")


# A table that gets the setting with which a claim is made.
SEES = """CREATE TABLE seen (setting text);
CREATE FUNCTION see() RETURNS trigger LANGUAGE plpgsql AS $$
  BEGIN INSERT INTO seen VALUES (current_setting('synchronous_commit')); RETURN NULL; END $$;
CREATE TRIGGER see AFTER INSERT ON amo_claims FOR EACH ROW EXECUTE FUNCTION see();
"""


def try_postgres_pooled(bench):
    """a claim is committed to the disk also if each transaction has another session, as with a
    pooler, and if the role has another setting"""
    store, room = store_of(bench, "postgres"), tempfile.mkdtemp(dir=bench.room)
    psql, named = shutil.which("psql"), {"PATH": f"{room}:{os.environ['PATH']}", **store.straight()}
    os.symlink(f"{directed.HERE}/pooled.py", f"{room}/psql")
    subprocess.run([psql, "-qX"], input=SEES.encode(), env=named, check=True)
    settings = {"off": "on", "local": "on", "on": "on", "remote_apply": "remote_apply"}
    for number, (given, wanted) in enumerate(settings.items(), 1):
        subprocess.run([psql, "-qXc", f"ALTER ROLE amo SET synchronous_commit = {given}"],
                       env=named, check=True)
        words = [f"{CLAIMS}/postgres", "claim", "list", str(number), "mark", "0" * 64]
        for _ in range(2):  # (the second time it is there already)
            said = subprocess.run(words, env={**named, "AMO_PSQL": psql}, stdout=subprocess.PIPE)
            want(said.stdout.decode() == f"mark {'0' * 64}\n", f"it says {said}")
        seen = subprocess.run([psql, "-qXAtc", "DELETE FROM seen RETURNING setting"], env=named,
                              stdout=subprocess.PIPE, check=True).stdout.decode().split()
        want(seen == [wanted], f"the role has {given}, and the claim was made with {seen}")


def try_postgres_storms(bench):
    """random runs over PostgreSQL, which is stopped and crashes, with answers lost, late and
    repeated"""
    return storms(bench, "postgres", 30, 2)


PARTS = {"storm": [try_storm], "storms": [try_folder_storms], "etcd": [try_etcd_claims, try_etcd_storms],
         "postgres": [try_postgres_claims, try_postgres_pooled, try_postgres_storms]}
