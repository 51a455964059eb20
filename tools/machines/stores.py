"""The stores that chunks are claimed in, begun and ended here, and what is done to them."""

import os
import pwd
import shlex
import shutil
import signal
import socket
import subprocess
import tempfile
import time
import urllib.request

from machines.proxy import Proxy
from harness.bench import Skipped, until, want
from worker.folder import read

HERE = os.path.dirname(os.path.realpath(__file__))
CLAIMS = os.path.realpath(f"{HERE}/../../stores")


def free_ports(count):
    """Ports of loopback that nobody listens at now."""
    held = [socket.socket() for _ in range(count)]
    for it in held:
        it.bind(("127.0.0.1", 0))
    ports = [it.getsockname()[1] for it in held]
    for it in held:
        it.close()
    return ports


class Store:
    """The common part of all stores: a claim program and its environment."""

    kind, claim, environment = None, None, {}

    def ask(self, *words):
        """Returns the answer of the claim program."""
        ran = subprocess.run([f"{CLAIMS}/{self.kind}", *words], stdin=subprocess.DEVNULL,
                             capture_output=True, timeout=300,
                             env={"PATH": os.environ["PATH"], **self.straight()})
        return ran.stdout.decode() if ran.returncode == 0 else None

    def straight(self):
        """Returns the environment by which nothing is in between."""
        return self.environment

    def owner(self, name, number):
        """Returns the mark that has this chunk. It tries for a while if the store doesn't
        answer."""
        end = time.monotonic() + 300
        while (found := self.ask("look", name, str(number))) is None:
            want(time.monotonic() < end, "the store doesn't come back")
            time.sleep(0.2)
        return found.split(" ")[0]

    def begin(self):
        """Starts it."""

    def hurt(self, draws):
        """Hurts it, by chance, and returns how; None if it does nothing."""

    def heal(self):
        """Gives all of it back."""

    def answers(self):
        """Returns the number of requests, and how many of them came to a bad end."""

    def close(self):
        pass


class Folder(Store):
    """A folder, with a claim program before it that answers badly."""

    kind = "folder"

    def __init__(self, room, percent):
        self.counted, self.environment = f"{room}/counts", {"AMO_CLAIMS": f"{room}/claims"}
        os.mkdir(f"{room}/claims")
        self.claim = shlex.join(
            [f"{HERE}/faulty.py", str(percent), self.counted, f"{CLAIMS}/folder"])

    def answers(self):
        kinds = read(self.counted).decode().split()
        return {"requests": len(kinds), "bad answers": len(kinds) - kinds.count("asked")}


class Etcd(Store):
    """Three nodes, each with a proxy in front of it."""

    kind = "etcd"

    def __init__(self, room, draws, percent):
        if not shutil.which("etcd"):
            raise Skipped("etcd-server isn't installed")
        ports = free_ports(6)
        self.room, self.ports, self.peers, self.nodes, self.stopped = room, ports[:3], ports[3:], [None] * 3, set()
        self.proxies = [Proxy(port, b"/v3/kv/txn", draws, percent) for port in self.ports]
        self.claim = shlex.quote(f"{CLAIMS}/etcd")
        self.environment = {"ETCDCTL_ENDPOINTS": ",".join(f"127.0.0.1:{it.port}" for it in self.proxies)}

    def begin(self):
        self.heal()

    def straight(self):
        return {"ETCDCTL_ENDPOINTS": ",".join(f"127.0.0.1:{it}" for it in self.ports)}

    def start(self, node):
        url, peer = f"http://127.0.0.1:{self.ports[node]}", f"http://127.0.0.1:{self.peers[node]}"
        every = ",".join(f"n{it}=http://127.0.0.1:{port}" for it, port in enumerate(self.peers))
        with open(f"{self.room}/log.{node}", "ab") as log:
            self.nodes[node] = subprocess.Popen(
                ["etcd", "--name", f"n{node}", "--data-dir", f"{self.room}/data.{node}", "--listen-client-urls", url,
                 "--advertise-client-urls", url, "--listen-peer-urls", peer, "--initial-advertise-peer-urls", peer,
                 "--initial-cluster", every, "--initial-cluster-state", "new", "--heartbeat-interval", "200",
                 "--election-timeout", "2000"],
                stdin=subprocess.DEVNULL, stdout=log, stderr=log, env={**os.environ, "GOMAXPROCS": "1"}, start_new_session=True)

    def hurt(self, draws):
        what = draws.choice(["one", "two", "stop"])
        for node in draws.sample(range(3), 2 if what == "two" else 1):
            if self.nodes[node] and what == "stop":
                self.nodes[node].send_signal(signal.SIGSTOP)
                self.stopped.add(node)
            elif self.nodes[node]:
                self.kill(node)
        return {"one": "nodes killed", "two": "two nodes killed at once", "stop": "nodes stopped"}[what]

    def kill(self, node):
        self.nodes[node].kill()
        self.nodes[node].wait()
        self.nodes[node] = None

    def is_up(self, node):
        try:
            with urllib.request.urlopen(f"http://127.0.0.1:{self.ports[node]}/health", timeout=2) as answer:
                return b'"true"' in answer.read()
        except OSError:
            return False

    def heal(self):
        for node in self.stopped:
            self.nodes[node].send_signal(signal.SIGCONT)
        self.stopped.clear()
        for node in range(3):
            if self.nodes[node] is None:
                self.start(node)
        end = time.monotonic() + 300
        while not all(self.is_up(node) for node in range(3)):
            want(time.monotonic() < end, "etcd doesn't come up")
            time.sleep(0.2)

    def answers(self):
        return {"requests": sum(it.asked for it in self.proxies), "bad answers": sum(it.bad for it in self.proxies)}

    def close(self):
        for it in self.proxies:
            it.close()
        for node in range(3):
            if self.nodes[node]:
                self.kill(node)


class Postgres(Store):
    """One server with a proxy in front of it. PostgreSQL doesn't run as root, so there it runs as
    the user postgres."""

    kind = "postgres"

    def __init__(self, room, draws, percent):
        found = sorted(os.listdir("/usr/lib/postgresql"), key=float) if os.path.isdir("/usr/lib/postgresql") else []
        if not found or not shutil.which("psql"):
            raise Skipped("postgresql isn't installed")
        self.programs, self.room, self.process, self.is_stopped = f"/usr/lib/postgresql/{found[-1]}/bin", room, None, False
        self.user = ["setpriv", "--reuid=postgres", "--regid=postgres", "--clear-groups"] if os.geteuid() == 0 else []
        [self.port] = free_ports(1)
        self.proxy = Proxy(self.port, b"INSERT INTO", draws, percent)
        self.claim = shlex.quote(f"{CLAIMS}/postgres")
        self.environment = {**self.straight(), "PGPORT": str(self.proxy.port)}

    def begin(self):
        if self.user:
            os.chown(self.room, pwd.getpwnam("postgres").pw_uid, -1)
        words = [*self.user, f"{self.programs}/initdb", "-A", "trust", "-U", "amo", "-D", f"{self.room}/data"]
        made = subprocess.run(words, cwd="/", stdin=subprocess.DEVNULL, stdout=subprocess.PIPE, stderr=subprocess.STDOUT)
        want(made.returncode == 0, f"initdb: {made.stdout.decode()[-500:]}")
        self.heal()
        until(lambda: self.ask("table") is not None, "the table is made", pause=0.2)

    def straight(self):
        return {"PGHOST": "127.0.0.1", "PGPORT": str(self.port), "PGUSER": "amo", "PGDATABASE": "postgres",
                "PGSSLMODE": "disable", "PGGSSENCMODE": "disable", "PGCONNECT_TIMEOUT": "5"}

    def hurt(self, draws):
        if draws.random() < 0.5:
            self.process.send_signal(signal.SIGSTOP)
            self.is_stopped = True
            return "servers stopped"
        self.process.send_signal(signal.SIGQUIT)
        self.process.wait()
        self.process = None
        return "servers crashed"

    def heal(self):
        if self.is_stopped:
            self.process.send_signal(signal.SIGCONT)
        self.is_stopped = False
        if self.process is None:
            with open(f"{self.room}.log", "ab") as log:
                self.process = subprocess.Popen(
                    [*self.user, f"{self.programs}/postgres", "-D", f"{self.room}/data", "-h", "127.0.0.1", "-p", str(self.port),
                     "-k", self.room], cwd="/", stdin=subprocess.DEVNULL, stdout=log, stderr=log, start_new_session=True)
        end = time.monotonic() + 300
        while subprocess.run([f"{self.programs}/pg_isready", "-q", "-h", "127.0.0.1", "-p", str(self.port)]).returncode:
            want(time.monotonic() < end, "PostgreSQL doesn't come up")
            time.sleep(0.2)

    def answers(self):
        return {"requests": self.proxy.asked, "bad answers": self.proxy.bad}

    def close(self):
        self.proxy.close()
        if self.process:
            self.process.send_signal(signal.SIGCONT)
            self.process.send_signal(signal.SIGQUIT)
            self.process.wait()


def store_of(bench, kind="folder", percent=0):
    """Returns a store of this kind in a folder of its own."""
    room = tempfile.mkdtemp(prefix="store.", dir=bench.room)
    store = bench.keep(Folder(room, percent) if kind == "folder" else
                       {"etcd": Etcd, "postgres": Postgres}[kind](room, bench.draws, percent))
    store.begin()
    return store
