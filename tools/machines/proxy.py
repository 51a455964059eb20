"""A proxy in front of a server of loopback. A request that writes may be dropped, carried out with
its answer lost or late, carried out late, or carried out again later."""

import socket
import threading
import time

KINDS = "dropped lost late carried_late again_later".split()


def shut(*sockets):
    """Ends these connections, also for a thread that waits for them."""
    for it in filter(None, sockets):
        try:
            it.shutdown(socket.SHUT_RDWR)
        except OSError:
            pass
        it.close()


class Proxy:
    """Listens at a port of its own. `mark` are the bytes by which a request that writes is known;
    so many of those in a hundred come to a bad end."""

    def __init__(self, server, mark, draws, percent):
        self.server, self.mark, self.draws, self.percent, self.asked, self.bad = server, mark, draws, percent, 0, 0
        self.listener = socket.create_server(("127.0.0.1", 0), backlog=64)
        self.port = self.listener.getsockname()[1]
        threading.Thread(target=self.serve, daemon=True).start()

    def serve(self):
        while True:
            try:
                client, _ = self.listener.accept()
            except OSError:
                return
            threading.Thread(target=self.carry, args=(client,), daemon=True).start()

    def kind(self):
        """Returns the fate of a request that writes."""
        self.asked += 1
        if self.draws.randrange(100) >= self.percent:
            return None
        self.bad += 1
        return self.draws.choice(KINDS)

    def carry(self, client):
        """One connection, until either side closes it, or what is chosen for its request that
        writes."""
        said, server, answers = b"", None, threading.Event()
        answers.set()
        try:
            server = socket.create_connection(("127.0.0.1", self.server), timeout=10)
            threading.Thread(target=self.give_back, args=(server, client, answers), daemon=True).start()
            while part := client.recv(1 << 16):
                was_said, said = said, said + part
                kind = self.kind() if self.mark in said and self.mark not in was_said else None
                if kind in ("dropped", "carried_late"):
                    if kind == "carried_late":
                        self.repeat(said)
                    return
                if kind in ("lost", "late"):
                    answers.clear()
                server.sendall(part)
                if kind in ("lost", "late"):
                    time.sleep(self.draws.random())
                    if kind == "lost":
                        return
                    answers.set()
                if kind == "again_later":
                    self.repeat(said)
        except OSError:
            pass
        finally:
            shut(client, server)
            answers.set()

    @staticmethod
    def give_back(server, client, answers):
        """Returns the server's bytes to the client, as long as answers are given."""
        try:
            while part := server.recv(1 << 16):
                answers.wait()
                client.sendall(part)
        except OSError:
            pass
        finally:
            shut(client)

    def repeat(self, said):
        """Sends all bytes up to here to the server once more, after a while, on a connection of its
        own."""
        def go():
            time.sleep(self.draws.random())
            try:
                with socket.create_connection(("127.0.0.1", self.server), timeout=3) as server:
                    server.sendall(said)
                    while server.recv(1 << 16):
                        pass
            except OSError:
                pass
        threading.Thread(target=go, daemon=True).start()

    def close(self):
        shut(self.listener)
