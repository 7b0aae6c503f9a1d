"""The servers that are measured: `custody serve`, and bench/serve/pylfs.py, a peer in Python; and large objects."""
import hashlib
import os
import statistics
import subprocess
import sys
import time
from pathlib import Path

# The root of the repository, for this module and for those that import it.
sys.path.insert(0, str(Path(__file__).resolve().parents[2]))
from tests.studio.control import ControlledServer
from tests.studio.policy import open_policy
from tests.studio.program import Server, content, free_port, lock, message

BLOCK = 1 << 24


class Measured:
    """A server, the locks that it was asked for, and its memory before the first of them."""

    # A start over a large database takes long.
    patience = 3600
    asked = 0

    def measure(self):
        """Notes the memory at rest."""
        self.at_rest = self.memory()

    def lock(self, client):
        """Locks a new path."""
        self.asked += 1
        status, body = client.ask(lock(f"art/shot/{self.asked:08d}/hero.psd"))
        if status != 201:
            sys.exit(f"{self.name} replied {status} {body!r}")

    def highest(self):
        """The highest resident memory so far, in KiB."""
        lines = Path(f"/proc/{self.child.pid}/status").read_text().splitlines()
        return next(int(line.split()[1]) for line in lines if line.startswith("VmHWM:"))

    def stop(self):
        """Ends the server, which may write for long before."""
        self.child.terminate()
        self.child.wait()
        self.child.stdout.close()


class Custody(Measured, ControlledServer):
    """The program in a folder of its own."""

    name = "custody"

    def __init__(self, program, room):
        os.mkdir(f"{room}/custody")
        super().__init__(program, f"{room}/custody", open_policy(["ann"], quota=100_000_000_000))
        self.measure()

    def restart(self):
        """Starts the server, which has ended, at another port. Returns the time."""
        self.port, begun = free_port(), time.monotonic()
        self.start()
        return time.monotonic() - begun

    def log_size(self):
        """How many bytes the log has."""
        log = Path(f"{self.database}-wal")
        return log.stat().st_size if log.exists() else 0

    def file_size(self):
        """How many bytes the file has."""
        return Path(self.database).stat().st_size


class Peer(Measured, Server):
    """The peer in a folder of its own."""

    name = "peer"

    def __init__(self, room):
        self.room, self.port = f"{room}/peer", free_port()
        os.mkdir(self.room)
        self.start()
        self.measure()

    def start(self):
        """Starts the peer."""
        words = [sys.executable, str(Path(__file__).parent / "pylfs.py"), str(self.port), f"{self.room}/peer.db"]
        self.child = subprocess.Popen(words, stdout=subprocess.PIPE)
        if not self.child.stdout.readline().startswith(b"listening"):
            sys.exit("the peer did not start")


class Content:
    """An object of a size, of which no two blocks are the same."""

    def __init__(self, size):
        self.size, self.block = size, os.urandom(BLOCK - 8)
        whole = hashlib.sha256()
        for piece in self.pieces(size):
            whole.update(piece)
        self.name = whole.hexdigest()

    def pieces(self, size):
        """The first bytes of the content."""
        for at in range(0, size, BLOCK):
            yield (at.to_bytes(8, "big") + self.block)[: size - at]

    def send(self, client, size=None):
        """Sends an upload, or its first bytes."""
        client.send(message("PUT", content(self.name), length=self.size))
        for piece in self.pieces(self.size if size is None else size):
            client.send(piece)


def upload(server, it):
    """Uploads a content. Returns the time."""
    begun = time.monotonic()
    with server.client(None) as client:
        it.send(client)
        status, _ = client.reply()
    if status not in (200, 201):
        sys.exit(f"PUT replied {status}")
    return time.monotonic() - begun


def download(server, it):
    """Downloads a content. Returns the time."""
    begun, digest, buffer = time.monotonic(), hashlib.sha256(), bytearray(1 << 20)
    with server.client(None) as client:
        client.send(message("GET", content(it.name)))
        lines, left = client.head()
        digest.update(client.rest)
        left -= len(client.rest)
        while left > 0:
            count = client.socket.recv_into(buffer)
            if count == 0:
                sys.exit("closed within a body")
            digest.update(memoryview(buffer)[:count])
            left -= count
    if b" 200 " not in lines[0] or digest.hexdigest() != it.name:
        sys.exit(f"GET replied {lines[0]} with other bytes")
    return time.monotonic() - begun


def timed(client, data):
    """The status and the body of the reply to a request, and how long it took."""
    begun = time.monotonic()
    status, body = client.ask(data)
    return status, body, time.monotonic() - begun


def milliseconds(found, digits=1):
    """The median of some times, with the lowest and the highest."""
    median, low, high = (f"{it * 1000:.{digits}f}" for it in (statistics.median(found), min(found), max(found)))
    return f"{median} ms ({low} to {high})"
