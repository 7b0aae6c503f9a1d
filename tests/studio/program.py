"""The program as a server: its process, a client over a raw socket, and requests as bytes."""
import contextlib
import hashlib
import json
import random
import resource
import select
import signal
import socket
import struct
import subprocess
import time
from pathlib import Path

from tests.studio.policy import FILM, open_policy

TOP = Path(__file__).resolve().parent.parent.parent
CHUNK = 65_536
# Where a new database has the contents of objects: all in its rows, or those of a chunk and more in a file beside it.
FORMS = ("rows", "file")
# Linux gives its clients ports from 32,768 on.
PORTS = (20_000, 32_768)
# A moment that is long past, and the last one that there is.
NOW, LAST = 1_463_500_146, 253_402_300_799


def free_port():
    """A port of this machine that nobody listens on, and that the system gives to no client by itself."""
    while True:
        port = random.randrange(*PORTS)
        with contextlib.suppress(OSError), socket.create_server(("127.0.0.1", port)):
            return port


def listening(port):
    """Whether somebody listens on the port."""
    with socket.socket() as probe:
        return probe.connect_ex(("127.0.0.1", port)) == 0


def raise_limit():
    """Lets this process have as many files and sockets as it may."""
    resource.setrlimit(resource.RLIMIT_NOFILE, (resource.getrlimit(resource.RLIMIT_NOFILE)[1],) * 2)


def memory_of(process, field="VmRSS"):
    """The resident memory of a process, in KiB; with the field VmHWM, what it was at its highest."""
    lines = Path(f"/proc/{process}/status").read_text(encoding="utf-8").splitlines()
    return next(int(line.split()[1]) for line in lines if line.startswith(f"{field}:"))


def target(rest, repo=FILM):
    """The target of a request in a repository."""
    return f"/{repo}.git/info/lfs/{rest}"


def content(oid, repo=FILM):
    """The target of the content of an object."""
    return target(f"content/{oid}", repo)


LOCKS = target("locks")


def made(seed, size):
    """Bytes of an object."""
    return random.Random(seed).randbytes(size)


def name_of(data):
    """The name of an object with these bytes."""
    return hashlib.sha256(data).hexdigest()


def message(method, where, body=None, token="a", length=None, more=""):
    """A request, as bytes. A token of one letter is that of 64 times the letter. A body that is not bytes is sent as
    JSON. `length` is announced in place of the body's; `more` has further fields, each with its line end."""
    data = body if isinstance(body, bytes) else b"" if body is None else json.dumps(body).encode()
    bearer = token * 64 if len(token) == 1 else token
    head = f"{method} {where} HTTP/1.1\r\nHost: studio.example\r\nAuthorization: Bearer {bearer}\r\n"
    if length is not None or body is not None:
        head += f"Content-Length: {len(data) if length is None else length}\r\n"
    return (head + more + "\r\n").encode() + data


def lock(path, token="a", repo=FILM, ref=None):
    """A request to lock a path, on the repository's default branch if no ref is given."""
    body = {"path": path} if ref is None else {"path": path, "ref": {"name": ref}}
    return message("POST", target("locks", repo), body, token)


def put(data, token="a", repo=FILM):
    """An upload of an object."""
    return message("PUT", content(name_of(data), repo), data, token)


class Closed(OSError):
    """The other side closed the connection before a reply was whole."""


class Client:
    """A connection to a server, over a raw socket."""

    def __init__(self, port, timeout=60):
        self.socket = socket.create_connection(("127.0.0.1", port), timeout=timeout)
        self.socket.setsockopt(socket.IPPROTO_TCP, socket.TCP_NODELAY, 1)
        self.rest = bytearray()

    def send(self, data):
        """Sends all of the bytes."""
        self.socket.sendall(data)

    def more(self, most=1 << 16):
        """Reads some bytes of a reply."""
        piece = self.socket.recv(most)
        if not piece:
            raise Closed("the server closed the connection before a reply")
        self.rest += piece

    def head(self):
        """The lines of the head of the next reply, and the length of its body."""
        while b"\r\n\r\n" not in self.rest:
            self.more()
        head, _, self.rest = self.rest.partition(b"\r\n\r\n")
        lines = head.split(b"\r\n")
        return lines, next(int(line.split(b":")[1]) for line in lines if line.startswith(b"Content-Length:"))

    def reply(self):
        """The status and the body of the next reply."""
        lines, length = self.head()
        while len(self.rest) < length:
            self.more(1 << 20)
        with memoryview(self.rest) as view:
            body = bytes(view[:length])
        del self.rest[:length]
        return int(lines[0].split(b" ")[1]), body

    def ask(self, data):
        """The reply to a request."""
        self.send(data)
        return self.reply()

    def reset(self):
        """Closes the connection with a reset."""
        self.socket.setsockopt(socket.SOL_SOCKET, socket.SO_LINGER, struct.pack("ii", 1, 0))
        self.socket.close()

    def close(self):
        """Closes the connection."""
        self.socket.close()

    def __enter__(self):
        return self

    def __exit__(self, *_):
        self.close()


def run(words, given=b"", **more):
    """Runs the words. Returns the status, the output and the error stream."""
    ran = subprocess.run(words, input=given, capture_output=True, check=False, **more)
    return ran.returncode, ran.stdout.decode(errors="replace"), ran.stderr.decode(errors="replace")


class Files:
    """A database and a policy in a folder, and commands over them."""

    def __init__(self, program, room, policy=None, database="custody.db"):
        self.program, self.room, self.database = program, room, f"{room}/{database}"
        self.set_policy(policy or open_policy())

    def set_policy(self, text):
        """Writes the policy."""
        Path(f"{self.room}/policy.toml").write_text(text, encoding="utf-8")

    def make_beside(self):
        """Makes the database with a file of contents, if there is none: the first command over its files would make it
        without one."""
        words = [self.program, "serve", *self.files(), "--listen", f"127.0.0.1:{free_port()}", "--contents"]
        with subprocess.Popen(words, stdout=subprocess.PIPE) as child:
            child.stdout.readline()
            child.kill()

    def files(self):
        """The words that name the database and the policy."""
        return ["--db", self.database, "--policy", f"{self.room}/policy.toml"]

    def over_files(self, name, *more, given=b"", with_policy=False):
        """Runs a command over the files. Returns the status, the output and the error stream."""
        files = self.files() if with_policy else self.files()[:2]
        return run([self.program, name, *files, *more], given)

    def issue(self, letter, *more, user="ann", repo=FILM, operation="upload"):
        """Stores the token of 64 times the letter. No server may run."""
        digits = Path(f"{self.room}/random")
        digits.write_bytes(bytes.fromhex(letter * 64))
        words = ["authenticate", *self.files(), "--user", user, "--random", str(digits), *more, repo, operation]
        subprocess.run([self.program, *words], check=True, stdout=subprocess.DEVNULL)

    def session_words(self, now=NOW):
        """The words of a session at a moment."""
        return [self.program, "session", *self.files(), "--now", str(now)]

    def session(self, stream, now=NOW):
        """What a session replies to the stream at a moment."""
        return subprocess.run(self.session_words(now), input=stream, check=True, stdout=subprocess.PIPE).stdout


class NotStarted(OSError):
    """A server ended before it listened."""


class Server(Files):
    """A server in a folder of its own, whose user ann has the token of 64 times the letter a."""

    # After how many seconds without a line a start has failed.
    patience = 60
    # The letter of the first token, or none if nobody has a token at first.
    letter = "a"

    def __init__(self, program, room, policy=None, idle=10, more=(), database="custody.db", port=None, form="rows"):
        super().__init__(program, room, policy, database)
        self.idle, self.more, self.form = idle, list(more), form
        if form == "file":
            self.make_beside()
        if self.letter:
            self.issue(self.letter)
        self.port = port or free_port()
        self.start()

    def contents(self):
        """The file of contents."""
        return Path(f"{self.database}-contents")

    def control(self):
        """The control socket, if the server has one."""
        return f"{self.room}/control"

    def error_stream(self):
        """The file that the server writes its faults to."""
        return open(f"{self.room}/errors", "ab")

    def words(self):
        """The words that run the server."""
        address = f"127.0.0.1:{self.port}"
        return [self.program, "serve", *self.files(), "--listen", address, "--idle", str(self.idle), *self.more]

    def start(self):
        """Starts the server, and waits until it listens."""
        with self.error_stream() as errors:
            self.child = subprocess.Popen(self.words(), stdout=subprocess.PIPE, stderr=errors)
        if not select.select([self.child.stdout], [], [], self.patience)[0]:
            self.child.kill()
            raise OSError("the server prints nothing")
        line = self.child.stdout.readline()
        if line != f"listening on 127.0.0.1:{self.port}\n".encode():
            raise NotStarted(f"the server printed {line!r}")

    def end(self, kind=signal.SIGKILL):
        """Sends the signal. Returns after how many seconds the server has ended."""
        begun = time.monotonic()
        self.child.send_signal(kind)
        self.child.wait(timeout=10)
        return time.monotonic() - begun

    def errors(self):
        """What the server wrote to its error stream."""
        return Path(f"{self.room}/errors").read_text(encoding="utf-8")

    def memory(self):
        """The resident memory in KiB."""
        return memory_of(self.child.pid)

    def peak(self):
        """The resident memory at its highest since the start, in KiB."""
        return memory_of(self.child.pid, "VmHWM")

    def processor_time(self):
        """How many seconds of a processor the server has used."""
        return time.clock_gettime(~self.child.pid << 3 | 2)

    def client(self, timeout=60):
        """A new connection."""
        return Client(self.port, timeout)

    def ask(self, data, timeout=60):
        """The reply over a connection of its own."""
        with self.client(timeout) as client:
            return client.ask(data)

    def time_of_lock(self, path):
        """After how many seconds a client that connects now has its lock."""
        begun = time.monotonic()
        status, _ = self.ask(lock(path))
        if status != 201:
            raise OSError(f"a lock got {status}")
        return time.monotonic() - begun

    def __enter__(self):
        return self

    def __exit__(self, *_):
        with contextlib.suppress(ProcessLookupError):
            if self.child.poll() is None:
                self.end()
        self.child.stdout.close()
