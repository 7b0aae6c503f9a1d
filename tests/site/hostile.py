"""What the suite of the mirror tries with a server, and with users of a folder, that mean harm.

A stand-in for custody or ssh names a server that replies with too much, with what a terminal acts on, or with the
address of somebody else; a folder has links and pipes.
"""
import contextlib
import http.server
import json
import os
import socket
import subprocess
import threading
from pathlib import Path

from tests.studio.clone import Workroom
from tests.studio.program import name_of

HUGE, MUCH = 200_000_000, 40_000_000
DATA = b"hello"
OID = name_of(DATA)
STAND_IN = """#!/bin/sh
case $1 in
locks) ;;
objects) echo '{oid} 5' ;;
*) cat '{line}' ;;
esac
"""
SAID = "\x1b]0;title\x07\u202e\x9b31m"


class Handler(http.server.BaseHTTPRequestHandler):
    """Replies as the server says, and counts what it was asked and could send."""

    def do_any(self):
        """Replies to a request of any method."""
        self.rfile.read(int(self.headers.get("Content-Length", 0)))
        self.server.asked.append(self.path)
        status, body = self.server.replies[self.path]
        length = HUGE if body is None else len(body)
        self.send_response(status)
        self.send_header("Content-Length", str(length))
        self.end_headers()
        if body is not None:
            self.wfile.write(body)
            return
        with contextlib.suppress(OSError):
            while self.server.sent < HUGE:
                self.wfile.write(b" " * 100_000)
                self.server.sent += 100_000

    do_GET = do_POST = do_PUT = do_any

    def log_message(self, *_):
        """Prints nothing."""


@contextlib.contextmanager
def hostile():
    """A server whose `replies` are by path; it starts with none."""
    with http.server.ThreadingHTTPServer(("127.0.0.1", 0), Handler) as server:
        server.asked, server.replies, server.sent = [], {}, 0
        server.address = f"http://127.0.0.1:{server.server_port}"
        thread = threading.Thread(target=server.serve_forever)
        thread.start()
        try:
            yield server
        finally:
            server.shutdown()
            thread.join()


def batch(action, address):
    """The reply to a batch whose object has this action."""
    actions = {action: {"href": f"{address}/content"}}
    return 200, json.dumps({"objects": [{"oid": OID, "size": 5, "actions": actions}]}).encode()


class Stage:
    """The stand-ins for custody and ssh, which name the server as theirs, and a folder with one object."""

    def __init__(self, trial, server):
        self.trial, self.server, self.room = trial, server, Workroom(trial.folder(), trial.checks)
        line = self.room.write("line", json.dumps({"expires_in": 60, "header": {}, "href": server.address}))
        program = self.room.write("custody", STAND_IN.format(oid=OID, line=line), 0o755)
        self.room.write("bin/ssh", f"#!/bin/sh\ncat '{line}'\n", 0o755)
        self.environment = {"CUSTODY": str(program), "PATH": self.room.environment["PATH"]}
        self.socket, self.folder = f"{self.room.room}/control", Path(trial.folder())
        listener = socket.socket(socket.AF_UNIX)
        listener.bind(self.socket)
        self.listener = trial.enter_context(listener)
        self.file(DATA)

    def file(self, data):
        """The file of the object in the folder, with these bytes."""
        return self.room.write(self.folder / "objects" / OID[:2] / OID[2:4] / OID, data.decode())

    def run(self, *words):
        """Runs the mirror. Returns its status and its error stream."""
        status, _, errors = self.trial.mirror(*words, **self.environment)
        return status, errors

    def down(self, *options):
        """Copies from the server to a new folder. Returns the status, the error stream and the folder."""
        folder = Path(self.trial.folder())
        return *self.run(*options, self.socket, str(folder)), folder

    def refused(self, what, ran, text):
        """Checks that a run failed with this text, and that not much was read for it."""
        status, errors = ran[:2]
        sent, self.server.sent = self.server.sent, 0
        self.trial.check(status == 1 and text in errors and "Traceback" not in errors and sent < MUCH,
                         f"{what} is refused, after {sent} bytes", f"status {status}: {errors[-400:]}")


def try_too_much(trial):
    """Replies, objects and lines that are too long."""
    with hostile() as server:
        stage = Stage(trial, server)
        server.replies["/objects/batch"] = 200, None
        stage.refused("a reply to a batch of 200 MB", stage.down(), "longer than")
        server.replies["/objects/batch"] = 403, None
        stage.refused("a refusal of 200 MB", stage.down(), "status 403")
        server.replies |= {"/objects/batch": batch("download", server.address), "/content": (200, None)}
        *ran, folder = stage.down()
        stage.refused("an object of 5 bytes that arrives as 200 MB", ran, f"damaged {OID}")
        most = max(it.stat().st_size for it in folder.rglob("*"))
        trial.check(most < 1_000_000, f"and no file of more than {most} bytes is left of it")
        server.replies["/objects/batch"] = batch("upload", server.address)
        stage.refused("a reply of 200 MB to an upload", stage.run(str(stage.folder), stage.socket), "longer than")
        server.replies["/objects/batch"] = 200, b"[" * 100_000
        stage.refused("a reply of 100,000 levels", stage.down(), "not one of Git LFS")
        actions = [{"oid": OID, "size": 5, "actions": {"download": {"href": 5}}}]
        server.replies["/objects/batch"] = 200, json.dumps({"objects": actions}).encode()
        stage.refused("a number in the place of an address", stage.down(), "not one of Git LFS")
        for stream in ("1", "2"):
            stage.room.write("bin/ssh", f"#!/bin/sh\nyes | head -c {HUGE} >&{stream}\n", 0o755)
            stage.refused(f"a token of 200 MB on stream {stream} of ssh",
                          stage.run(str(stage.folder), "ssh://custody@lfs.example"), "prints more than")


def try_escapes(trial):
    """What a terminal would act on."""
    with hostile() as server:
        stage = Stage(trial, server)
        server.replies["/objects/batch"] = 403, json.dumps({"message": f"no{SAID}"}).encode()
        status, errors, _ = stage.down()
        shown = "no\\x1b]0;title\\x07\\u202e\\x9b31m"
        trial.check(status == 1 and shown in errors and not set(SAID) & set("\x1b\x07\u202e\x9b") & set(errors),
                    "a refusal is printed without what a terminal acts on", repr(errors))
        stage.room.write("bin/ssh", f"#!/bin/sh\nprintf '{SAID}' >&2\nexit 1\n", 0o755)
        status, errors = stage.run(str(stage.folder), "ssh://custody@lfs.example")
        trial.check(status == 1 and not set("\x1b\x07\u202e\x9b") & set(errors), "so is what ssh prints", repr(errors))


def try_hosts(trial):
    """Addresses of others."""
    with hostile() as server, hostile() as other:
        stage = Stage(trial, server)
        other.replies["/content"] = 200, DATA
        server.replies["/objects/batch"] = batch("download", other.address)
        ran = stage.down()
        stage.refused("an object at another address", ran, f"{other.address}, which is asked with --also alone")
        trial.check(not other.asked, "nobody is asked there", other.asked)
        status, errors, folder = stage.down("--also", other.address)
        trial.check(status == 0 and any(it.name == OID for it in folder.rglob("*")), "with --also it is", errors)
        words, count = (str(stage.folder), "ssh://custody@lfs.example"), len(server.asked)
        stage.refused("an address that SSH names, and that is another host's", stage.run(*words), "with --also alone")
        line = json.dumps({"expires_in": 60, "header": {}, "href": "http://lfs.example/x"})
        stage.room.write("bin/ssh", f"#!/bin/sh\necho '{line}'\n", 0o755)
        stage.refused("one that is not https", stage.run(*words),
                      "http://lfs.example, which is asked with --also alone")
        trial.check(len(server.asked) == count, "nobody is asked there", server.asked)


def try_links(trial):
    """Links and pipes in a folder."""
    with hostile() as server:
        stage = Stage(trial, server)
        server.replies |= {"/objects/batch": batch("download", server.address), "/content": (200, DATA)}
        victim = Path(trial.folder())
        (victim / "file").write_text("of somebody else")
        for name, target in (("lock", victim / "file"), ("objects", victim), (f"objects/{OID[:2]}", victim),
                             (f"objects/{OID[:2]}/{OID[2:4]}", victim)):
            folder = Path(trial.folder())
            (folder / name).parent.mkdir(parents=True, exist_ok=True)
            (folder / name).symlink_to(target)
            status, errors = stage.run(stage.socket, str(folder))
            left = {it.name: it.read_text() for it in victim.iterdir() if it.is_file()}
            trial.check(status == 1 and "link, which is not followed" in errors and left == {"file": "of somebody else"}
                        and len(list(victim.iterdir())) == 1, f"a link at {name} is not followed", f"{left}, {errors}")
        for name in ("objects/arriving", "locks.txt", f"objects/{OID[:2]}/{OID[2:4]}/{OID}"):
            folder = Path(trial.folder())
            (folder / name).parent.mkdir(parents=True, exist_ok=True)
            (folder / name).symlink_to(victim / "file")
            status, errors = stage.run(stage.socket, str(folder))
            trial.check(status == 0 and (victim / "file").read_text() == "of somebody else"
                        and not (folder / name).is_symlink(), f"one at {name} is replaced", errors)
        try_sources(trial, stage, victim)


def try_sources(trial, stage, victim):
    """A link and a pipe with the name of an object, which is to be uploaded."""
    stage.server.replies["/objects/batch"] = batch("upload", stage.server.address)
    file = stage.file(DATA)
    (victim / "secret").write_bytes(DATA)
    for make, what in ((lambda: file.symlink_to(victim / "secret"), "a link"), (lambda: os.mkfifo(file), "a pipe")):
        file.unlink()
        make()
        child = trial.start(str(stage.folder), stage.socket, **stage.environment)
        try:
            _, errors = child.communicate(timeout=20)
        except subprocess.TimeoutExpired:
            errors = "it waits"
        finally:
            child.kill()
        trial.check(child.returncode == 1 and f"{OID}: it is " in errors and "/content" not in stage.server.asked[-1:],
                    f"{what} with the name of an object is named, and not read", errors)
