"""A command with `--via` ends as the reply of the server at its socket says, and never well without one.

The server is this suite: at a socket it reads the request, and sends a reply that is good, refuses, is cut off, or is
none. No contract says what a socket takes and sends, so the gate runs this after its proofs (`.ci/run`). The requests and
the replies are those of crates/control/README.md, and the lines and statuses those of docs/COMMANDS.md.
"""
import contextlib
import socket
import sys
import tempfile
import threading
from dataclasses import dataclass

from tests.studio.checks import arguments, judge_each, require
from tests.studio.program import run

SECONDS = 20
CUT, OTHER = "custody: control socket\n", "custody: the server has another version\n"
# The words of each command, those that its request has, and its input.
COMMANDS = {
    "pushcheck": (["--user", "ann", "--repo", "studio/film", "--ref", "refs/heads/main"],
                  ["pushcheck", "ann", "studio/film", "refs/heads/main"], b"art/hero.psd\n"),
    "may": (["--user", "ann", "--repo", "studio/film", "push"], ["may", "ann", "studio/film", "push"], b""),
    "hold": (["--seconds", "9"], ["hold", "9"], b""),
    "stop": ([], ["stop"], b""),
}


def field(content):
    """A field: the number of its bytes in four bytes, and then the bytes."""
    return len(content).to_bytes(4, "big") + content


def request(name):
    """The request for a command."""
    _, words, given = COMMANDS[name]
    taken = given if name == "pushcheck" else b""
    return b"\3" + field(field(taken) + b"".join(field(it.encode()) for it in words))


OUT, ERRORS, SHOWN = b"\3" + field(b"one\n"), b"\4" + field(b"custody: no\n"), b"\5" + field(b"1 of 2")


@dataclass(frozen=True)
class Reply:
    """The bytes that a server sends, and then how a command ends: its status, its output and its error stream."""

    sent: bytes
    status: int
    output: str = ""
    errors: str = ""


REPLIES = {
    "good": Reply(b"\3" + OUT + b"\0", 0, "one\n"),
    "good, without output": Reply(b"\3\0", 0),
    "good, in pieces and with progress": Reply(b"\3" + OUT + SHOWN + OUT + b"\0", 0, "one\none\n"),
    "refused": Reply(b"\3" + OUT + ERRORS + b"\1", 1, "one\n", "custody: no\n"),
    "refused, without output": Reply(b"\3\1", 1),
    "invalid": Reply(b"\3" + ERRORS + b"\2", 2, "", "custody: no\n"),
    "nothing": Reply(b"", 1, "", CUT),
    "the version alone": Reply(b"\3", 1, "", CUT),
    "cut off after a piece": Reply(b"\3" + OUT, 1, "one\n", CUT),
    "cut off within a second piece": Reply(b"\3" + OUT + OUT[:-1], 1, "one\n", CUT),
    "cut off within a number": Reply(b"\3" + OUT[:3], 1, "", CUT),
    "a frame of no kind": Reply(b"\3" + OUT + b"\6\0", 1, "one\n", CUT),
    "an empty piece": Reply(b"\3\3" + field(b"") + b"\0", 1, "", CUT),
    "a piece that is too long": Reply(b"\3\3" + field(bytes(65_537)) + b"\0", 1, "", CUT),
    "another version": Reply(b"\4" + OUT + b"\0", 1, "", OTHER),
    "the first version": Reply(b"\2" + field(b"") + field(b"custody: the server has another version\n"), 1, "", OTHER),
    "good, by the first version": Reply(b"\0" + field(b"one\n") + field(b""), 1, "", OTHER),
}


def answer(listener, length, reply, taken):
    """Accepts one connection, reads as many bytes into the list, and sends the reply."""
    with contextlib.suppress(OSError), listener.accept()[0] as caller:
        caller.settimeout(SECONDS)
        while len(taken) < length and (piece := caller.recv(65_536)):
            taken += piece
        caller.sendall(reply)


def ask(program, name, reply):
    """Runs the command at a server with this reply. Returns how it ended, and the bytes that the server took."""
    taken = bytearray()
    with tempfile.TemporaryDirectory() as room, socket.socket(socket.AF_UNIX) as listener:
        path = f"{room}/control"
        listener.bind(path)
        listener.listen()
        listener.settimeout(SECONDS)
        server = threading.Thread(target=answer, args=(listener, len(request(name)), reply, taken))
        server.start()
        more, _, given = COMMANDS[name]
        ended = run([program, name, "--via", path, *more], given, timeout=SECONDS)
        server.join()
    return ended, bytes(taken)


def judge(program, title):
    """Each command at a server with the reply of this title. Returns a text."""
    reply = REPLIES[title]
    for name in COMMANDS:
        ended, taken = ask(program, name, reply.sent)
        require(taken == request(name), f"{name}: the server took {taken!r}, and not {request(name)!r}")
        wanted = (reply.status, reply.output, reply.errors)
        require(ended == wanted, f"{name}: {ended}, and not {wanted}")
    return f"status {reply.status}, {reply.errors.strip() or 'no line'}"


def judge_nobody(program):
    """Each command at a socket where no server is, and at no socket. Returns a text."""
    with tempfile.TemporaryDirectory() as room:
        with socket.socket(socket.AF_UNIX) as left:
            left.bind(f"{room}/left")
        for path in (f"{room}/left", f"{room}/none"):
            for name, (more, _, given) in COMMANDS.items():
                ended = run([program, name, "--via", path, *more], given, timeout=SECONDS)
                require(ended == (1, "", CUT), f"{name}: {ended}")
    return f"status 1, {CUT.strip()}"


def main():
    """Judges each reply."""
    names = [*REPLIES, "no server"]
    options = arguments(__doc__, names).parse_args()

    def act(name):
        """How the commands end."""
        return judge_nobody(options.program) if name == "no server" else judge(options.program, name)

    return judge_each(names, options, act)


if __name__ == "__main__":
    sys.exit(main())
