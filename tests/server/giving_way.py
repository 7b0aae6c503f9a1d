"""Tries downloads that give way to others: locks beside clients that pull, or do not read, and downloads that end.

Each check starts a server on a new database and a free port of this machine. A large content in the file beside the
database is sent in parts, between which others are served. One in rows is sent in its turn, so the checks of what is
done between two parts have a database with a file alone. A line has what was measured, with the bound. Two checks of
the limits of patience take more than 30 seconds each.
"""
import contextlib
import functools
import hashlib
import json
import os
import random
import re
import signal
import socket
import sys
import time

from tests.studio.checks import arguments, beside, comes_true, judge_on_forms, require, within
from tests.studio.control import ControlledServer
from tests.studio.policy import FILM
from tests.studio.program import LOCKS, content, lock, made, message, name_of, put, raise_limit, target

SIZE, PIECE = 64 << 20, 1 << 20
PULLING, LOCKED = 8, 40
# What 64 MiB of messages or replies that wait may add to the memory, in KiB: buffers grow by doubling.
MEMORY = 147_456
# How many batches a client asks for that reads them late: about 12 MiB.
LATER = 40
# How long a client may take nothing of a reply, and how long a part more its end may come, in seconds.
GRACE, LATE = 30, 4


@functools.cache
def object_of(number):
    """The bytes of an object, and its name."""
    data = made(number, SIZE)
    return data, name_of(data)


def store(server, number=0):
    """Pushes an object. Returns its bytes and its name."""
    data, oid = object_of(number)
    require(server.ask(put(data))[0] == 200, "an object was not stored")
    return data, oid


def wanted(oid, more=""):
    """A download."""
    return message("GET", content(oid), more=more)


def begin(client, length=SIZE):
    """Reads the head of a content, of this many bytes."""
    lines, found = client.head()
    require((b" 200 " in lines[0], found) == (True, length), f"a download got {lines[0]!r} and {found} bytes")


def pieces(client, left=SIZE):
    """The pieces of a content that come until its end, or until the connection ends."""
    while left:
        piece = bytes(client.rest[:left])
        del client.rest[:left]
        if not piece:
            with contextlib.suppress(ConnectionResetError):
                piece = client.socket.recv(min(left, PIECE))
        if not piece:
            return
        left -= len(piece)
        yield piece


def finish(client, oid):
    """Reads a content to its end, which has to be the object of this name."""
    digest, count = hashlib.sha256(), 0
    for piece in pieces(client):
        digest.update(piece)
        count += len(piece)
    require((count, digest.hexdigest()) == (SIZE, oid), f"{count} bytes arrived, with the SHA-256 {digest.hexdigest()}")


def expect_beginning(client, data):
    """Reads what still comes of a content, which has to be the beginning of these bytes. Returns how many came."""
    found = b"".join(pieces(client, len(data)))
    require(data.startswith(found), "other bytes arrived than those of the object")
    return len(found)


def slowest_lock(server, bound, what, count=LOCKED):
    """The slowest of some locks, over new connections, as a text."""
    times = []
    for _ in range(count):
        times.append(server.time_of_lock(f"art/{random.randrange(1 << 60)}"))
        time.sleep(0.05)
    median = sorted(times)[len(times) // 2]
    return f"{within(max(times), bound, f'the slowest of {count} locks beside {what}')}, the median {median * 1e3:.1f} ms"


def check_beside_pulls(server, _):
    """Locks beside clients that pull: with contents in rows, a lock waits for one download."""
    _, oid = store(server)
    faults, compared = [], []

    def pull(is_over, compares):
        """Pulls the object again and again. Compares it if it is to, and else reads it."""
        try:
            while not is_over.is_set():
                with server.client() as client:
                    client.send(wanted(oid))
                    begin(client)
                    count = finish(client, oid) if compares else sum(map(len, pieces(client)))
                require(compares or count == SIZE, f"a pull ended after {count} bytes")
                compared.append(compares)
        except Exception as fault:  # Whatever ends a client fails the check.
            faults.append(f"{type(fault).__name__} {fault}")

    with beside(*(functools.partial(pull, compares=number == 0) for number in range(PULLING))):
        time.sleep(1)
        result = slowest_lock(server, 0.2 if server.form == "file" else 2, f"{PULLING} clients that pull")
    require(not faults and any(compared), f"{len(faults)} clients failed: {faults[:2]}; {sum(compared)} pulls compared")
    return f"{result}; {len(compared)} pulls, of which {sum(compared)} were compared"


def check_beside_pushes(server, _):
    """A pull beside clients that push without a pause: it is not starved by them."""
    _, oid = store(server)
    faults, pushed = [], []

    def push(is_over):
        """Pushes objects that the server has not."""
        try:
            while not is_over.is_set():
                require(server.ask(put(os.urandom(PIECE)))[0] == 200, "an object was not stored")
                pushed.append(1)
        except Exception as fault:  # Whatever ends a client fails the check.
            faults.append(f"{type(fault).__name__} {fault}")

    with beside(*[push] * 4), server.client() as client:
        time.sleep(0.5)
        before, begun = len(pushed), time.monotonic()
        client.send(wanted(oid))
        begin(client)
        finish(client, oid)
        count, took = len(pushed) - before, time.monotonic() - begun
    require(not faults, f"{len(faults)} clients failed: {faults[:2]}")
    require(count <= 64, f"{count} pushes of 1 MiB ended within a pull of 64 MiB (at most 64), which took {took:.1f} s")
    return f"{count} pushes of 1 MiB ended within a pull of 64 MiB (at most 64), which took {took:.1f} s"


def check_unread(server, _):
    """Locks beside a client that does not read. Then it reads, and asks again over the same connection."""
    _, oid = store(server)
    with server.client() as client:
        client.send(wanted(oid))
        time.sleep(0.5)
        result = slowest_lock(server, 0.1, "a client that does not read")
        begin(client)
        finish(client, oid)
        require(client.ask(lock("art/after"))[0] == 201, "a lock after the download was not made")
        client.send(wanted(oid))
        begin(client)
        finish(client, oid)
    return f"{result}; then it had the object, a lock, and the object again"


def check_many_unread(server, _):
    """Locks beside many clients that do not read, and then do."""
    _, oid = store(server)
    with contextlib.ExitStack() as held:
        clients = [held.enter_context(server.client()) for _ in range(100)]
        before = server.memory()
        for client in clients:
            client.send(wanted(oid))
        time.sleep(1)
        result = slowest_lock(server, 0.1, "100 clients that do not read")
        more = server.memory() - before
        require(more <= 51_200, f"the memory grew by {more} KiB (at most 51200)")
        for client in clients[:5]:
            begin(client)
            finish(client, oid)
        for client in clients[5:10]:
            client.reset()
    require(server.ask(lock("art/last"))[0] == 201, "the last lock was not made")
    return f"{result}; {more} KiB of memory more (at most 51200), then 5 had the object, 5 reset, and 90 closed"


def check_stalled(server, _):
    """A client that takes nothing is closed, and the server reports it."""
    data, oid = store(server)
    with server.client() as client:
        begun = time.monotonic()
        client.send(wanted(oid))
        require(comes_true(lambda: "WriteFailed" in server.errors(), GRACE + LATE), "it was not closed")
        took = time.monotonic() - begun
        require(took >= GRACE, f"it was closed after {took:.1f} s (at least {GRACE})")
        begin(client)
        count = expect_beginning(client, data)
    require(count < SIZE, "it was sent to its end")
    require(server.ask(lock("art/hero"))[0] == 201, "a lock was not made")
    return f"{within(took, GRACE + LATE, 'the end of a client that takes nothing')}; {count} bytes had left the server"


def check_slow(server, _):
    """A client that reads slowly, but more than 16 KiB a second, has its object."""
    _, oid = store(server)
    digest, count, begun, waits = hashlib.sha256(), 0, time.monotonic(), []
    with server.client() as client:
        client.send(wanted(oid))
        begin(client)
        for piece in pieces(client):
            digest.update(piece)
            count += len(piece)
            if time.monotonic() - begun < GRACE + 2 * LATE:
                time.sleep(len(piece) / PIECE)
                waits.append(server.time_of_lock(f"art/{len(waits)}"))
    require((count, digest.hexdigest()) == (SIZE, oid), f"{count} bytes arrived, which may be others")
    return (f"{count} bytes, at 1 MiB a second for {GRACE + 2 * LATE} s; "
            f"{within(max(waits), 0.1, f'the slowest of {len(waits)} locks')}")


def check_retired(server, _):
    """An object that is removed for good while it is sent is cut off, and no other bytes are sent in its place."""
    data, oid = store(server)
    with server.client() as client:
        client.send(wanted(oid))
        begin(client)
        status, _, errors = server.via("retire", "--repo", FILM, oid)
        require(status == 0, f"the object was not retired: {errors}")
        # It may get the same place in the file.
        _, other = store(server, 1)
        count = expect_beginning(client, data)
    require(count < SIZE, "the object was sent to its end")
    with server.client() as client:
        client.send(wanted(other))
        begin(client)
        finish(client, other)
    require(server.ask(lock("art/hero"))[0] == 201, "a lock was not made")
    return f"{count} bytes of {SIZE} were sent, all of them of the object"


def check_pipelined(server, _):
    """Requests that are sent at once with downloads are answered in order."""
    (_, first), (_, second) = store(server), store(server, 1)
    with server.client() as client:
        client.send(wanted(first) + lock("art/hero") + wanted(second) + message("GET", LOCKS))
        time.sleep(0.5)
        begin(client)
        finish(client, first)
        status, body = client.reply()
        require((status, json.loads(body)["lock"]["path"]) == (201, "art/hero"), f"the second reply is {status}")
        begin(client)
        finish(client, second)
        status, body = client.reply()
        require((status, [it["path"] for it in json.loads(body)["locks"]]) == (200, ["art/hero"]),
                f"the fourth reply is {status}")
    return "a download, a lock, another download and a list were answered in this order"


def check_closes(server, _):
    """After a download the connection is closed if the client asks for it, or is of HTTP/1.0. The content comes whole."""
    _, oid = store(server)
    asked = {"Connection: close": wanted(oid, "Connection: close\r\n"),
             "HTTP/1.0": wanted(oid).replace(b"HTTP/1.1", b"HTTP/1.0")}
    for name, text in asked.items():
        for pause in (0, 1):
            with server.client() as client:
                client.send(text)
                time.sleep(pause)
                begin(client)
                finish(client, oid)
                begun = time.monotonic()
                require(client.socket.recv(1) == b"", f"with {name} the connection goes on")
                within(time.monotonic() - begun, 1, f"the end after {name}")
    return f"4 downloads with {' or '.join(asked)}, after which the connection ended within 1 s"


def open_files(server):
    """How many files and sockets the server has open."""
    return len(os.listdir(f"/proc/{server.child.pid}/fd"))


def check_gone(server, _):
    """Clients that close, or reset, within a download, at any byte."""
    _, oid = store(server)
    files = open_files(server)
    for number in range(40):
        client = server.client()
        client.send(wanted(oid))
        if number % 4:
            begin(client)
            client.socket.recv(random.randrange(1, PIECE))
        if number % 2:
            client.reset()
        client.close()
    result = slowest_lock(server, 0.1, "40 clients that have gone", 10)
    require(comes_true(lambda: open_files(server) <= files, 5), "connections are left")
    with server.client() as client:
        client.send(wanted(oid))
        begin(client)
        finish(client, oid)
    return result


def check_half_closed(server, _):
    """A client that closes its sending side after the request has the object."""
    _, oid = store(server)
    with server.client() as client:
        client.send(wanted(oid))
        client.socket.shutdown(socket.SHUT_WR)
        time.sleep(0.5)
        begin(client)
        finish(client, oid)
        require(client.socket.recv(1) == b"", "the connection goes on")
    return "it had the object, and the connection ended"


def check_killed(server, options):
    """A server that is ended within downloads starts again, with the object."""
    data, oid = store(server)
    counts = []
    for number in range(options.rounds):
        with contextlib.ExitStack() as held:
            # With contents in rows, one holds up the others.
            clients = [held.enter_context(server.client()) for _ in range(3 if server.form == "file" else 1)]
            for client in clients:
                client.send(wanted(oid))
                begin(client)
            time.sleep(random.uniform(0, 0.1))
            server.end(signal.SIGTERM if number % 2 else signal.SIGKILL)
            counts += [expect_beginning(client, data) for client in clients]
        server.start()
        with server.client() as client:
            client.send(wanted(oid))
            begin(client)
            finish(client, oid)
    cut = sum(count < SIZE for count in counts)
    require(cut, "no download was cut off")
    return f"{options.rounds} times; {cut} of {len(counts)} downloads were cut off, and the object is there"


def check_stopped(server, _):
    """A server that is stopped within downloads ends, and what it sent is of the object."""
    data, oid = store(server)
    with server.client() as client, server.client() as silent:
        for it in (client, silent):
            it.send(wanted(oid))
        begin(client)
        begun = time.monotonic()
        status, _, errors = server.via("stop")
        require(status == 0, f"stop ended with {status}: {errors}")
        counts = [expect_beginning(client, data)]
        server.child.wait(timeout=10)
        took = time.monotonic() - begun
        begin(silent)
        counts.append(expect_beginning(silent, data))
    server.start()
    with server.client() as client:
        client.send(wanted(oid))
        begin(client)
        finish(client, oid)
    return f"{within(took, 5, 'a stop')}; {counts} bytes of {SIZE} were sent before; the object is there afterwards"


def batch(count, filler=0):
    """A batch of this many objects, each of which takes about 340 bytes of the reply; with a field of its own that is not
    read, of this many bytes."""
    objects = [{"oid": name_of(f"{it}".encode()), "size": 9} for it in range(count)]
    return message("POST", target("objects/batch"), {"operation": "upload", "objects": objects, "more": "x" * filler})


def without_seconds(body):
    """The body of a batch without the seconds for which its token is still valid."""
    return re.sub(rb'"expires_in":[0-9]+', b'"expires_in":0', body)


def expect_replies(client, want, count):
    """Reads replies, which have to have the same status and body, but for the seconds for which a token is valid."""
    for _ in range(count):
        status, body = client.reply()
        same = status == want[0] and without_seconds(body) == without_seconds(want[1])
        require(same, f"a reply is {status}: {body[:100]}")


def ask_unread(server, held, requests, count):
    """Clients that send the requests, one after the other, and do not read."""
    clients = [held.enter_context(server.client()) for _ in range(count)]
    for number, client in enumerate(clients):
        client.socket.setsockopt(socket.SOL_SOCKET, socket.SO_RCVBUF, 4096)
        client.send(requests[number % len(requests)])
    time.sleep(1)
    return clients


def check_slow_replies(server, _):
    """Locks beside clients that ask for lists and batches and do not read them. Then some read all that they asked for.

    Those ask for more than the system keeps of a connection, so that the rest waits in the server. They have the usual
    buffers: with one of 4 KiB the system itself takes half a minute for each MiB, whatever server has sent it.
    """
    with server.client() as client:
        for number in range(100):
            require(client.ask(lock(f"shot/{number:04d}"))[0] == 201, "a lock was not made")
    # What is locked meanwhile is on the pages that follow.
    kinds = [message("GET", LOCKS + "?limit=100"), batch(500)]
    want = [server.ask(kind) for kind in kinds]
    require(all(status == 200 for status, _ in want), f"a list or a batch was refused: {want[0][:1]}, {want[1][:1]}")
    with contextlib.ExitStack() as held:
        readers = [held.enter_context(server.client()) for _ in range(4)]
        for client in readers:
            client.send(kinds[1] * LATER)
        ask_unread(server, held, [kind * 4 for kind in kinds], 200)
        # What has arrived before a lock is answered before it, which is a second of work. Nobody waits 30 seconds for a
        # client that does not read.
        result = slowest_lock(server, 5, "200 clients that do not read lists and batches")
        for client in readers:
            expect_replies(client, want[1], LATER)
    return f"{result}; then 4 had {LATER} replies each, {4 * LATER * len(want[1][1]) >> 20} MiB"


def check_many_replies(server, _):
    """Locks beside more replies than the server keeps for clients that do not read, and its memory."""
    raise_limit()
    kind, before = batch(1_000), server.memory()
    want = server.ask(kind)
    with contextlib.ExitStack() as held:
        clients = ask_unread(server, held, [kind * 2], 500)
        # What has arrived before a lock is answered before it: 500 batches, of 18 ms each. While there is too much of
        # replies, those are closed whose reply has been sent for 5 seconds.
        result = slowest_lock(server, 20, "500 clients that do not read batches")
        more, read = server.peak() - before, 0
        for client in clients:
            with contextlib.suppress(OSError):
                expect_replies(client, want, 2)
                read += 1
    require(more <= MEMORY, f"the memory grew by {more} KiB (at most {MEMORY})")
    require(read, "no client had its replies")
    return (f"{result}; {more} KiB of memory more (at most {MEMORY}) for {1000 * len(want[1]) >> 20} MiB of replies; "
            f"{read} of 500 then had both of theirs")


def check_slow_batch(server, _):
    """Locks beside a client that sends a batch of more than 81,920 bytes in two parts."""
    text = batch(10, 100_000)
    with server.client() as client:
        client.send(text[:-1])
        time.sleep(0.3)
        result = slowest_lock(server, 0.1, "a batch that has not arrived")
        client.send(text[-1:])
        status, _ = client.reply()
    require(status == 200, f"the batch got {status}")
    return f"{result}; then it was answered"


def check_many_bodies(server, _):
    """Locks beside clients that have sent almost 1 MiB of a batch each, and the memory of the server."""
    text, before = batch(10, (1 << 20) - 20_000), server.memory()
    with contextlib.ExitStack() as held:
        clients = [held.enter_context(server.client()) for _ in range(200)]
        for client in clients:
            client.socket.settimeout(1)
            with contextlib.suppress(OSError):
                client.send(text[:-1])
        result = slowest_lock(server, 0.5, "200 clients that have sent almost 1 MiB of a batch")
        more, answered = server.peak() - before, 0
        for client in clients:
            with contextlib.suppress(OSError):
                client.socket.settimeout(10)
                client.send(text[-1:])
                answered += client.reply()[0] == 200
    require(more <= MEMORY, f"the memory grew by {more} KiB (at most {MEMORY})")
    require(answered, "no batch was answered")
    return f"{result}; {more} KiB of memory more (at most {MEMORY}); {answered} of 200 were then answered"


# The checks of what is done between two parts of a download.
OF_A_FILE = {
    "unread": check_unread,
    "many-unread": check_many_unread,
    "stalled": check_stalled,
    "slow": check_slow,
    "retired": check_retired,
    "gone": check_gone,
    "stopped": check_stopped,
}
CHECKS = {
    "beside-pulls": check_beside_pulls,
    "beside-pushes": check_beside_pushes,
    "pipelined": check_pipelined,
    "closes": check_closes,
    "half-closed": check_half_closed,
    "killed": check_killed,
    "slow-replies": check_slow_replies,
    "many-replies": check_many_replies,
    "slow-batch": check_slow_batch,
    "many-bodies": check_many_bodies,
    **OF_A_FILE,
}


def main():
    """Runs the checks."""
    parser = arguments(__doc__, CHECKS, forms=True)
    parser.add_argument("--rounds", type=int, default=6, help="how often a server is ended within downloads [default: 6]")
    options = parser.parse_args()
    return judge_on_forms(CHECKS, options, lambda program, room, form: ControlledServer(program, room, form=form),
                          OF_A_FILE)


if __name__ == "__main__":
    sys.exit(main())
