"""Tries `custody serve` with clients that are slow, silent, busy or gone, with a server that is killed, and with load.

Each check starts a server on a new database of each form and a free port of this machine. Its line has what was
measured, with the bound, and it fails if the bound is not kept. One check waits for 30 seconds, the time that a reply
may pause.
"""
import collections
import contextlib
import json
import os
import random
import resource
import select
import signal
import socket
import sys
import time

from tests.studio.checks import Failed, arguments, beside, judge_on_forms, require, within
from tests.studio.policy import policy, row, WORK
from tests.studio.program import LOCKS, Server, content, lock, message, name_of, put, raise_limit


def check_pipelined(server, _):
    """Messages that are sent at once are answered in order."""
    count = 200
    begun = time.monotonic()
    with server.client() as client:
        client.send(b"".join(lock(f"art/{number}") for number in range(count)))
        for number in range(count):
            status, body = client.reply()
            path = json.loads(body)["lock"]["path"]
            require((status, path) == (201, f"art/{number}"), f"reply {number} is {status}, for {path}")
    return within(time.monotonic() - begun, 10, f"{count} messages at once")


def check_keep_alive(server, _):
    """Clients that connect at once, send one request each, and keep the connection."""
    times, clients, faults = [], [], []

    def act(number):
        """Locks a path over a new connection, which is kept."""
        try:
            begun = time.monotonic()
            client = server.client()
            clients.append(client)
            status, _ = client.ask(lock(f"art/{number}"))
            require(status == 201, f"a lock got {status}")
            times.append(time.monotonic() - begun)
        except (Failed, OSError) as fault:
            faults.append(str(fault))

    with beside(*(lambda _, number=number: act(number) for number in range(8))):
        pass
    for client in clients:
        client.close()
    require(not faults, "; ".join(faults))
    return within(max(times), 1, "the slowest of 8 clients")


def check_one_connection(server, _):
    """A client that pauses between its requests keeps its connection."""
    with server.client() as client:
        for number in range(4):
            status, _ = client.ask(lock(f"art/{number}"))
            require(status == 201, f"a lock got {status}")
            time.sleep(0.5)
    return "4 requests with pauses of 0.5 s over one connection"


def check_idle_end(server, _):
    """An idle connection ends after the idle time, and the server uses no processor meanwhile."""
    server.end(signal.SIGTERM)
    server.idle = 1
    server.start()
    with server.client() as client:
        begun, used = time.monotonic(), server.processor_time()
        require(client.socket.recv(1) == b"", "an idle client got bytes")
        waited, used = time.monotonic() - begun, server.processor_time() - used
    require(0.9 <= waited, f"the connection ended after {waited:.2f} s")
    begun = server.processor_time()
    time.sleep(1)
    rest = server.processor_time() - begun
    require(rest < 0.002, f"without a connection the server used {rest * 1e3:.1f} ms of a second")
    return f"{within(waited, 1.2, 'an idle time of 1 s')}, and {used * 1e3:.1f} ms of the processor"


def drip(server, number, is_over):
    """Sends a message, a byte a second."""
    with contextlib.suppress(OSError), server.client() as client:
        for byte in lock(f"art/slow/{number}"):
            client.send(bytes([byte]))
            if is_over.wait(1):
                return


def ask_always(server, is_over, counts):
    """Sends request after request, 20 at a time, without a pause."""
    with contextlib.suppress(Failed, OSError), server.client() as client:
        while not is_over.is_set():
            client.send(lock("art/busy") * 20)
            for _ in range(20):
                require(client.reply()[0] in (201, 409), "a busy client got something else")
                counts["busy"] += 1
        counts["whole"] += 1


def check_crowd(server, _):
    """Locks beside clients that send nothing, half a head, a byte a second, and request after request."""
    raise_limit()
    counts, times = collections.Counter(), []
    slow = [lambda is_over, number=number: drip(server, number, is_over) for number in range(50)]
    with contextlib.ExitStack() as held:
        clients = [held.enter_context(server.client()) for _ in range(400)]
        for client in clients[200:]:
            client.send(lock("art/half")[:60])
        with beside(*slow, lambda is_over: ask_always(server, is_over, counts)):
            time.sleep(1)
            for number in range(50):
                times.append(server.time_of_lock(f"art/{number}"))
            with server.client() as client:
                for number in range(50):
                    begun = time.monotonic()
                    require(client.ask(lock(f"art/kept/{number}"))[0] == 201, "a lock was not made")
                    times.append(time.monotonic() - begun)
    median = sorted(times)[len(times) // 2]
    require(counts["whole"] == 1 and counts["busy"] >= 20, "the busy client was not served to its end")
    slowest = within(max(times), 0.1, "the slowest of 100 locks beside 451 clients")
    return f"{slowest}, the median {median * 1e3:.1f} ms; the busy client had {counts['busy']} replies"


def check_late(server, _):
    """Clients whose first byte comes some time after they connect, as those of a busy proxy may, beside busy ones."""
    counts, faults = collections.Counter(), []

    def ask(delay, number):
        """Locks paths, each some time after its connection began."""
        try:
            for round in range(10):
                with server.client() as client:
                    time.sleep(delay)
                    require(client.ask(lock(f"art/{delay}/{number}/{round}"))[0] == 201, "a lock was not made")
                    counts["asked"] += 1
        except (Failed, OSError) as fault:
            faults.append(f"after {delay} s: {fault}")

    delays = [0, 0.1, 0.2, 0.3, 0.4, 0.5]
    late = [lambda _, it=(delay, number): ask(*it) for delay in delays for number in range(6)]
    with beside(*[lambda is_over: ask_always(server, is_over, counts)] * 4), beside(*late):
        pass
    require(not faults and counts["whole"] == 4,
            f"{len(faults)} failed: {faults[:3]}; {counts['whole']} of 4 busy ones did not")
    return f"{counts['asked']} of 360 requests, {len(late) // len(delays) * 10} each with a first byte after {delays} s"


def check_many(server, _):
    """More clients than there may be connections; and more than the system allows the server."""
    raise_limit()
    with contextlib.ExitStack() as open_clients:
        first = open_clients.enter_context(server.client())
        for _ in range(1_200):
            open_clients.enter_context(server.client())
        result = within(server.time_of_lock("art/hero"), 0.5, "a lock after 1,201 silent clients")
        require(first.socket.recv(1) == b"", "the client that was silent for longest got bytes")
    files = len(os.listdir(f"/proc/{server.child.pid}/fd"))
    time.sleep(0.5)
    resource.prlimit(server.child.pid, resource.RLIMIT_NOFILE, (40, 40))
    with contextlib.ExitStack() as open_clients:
        for _ in range(200):
            open_clients.enter_context(server.client())
        time.sleep(0.5)
        few = within(server.time_of_lock("art/two"), 1, "one with room for 40 files")
    return f"{result}, with {files} files; {few}"


def check_expiry(server, _):
    """A token that expires while its connection is open is refused there."""
    server.end(signal.SIGTERM)
    server.set_policy(policy([row("allow", ["ann"], WORK)], seconds=60))
    server.issue("b", "--now", str(int(time.time()) - 57))
    server.start()
    with server.client() as client:
        found = []
        for _ in range(6):
            found.append(client.ask(message("GET", LOCKS, token="b"))[0])
            time.sleep(1)
    require(found[0] == 200 and found[-1] == 401, f"the replies were {found}")
    return f"the replies of 6 seconds over one connection were {found}"


def check_busy(server, _):
    """Clients beside one that sends an object slowly, which holds them up for longer than they may idle."""
    server.end(signal.SIGTERM)
    server.idle = 2
    server.start()
    data, half = os.urandom(200_000), lock("art/half")
    with server.client() as idle, server.client() as other, server.client() as slow:
        require(idle.ask(lock("art/hero"))[0] == 201, "a lock was not made")
        other.send(half[:60])
        slow.send(put(data)[:-len(data)])
        for at in range(0, len(data), 25_000):
            slow.send(data[at : at + 25_000])
            time.sleep(0.5)
        require(slow.reply()[0] == 200, "the object was not stored")
        other.send(half[60:])
        require(other.reply()[0] == 201, "a lock in halves was not made")
        require(idle.ask(lock("art/two"))[0] == 201, "a second lock was not made")
    return "an object in 4 s, beside clients that may idle for 2 s"


def check_no_reader(server, _):
    """A client beside one that sends requests and never reads."""
    with server.client() as client:
        for number in range(200):
            client.send(lock(f"art/{number}"))
            require(client.reply()[0] == 201, "a lock was not made")
    silent = socket.socket()
    silent.setsockopt(socket.SOL_SOCKET, socket.SO_RCVBUF, 4096)
    silent.connect(("127.0.0.1", server.port))
    silent.setblocking(False)
    wanted = message("GET", LOCKS + "?limit=100") * 2000
    begun, worst, count = time.monotonic(), 0, 0
    try:
        while "WriteFailed" not in server.errors() and time.monotonic() - begun < 60:
            with contextlib.suppress(BlockingIOError):
                wanted = wanted[silent.send(wanted):]
            worst = max(worst, server.time_of_lock(f"art/beside/{count}"))
            count += 1
    finally:
        silent.close()
    require("WriteFailed" in server.errors(), "the failed write was not reported")
    return within(worst, 35, f"the slowest of {count} locks beside a client that never reads")


def check_reset(server, _):
    """A client after one that resets the connection in mid-reply."""
    with server.client() as client:
        for number in range(100):
            require(client.ask(lock(f"art/{number}"))[0] == 201, "a lock was not made")
    for _ in range(20):
        client = server.client()
        client.send(message("GET", LOCKS + "?limit=100") * 50)
        client.socket.recv(100)
        client.reset()
    result = within(server.time_of_lock("art/hero"), 2, "a lock after 20 resets")
    failed = server.errors().count("Failed")
    return f"{result}; {failed} reported"


def check_early_reply(server, _):
    """A request that is refused before its body was read: the client still gets the reply."""
    body = b"x" * 5_000_000
    for number in range(20):
        with server.client() as client:
            head = f"POST {LOCKS} HTTP/1.1\r\nContent-Length: {len(body)}\r\n\r\n".encode()
            client.send(head + body)
            status, _ = client.reply()
            require(status == 413, f"try {number} got {status}")
    return "20 of 20 requests with 5 MB of body got 413"


def check_short_first(server, _):
    """A lock that arrives after four uploads and four downloads, while another message is served, is made before them."""
    served, stored = put(bytes(200_000)), b"s" * 300_000
    with server.client() as client:
        require(client.ask(put(stored))[0] == 200, "an object was not stored")
    pull = message("GET", content(name_of(stored)))
    with contextlib.ExitStack() as stack:
        slow, last, *clients = [stack.enter_context(server.client()) for _ in range(10)]
        slow.send(served[:-1])
        time.sleep(0.3)
        for number, client in enumerate(clients):
            client.send(put(bytes([number]) * 300_000) if number % 2 else pull)
        time.sleep(0.3)
        last.send(lock("art/hero"))
        time.sleep(0.3)
        slow.send(served[-1:])
        order, waiting = [], {client.socket: client for client in [last, *clients]}
        while waiting:
            for found in select.select(list(waiting), [], [], 60)[0]:
                order.append(waiting.pop(found).reply()[0])
    require(order == [201] + 8 * [200], f"the replies came in the order {order}")
    return "a lock was made before four uploads and four downloads that had arrived before it"


def load(server, number, answered, is_over):
    """Locks paths until it is over. A path is answered once its reply was read."""
    count = 0
    while not is_over.is_set():
        try:
            with server.client(5) as client:
                while not is_over.is_set():
                    path = f"art/{number}/{count}"
                    count += 1
                    if client.ask(lock(path))[0] == 201:
                        answered.append(path)
        except (OSError, Failed):
            time.sleep(0.01)


def check_killed(server, options, kind=signal.SIGKILL):
    """A server that is ended in mid-load: after a restart each lock that was answered exists."""
    answered = []
    for number in range(options.rounds):
        names = [f"{number}.{it}" for it in range(3)]
        with beside(*(lambda is_over, name=name: load(server, name, answered, is_over) for name in names)):
            time.sleep(random.uniform(0.1, 0.6))
            took = server.end(kind)
        require(took < 2, f"the server ended after {took:.2f} s")
        server.start()
    require(answered, "no lock was answered")
    with server.client() as client:
        for path in answered:
            status, _ = client.ask(lock(path))
            require(status == 409, f"{path} was answered and does not exist: {status}")
    return f"{options.rounds} times, {len(answered)} locks were answered, and each exists"


def check_terminated(server, options):
    """The same with SIGTERM."""
    return check_killed(server, options, signal.SIGTERM)


def check_load(server, options):
    """Many connections and many requests, and the memory that the server has before and after them."""
    with server.client() as client:
        require(client.ask(lock("art/hero"))[0] == 201, "a lock was not made")
        status, _ = client.ask(lock("art/hero"))
        require(status == 409, f"a path that is locked got {status}")
    before = server.memory()
    begun = time.monotonic()
    for _ in range(options.connections):
        with server.client() as client:
            require(client.ask(lock("art/hero"))[0] == 409, "a path that is locked was not refused")
    connecting, begun, between = time.monotonic() - begun, time.monotonic(), server.memory()
    batch = 500
    with server.client() as client:
        for _ in range(options.requests // batch):
            client.send(lock("art/hero") * batch)
            for _ in range(batch):
                require(client.reply()[0] == 409, "a path that is locked was not refused")
    asking, after = time.monotonic() - begun, server.memory()
    require(after <= before + 8192, f"the memory grew from {before} KiB to {after} KiB (at most 8192 KiB more)")
    return (f"{options.connections} connections in {connecting:.0f} s, {options.requests} requests in {asking:.0f} s; "
            f"memory {before} KiB, {between} KiB, {after} KiB (at most 8192 KiB more)")


CHECKS = {
    "pipelined": check_pipelined,
    "keep-alive": check_keep_alive,
    "one-connection": check_one_connection,
    "idle-end": check_idle_end,
    "crowd": check_crowd,
    "late": check_late,
    "many": check_many,
    "expiry": check_expiry,
    "busy": check_busy,
    "no-reader": check_no_reader,
    "reset": check_reset,
    "early-reply": check_early_reply,
    "short-first": check_short_first,
    "killed": check_killed,
    "terminated": check_terminated,
    "load": check_load,
}


def main():
    """Runs the checks."""
    parser = arguments(__doc__, CHECKS, forms=True)
    parser.add_argument("--rounds", type=int, default=10, help="how often a server is ended in mid-load")
    parser.add_argument("--connections", type=int, default=10_000, help="how many connections the check `load` makes")
    parser.add_argument("--requests", type=int, default=1_000_000, help="how many requests the check `load` sends")
    options = parser.parse_args()
    return judge_on_forms(CHECKS, options, lambda program, room, form: Server(program, room, form=form))


if __name__ == "__main__":
    sys.exit(main())
