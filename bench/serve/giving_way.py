#!/usr/bin/env python3
"""Times locks beside transfers, of two programs in one run, and prints a table for a page.

A lock is asked for five times a second, over a connection of its own, however long those before it wait. Beside them
are, in turn: nobody; eight clients that push and eight that pull objects of 64 MiB without a pause, all in one
repository, and each pair in one of its own; eight that pull; one that pushes an object of 4 GiB; one that asks for an
object of 64 MiB and does not read it; one that sends an upload of 1 MiB, and one that sends a batch of 100 KB, both at
1 KB a second. Each client that transfers is a process of its own. One of those that pull compares what it gets by its
SHA-256; a wrong byte, or a reply with another status, ends the bench.

    bench/serve/giving_way.py --program before=FILE --program after=FILE [--rounds N] [--seconds N] [--mb N]
                              [--form file|rows] [--only NAME]

A row of the table has the median and the longest time of the locks of all rounds, and the median of the bytes a second
that all transfers moved; the last column has the median of the ratios of the rounds. Each has a new database. With the
usual arguments the bench takes an hour, 10 GB of disk and 1 GB of memory.
"""
import argparse
import contextlib
import functools
import hashlib
import multiprocessing
import os
import statistics
import sys
import tempfile
import threading
import time
from dataclasses import dataclass, field

from servers import Content, download, upload
from tests.studio.checks import comes_true
from tests.studio.control import ControlledServer
from tests.studio.policy import FILM, open_policy
from tests.studio.program import FORMS, content, lock, message, name_of, put, target

SIZE, PIECE = 64 << 20, 1 << 20
CLIENTS = 8
REPOS = [FILM, *(f"studio/part-{number}" for number in range(1, CLIENTS))]
QUOTA = 100_000_000_000
# How long a client waits for a reply; transfers go on before the first lock; and passes between two locks, in seconds.
PATIENCE, RISING, PAUSE = 900, 3, 0.2
# How many locks, pushes and pulls are timed with nobody beside them.
ALONE, TRANSFERS = 50, 3
# All objects of this size but their last 16 bytes, of which the first object has zeros.
COMMON = os.urandom(SIZE - 16)
HASHED = hashlib.sha256(COMMON)
FIRST = COMMON + bytes(16)
FIRST_NAME = name_of(FIRST)


class Worker:
    """A client that transfers, in a process of its own. It counts the bytes that it moved, and the objects that it compared.
    """

    def __init__(self, way, act):
        self.way, self.moved, self.compared = way, multiprocessing.Value("Q", 0), multiprocessing.Value("Q", 0)
        self.process = multiprocessing.Process(target=act, args=(self,), daemon=True)
        self.process.start()

    def move(self, count):
        """Counts bytes."""
        self.moved.value += count

    def is_compared(self):
        """Whether it has compared an object. A process that has ended has failed, and has said why."""
        if self.process.exitcode is not None:
            sys.exit("a client that transfers has ended")
        return self.compared.value > 0

    def end(self):
        """Ends the process."""
        self.is_compared()
        self.process.kill()
        self.process.join()


def expect(client, want):
    """Reads a reply, which has to have the status."""
    status, body = client.reply()
    if status != want:
        sys.exit(f"a request got {status}, not {want}: {body[:200]!r}")


def push_on(server, repo, token, worker):
    """Pushes objects that the server has not."""
    while True:
        end, whole = os.urandom(16), HASHED.copy()
        whole.update(end)
        with server.client(PATIENCE) as client:
            client.send(message("PUT", content(whole.hexdigest(), repo), token=token, length=SIZE))
            for at in range(0, SIZE, PIECE):
                piece = (COMMON[at : at + PIECE] + end)[:PIECE]
                client.send(piece)
                worker.move(len(piece))
            expect(client, 200)


def pull_on(server, repo, token, compares, worker):
    """Pulls the first object, and compares it if it is to."""
    buffer = bytearray(PIECE)
    while True:
        whole = hashlib.sha256()
        with server.client(PATIENCE) as client:
            client.send(message("GET", content(FIRST_NAME, repo), token=token))
            lines, left = client.head()
            if b" 200 " not in lines[0] or left != SIZE:
                sys.exit(f"a pull got {lines[0]!r} and {left} bytes")
            piece = bytes(client.rest)
            while left:
                piece = piece or memoryview(buffer)[: client.socket.recv_into(buffer, min(left, PIECE))]
                if not piece:
                    sys.exit(f"a pull lacks {left} bytes")
                worker.move(len(piece))
                left -= len(piece)
                if compares:
                    whole.update(piece)
                piece = b""
        if compares and whole.hexdigest() != FIRST_NAME:
            sys.exit("a pull has other bytes")
        worker.compared.value += compares


def push_large(server, it, worker):
    """Pushes one large object."""
    with server.client(PATIENCE) as client:
        client.send(message("PUT", content(it.name), length=it.size))
        for piece in it.pieces(it.size):
            for at in range(0, len(piece), PIECE):
                client.send(piece[at : at + PIECE])
                worker.move(PIECE)
        expect(client, 200)
    time.sleep(PATIENCE)


def never_read(server, _):
    """Asks for the first object, and does not read it."""
    with server.client() as client:
        client.send(message("GET", content(FIRST_NAME)))
        time.sleep(PATIENCE)


def drip(server, data, worker):
    """Sends a message at 1 KB a second, anew once the connection is closed."""
    while True:
        with contextlib.suppress(OSError), server.client() as client:
            for at in range(0, len(data), 1000):
                client.send(data[at : at + 1000])
                worker.move(1000)
                time.sleep(1)


def pushers(server, repos):
    """A client that pushes for each of the repositories."""
    return [Worker("up", functools.partial(push_on, server, repo, server.token(repo))) for repo in repos]


def pullers(server, repos):
    """A client that pulls for each of the repositories. The first one compares."""
    tokens = {repo: server.token(repo) for repo in repos}
    for repo, token in tokens.items():
        if server.ask(put(FIRST, token, repo), PATIENCE)[0] != 200:
            sys.exit("the first object was not stored")
    return [Worker("down", functools.partial(pull_on, server, repo, tokens[repo], number == 0))
            for number, repo in enumerate(repos)]


def both(server, repos):
    """A client that pulls, and one that pushes, for each of the repositories."""
    return pullers(server, repos) + pushers(server, repos)


def one_large(server, size):
    """A client that pushes an object of this size."""
    return [Worker("up", functools.partial(push_large, server, Content(size)))]


def one_unread(server):
    """A client that does not read."""
    if server.ask(put(FIRST), PATIENCE)[0] != 200:
        sys.exit("the first object was not stored")
    return [Worker("none", functools.partial(never_read, server))]


def one_slow(server, data):
    """A client that sends slowly."""
    return [Worker("none", functools.partial(drip, server, data))]


def batch_of(size):
    """A batch of about this many bytes."""
    objects = [{"oid": name_of(bytes([number % 256, number // 256])), "size": 2} for number in range(size // 90)]
    return message("POST", target("objects/batch"), {"operation": "download", "objects": objects})


@dataclass
class Situation:
    """What is beside the locks, in words, and what starts it."""

    says: str
    start: object


def situations(options):
    """The situations, by name."""
    size = f"{options.mb >> 10} GiB" if options.mb % 1024 == 0 else f"{options.mb} MiB"
    each = f"{CLIENTS} that push and {CLIENTS} that pull"
    return {
        "alone": Situation("nobody", lambda _: []),
        "one": Situation(f"{each}, in one repository", lambda server: both(server, [FILM] * CLIENTS)),
        "eight": Situation(f"{each}, in {CLIENTS} repositories", lambda server: both(server, REPOS)),
        "pulls": Situation(f"{CLIENTS} that pull", lambda server: pullers(server, [FILM] * CLIENTS)),
        "large": Situation(f"one push of {size}", lambda server: one_large(server, options.mb << 20)),
        "unread": Situation("one that asks for 64 MiB and does not read", one_unread),
        "slow-upload": Situation("one that sends an upload of 1 MiB at 1 KB a second",
                                 lambda server: one_slow(server, put(os.urandom(1 << 20)))),
        "slow-batch": Situation("one that sends a batch of 100 KB at 1 KB a second",
                                lambda server: one_slow(server, batch_of(100_000))),
    }


@dataclass
class Found:
    """What was measured of a program in a situation: the times of the locks; and of each round the bytes a second, by the
    way, and the times of the transfers alone."""

    locks: list = field(default_factory=list)
    rates: list = field(default_factory=list)
    alone: list = field(default_factory=list)


def moved(workers):
    """How many bytes were moved, by the way."""
    found = {"up": 0, "down": 0}
    for worker in workers:
        if worker.way in found:
            found[worker.way] += worker.moved.value
    return found


def locks_for(server, seconds):
    """Asks for locks for this long, each in a thread. Returns the threads, and the list that gets their times."""
    times, threads, begun = [], [], time.monotonic()

    def ask(number):
        """Asks for a lock."""
        start = time.monotonic()
        with server.client(PATIENCE) as client:
            client.send(lock(f"art/{number}"))
            expect(client, 201)
        times.append(time.monotonic() - start)

    for number in range(int(seconds / PAUSE)):
        time.sleep(max(0, begun + number * PAUSE - time.monotonic()))
        threads.append(threading.Thread(target=ask, args=(number,)))
        threads[-1].start()
    time.sleep(max(0, begun + seconds - time.monotonic()))
    return threads, times


def measure_beside(server, workers, seconds, found):
    """Times locks beside the workers."""
    time.sleep(RISING)
    before, begun = moved(workers), time.monotonic()
    threads, times = locks_for(server, seconds)
    after, took = moved(workers), time.monotonic() - begun
    for thread in threads:
        thread.join()
    if len(times) != len(threads):
        sys.exit("a lock was not made")
    found.locks += times
    found.rates.append({way: (after[way] - before[way]) / took for way in after})
    for worker in [it for it in workers if it.way == "down"][:1]:
        if not comes_true(worker.is_compared, PATIENCE):
            sys.exit("no pull was compared")


def measure_alone(server, found):
    """Times locks, and an object up and down, with nobody beside them. What comes back is compared."""
    found.locks += [server.time_of_lock(f"art/alone/{number}") for number in range(ALONE)]
    times = []
    for _ in range(TRANSFERS):
        it = Content(SIZE)
        times.append((upload(server, it), download(server, it)))
    found.alone.append(tuple(map(statistics.median, zip(*times))))


def measure(program, situation, options, found):
    """Measures a program once in a situation."""
    with tempfile.TemporaryDirectory() as room, ControlledServer(
            program, room, open_policy(["ann"], REPOS, QUOTA), form=options.form) as server:
        workers = situation.start(server)
        if workers:
            measure_beside(server, workers, options.seconds, found)
        else:
            measure_alone(server, found)
        for worker in workers:
            worker.end()


def of_locks(found):
    """The median and the longest time of locks, as a text."""
    return f"{statistics.median(found.locks) * 1000:,.1f} / {max(found.locks) * 1000:,.0f} ms"


def of_rates(found):
    """The medians of the bytes a second, as a text."""
    up, down = (statistics.median([it[way] for it in found.rates]) / 1e6 for way in ("up", "down"))
    return f"{up:.0f} + {down:.0f}" if up + down >= 1 else ""


def ratio(first, last):
    """The median of the ratios of the bytes a second in the rounds, as a text."""
    pairs = [(sum(one.values()), sum(two.values())) for one, two in zip(first.rates, last.rates)]
    return f"{statistics.median(two / one for one, two in pairs):.2f}" if all(one > 1e6 for one, _ in pairs) else ""


def table(names, found, rows):
    """Prints the table of what was found by program and situation."""
    heads = [f"A lock, {name}" for name in names] + [f"MB/s up + down, {name}" for name in names] + ["Ratio"]
    print(f"| Beside a lock | {' | '.join(heads)} |")
    print(f"|---|{'---|' * len(heads)}")
    for key, it in rows.items():
        of = [found[name, key] for name in names]
        cells = [of_locks(one) for one in of]
        cells += [of_rates(one) for one in of] + [ratio(of[0], of[-1])] if of[0].rates else [""] * (len(names) + 1)
        print(f"| {it.says} | {' | '.join(cells)} |")
    if "alone" in rows:
        for number, way in enumerate(("PUT", "GET")):
            times = [[it[number] for it in found[name, "alone"].alone] for name in names]
            cells = [f"{statistics.median(some) * 1000:.0f} ms" for some in times]
            compared = statistics.median(last / first for first, last in zip(times[0], times[-1]))
            print(f"| {way} of 64 MiB, nobody beside it: the time | {' | '.join(cells)} | "
                  f"{'| ' * len(names)}{compared:.2f} |")


def programs_of(texts):
    """The programs by their names."""
    pairs = [text.partition("=") for text in texts]
    if not all(name and os.access(file, os.X_OK) for name, _, file in pairs):
        sys.exit("--program NAME=FILE names a program that can be run")
    return {name: os.path.abspath(file) for name, _, file in pairs}


def main():
    """Measures the programs in turn, round by round."""
    parser = argparse.ArgumentParser(description=__doc__.splitlines()[0])
    parser.add_argument("--program", action="append", required=True, metavar="NAME=FILE", help="a program and its name")
    parser.add_argument("--rounds", type=int, default=5, help="how often each is measured [default: 5]")
    parser.add_argument("--seconds", type=int, default=10, help="how long locks are asked for [default: 10]")
    parser.add_argument("--mb", type=int, default=4096, help="the size of the large object, in MiB [default: 4096]")
    parser.add_argument("--form", choices=FORMS, default="file", help="the form of the databases [default: file]")
    parser.add_argument("--only", action="append", metavar="NAME", help="only this situation, and that of another --only")
    options = parser.parse_args()
    programs, rows = programs_of(options.program), situations(options)
    rows = {key: it for key, it in rows.items() if key in (options.only or rows)}
    found = {(name, key): Found() for name in programs for key in rows}
    for number in range(options.rounds):
        for key, situation in rows.items():
            # What the first of two is favoured by is favourable to each in turn.
            for name in list(programs)[:: -1 if number % 2 else 1]:
                measure(programs[name], situation, options, found[name, key])
                print(f"round {number + 1}, {key}, {name}: so far {of_locks(found[name, key])}", flush=True)
    print(f"\n{options.rounds} rounds, contents in {'a file' if options.form == 'file' else 'rows'}:\n")
    table(list(programs), found, rows)


if __name__ == "__main__":
    multiprocessing.set_start_method("fork")
    main()
