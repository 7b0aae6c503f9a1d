#!/usr/bin/env python3
"""Times requests about locks to `custody session`, and holds them to bars, in one run.

A page of 100 locks costs at 100,000 locks at most 4 times what it costs at 100; if 99 of 100 locks are hidden from
the caller, at most 100 times. A Lock request costs at 100,000 locks at most 2 times what it costs at 100: on a path
that is held, which finds it (L1), and on a new one, which makes a lock that the next request releases. A list of one
path has no bar: it reads all locks of the repository.

A session gets the same kind of request many times, and the processor time that
it has used is read each time when some of the replies arrive. What it used between the first of these moments and the
last but one, by the number of replies between, is the time of a request: so starting, and opening the database, which
reads all of it, do not count. Of several rounds it is the median. It prints each time in microseconds, with the lowest
and the highest, then each ratio with its bar, and ends with status 1 if one is above its bar.

    bench/locks/run.py [--rounds N] [--locks N] [--program FILE]

It takes about ten minutes, most of which fill the databases, through `custody session`.
"""
import copy
import os
import statistics
import subprocess
import sys
import tempfile
import time
from pathlib import Path

# The root of the repository.
sys.path.insert(0, str(Path(__file__).resolve().parents[2]))
from tests.studio.checks import arguments
from tests.studio.policy import MAIN, policy, row
from tests.studio.program import NOW, Files, lock, message, target
from tests.studio.tables import copied

FEW = 100
SIDE = "refs/heads/side"
POLICY = policy([
    row("allow", ["ann", "bob"], ["pull", "push", "lock"]),
    row("allow", ["ann"], ["list"]),
    row("allow", ["bob"], ["list"], paths=["shown/"]),
])


class Database(Files):
    """A database with a number of locks: each hundredth on the side ref and in the folder that bob may list."""

    def __init__(self, program, room, size):
        super().__init__(program, room, POLICY, f"{size}.db")
        self.size = size
        for user, letter in (("ann", "a"), ("bob", "b")):
            self.issue(letter, "--now", str(NOW), user=user)
        begun = time.time()
        for start in range(1, size + 1, 10_000):
            numbers = range(start, min(start + 10_000, size + 1))
            replies, _ = self.served(b"".join(lock_of(it) for it in numbers))
            if replies.count(b"HTTP/1.1 201 ") != len(numbers):
                sys.exit("a lock was not made")
        print(f"{size} locks were made in {time.time() - begun:.0f} seconds", flush=True)

    def served(self, stream):
        """Serves the stream. Returns the replies, and at each moment at which some arrived: how many bytes had
        arrived, and the processor time in seconds that the program had used."""
        asked = f"{self.room}/asked"
        Path(asked).write_bytes(stream)
        replies, moments = bytearray(), []
        with open(asked, "rb") as given, subprocess.Popen(self.session_words(), stdin=given,
                                                        stdout=subprocess.PIPE) as child:
            # The clock of another process, as clock_getcpuclockid(3) makes it.
            clock = ~child.pid << 3 | 2
            while piece := os.read(child.stdout.fileno(), 1 << 16):
                replies += piece
                moments.append((len(replies), time.clock_gettime(clock)))
        if child.returncode:
            sys.exit(f"a session ended with status {child.returncode}")
        return bytes(replies), moments


def held_path(number):
    """The path of the lock of this id."""
    return f"{'shown' if number % 100 == 0 else 'art'}/shot/{number:06d}/hero.psd"


def held_ref(number):
    """The ref of the lock of this id."""
    return SIDE if number % 100 == 0 else MAIN


def lock_of(number):
    """A request for the lock of this id."""
    return lock(held_path(number), "a", ref=held_ref(number))


def listed(letter, start):
    """Lists of a user, from where a page is to begin."""
    return lambda size, _: [message("GET", target(f"locks?limit=100&cursor={start(size)}"), token=letter)]


def listed_path(size, turn):
    """A list of one path."""
    return [message("GET", target(f"locks?path={held_path(turn * 37 % size + 1)}"))]


def verified(ref, start):
    """Verifications of the locks of a ref."""
    body = lambda size: {"cursor": str(start(size)), "limit": 100, "ref": {"name": ref}}
    return lambda size, _: [message("POST", target("locks/verify"), body(size))]


def found(size, turn):
    """A lock of a path that is held."""
    return [lock_of(turn * 37 % size + 1)]


def made(size, turn):
    """A new lock, and its release."""
    return [lock(f"new/{turn:06d}/hero.psd", ref=MAIN), message("POST", target(f"locks/{size + turn + 1}/unlock"), {})]


# Where a page begins that has locks before and after it, if there are as many.
middle = lambda size: size // 2 + 1 if size > 100 else 1
# What is asked: its name, the requests of each turn, how many turns at each size, the statuses of the replies.
ASKED = [
    ("list", listed("a", middle), (2000, 2000), ["200"]),
    ("list of a hundredth", listed("b", middle), (4000, 100), ["200"]),
    ("verify", verified(MAIN, middle), (2000, 2000), ["200"]),
    ("verify of a hundredth", verified(SIDE, middle), (4000, 100), ["200"]),
    ("list of one path", listed_path, (2000, 110), ["200"]),
    ("found by its path", found, (60_000, 60_000), ["409"]),
    ("made and released", made, (2000, 2000), ["201", "200"]),
]
# Each ratio: what at many locks, over what at few, and the bar.
BARS = [
    ("list", "list", 4),
    ("verify", "verify", 4),
    ("list of a hundredth", "list", 100),
    ("verify of a hundredth", "verify", 100),
    ("found by its path", "found by its path", 2),
    ("made and released", "made and released", 2),
]


def time_of(database, turns, asked):
    """The processor time of a turn, in microseconds, over a copy of the database."""
    name, requests, _, statuses = asked
    stream = b"".join(it for turn in range(turns) for it in requests(database.size, turn))
    with tempfile.TemporaryDirectory() as folder:
        other = copy.copy(database)
        other.database = copied(database.database, folder)
        replies, moments = other.served(stream)
    if any(replies.count(f"HTTP/1.1 {it} ".encode()) != turns for it in statuses):
        sys.exit(f"{name} at {database.size} locks: a reply has another status")
    (first, begun), (last, ended) = moments[0], moments[-2]
    return (ended - begun) / (last - first) * len(replies) / turns * 1e6


def main():
    """Times each kind of request at each size."""
    parser = arguments(__doc__)
    parser.add_argument("--rounds", type=int, default=7, help="how often each is measured [default: 7]")
    parser.add_argument("--locks", type=int, default=100_000, help="how many locks are many [default: 100000]")
    options = parser.parse_args()
    times, few, many = {}, FEW, options.locks
    with tempfile.TemporaryDirectory() as room:
        databases = [Database(options.program, room, size) for size in (few, many)]
        for _ in range(options.rounds):
            for asked in ASKED:
                for database, turns in zip(databases, asked[2]):
                    took = time_of(database, turns, asked)
                    times.setdefault((asked[0], database.size), []).append(took)
    for (name, size), it in times.items():
        print(f"{name} at {size} locks: {statistics.median(it):.0f} us ({min(it):.0f} to {max(it):.0f})")
    is_met = True
    for name, base, bar in BARS:
        ratio = statistics.median(times[name, many]) / statistics.median(times[base, few])
        print(f"{name} at {many} locks over {base} at {few}: {ratio:.2f} (at most {bar})")
        is_met = is_met and ratio <= bar
    return 0 if is_met else 1


if __name__ == "__main__":
    sys.exit(main())
