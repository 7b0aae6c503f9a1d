#!/usr/bin/env python3
"""Times locks beside clients that push and clients that pull objects of 64 MiB at full speed.

Each client makes one request after the other, over a connection of its own for each. A lock is made every half second.
It prints the median and the longest time of the locks, the pushes and the pulls.

    bench/serve/beside.py [--clients N] [--seconds N] [--program FILE]

It takes about a minute, and as many GB of disk as there are seconds in four.
"""
import os
import statistics
import sys
import tempfile
import time

from servers import Server
from tests.studio.checks import arguments, beside
from tests.studio.program import content, lock, message, name_of, put

SIZE = 64 << 20


def timed(server, request, want, times):
    """Makes a request, and notes how long it took."""
    with server.client(600) as client:
        begun = time.monotonic()
        status = client.ask(request)[0]
        times.append(time.monotonic() - begun)
    if status != want:
        sys.exit(f"a request got {status}, not {want}")


def main():
    """Times the three."""
    parser = arguments(__doc__)
    parser.add_argument("--clients", type=int, default=8, help="how many push, and how many pull [default: 8]")
    parser.add_argument("--seconds", type=int, default=30, help="how long locks are made [default: 30]")
    options = parser.parse_args()
    end = os.urandom(SIZE - 16)
    with tempfile.TemporaryDirectory() as room, Server(options.program, room) as server:
        times = {"lock": [], "push": [], "pull": []}
        first = bytes(16) + end
        timed(server, put(first), 200, [])
        wanted = message("GET", content(name_of(first)))

        def push(is_over):
            """Pushes objects that the server has not."""
            while not is_over.is_set():
                timed(server, put(os.urandom(16) + end), 200, times["push"])

        def pull(is_over):
            """Pulls the first object."""
            while not is_over.is_set():
                timed(server, wanted, 200, times["pull"])

        with beside(*([push, pull] * options.clients)):
            time.sleep(5)
            until = time.monotonic() + options.seconds
            while time.monotonic() < until:
                timed(server, lock(f"art/{len(times['lock'])}"), 201, times["lock"])
                time.sleep(0.5)
        for name, found in times.items():
            print(f"{name}: {len(found)}, median {statistics.median(found):.2f} s, longest {max(found):.2f} s")


if __name__ == "__main__":
    main()
