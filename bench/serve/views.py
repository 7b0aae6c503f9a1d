#!/usr/bin/env python3
"""Times `custody foresee --via` beside a server with 10,000 objects and 20,000 locks, which stops all else meanwhile.

A reply is foreseen from a user's view, which has all of them. It prints the median of several runs, with the lowest and
the highest, beside those of `custody sweep --via`, which reads almost nothing, and the server's resident memory before
and at most.

    bench/serve/views.py [--rounds N] [--program FILE]

It takes about two minutes.
"""
import os
import sys
import tempfile
import time

from servers import Custody, milliseconds
from tests.studio.checks import arguments
from tests.studio.policy import FILM
from tests.studio.program import LOCKS as LIST
from tests.studio.program import message, put

OBJECTS, LOCKS, SMALL = 10_000, 20_000, 100


def taken(server, *words, given=b""):
    """How long the command takes."""
    begun = time.monotonic()
    status, output, errors = server.via(*words, given=given)
    if status != 0 or words[0] == "foresee" and not output.startswith("200 ok\n"):
        sys.exit(f"{words[0]}: {status} {output!r} {errors!r}")
    return time.monotonic() - begun


def main():
    """Times both commands."""
    parser = arguments(__doc__)
    parser.add_argument("--rounds", type=int, default=9, help="how often each is measured [default: 9]")
    options = parser.parse_args()
    with tempfile.TemporaryDirectory() as room, Custody(options.program, room) as server:
        with server.client() as client:
            for _ in range(OBJECTS):
                client.ask(put(os.urandom(SMALL)))
            for _ in range(LOCKS):
                server.lock(client)
        before, asked = server.memory(), message("GET", LIST + "?limit=1")
        little = [taken(server, "sweep") for _ in range(options.rounds)]
        words = ("foresee", "--user", "ann", "--repo", FILM)
        whole = [taken(server, *words, given=asked) for _ in range(options.rounds)]
        most = server.highest()
    print(f"sweep: {milliseconds(little)}")
    print(f"foresee, with {OBJECTS} objects and {LOCKS} locks: {milliseconds(whole)}")
    print(f"resident memory of the server: {before} KiB before, {most} KiB at most")
    return 0


if __name__ == "__main__":
    sys.exit(main())
