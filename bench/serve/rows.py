#!/usr/bin/env python3
"""Times a list of locks, a push check and a foreseen reply under a policy that is nearly as large as one may be.

There are 20,000 locks. The policy has 985 rows; 983 of them have 64 users, bob among them, and 64 folders, and no folder
has a lock or a path that is asked about. So none of these rows decides about a lock or a path.
It prints the median of several runs, with the lowest and the highest.

    bench/serve/rows.py [--rounds N] [--program FILE]

It takes about two minutes.
"""
import os
import sys
import tempfile
import time

from servers import Custody, milliseconds
from tests.studio.checks import arguments
from tests.studio.policy import FILM, MAIN, WORK, open_policy, policy, row
from tests.studio.program import LOCKS as LIST
from tests.studio.program import message

LOCKS, PATHS, ROWS = 20_000, 10_000, 985


def large_policy():
    """The rows, after one by which ann may do everything, and one by which bob may pull."""
    users = [f"u{n}" for n in range(10, 73)] + ["bob"]
    folders = [f"pa{n}/" for n in range(10, 74)]
    each = row("allow", users, WORK, repos=("*",), paths=folders).replace(", ", ",")
    return policy([row("allow", ["ann"], WORK), row("allow", ["bob"], ["pull"])] + [each] * (ROWS - 2))


def timed(work):
    """How long it takes, and what it returns."""
    begun = time.monotonic()
    found = work()
    return time.monotonic() - begun, found


def main():
    """Times the three."""
    parser = arguments(__doc__)
    parser.add_argument("--rounds", type=int, default=5, help="how often each is measured [default: 5]")
    options = parser.parse_args()
    with tempfile.TemporaryDirectory() as room, Custody(options.program, room) as server:
        server.stop()
        server.set_policy(open_policy())
        server.issue("b", user="bob")
        server.restart()
        with server.client() as client:
            for _ in range(LOCKS):
                server.lock(client)
        server.set_policy(large_policy())
        reloaded = server.via("reload")
        if reloaded[0] != 0:
            sys.exit(f"reload: {reloaded}")
        asked = message("GET", LIST, token="b")
        paths = "".join(f"set/{n}/scene.ma\n" for n in range(PATHS)).encode()
        push = ("pushcheck", "--user", "bob", "--repo", FILM, "--ref", MAIN)
        view = ("foresee", "--user", "bob", "--repo", FILM)
        works = {
            "a list of locks": (lambda: server.ask(asked)[0], 200),
            f"a push check of {PATHS} paths": (lambda: server.via(*push, given=paths)[0], 1),
            "a foreseen reply": (lambda: server.via(*view, given=asked)[0], 0),
        }
        size = os.path.getsize(f"{server.room}/policy.toml")
        print(f"{LOCKS} locks, a policy of {size} bytes with {ROWS} rows:")
        for name, (work, want) in works.items():
            runs = [timed(work) for _ in range(options.rounds)]
            if {found for _, found in runs} != {want}:
                sys.exit(f"{name}: {runs}")
            print(f"{name}: {milliseconds([time for time, _ in runs])}")
    return 0


if __name__ == "__main__":
    sys.exit(main())
