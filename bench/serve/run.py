#!/usr/bin/env python3
"""Times requests for locks over sockets, of `custody serve` and of a peer, in one run and in turns.

The peer is bench/serve/pylfs.py: Python's http.server over the C library sqlite3, with the same durability. Each
request locks a path that is free, over a connection that is kept alive, or over a new connection each. It prints the
median rate of several rounds, with the lowest and the highest, the resident memory of both servers before the first
request and after the last, and the ratio of the rates with its bar: at least 1.2 times the peer's. It ends with
status 1 if one is below. The client is a part of what is measured, and is the same for both.

    bench/serve/run.py [--rounds N] [--program FILE]

It takes about two minutes.
"""
import statistics
import sys
import tempfile
import time

from servers import Custody, Peer
from tests.studio.checks import arguments

KEPT, NEW = 2000, 1000
BAR = 1.2


def rate_kept(server):
    """Locks a second over a connection that is kept alive."""
    with server.client() as client:
        begun = time.monotonic()
        for _ in range(KEPT):
            server.lock(client)
        return KEPT / (time.monotonic() - begun)


def rate_new(server):
    """Locks a second over a new connection each."""
    begun = time.monotonic()
    for _ in range(NEW):
        with server.client() as client:
            server.lock(client)
    return NEW / (time.monotonic() - begun)


WAYS = {"kept alive": rate_kept, "new connection each": rate_new}


def main():
    """Times both."""
    parser = arguments(__doc__)
    parser.add_argument("--rounds", type=int, default=7, help="how often each is measured [default: 7]")
    options = parser.parse_args()
    rates = {}
    with tempfile.TemporaryDirectory() as room, Custody(options.program, room) as custody, Peer(room) as peer:
        for _ in range(options.rounds):
            for way, rate in WAYS.items():
                for server in (custody, peer):
                    rates.setdefault((server.name, way), []).append(rate(server))
        for it in (custody, peer):
            print(f"{it.name}: memory {it.at_rest} KiB at rest, {it.memory()} KiB after {it.asked} locks")
    for (name, way), found in rates.items():
        print(f"{name}, {way}: {statistics.median(found):.0f} locks a second ({min(found):.0f} to {max(found):.0f})")
    is_met = True
    for way in WAYS:
        ratio = statistics.median(rates["custody", way]) / statistics.median(rates["peer", way])
        print(f"{way}: {ratio:.2f} times the peer's rate (at least {BAR})")
        is_met = is_met and ratio >= BAR
    return 0 if is_met else 1


if __name__ == "__main__":
    sys.exit(main())
