#!/usr/bin/env python3
"""Times uploads and downloads over sockets, of `custody serve` and of a peer, in one run and in turns.

The peer is bench/serve/pylfs.py: Python's http.server over the C library sqlite3, with the same rows and the same
durability. Over a connection that is kept alive, each round uploads an object of 64 MiB and downloads it, and uploads
and downloads 200 objects of 4 KiB; each download is compared by its SHA-256. Then `custody` alone gets 10,000 more
objects of 4 KiB, and 256 MiB up and down. It prints medians, with the lowest and the highest, the resident memory, and
each ratio with its bar. It ends with status 1 if one is not met. The client is a part of what is measured, and is the
same for both.

    bench/serve/objects.py [--rounds N] [--program FILE]

It takes some minutes.
"""
import os
import statistics
import sys
import tempfile

from servers import Custody, Peer, milliseconds, timed
from tests.studio.checks import arguments
from tests.studio.program import content, message, name_of, put

LARGE, SMALL, SMALLS, MANY = 64 << 20, 4096, 200, 10_000
# What is timed, and its bar: a part of the peer's time.
BARS = {"PUT of 64 MiB": 2, "GET of 64 MiB": 2, "PUT of 4 KiB": 1 / 1.2, "GET of 4 KiB": 1 / 1.2}


def upload(client, data):
    """Uploads the data. Returns its name and the time."""
    status, _, taken = timed(client, put(data))
    if status not in (200, 201):
        sys.exit(f"PUT replied {status}")
    return name_of(data), taken


def download(client, oid):
    """Downloads the object. Returns the time."""
    status, data, taken = timed(client, message("GET", content(oid)))
    if status != 200 or name_of(data) != oid:
        sys.exit(f"GET replied {status} with other bytes")
    return taken


def one_round(server, times):
    """Times one round of a server."""
    with server.client() as client:
        oid, taken = upload(client, os.urandom(LARGE))
        found = [taken, download(client, oid)]
        names = [upload(client, os.urandom(SMALL)) for _ in range(SMALLS)]
        found.append(statistics.mean(taken for _, taken in names))
        found.append(statistics.mean(download(client, oid) for oid, _ in names))
    for what, taken in zip(BARS, found):
        times.setdefault((server.name, what), []).append(taken)


def smalls(server, count):
    """The mean time of an upload of 4 KiB, of this many."""
    with server.client() as client:
        return statistics.mean(upload(client, os.urandom(SMALL))[1] for _ in range(count))


def is_fast(times):
    """Prints the times, and the ratios with their bars. Returns whether each is met."""
    is_met = True
    for (name, what), found in times.items():
        print(f"{name}, {what}: {milliseconds(found, 2)}")
    for what, bar in BARS.items():
        ratio = statistics.median(times["custody", what]) / statistics.median(times["peer", what])
        print(f"{what}: {ratio:.2f} of the peer's time (at most {bar:.2f})")
        is_met = is_met and ratio <= bar
    return is_met


def is_small(server):
    """Prints the memory of 256 MiB up and down. Returns whether the bar is met."""
    before = server.memory()
    with server.client() as client:
        oid, _ = upload(client, os.urandom(256 << 20))
        after_put = server.memory()
        download(client, oid)
    after_get = server.memory()
    print(f"memory: {server.at_rest} KiB at rest, {before} KiB before 256 MiB, {after_put} KiB after its PUT, "
          f"{after_get} KiB after its GET")
    added = max(after_put, after_get) - before
    print(f"256 MiB up and down: {added} KiB of memory more (at most 4096)")
    return added <= 4096


def main():
    """Times both, and then the program alone."""
    parser = arguments(__doc__)
    parser.add_argument("--rounds", type=int, default=5, help="how often each is measured [default: 5]")
    options = parser.parse_args()
    times = {}
    with tempfile.TemporaryDirectory() as room, Custody(options.program, room) as custody:
        with Peer(room) as peer:
            first = smalls(custody, SMALLS)
            for _ in range(options.rounds):
                one_round(custody, times)
                one_round(peer, times)
        is_met = is_fast(times)
        smalls(custody, MANY)
        later = smalls(custody, SMALLS)
        print(f"PUT of 4 KiB at over {MANY} objects: {later / first:.2f} of its time in a new database (at most 1.25)")
        is_met = is_met and later / first <= 1.25
        is_met = is_small(custody) and is_met
    return 0 if is_met else 1


if __name__ == "__main__":
    sys.exit(main())
