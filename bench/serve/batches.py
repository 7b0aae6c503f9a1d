#!/usr/bin/env python3
"""Times batches and lists of locks over sockets, of `custody serve`, on a database with 10,000 objects and 2,000 locks.

A batch has 100 or 1,000 objects, all stored or all new, and asks to download or to upload them; a list has 100 or 500
locks a page. It prints the median of several requests each, with the lowest and the highest, and the resident memory
before and after. It ends with status 1 if a batch of 1,000 takes over 50 ms.

    bench/serve/batches.py [--rounds N] [--program FILE]

It takes about two minutes.
"""
import json
import os
import statistics
import sys
import tempfile

from servers import Custody, milliseconds, timed
from tests.studio.checks import arguments
from tests.studio.program import message, name_of, put, target

OBJECTS, LOCKS, SMALL = 10_000, 2_000, 4096
BAR = 0.050


def ask(client, method, rest, value=None):
    """The JSON of the reply, and the time."""
    data = message(method, target(rest), value, more="Accept: application/vnd.git-lfs+json\r\n")
    status, body, taken = timed(client, data)
    if status != 200:
        sys.exit(f"{method} {rest} replied {status} {body!r}")
    return json.loads(body), taken


def batches(server, rounds, operation, names, count):
    """The times of batches of some of the names."""
    times = []
    with server.client() as client:
        for n in range(rounds):
            objects = [{"oid": names[(n * 997 + i * 7) % len(names)], "size": SMALL} for i in range(count)]
            asked = {"operation": operation, "transfers": ["basic"], "objects": objects}
            answer, taken = ask(client, "POST", "objects/batch", asked)
            if len(answer["objects"]) != count or any("error" in it for it in answer["objects"]):
                sys.exit("the reply is another")
            times.append(taken)
    return times


def pages(server, rounds, count):
    """The times of pages with a number of locks."""
    with server.client() as client:
        found = [ask(client, "GET", f"locks?limit={count}") for _ in range(rounds)]
    if any(len(answer["locks"]) != count for answer, _ in found):
        sys.exit("the page is another")
    return [taken for _, taken in found]


def fill(server):
    """Stores the objects and the locks. Returns the names of the objects."""
    with server.client() as client:
        contents = (os.urandom(SMALL) for _ in range(OBJECTS))
        stored = [name_of(data) for data in contents if client.ask(put(data))]
        for _ in range(LOCKS):
            server.lock(client)
    return stored


def main():
    """Times batches and pages."""
    parser = arguments(__doc__)
    parser.add_argument("--rounds", type=int, default=9, help="how often each is measured [default: 9]")
    options = parser.parse_args()
    is_met = True
    with tempfile.TemporaryDirectory() as room, Custody(options.program, room) as server:
        stored, new = fill(server), [os.urandom(32).hex() for _ in range(1000)]
        print(f"memory: {server.at_rest} KiB at rest, {server.memory()} KiB with {OBJECTS} objects and {LOCKS} locks")
        asked = (("download", stored, "stored"), ("upload", stored, "stored"), ("upload", new, "new"))
        for count in (100, 1000):
            for operation, names, state in asked:
                times = batches(server, options.rounds, operation, names, count)
                print(f"a batch of {count}, {operation}, {state}: {milliseconds(times)}")
                is_met = is_met and (count < 1000 or statistics.median(times) <= BAR)
            print(f"memory: {server.memory()} KiB")
        for count in (100, 500):
            print(f"a page of {count} locks: {milliseconds(pages(server, options.rounds, count))}")
        print(f"memory: {server.memory()} KiB")
    return 0 if is_met else 1


if __name__ == "__main__":
    sys.exit(main())
