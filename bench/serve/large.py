#!/usr/bin/env python3
"""Times an object of 4 GiB beside one of 256 MiB over sockets, of `custody serve` and of a peer, in one run.

The peer is bench/serve/pylfs.py. Each server gets an object of each size, and sends it back; the bytes are compared by
their SHA-256. Then, of `custody` alone: the start over a database with 4 GiB, the time and the memory; and the removal
of an upload of 4 GiB that lacks its last byte, once as its client closes the connection, and once after the server was
killed, with what the log grows by and how long the next request waits.

It prints the times, the speeds, the memory and each bar, and ends with status 1 if one is not met: a byte of 4 GiB has
at least 0.9 of the speed of one of 256 MiB, or of the peer's ratio of the two if its disk slows the peer down too; and
an upload and a download of it raise the memory by 4 MB and 2.5 MB a GB at most.

    bench/serve/large.py [--mb N] [--program FILE]

It needs 15 GB of disk and 6 GB of memory, and takes some minutes.
"""
import signal
import sys
import tempfile
import time

from servers import Content, Custody, Peer, download, timed, upload
from tests.studio.checks import arguments
from tests.studio.program import LOCKS, message

USUAL = 256 << 20
SPEED, MEMORY, MEMORY_A_GB = 0.9, 4e6, 2.5e6


def ask(server):
    """How long a small request takes."""
    with server.client(None) as client:
        status, _, taken = timed(client, message("GET", LOCKS))
    if status != 200:
        sys.exit(f"GET locks replied {status}")
    return taken


def send_most(server, content):
    """Uploads the content without its last byte. Returns the connection."""
    client = server.client(None)
    content.send(client, content.size - 1)
    # All but what the socket holds has arrived once the server waits for more.
    time.sleep(2)
    return client


def transfers(server, contents):
    """The speeds of the transfers in bytes a second, by the direction and the size."""
    speeds = {}
    for content in contents:
        before, size = server.memory(), content.size
        up = upload(server, content)
        after_put = server.memory()
        down = download(server, content)
        speeds["PUT", size], speeds["GET", size] = size / up, size / down
        up, down = (f"in {it:.2f} s ({size / it / 1e6:.0f} MB/s)" for it in (up, down))
        print(f"{server.name}, {size >> 20} MiB: up {up}, down {down}; memory {before} KiB before, {after_put} KiB "
              f"after the PUT, {server.memory()} KiB after the GET", flush=True)
    return speeds


def removals(server, content):
    """Times the removal of an upload that lacks its last byte."""
    client, size = send_most(server, content), f"{content.size >> 20} MiB"
    before = server.log_size()
    client.close()
    waited = ask(server)
    print(f"cut off, {size}: the next request took {waited:.2f} s; memory {server.memory()} KiB, log {before} and then "
          f"{server.log_size()} bytes", flush=True)
    client = send_most(server, content)
    server.child.send_signal(signal.SIGKILL)
    server.stop()
    client.close()
    begun, before = server.restart(), server.log_size()
    print(f"killed, {size}: started in {begun:.2f} s, memory {server.memory()} KiB", flush=True)
    waited = ask(server)
    print(f"killed: the next request took {waited:.2f} s; memory {server.memory()} KiB, {server.highest()} KiB at "
          f"most; log {before} and then {server.log_size()} bytes", flush=True)


def is_even(speeds, of_peer, large):
    """Prints the ratios of the speeds with their bars. Returns whether each is met."""
    is_met = True
    for way in ("PUT", "GET"):
        ratio, peers = (it[way, large] / it[way, USUAL] for it in (speeds, of_peer))
        bar = SPEED * min(1, peers)
        print(f"{way}: a byte of {large >> 20} MiB has {ratio:.2f} of the speed of one of 256 MiB; the peer's has "
              f"{peers:.2f} (at least {bar:.2f})")
        is_met = is_met and ratio >= bar
    return is_met


def main():
    """Times both, and then what only the program does."""
    parser = arguments(__doc__)
    parser.add_argument("--mb", type=int, default=4096, help="the size of the large object, in MiB [default: 4096]")
    options = parser.parse_args()
    contents = [Content(USUAL), Content(options.mb << 20)]
    large = contents[1].size
    # Each database is removed before the next is made.
    with tempfile.TemporaryDirectory() as room, Peer(room) as peer:
        of_peer = transfers(peer, contents)
    with tempfile.TemporaryDirectory() as room, Custody(options.program, room) as server:
        before = server.memory()
        speeds = transfers(server, contents)
        added, most = (server.memory() - before) * 1024, MEMORY + MEMORY_A_GB * (large + USUAL) / 1e9
        print(f"both up and down: {added / 1e6:.1f} MB of memory more (at most {most / 1e6:.1f})")
        is_met = is_even(speeds, of_peer, large) and added <= most
        server.stop()
        begun = server.restart()
        print(f"the start over these objects took {begun:.2f} s, memory {server.memory()} KiB, "
              f"the first request {ask(server):.2f} s")
        server.stop()
    with tempfile.TemporaryDirectory() as room, Custody(options.program, room) as server:
        removals(server, contents[1])
    return 0 if is_met else 1


if __name__ == "__main__":
    sys.exit(main())
