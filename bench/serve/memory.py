#!/usr/bin/env python3
"""Measures what a server keeps of memory after it has opened a large database, by the environment of its allocator.

A database with objects of 64 MiB is made; then, for each environment, in turns: a server is started over it, and its
resident memory is read as it says that it listens, 15 seconds later, and after 100 locks; then an object of 64 MiB is
sent to it and fetched four times. It prints the medians of several rounds: the highest memory until the server
listens, the memory after it, the time that a processor worked for the start, and the times of the transfers by a
clock and by the processor's work, relative to the environment without settings. The second says more on a busy
machine. No bar: docs/measured/memory.md has the table, and docs/operating/capacity.md what the unit takes by it.

    bench/serve/memory.py [--mb N] [--rounds N] [--program FILE]

It needs 2 GB of memory; jemalloc is tried if Debian's libjemalloc2 is there. It takes 25 seconds for each environment
and round, and longer on a busy machine.
"""
import os
import shutil
import statistics
import sys
import tempfile
import time
from pathlib import Path

from servers import Content, Custody, download, upload
from tests.studio.checks import arguments

JEMALLOC = "/usr/lib/x86_64-linux-gnu/libjemalloc.so.2"
SIZE = 64 << 20
SETTLE, LOCKS, DOWNLOADS = 15, 100, 4
# By default only the first 65,536 pieces get a mapping.
MAPPINGS = {"MALLOC_MMAP_MAX_": "16777216"}
ENVIRONMENTS = {
    "none": {},
    "MALLOC_MMAP_THRESHOLD_=65536": {"MALLOC_MMAP_THRESHOLD_": "65536", **MAPPINGS},
    "MALLOC_MMAP_THRESHOLD_=8192": {"MALLOC_MMAP_THRESHOLD_": "8192", **MAPPINGS},
    "MALLOC_TRIM_THRESHOLD_=65536": {"MALLOC_TRIM_THRESHOLD_": "65536"},
    "MALLOC_TOP_PAD_=0, ARENA_MAX=1": {"MALLOC_TOP_PAD_": "0", "MALLOC_ARENA_MAX": "1"},
    "jemalloc": {"LD_PRELOAD": JEMALLOC},
    "jemalloc, background_thread": {"LD_PRELOAD": JEMALLOC, "MALLOC_CONF": "background_thread:true"},
    "jemalloc, both decays 0": {"LD_PRELOAD": JEMALLOC, "MALLOC_CONF": "dirty_decay_ms:0,muzzy_decay_ms:0"},
    "jemalloc, dirty_decay_ms:1000": {"LD_PRELOAD": JEMALLOC, "MALLOC_CONF": "dirty_decay_ms:1000"},
}


def copy_files(server, one, other):
    """Copies the database and its log to other names."""
    for end in ("", "-wal"):
        shutil.copyfile(f"{server.room}/{one}{end}", f"{server.room}/{other}{end}")


def measure(server, environment):
    """Memory in KiB: the highest, and that at the start, later and after some locks; the work of the start; the seconds
    and the work of an upload, and of a download. The database is the same for each."""
    server.stop()
    copy_files(server, "kept.db", "custody.db")
    os.environ.update(environment)
    try:
        server.restart()
    finally:
        for name in environment:
            del os.environ[name]
    memory, start = [server.highest(), server.memory()], server.processor_time()
    time.sleep(SETTLE)
    memory.append(server.memory())
    with server.client() as client:
        for _ in range(LOCKS):
            server.lock(client)
    memory.append(server.memory())
    content, before = Content(SIZE), server.processor_time()
    up = upload(server, content)
    between = server.processor_time()
    down = statistics.median(download(server, content) for _ in range(DOWNLOADS))
    return *memory, start, up, down, between - before, (server.processor_time() - between) / DOWNLOADS


def measured(options):
    """The rows of each environment."""
    tried = {name: it for name, it in ENVIRONMENTS.items() if "LD_PRELOAD" not in it or Path(JEMALLOC).exists()}
    rows = {name: [] for name in tried}
    with tempfile.TemporaryDirectory() as room, Custody(options.program, room) as server:
        for _ in range(max(1, options.mb * 1_000_000 // SIZE)):
            upload(server, Content(SIZE))
        server.stop()
        copy_files(server, "custody.db", "kept.db")
        server.restart()
        for _ in range(options.rounds):
            for name, environment in tried.items():
                rows[name].append(measure(server, environment))
    return rows


def main():
    """Measures, and prints the medians."""
    parser = arguments(__doc__)
    parser.add_argument("--mb", type=int, default=336, help="how much the database holds [default: 336]")
    parser.add_argument("--rounds", type=int, default=5, help="how often each is measured [default: 5]")
    rows = measured(parser.parse_args())
    heads = " ".join(f"{it:>8}" for it in ("highest", "at start", "later", "locks", "work"))
    print(f"{'settings':32} {heads}   PUT and GET, by clock and by work")
    plain = None
    for name, found in rows.items():
        *memory, start = (statistics.median(column) for column in list(zip(*found))[:5])
        times = [statistics.median(column) for column in list(zip(*found))[5:]]
        plain = plain or times
        up, down, up_work, down_work = (it / base for it, base in zip(times, plain))
        megabytes = " ".join(f"{it * 1024 / 1e6:5.0f} MB" for it in memory)
        print(f"{name:32} {megabytes} {start:6.2f} s   {up:.2f} and {down:.2f}, {up_work:.2f} and {down_work:.2f}")
    return 0


if __name__ == "__main__":
    sys.exit(main())
