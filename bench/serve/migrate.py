#!/usr/bin/env python3
"""Times `custody migrate` of files of version 1 with objects of 1 GiB and of 4 GiB, and the memory that it takes.

A file of version 1 is one of version 2 without the table of removed names, and with another table of the version: the
command sqlite3 makes it of a file that the server made. Its definitions have to be, byte for byte, those of
crates/program_tests/data/version_1.sql. After `migrate`, `custody check` reads every byte of the object. It prints the
times, the memory and the size of the log, and ends with status 1 if a command prints something else than it should.

    bench/serve/migrate.py [--mb N].. [--program FILE]

It needs sqlite3, 10 GB of disk and 6 GB of memory, and takes some minutes.
"""
import os
import subprocess
import sys
import tempfile
import time

from servers import Content, Custody, upload
from tests.studio.checks import arguments
from tests.studio.policy import FILM
from tests.studio.program import TOP
from tests.studio.tables import sqlite3

DEFINITION = ("CREATE TABLE meta (one INTEGER PRIMARY KEY CHECK (one = 1), "
              "version INTEGER NOT NULL CHECK (version = 1)) STRICT")
FIXTURE = TOP / "crates/program_tests/data/version_1.sql"
DEFINITIONS = "SELECT name, sql FROM sqlite_schema ORDER BY name;"


def to_version_1(path):
    """Makes the file one of version 1."""
    sqlite3(path, f"DROP TABLE retired; DROP TABLE meta; {DEFINITION}; INSERT INTO meta VALUES (1, 1); "
                  "PRAGMA wal_checkpoint(TRUNCATE);")
    with tempfile.TemporaryDirectory() as room:
        sqlite3(f"{room}/db", FIXTURE.read_text(encoding="utf-8"))
        if sqlite3(path, DEFINITIONS) != sqlite3(f"{room}/db", DEFINITIONS):
            sys.exit(f"the definitions are not those of {FIXTURE}")


def measured(words, wanted):
    """How long a command takes that prints this, on the clock and on the processor, and its highest memory."""
    begun = time.monotonic()
    with subprocess.Popen(words, stdout=subprocess.PIPE, text=True) as child:
        printed = child.stdout.read()
        _, status, used = os.wait4(child.pid, 0)
        child.returncode = os.waitstatus_to_exitcode(status)
    if (printed, child.returncode) != (wanted, 0):
        sys.exit(f"{words[1]} ended with {child.returncode} and printed {printed!r}")
    took = time.monotonic() - begun
    return f"{took:.1f} s ({used.ru_utime + used.ru_stime:.1f} s of the processor), {used.ru_maxrss} KiB at most"


def try_size(program, size):
    """Times the migration of a file with an object of this size."""
    content = Content(size)
    commands = [
        (["migrate"], "migrated from version 1\n"),
        (["objects", "--repo", FILM], f"{content.name} {size}\n"),
        (["check"], "checked 1 objects\n"),
    ]
    with tempfile.TemporaryDirectory() as room, Custody(program, room) as server:
        upload(server, content)
        server.stop()
        to_version_1(server.database)
        for (name, *more), wanted in commands:
            took = measured([program, name, "--db", server.database, *more], wanted)
            print(f"{size >> 20} MiB: {name} took {took}; log {server.log_size()} bytes", flush=True)


def main():
    """Times each size."""
    parser = arguments(__doc__)
    parser.add_argument("--mb", type=int, action="append", help="an object's size in MiB [default: 1024 and 4096]")
    options = parser.parse_args()
    for mebibytes in options.mb or [1024, 4096]:
        try_size(options.program, mebibytes << 20)
    return 0


if __name__ == "__main__":
    sys.exit(main())
