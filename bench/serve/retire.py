#!/usr/bin/env python3
"""Times `custody retire` of a large object beside a server, and measures whether the database grows after that.

The server gets an object, which an operator removes by the control socket: the time, the server's memory before, after
and at most, and the log. Then the server is stopped and started, and gets another object of the same size. It prints
the sizes of the database before the removal and after the last upload, and ends with status 1 if it grew by over 1 MB.
Pages that are in the log alone count too: the file gets them later. At last it times `custody migrate` and `custody
objects` over the file, which both open it.

    bench/serve/retire.py [--mb N] [--program FILE]

It needs 10 GB of disk and 6 GB of memory, and takes some minutes.
"""
import sys
import tempfile
import time
from pathlib import Path

from servers import Content, Custody, upload
from tests.studio.checks import arguments
from tests.studio.policy import FILM
from tests.studio.spoiled import FRAME_HEAD, LOG_HEAD, PAGE

MORE = 1e6


def database_size(server):
    """The size that the file has once the whole log is copied into it: as the last commit in the log says, if there is
    one."""
    size = server.file_size()
    log = Path(f"{server.database}-wal").read_bytes()
    for at in range(LOG_HEAD, len(log) - FRAME_HEAD, FRAME_HEAD + PAGE):
        if log[at + 8 : at + 16] != log[16:24]:
            break
        pages = int.from_bytes(log[at + 4 : at + 8], "big")
        size = pages * PAGE or size
    return size


def retire(server, name):
    """Removes the object, and prints what that takes."""
    memory, log, used, begun = server.memory(), server.log_size(), server.processor_time(), time.monotonic()
    ran = server.via("retire", "--repo", FILM, name)
    took, used = time.monotonic() - begun, server.processor_time() - used
    if ran != (0, f"retired {name}\n", ""):
        sys.exit(f"retire gave {ran}")
    print(f"retired in {took:.2f} s ({used:.2f} s of the processor); memory {memory} KiB before, {server.memory()} KiB "
          f"after, {server.highest()} KiB at most; log {log} bytes before and {server.log_size()} after; "
          f"file {server.file_size()} bytes", flush=True)


def main():
    """Times the removal, and compares the sizes."""
    parser = arguments(__doc__)
    parser.add_argument("--mb", type=int, default=4096, help="the size of the object, in MiB [default: 4096]")
    options = parser.parse_args()
    with tempfile.TemporaryDirectory() as room, Custody(options.program, room) as server:
        first = Content(options.mb << 20)
        print(f"stored {options.mb} MiB in {upload(server, first):.2f} s", flush=True)
        before = database_size(server)
        retire(server, first.name)
        server.stop()
        server.restart()
        print(f"stored {options.mb} MiB again in {upload(server, Content(first.size)):.2f} s", flush=True)
        server.stop()
        after = database_size(server)
        print(f"database {before} bytes after the first object and {after} after the second; "
              f"file {server.file_size()}, log {server.log_size()}")
        for name, *more in (["migrate"], ["objects", "--repo", FILM]):
            begun = time.monotonic()
            status, _, errors = server.over_files(name, *more)
            if status != 0:
                sys.exit(f"{name} ended with {errors!r}")
            print(f"{name} took {time.monotonic() - begun:.2f} s")
    return 0 if after <= before + MORE else 1


if __name__ == "__main__":
    sys.exit(main())
