"""Tries `custody serve` on a disk that gets full, and again with room.

Each round mounts a small file system in memory for the database, and a file that takes a part of it. Requests, and
commands by the control socket, go on until the disk is full of objects, locks, tokens or all of them; then every write
is refused. In half of the rounds the server is killed within a request and started again on the full disk, and before
that a command over the files says why it fails. Then the file is removed, and every kind of request has to be granted
at once, without a restart. What was acknowledged is compared with what is stored before the kill, after it, with room
again, and by sqlite3 at the end. A reply that is neither the right one nor a refusal of the store fails the check, and
so does a refusal whose cause the server does not report, or reports within a second of the last report.

The check `spare` kills a server within an upload on the full disk, and starts it again there. The program `spare` of
deploy/ then has to make room without it, so that it goes on. The check `migrate` moves contents on a disk with too little
room for the copy.
"""
import collections
import contextlib
import math
import os
import random
import re
import signal
import subprocess
import sys
import tempfile
import threading
import time
from pathlib import Path

from tests.studio.checks import arguments, comes_true, judge_forms, require
from tests.studio.control import ControlledServer, issue_words
from tests.studio.program import FORMS, TOP, content, lock, made, message, name_of, put, run
from tests.studio.tables import read_copy, staged_in
from tests.studio.work import REMOVALS, WRITES, Killed, Work, compare_all

MIB = 1 << 20
SIZE = 48 * MIB
# This many refusals one after the other mean that the disk is full.
ROW = 12
# A database with a file of contents has a short log, which grows to this size before it is used again.
LOG = 4 * MIB
# This many tokens are more than the rest of a page and of the log has room for.
COMMANDS = 1000
# How much room migrations have that need more: none, less than for an object, and less than for all objects.
ROOMS = [0, MIB // 2, 4 * MIB]
# How a connection may end; of the last two the server reports the cause.
STATED = ["ReadFailed", "WriteFailed", "StoreRefused", "StoreFailed"]
REPORTED = STATED[2:]
# What the server prints at its start.
START = [r"policy ok: 1 repositories, 1 rows", r"reading .*/custody\.db \(\d+(\.\d)? [KM]B\)"]
# The cause that a report has to name, and the one that fails the check at its end, when all else was compared.
FULL = "the disk is full: make room, then push again"
OTHER = "the disk has room now: it was full, memory ran out, or the disk failed (see dmesg)"
# How long there is no report after one, in seconds, and how much of it a busy machine may take to hand a line over.
PAUSE, DELAY = 1, 0.2


@contextlib.contextmanager
def small_disk(folder, size):
    """A file system in memory, of this many bytes."""
    os.mkdir(folder)
    subprocess.run(["mount", "-t", "tmpfs", "-o", f"size={size}", "tmpfs", folder], check=True)
    try:
        yield
    finally:
        subprocess.run(["umount", folder], check=True)


def fill(path, left=0):
    """Writes a file that leaves this many bytes of the file system, or as few as there are."""
    with open(path, "wb", buffering=0) as file, contextlib.suppress(OSError):
        while True:
            found = os.statvfs(path)
            size = min(found.f_bavail * found.f_bsize - left, MIB)
            if size <= 0:
                return
            file.write(bytes(size))


class Stream:
    """The error stream of a server from one start on: its whole lines, each with the moment at which it came."""

    def __init__(self):
        self.lines = []
        reading, self.writing = os.pipe()
        self.thread = threading.Thread(target=self.read, args=(reading,))
        self.thread.start()

    def read(self, reading):
        """Reads the lines."""
        with open(reading, encoding="utf-8") as stream:
            for line in stream:
                # A server that is killed may have written a part of its last line.
                if line.endswith("\n"):
                    self.lines.append((time.monotonic(), line[:-1]))


class DiskServer(ControlledServer):
    """A server whose database is in the folder `disk` of its folder, and whose error streams are kept."""

    def __init__(self, program, room, form):
        self.streams = []
        super().__init__(program, room, more=["--explain"], database="disk/custody.db", form=form)

    def error_stream(self):
        """A new stream."""
        self.streams.append(Stream())
        return open(self.streams[-1].writing, "wb")


def act_until_full(work, names):
    """Acts until the store refuses ROW of the acts one after the other."""
    row = 0
    while row < ROW:
        row = 0 if work.act(names) else row + 1


def kill_within(work):
    """Kills the server within a request on the full disk, and starts it again there."""
    work.is_killed = True
    timer = threading.Timer(work.random.uniform(0, 0.05), work.server.end, [signal.SIGKILL])
    timer.start()
    with contextlib.suppress(Killed):
        while True:
            work.act(WRITES + REMOVALS)
    timer.join()
    check_command(work.server)
    work.server.start()
    work.settle()


def judge_refused(server, status, errors):
    """The status and the error stream are those of a command over the files on the full disk."""
    want = f"custody: store G2\n{server.database}: the disk is full: make room, and run the command again\n"
    require((status, errors) == (1, want), f"on the full disk a command ended with {status} and printed {errors!r}")


def check_command(server):
    """A command over the files of the server, which is killed, is refused at some time, and names the full disk. The first
    one frees what the kill has left at the end of a file of contents: then the file `rest` takes that room too."""
    status, errors = 0, ""
    for _ in range(COMMANDS):
        if status == 0:
            status, _, errors = server.over_files(*issue_words("bob"), "--explain", with_policy=True)
            fill(f"{server.room}/disk/rest")
    judge_refused(server, status, errors)


def check_rows(work):
    """What sqlite3 finds in a copy of the database of a server that is killed."""
    work.server.end(signal.SIGKILL)
    question = "PRAGMA integrity_check; SELECT used, made FROM repos; SELECT count(*) FROM uploads WHERE done = 0;"
    printed = read_copy(work.server.database, question)
    used = sum(map(len, work.stored.objects.values()))
    want = f"ok\n{used}|{work.stored.made}\n0\n"
    require(printed == want, f"sqlite3 prints {printed!r}, not {want!r}")
    work.server.start()


def report_line(server, count, cause=FULL):
    """The line about the cause of this many refusals."""
    requests = "1 request was" if count == 1 else f"{count} requests were"
    return f"custody: {requests} refused: {server.database}: {cause}"


def check_start(server, lines):
    """The server printed the lines that docs/COMMANDS.md states, after one start. Returns how often each of them."""
    start, rest = [line for _, line in lines[:len(START)]], lines[len(START):]
    is_right = len(start) == len(START) and all(map(re.fullmatch, START, start))
    require(is_right, f"at its start the server printed {start}")
    found, waiting, last = collections.Counter(), [], -math.inf
    for moment, line in rest:
        name = re.sub(r"^custody: connection \d+ ", "", line)
        if line in (report_line(server, len(waiting)), report_line(server, len(waiting), OTHER)):
            require(moment - last > PAUSE - DELAY, f"two reports within {moment - last:.2f} s")
            found["other causes"] += line.endswith(OTHER)
            name, waiting, last = "reports", [], moment
        elif name in REPORTED:
            waiting.append(moment)
        require(name in [*STATED, "reports"], f"after {len(waiting)} refusals the server printed {line!r}")
        found[name] += 1
    # The server may have been killed before it reported the last one.
    late = [it - last for it in waiting[:-1] if it - last > PAUSE + DELAY]
    require(not late, f"of {len(waiting)} refusals that are not reported, {len(late)} came later than a second")
    found["unreported"] = len(waiting)
    return found


def check_errors(server):
    """The same after each start, once the server has ended."""
    server.end(signal.SIGKILL)
    for stream in server.streams:
        stream.thread.join()
    found = sum((check_start(server, stream.lines) for stream in server.streams), collections.Counter())
    require(found["reports"], "the server reported no cause")
    return found


def play(work, names, left, is_killed):
    """One round, with at most this many bytes left for the acts of these names."""
    disk = f"{work.server.room}/disk"
    for _ in range(30):
        require(work.act(WRITES + REMOVALS), "a request was refused before the disk was full")
    work.may_refuse = True
    fill(f"{disk}/other", work.random.randrange(left))
    act_until_full(work, names)
    fill(f"{disk}/rest")
    for _ in range(30):
        work.act(WRITES + REMOVALS)
    compare_all(work, "on the full disk")
    if is_killed:
        kill_within(work)
        act_until_full(work, names)
        compare_all(work, "after a start on the full disk")
    # After that the next request brings the report about the last refusals.
    time.sleep(PAUSE + DELAY)
    compare_all(work, "after the last report")
    found = check_start(work.server, work.server.streams[-1].lines)
    require(not found["unreported"], f"{found['unreported']} refusals are not reported after a second")
    require(not Path(f"{work.server.database}-probe").exists(), "the file is left with which the room was tried")
    for name in ("other", "rest"):
        os.unlink(f"{disk}/{name}")
    for name in WRITES + REMOVALS:
        require(work.act([name]), f"{name} was refused with room again")
    compare_all(work, "with room again")
    check_rows(work)


def check(names, left, form, options):
    """The rounds of one way to fill the disk, with databases of one form."""
    done, refused, errors, begun = collections.Counter(), collections.Counter(), collections.Counter(), time.monotonic()
    rounds = -(-options.rounds // len(CHECKS) // len(options.form or FORMS))
    for number in range(rounds):
        with tempfile.TemporaryDirectory() as room, small_disk(f"{room}/disk", SIZE):
            with DiskServer(options.program, room, form) as server:
                work = Work(server, random.random())
                play(work, names, left + LOG * (form == "file"), number % 2 == 1)
                done, refused, errors = done + work.done, refused + work.refused, errors + check_errors(server)
    counted = [", ".join(f"{it[name]} {name}" for name in sorted(it)) for it in (done, refused, errors)]
    text = (f"{rounds} rounds, {rounds // 2} kills, {time.monotonic() - begun:.0f} s; granted: {counted[0]}; "
            f"refused: {counted[1]}; the server printed {counted[2]}")
    # The room of an upload into a file of contents is given back before the cause is looked for.
    require(form == "file" or not errors["other causes"], f"a report names another cause than the full disk; {text}")
    return text


def run_spare(server, word):
    """Runs the program `spare` on the files of the server. Returns its status, and what it printed."""
    room = Path(server.room)
    text = (TOP / "deploy/programs/spare").read_text(encoding="utf-8")
    for old, new in (("/var/lib/custody/db", f"{room}/disk"), ("/run/custody/control", server.control())):
        text = text.replace(old, new)
    programs = room / "bin"
    if not programs.exists():
        programs.mkdir()
        (programs / "custody").symlink_to(server.program)
        # It runs as the user custody.
        (programs / "id").write_text("#!/bin/sh\necho 1000\n")
        (programs / "spare").write_text(text)
        for name in ("id", "spare"):
            (programs / name).chmod(0o755)
    status, output, errors = run([programs / "spare", word], env={"PATH": f"{programs}:{os.environ['PATH']}"})
    return status, output + errors


def kill_on_full_disk(server):
    """Kills the server within an upload, after the disk got full."""
    with server.client() as client:
        client.send(put(made(1, 500_000))[:-1])
        require(comes_true(lambda: staged_in(server.database) == 1), "no upload is staged")
        fill(f"{server.room}/disk/rest")
        server.end(signal.SIGKILL)


def check_spare(form, options):
    """A server that was killed within an upload on the full disk goes on after `spare sweep`."""
    with tempfile.TemporaryDirectory() as room, small_disk(f"{room}/disk", SIZE):
        with DiskServer(options.program, room, form) as server:
            data = made(2, MIB)
            require(server.ask(put(data))[0] == 200, "an upload was refused")
            require(run_spare(server, "make") == (0, ""), "the spare file was not made")
            kill_on_full_disk(server)
            server.start()
            server.end(signal.SIGKILL)
            status, printed = run_spare(server, "sweep")
            require(status == 0 and "swept " in printed, f"spare sweep ended with {status}, and printed {printed!r}")
            size = Path(room, "disk/spare").stat().st_size
            server.start()
            require(server.ask(message("GET", content(name_of(data)))) == (200, data), "an object differs")
            require(server.ask(lock("art/a.psd"))[0] == 201, "a lock was refused")
    return f"it starts on the full disk; then the spare file has {size} bytes again"


def check_migrate(form, options):
    """A migration that has too little room for the copy says so, and goes on with more of it."""
    option, version = ("--chunks", 3) if form == "file" else ("--contents", 2)
    with tempfile.TemporaryDirectory() as room, small_disk(f"{room}/disk", SIZE):
        with DiskServer(options.program, room, form) as server:
            objects = [made(seed, MIB) for seed in range(8)]
            require(all(server.ask(put(data))[0] == 200 for data in objects), "an upload was refused")
            server.end(signal.SIGTERM)
            for left in ROOMS:
                fill(f"{room}/disk/rest", left)
                status, output, errors = server.over_files("migrate", option, "--explain")
                judge_refused(server, status, output + errors)
            os.unlink(f"{room}/disk/rest")
            line = f"migrated from version {version}, {len(objects)} objects\n"
            require(server.over_files("migrate", option) == (0, line, ""), "with room it was not migrated")
            server.start()
            are_there = all(server.ask(message("GET", content(name_of(data)))) == (200, data) for data in objects)
            require(are_there, "an object differs")
    return f"{len(objects)} objects of {MIB} bytes, refused with {', '.join(map(str, ROOMS))} bytes of room"


# What fills the disk, and how much room is left for it at most: a lock takes 213 bytes, and a token 130.
CHECKS = {
    "objects": (["upload"], 8 * MIB),
    "locks": (["lock"], MIB // 2),
    "tokens": (["authenticate"], MIB // 8),
    "all": (WRITES, 4 * MIB),
}
# The others, each of which makes its own disk.
ALONE = {"spare": check_spare, "migrate": check_migrate}


def main():
    """Runs the checks."""
    parser = arguments(__doc__, [*CHECKS, *ALONE], forms=True)
    parser.add_argument("--rounds", type=int, default=20, help="how often a disk is filled, by all checks together")
    options = parser.parse_args()
    return judge_forms([*CHECKS, *ALONE], options, lambda name, form: ALONE[name](form, options) if name in ALONE
                       else check(*CHECKS[name], form, options))


if __name__ == "__main__":
    sys.exit(main())
