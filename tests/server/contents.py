"""Tries `custody serve --contents`: contents of objects in a file beside the database.

Each check starts a server on a new database and a free port of this machine, and reads the database with the command
sqlite3 from a copy, while the server is killed. What an object has to be is what the check has made it of.
"""
import os
import random
import signal
import sqlite3
import subprocess
import sys
import time
from pathlib import Path

from tests.studio.checks import arguments, comes_true, judge_on_server, require, within
from tests.studio.control import ControlledServer
from tests.studio.policy import FILM, open_policy
from tests.studio.program import CHUNK, content, free_port, made, message, name_of, put
from tests.studio.tables import PLACE, read_copy

SIZES = [0, 1, CHUNK - 1, CHUNK, CHUNK + 1, 3 * CHUNK, 10 << 20]


class BesideServer(ControlledServer):
    """A server whose database was made with a file of contents."""

    def get(self, oid):
        """The reply to a download."""
        return self.ask(message("GET", content(oid)), 600)

    def put(self, data):
        """The status of an upload."""
        return self.ask(put(data), 600)[0]

    def has(self, data):
        """Whether the object of these bytes is served whole."""
        return self.get(name_of(data)) == (200, data)

    def fails(self, *name):
        """The lines of a command over the files that fails."""
        status, output, errors = self.over_files(*name, "--explain")
        require((status, output) == (1, ""), f"{name} ended with {status} and printed {output!r}")
        return errors


def check_sizes(server, _):
    """Objects beside the border between rows and the file, before and after a kill."""
    objects = [made(size, size) for size in SIZES]
    for data in objects:
        require(server.get(name_of(data))[0] == 404, f"an object of {len(data)} bytes exists before its upload")
        require(server.put(data) == 200, f"an upload of {len(data)} bytes was refused")
        require(server.has(data), f"an object of {len(data)} bytes differs")
    server.end(signal.SIGKILL)
    rows = read_copy(server.database, "PRAGMA integrity_check; SELECT version FROM meta; "
                                      "SELECT n, length(bytes) FROM chunks ORDER BY upload;").split()
    places = [f"{PLACE}|16"] * len([size for size in SIZES if size >= CHUNK])
    require(rows == ["ok", "3", "0|1", f"0|{CHUNK - 1}", *places], f"the rows are {rows}")
    large = sum(size for size in SIZES if size >= CHUNK)
    require(server.contents().stat().st_size == large, f"the file has {server.contents().stat().st_size} bytes")
    modes = {path.stat().st_mode & 0o777 for path in (server.contents(), Path(server.database))}
    require(modes == {0o600}, f"the modes are {modes}")
    server.start()
    for data in objects:
        require(server.has(data), f"an object of {len(data)} bytes differs after a restart")
    return f"{len(SIZES)} objects of up to {SIZES[-1]} bytes, before and after a kill"


def killed_in_upload(server, data, chance):
    """Kills the server within an upload, at a moment after it was sent whole, or after its reply. Returns whether the
    reply came."""
    text = put(data)
    with server.client() as client:
        match chance.randrange(3):
            case 0:
                client.send(text[:chance.randrange(len(text))])
            case 1:
                client.send(text)
                time.sleep(chance.random() / 30)
            case _:
                client.send(text)
                require(client.reply()[0] == 200, "an upload was refused")
                return True
    return False


def check_killed(server, options):
    """Servers that are killed within uploads lose no object that they reported, and serve none in part."""
    kept, whole, lost = [], 0, 0
    chance = random.Random(1)
    for number in range(options.rounds):
        data = made(number, 300_000)
        replied = killed_in_upload(server, data, chance)
        server.end(signal.SIGKILL)
        server.start()
        if replied or server.has(data):
            kept.append(data)
            whole += not replied
        else:
            require(server.get(name_of(data))[0] == 404, "an object is served in part")
            lost += 1
    for data in kept:
        require(server.has(data), "an object that was reported is lost")
    return (f"{options.rounds} servers were killed: {len(kept) - whole} objects that were reported are whole, "
            f"{whole} others too, and {lost} are not there")


def check_left(server, _):
    """What a kill within an upload left at the end of the file is cut off at the next start."""
    kept, lost = made(1, 200_000), made(2, 8 << 20)
    require(server.put(kept) == 200, "an upload was refused")
    path = server.contents()
    with server.client() as client:
        client.send(put(lost)[:-1])
        require(comes_true(lambda: path.stat().st_size > len(kept) + len(lost) // 2), "the upload is not in the file")
        server.end(signal.SIGKILL)
    left = path.stat().st_size
    server.start()
    size = path.stat().st_size
    require(size == len(kept), f"after the start the file has {size} bytes, not {len(kept)}")
    require(server.has(kept) and server.get(name_of(lost))[0] == 404, "the server has other objects")
    return f"of {left} bytes in the file {size} are left, those of the object"


def check_room(server, _):
    """The region of an object that is removed is used again, and a free end is cut off."""
    first, second, third = (made(number, 1 << 20) for number in range(3))
    for data in (first, second):
        require(server.put(data) == 200, "an upload was refused")
    server.end(signal.SIGTERM)
    size = server.contents().stat().st_size
    require(server.over_files("retire", "--repo", FILM, name_of(first))[0] == 0, "retire failed")
    server.start()
    require(server.put(third) == 200, "an upload was refused")
    require(server.contents().stat().st_size == size, "a region that is free was not used again")
    require(server.has(second) and server.has(third), "an object differs")
    server.end(signal.SIGTERM)
    for data in (second, third):
        require(server.over_files("retire", "--repo", FILM, name_of(data))[0] == 0, "retire failed")
    require(server.contents().stat().st_size == 0, "the free end of the file was not cut off")
    server.start()
    return f"{size} bytes served three objects of 1 MiB, and then none"


def check_filled(server, _):
    """`usage` and `status` say how the file is filled: two contents are kept, and one between them was removed."""
    kept, gone, last = sizes = (100_000, 200_000, 300_000)
    for size in sizes:
        require(server.put(made(size, size)) == 200, "an upload was refused")
    require(server.via("retire", "--repo", FILM, name_of(made(gone, gone)))[0] == 0, "retire failed")
    status, printed, _ = server.via("usage")
    line = f"contents: {kept + last} kept, {gone} free, {sum(sizes)} in the file"
    require(status == 0 and printed.splitlines()[-1] == line, f"usage gave {status}, {printed!r}")
    status, printed, _ = server.via("status")
    lines = {f'custody_contents_bytes{{state="kept"}} {kept + last}', f'custody_contents_bytes{{state="free"}} {gone}',
             f'custody_database_bytes{{file="contents"}} {sum(sizes)}'}
    require(status == 0 and lines <= set(printed.splitlines()), f"status gave {status}, {printed!r}")
    return line


def check_missing(server, _):
    """A file of contents that is missing, or shorter than the database says, is reported and never made anew."""
    data = made(1, 200_000)
    require(server.put(data) == 200, "an upload was refused")
    server.end(signal.SIGTERM)
    path, away = server.contents(), Path(f"{server.room}/away")
    path.rename(away)
    errors = server.fails("check")
    require(errors.startswith("custody: store G2\n") and "does not exist" in errors, f"it printed {errors!r}")
    require(not path.exists(), "the file was made anew")
    path.write_bytes(away.read_bytes()[:-1])
    errors = server.fails("check")
    require(errors.startswith("custody: store G2\n") and "shorter" in errors, f"it printed {errors!r}")
    require(path.read_bytes() == away.read_bytes()[:-1], "the file was changed")
    path.unlink()
    away.rename(path)
    os.link(path, away)
    errors = server.fails("check")
    require(errors.startswith("custody: store G2\n") and "a second name" in errors, f"it printed {errors!r}")
    away.unlink()
    server.start()
    require(server.has(data), "the object differs")
    return "a missing file, a short one and one with a second name are store G2, each with its sentence"


def check_not_empty(server, _):
    """A file of contents that has bytes is not taken for that of a new database."""
    other = Path(f"{server.room}/other.db")
    contents = Path(f"{other}-contents")
    contents.write_bytes(b"the contents of another database")
    words = [server.program, "serve", "--db", str(other), *server.files()[2:], "--listen",
             f"127.0.0.1:{free_port()}", "--contents", "--explain"]
    ran = subprocess.run(words, capture_output=True, text=True, check=False, timeout=30)
    require(ran.returncode == 1 and "custody: store G2\n" in ran.stderr and "is new" in ran.stderr,
            f"it ended with {ran.returncode}, {ran.stderr!r}")
    require(contents.read_bytes() == b"the contents of another database", "the file was changed")
    return "a file that has bytes beside a new database is refused, and kept"


def check_spoiled(server, _):
    """A byte that is spoiled costs one object, which check names and repair removes."""
    objects = [made(number, 150_000) for number in range(5)]
    for data in objects:
        require(server.put(data) == 200, "an upload was refused")
    server.end(signal.SIGTERM)
    bytes_now = bytearray(server.contents().read_bytes())
    bytes_now[2 * 150_000 + 70_000] ^= 1
    server.contents().write_bytes(bytes_now)
    name = name_of(objects[2])
    status, output, _ = server.over_files("check")
    require(status == 1 and name in output and output.count("\n") == 2, f"check ended with {status}, {output!r}")
    status, output, _ = server.over_files("repair")
    require(status == 0 and name in output, f"repair ended with {status}, {output!r}")
    server.start()
    require(server.get(name)[0] == 404, "the damaged object is served")
    require(all(server.has(data) for data in objects if name_of(data) != name), "another object was lost")
    require(server.put(objects[2]) == 200 and server.has(objects[2]), "the object was not stored again")
    return "one byte of five objects was changed: check named one, and it was pushed again"


def without_read(server, number, *command):
    """Runs a command over the files, of which the disk fails the read of the contents with this number."""
    path = server.contents()
    words = ["strace", "-f", "-P", path, "-e", "trace=pread64", "-e", f"inject=pread64:error=EIO:when={number}", "-o",
             "/dev/null", server.program, *command, "--db", server.database]
    ran = subprocess.run(words, capture_output=True, text=True, check=False, timeout=60)
    return ran.returncode, ran.stdout, ran.stderr


def check_unreadable(server, _):
    """Bytes that the disk does not read cost one object: check names it and goes on, and repair removes it."""
    objects = sorted((made(number, 150_000) for number in range(5)), key=name_of)
    for data in objects:
        require(server.put(data) == 200, "an upload was refused")
    server.end(signal.SIGTERM)
    lost = objects[1]
    # An object of 150,000 bytes is read in three pieces, in the order of names.
    found = without_read(server, 5, "check")
    named = (1, f"damaged {FILM} {name_of(lost)}\nchecked 5 objects\n", "custody: store G2\n")
    require(found == named, f"check ended with {found}")
    require(server.over_files("check")[:2] == (0, "checked 5 objects\n"), "a check without the fault names an object")
    found = without_read(server, 5, "repair")
    require(found == (0, f"removed {FILM} {name_of(lost)}\nremoved 1 objects\n", ""), f"repair ended with {found}")
    server.start()
    require(server.get(name_of(lost))[0] == 404, "the object is still served")
    require(all(server.has(data) for data in objects if data != lost), "another object was lost")
    require(server.put(lost) == 200 and server.has(lost), "the object was not stored again")
    return "one read of five objects failed: check named one and read the others, and it was pushed again"


def check_sync(server, _):
    """A sync of the file that fails ends the server, and the next one has what was stored before."""
    first, second = made(1, 200_000), made(2, 200_000)
    require(server.put(first) == 200, "an upload was refused")
    words = ["strace", "-f", "-P", server.contents(), "-e", "trace=fdatasync,fsync", "-e",
             "inject=fdatasync,fsync:error=EIO:when=1", "-o", "/dev/null", "-p", str(server.child.pid)]
    with subprocess.Popen(words, stderr=subprocess.PIPE) as tracer:
        require(b"attached" in tracer.stderr.readline(), "strace does not trace the server")
        reply = server.ask(put(second))
        require(reply == (500, b'{"message":"S1: the store refused"}'), f"after the sync an upload got {reply}")
        status = server.child.wait(timeout=10)
    is_right = status == 1 and server.errors().endswith("custody: store G2\n")
    require(is_right, f"the server ended with {status}, {server.errors()!r}")
    server.start()
    require(server.has(first) and server.get(name_of(second))[0] == 404, "the server has other objects than before")
    require(server.put(second) == 200 and server.has(second), "the object was not stored again")
    return "S1 and then store G2 after a sync that failed; the next server has what was stored before"


def fill(path, count, size):
    """Adds objects to a database of version 3, whose contents are holes in the file."""
    with sqlite3.connect(path) as rows:
        rows.execute("PRAGMA journal_mode = WAL")
        begun = rows.execute("SELECT coalesce(max(id), 0) FROM uploads").fetchone()[0]
        for number in range(count):
            at = begun + number + 1
            rows.execute("INSERT INTO uploads (id, repo, oid, size, done) VALUES (?, ?, ?, ?, 1)",
                         (at, FILM, f"{number:064x}", size))
            place = (number * size).to_bytes(8, "big") + size.to_bytes(8, "big")
            rows.execute("INSERT INTO chunks (upload, n, bytes) VALUES (?, ?, ?)", (at, PLACE, place))
        rows.execute("INSERT INTO repos (name, made, used) VALUES (?, 0, ?)", (FILM, count * size))
    rows.close()
    with open(f"{path}-contents", "r+b") as contents:
        contents.truncate(count * size)


def check_start(server, options):
    """A start takes the time of the rows, however much is stored."""
    server.end(signal.SIGTERM)
    fill(server.database, options.objects, 1 << 20)
    begun = time.monotonic()
    server.start()
    text = within(time.monotonic() - begun, options.seconds, f"a start with {options.objects} objects of 1 MiB")
    peak = server.peak()
    status, _ = server.get(f"{options.objects - 1:064x}")
    require(status == 200, f"an object got {status}")
    return f"{text}, and at most {peak // 1024} MB"


CHECKS = {
    "sizes": check_sizes,
    "killed": check_killed,
    "left": check_left,
    "room": check_room,
    "filled": check_filled,
    "missing": check_missing,
    "not-empty": check_not_empty,
    "spoiled": check_spoiled,
    "unreadable": check_unreadable,
    "sync": check_sync,
    "start": check_start,
}


def main():
    """Runs the checks."""
    parser = arguments(__doc__, CHECKS)
    parser.add_argument("--rounds", type=int, default=200, help="servers that are killed [default: %(default)s]")
    parser.add_argument("--objects", type=int, default=100_000, help="objects at a start [default: %(default)s]")
    parser.add_argument("--seconds", type=float, default=5, help="the bound of a start [default: %(default)s]")
    options = parser.parse_args()
    policy = open_policy(["ann"], (FILM,))
    return judge_on_server(CHECKS, options, lambda program, room: BesideServer(program, room, policy, form="file"))


if __name__ == "__main__":
    sys.exit(main())
