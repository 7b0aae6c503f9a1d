"""Tries deploy/programs/backup and deploy/programs/restore on a running server, with databases of both forms.

Each check starts a server on a new database and a free port of this machine. What a copy has to have is what the check
has stored and removed; what a restored database has is compared with the rows of the copy, which the command sqlite3
reads, and with what `custody check` and a server say of it.
"""
import os
import random
import re
import signal
import stat
import subprocess
import sys
import time
from pathlib import Path

from tests.studio.checks import TOP, arguments, beside, judge_on_forms, require
from tests.studio.control import ControlledServer
from tests.studio.policy import FILM, GAME, open_policy
from tests.studio.program import CHUNK, Files, content, lock, made, message, name_of, put
from tests.studio.tables import CHUNKS, ROWS, read_copy

PROGRAMS = TOP / "deploy/programs"
SIZES = [0, 1, 5_000, CHUNK - 1, CHUNK, CHUNK + 1, 300_000, 2_500_000]
ALL = f"PRAGMA integrity_check; SELECT version FROM meta; {ROWS} {CHUNKS}"
# The program, but that before a server is held an object is stored, and after that one is removed for good, if there
# are files for it.
AT_HOLD = """#!/bin/bash
[ "$1" = hold ] || exec @program "$@"
cd @room
count=$(($(cat count) + 1))
echo $count > count
if [ -e put-$count ]; then
    exec 3<> /dev/tcp/127.0.0.1/@port
    cat put-$count >&3
    read -r line <&3
    exec 3>&-
fi
@program "$@"
status=$?
[ ! -e gone-$count ] || @program retire --via @control --repo studio/film "$(cat gone-$count)" > /dev/null
exit $status
"""


class CopiedServer(ControlledServer):
    """A server whose database is copied to the folder `copies` of its folder."""

    def __init__(self, program, room, form):
        self.caller = program
        super().__init__(program, room, open_policy(["ann"], (FILM, GAME)), form=form)
        self.copies = Path(room, "copies")
        self.copies.mkdir()

    def put(self, data):
        """Stores an object."""
        require(self.ask(put(data), 600)[0] == 200, f"an upload of {len(data)} bytes was refused")

    def put_all(self, *seeds, size=100_000):
        """Stores an object for each of the seeds. Returns them."""
        objects = [made(seed, size + seed) for seed in seeds]
        for data in objects:
            self.put(data)
        return objects

    def retire(self, data):
        """Removes an object for good."""
        require(self.via("retire", "--repo", FILM, name_of(data))[0] == 0, "retire failed")

    def program_of_site(self, name, *words):
        """Runs one of the programs. Returns the status, the output and the error stream."""
        ran = subprocess.run([PROGRAMS / name, *words], env={**os.environ, "CUSTODY": self.caller}, capture_output=True,
                             text=True, check=False, timeout=300)
        return ran.returncode, ran.stdout, ran.stderr

    def backup(self, *more):
        """Makes a copy."""
        return self.program_of_site("backup", self.control(), self.database, self.copies, *more)

    def back_up(self, count, *more):
        """Makes a copy with this many objects. Returns its folder."""
        found = self.backup(*more)
        require(found == (0, f"checked {count} objects\n", ""), f"backup of {count} objects gave {found}")
        return self.generations()[-1]

    def generations(self):
        """The copies, the oldest first."""
        return sorted(it for it in self.copies.iterdir() if it.name[0] in "12")

    def contents_in_folder(self):
        """The files of contents that the copies share, by name."""
        return {it.name: it for it in self.copies.glob("contents/*/*/*")}

    def wanted_in_folder(self, *objects):
        """The names of the objects that have a file of their own there."""
        return {name_of(it) for it in objects if len(it) >= CHUNK} if self.form == "file" else set()

    def call_at_hold(self):
        """Has `backup` call the program as AT_HOLD says."""
        text = AT_HOLD
        for name, value in (("program", self.program), ("room", self.room), ("control", self.control()),
                            ("port", self.port)):
            text = text.replace(f"@{name}", str(value))
        self.caller = f"{self.room}/at-hold"
        Path(self.caller).write_text(text, encoding="utf-8")
        Path(self.caller).chmod(0o755)
        Path(self.room, "count").write_text("0", encoding="ascii")

    def holds(self):
        """How often `backup` has had the server held."""
        return int(Path(self.room, "count").read_text(encoding="ascii"))


class Restored(Files):
    """A database that is made of a copy, in a folder of its own."""

    def __init__(self, server, generation):
        room = Path(server.room, f"restored-{len(list(Path(server.room).glob('restored-*')))}")
        room.mkdir()
        super().__init__(server.program, str(room), open_policy(["ann"], (FILM, GAME)))
        self.ran = server.program_of_site("restore", generation, self.database)

    def replies(self, objects):
        """The status and the body of the reply to a download of each of the objects, by one session."""
        asked = b"".join(message("GET", content(name_of(it))) for it in objects)
        text, found, at = self.session(asked, int(time.time())), [], 0
        while at < len(text):
            body = text.index(b"\r\n\r\n", at) + 4
            head = text[at:body]
            at = body + int(re.search(rb"\r\nContent-Length: (\d+)\r\n", head)[1])
            found.append((int(head.split()[1]), text[body:at]))
        return found

    def has(self, *objects):
        """Whether all of the objects are served whole."""
        return self.replies(objects) == [(200, it) for it in objects]

    def lacks(self, data):
        """Whether there is no object of this name."""
        return self.replies([data])[0][0] in (404, 410)


def restored(server, generation, *objects):
    """A database that is made of a copy: all is there, with the rows of the copy, and is served. Returns it."""
    copy = generation / "custody.db"
    rows = read_copy(copy, ALL)
    count = read_copy(copy, "SELECT count(*) FROM uploads WHERE done = 1;").strip()
    found = Restored(server, generation)
    require(found.ran == (0, f"restored {count} objects\n", ""), f"restore gave {found.ran}")
    require(rows.startswith("ok\n") and read_copy(found.database, ALL) == rows, "the restored rows differ")
    require(read_copy(copy, ALL) == rows, "restore changed the copy")
    files = {it.name for it in Path(found.room).iterdir()} - {"policy.toml"}
    require(files == {f"custody.db{end}" for end in ("", "-wal", *["-contents"][:server.form == "file"])},
            f"restore made {files}")
    checked = found.over_files("check")
    require(checked == (0, f"checked {count} objects\n", ""), f"check of the restored database gave {checked}")
    require(found.has(*objects), "an object of the restored database differs")
    return found


def check_whole(server, _):
    """Objects of all sizes, in two repositories: all are in the copy, whose files are their owner's alone."""
    objects = [made(size, size) for size in SIZES]
    token = server.token(GAME)
    for data in objects:
        server.put(data)
        require(server.ask(put(data, token, GAME))[0] == 200, "an upload was refused")
    require(server.ask(lock("art/hero.psd"))[0] == 201, "a lock was refused")
    server.retire(objects[1])
    copy = server.back_up(2 * len(objects) - 1)
    require({it.name for it in copy.iterdir()} == {"custody.db", "custody.db-wal"}, "the copy has other files")
    require(set(server.contents_in_folder()) == server.wanted_in_folder(*objects), "other contents were copied")
    modes = {stat.S_IMODE(it.stat().st_mode) & 0o077 for it in [copy, *server.copies.rglob("*")]}
    require(modes == {0}, f"others may use the copy: {modes}")
    found = restored(server, copy, objects[0], *objects[2:])
    require(found.lacks(objects[1]), "an object that was removed is served")
    return f"{2 * len(objects) - 1} objects of up to {SIZES[-1]} bytes in two repositories"


def check_beside(server, options):
    """Copies that are made while a client pushes have all that was stored before."""
    stored = []

    def push(is_over):
        """Pushes objects until it is over."""
        while not is_over.is_set():
            data = made(len(stored), random.Random(len(stored)).choice([100, 70_000, 300_000]))
            server.put(data)
            stored.append(data)

    before = []
    with beside(push):
        for _ in range(options.rounds):
            time.sleep(0.3)
            before = list(stored)
            status, printed, errors = server.backup()
            require(status == 0, f"backup gave {status}, {printed!r}, {errors!r}")
    found = restored(server, server.generations()[-1], *before)
    count = found.over_files("objects", "--repo", FILM)[1].count("\n")
    require(len(before) <= count <= len(stored), f"{count} objects are in the copy, and not {len(before)} or more")
    return f"{options.rounds} copies beside a client that pushed {len(stored)} objects, of which the last has {count}"


def check_again(server, _):
    """A second copy takes only what is new, and its database."""
    first = server.put_all(*range(10), size=1_000_000)
    server.back_up(10)
    files = server.contents_in_folder()
    before = {name: (it.stat().st_ino, it.stat().st_mtime_ns, it.stat().st_ctime_ns) for name, it in files.items()}
    more = server.put_all(*range(10, 13))
    one, other = server.back_up(13), server.generations()[0]
    files = server.contents_in_folder()
    after = {name: (it.stat().st_ino, it.stat().st_mtime_ns, it.stat().st_ctime_ns) for name, it in files.items()}
    require(before.items() <= after.items(), "a content was copied again")
    require(after.keys() - before.keys() == server.wanted_in_folder(*more), "not all that is new was copied")
    restored(server, one, *first, *more)
    restored(server, other, *first)
    size = sum(it.stat().st_size for it in one.iterdir())
    if server.form == "file":
        require(size < 1_000_000, f"the second copy of the database has {size} bytes")
    return f"10 objects, and then 3 more: {len(after)} files of contents, {size} bytes for the second copy"


def check_retired(server, _):
    """An object that is removed between two copies is in the first alone, as long as that is kept."""
    objects = server.put_all(*range(4))
    old = server.back_up(4)
    server.retire(objects[1])
    new = server.back_up(3)
    require(restored(server, new, objects[0], *objects[2:]).lacks(objects[1]), "a removed object is in the second copy")
    restored(server, old, *objects)
    require(set(server.contents_in_folder()) == server.wanted_in_folder(*objects), "a content is gone too early")
    last = server.back_up(3, "1")
    require(server.generations() == [last], "more than one copy is kept")
    require(set(server.contents_in_folder()) == server.wanted_in_folder(objects[0], *objects[2:]),
            "the contents that are kept are not those of the copy")
    restored(server, last, objects[0], *objects[2:])
    return "one of 4 objects was removed, and was in the first copy until that was too old"


def check_removed(server, _):
    """Objects that are removed while they are copied: the copy is made again, for a number of times."""
    objects = server.put_all(*range(3))
    server.call_at_hold()
    Path(server.room, "gone-1").write_text(name_of(objects[2]), encoding="ascii")
    copy = server.back_up(3 if server.form == "rows" else 2)
    require(server.holds() == (1 if server.form == "rows" else 2), f"the server was held {server.holds()} times")
    restored(server, copy, *objects[:2])
    if server.form == "rows":
        return "the copy has what was there while the server was held"
    passes = 20
    Path(server.room, "count").write_text("0", encoding="ascii")
    for number in range(1, passes):
        data = made(number, 200_000)
        Path(server.room, f"put-{number}").write_bytes(put(data))
        Path(server.room, f"gone-{number}").write_text(name_of(data), encoding="ascii")
    status, printed, errors = server.backup()
    is_refused = (status, printed) == (1, "") and "were removed while they were copied" in errors
    require(is_refused and server.holds() < passes,
            f"backup gave {status}, {printed!r}, {errors!r} after {server.holds()} holds")
    require(server.generations() == [copy], "there is another copy")
    return f"one was removed, and the copy is without it; after {server.holds()} tries with one more each there is none"


def spoil(server, data):
    """Changes one byte of an object in the files of a server that is stopped."""
    file = server.contents() if server.form == "file" and len(data) >= CHUNK else Path(server.database)
    stored = bytearray(file.read_bytes())
    # In a row it is in pages, after the first 5,000 bytes in pages of its own.
    found = (stored.find(data[at:at + 50]) for at in range(5_000, 15_000, 100))
    stored[next(at for at in found if at >= 0)] ^= 1
    file.write_bytes(stored)


def check_damaged(server, _):
    """A database with a damaged object is not copied, and the copies before stay."""
    objects = server.put_all(*range(3))
    old = server.back_up(3)
    more = [*server.put_all(8, size=20_000), *server.put_all(9)]
    require(server.via("stop")[0] == 0, "stop failed")
    server.child.wait(timeout=10)
    for data in more:
        spoil(server, data)
    server.start()
    want = "".join(f"damaged {FILM} {name}\n" for name in sorted(map(name_of, more))) + "checked 5 objects\n"
    found = server.backup()
    require(found == (1, want, ""), f"backup gave {found}")
    require(server.generations() == [old] and not list(server.copies.glob("*.new")), "the folder has another copy")
    restored(server, old, *objects)
    require(server.via("repair")[0] == 0, "repair failed")
    restored(server, server.back_up(3), *objects)
    return "a small and a large one of 5 objects were damaged: named, not copied, and after repair a copy was made"


def check_killed(server, options):
    """A run that is killed leaves nothing that the next one does not remove, and no content in part."""
    objects = server.put_all(*range(6), size=400_000)
    chance, kills = random.Random(3), 0
    for _ in range(options.rounds):
        words = [PROGRAMS / "backup", server.control(), server.database, server.copies]
        with subprocess.Popen(words, env={**os.environ, "CUSTODY": server.program}, stdout=subprocess.PIPE,
                              stderr=subprocess.PIPE) as child:
            time.sleep(chance.random() * options.span)
            kills += child.poll() is None
            child.kill()
        for name, file in server.contents_in_folder().items():
            is_whole = file.suffix == ".new" or name_of(file.read_bytes()) == name
            require(is_whole, "a content is in the folder in part")
    copy = server.back_up(6, "1")
    require(server.generations() == [copy] and not list(server.copies.glob("*.new")), "a killed run left its folder")
    require(set(server.contents_in_folder()) == server.wanted_in_folder(*objects), "a killed run left other files")
    restored(server, copy, *objects)
    return f"{kills} runs were killed"


def check_lacking(server, _):
    """A content that a copy lacks is named by restore; the others are there, and repair removes this one."""
    objects = server.put_all(*range(4))
    copy = server.back_up(4)
    if server.form == "rows":
        found = restored(server, copy, *objects)
        again = server.program_of_site("restore", copy, found.database)
        require(again[:2] == (1, "") and "exists" in again[2], f"restore over a database gave {again}")
        return "no database is made over another one"
    missing, changed = name_of(objects[1]), name_of(objects[3])
    files = server.contents_in_folder()
    files[missing].unlink()
    files[changed].write_bytes(files[changed].read_bytes()[::-1])
    found = Restored(server, copy)
    want = f"damaged {FILM} {changed}\nmissing {FILM} {missing}\nrestored 4 objects\n"
    require(found.ran == (1, want, ""), f"restore gave {found.ran}")
    status, printed, _ = found.over_files("check")
    names = set(re.findall(r"^damaged \S+ (\S+)$", printed, re.M))
    require((status, names) == (1, {missing, changed}), f"check gave {status}, {printed!r}")
    require(found.over_files("repair")[0] == 0 and found.over_files("check")[0] == 0, "repair failed")
    require(found.has(objects[0], objects[2]), "another object differs")
    server.back_up(4)
    found = Restored(server, copy)
    require(found.ran == (1, f"damaged {FILM} {changed}\nrestored 4 objects\n", ""), f"restore gave {found.ran}")
    return "of 4 contents one was missing and one changed: both are named, and the next copy has the missing one again"


def check_words(server, _):
    """What is refused: wrong words, a folder that does not exist, one that is in use, and files that exist."""
    usage = [server.program_of_site(*words)[0] for words in (
        ("backup", "a", "b"), ("backup", "a", "b", "c", "0"), ("restore", "a"), ("restore", "a", "b", "c"))]
    require(usage == [2] * 4, f"wrong words gave {usage}")
    status, _, errors = server.program_of_site("backup", server.control(), server.database, f"{server.room}/none")
    require(status == 1 and "none" in errors, f"without a folder backup gave {status}, {errors!r}")
    copy = server.back_up(0)
    for end in ("", "-wal", "-contents"):
        path = Path(server.room, f"there{end}")
        path.write_bytes(b"")
        status, _, errors = server.program_of_site("restore", copy, f"{server.room}/there")
        is_refused = status == 1 and "exists" in errors and path.read_bytes() == b""
        require(is_refused, f"beside {path.name} restore gave {status}")
        path.unlink()
    server.end(signal.SIGTERM)
    found = server.backup()
    require(found == (1, "", "custody: control socket\n"), f"without a server it gave {found}")
    require(server.generations() == [copy], "there is another copy")
    server.start()
    return "wrong words, no folder, no server, and a database that exists"


CHECKS = {
    "whole": check_whole,
    "beside": check_beside,
    "again": check_again,
    "retired": check_retired,
    "removed": check_removed,
    "damaged": check_damaged,
    "killed": check_killed,
    "lacking": check_lacking,
    "words": check_words,
}


def main():
    """Runs the checks."""
    parser = arguments(__doc__, CHECKS, forms=True)
    parser.add_argument("--rounds", type=int, default=5, help="copies that are made or killed [default: %(default)s]")
    parser.add_argument("--span", type=float, default=1, help="seconds until a kill at most [default: %(default)s]")
    options = parser.parse_args()
    return judge_on_forms(CHECKS, options, CopiedServer)


if __name__ == "__main__":
    sys.exit(main())
