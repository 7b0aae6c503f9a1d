"""Kills the program at each system call that changes a file: before the call, and right after it.

Each check fills a database of each form with a server on a free port of this machine. On copies of it runs a command,
or a server to which objects are pushed. It is killed at its first call that changes a file, on the next copy at its
second one, and so on, until it ends by itself. What is left has to have all that was reported, and nothing in part.
Then the same runs again. Bytes of objects are read with the command sqlite3, and from the file of contents.

A kill keeps what was written before it, so it is no power cut. What a disk may lose at one is tried over disks in
memory (crates/cases, crates/placed_tests).
"""
import contextlib
import itertools
import random
import shutil
import signal
import sys
import tempfile
import time
from concurrent.futures import ThreadPoolExecutor
from pathlib import Path

from tests.studio.checks import arguments, comes_true, judge_on_forms, require
from tests.studio.control import ControlledServer
from tests.studio.policy import FILM, open_policy
from tests.studio.program import (CHUNK, Client, Files, Server, content, free_port, lock, made, message, name_of, put,
                                  target)
from tests.studio.spoiled import MEMORY
from tests.studio.tables import PLACE, ROWS, objects_in, read_copy, sqlite3, staged_in
from tests.studio.traced import killed_at

POLICY = open_policy(["ann"], (FILM,))
KEPT = [made(size, size) for size in (0, 5_000, CHUNK, 2 * CHUNK + 1, 70_000)]
# The one that is removed, or damaged: there are others on both sides of it in the file of contents.
CHOSEN = name_of(KEPT[3])
OTHERS = [data for data in KEPT if name_of(data) != CHOSEN]
RETIRED = made(7, CHUNK + 7)
# What is pushed: a large object is written as pages of 4,096 bytes if contents are rows.
PUSHED = {"rows": [made(8, 200_000), made(9, 4096)], "file": [made(8, 3 << 20), made(9, 4096)]}
PATH = "art/d.psd"
# The number of lines of `usage` without the one of the file of contents.
USAGE_LINES = 2


def named(objects):
    """The objects by their names."""
    return {name_of(data): data for data in objects}


class Copy(Files):
    """A copy of the files of a database, in a folder of its own. Its form is the one that the database had at first."""

    def __init__(self, other, room):
        super().__init__(other.program, room, POLICY)
        self.form = other.form
        for path in Path(other.database).parent.glob("custody.db*"):
            shutil.copyfile(path, Path(room, path.name))

    def passes(self, name, *more):
        """What a command that succeeds prints."""
        status, output, errors = self.over_files(name, *more, with_policy=name == "usage")
        require((status, errors) == (0, ""), f"{name} ended with {status}, {output!r}, {errors!r}")
        return output

    def shown(self):
        """What the commands say that the database has, wherever its contents are."""
        lists = [self.passes(name, "--repo", FILM) for name in ("objects", "locks")]
        return [self.passes("check"), *lists, self.passes("usage").splitlines()[:USAGE_LINES]]

    def is_cut(self):
        """Whether the file of contents ends with the last content in it, by what `usage` prints of it."""
        words = self.passes("usage").splitlines()[USAGE_LINES].split()
        kept, free, size = (int(word) for word in words if word.isdigit())
        return kept + free == size

    def suffixes(self):
        """What the names of the files of the database have after its own, but for the log."""
        return {path.name.removeprefix("custody.db") for path in Path(self.room).glob("custody.db*")} - {"-wal"}


@contextlib.contextmanager
def copied(other):
    """A copy, which is removed afterwards."""
    with tempfile.TemporaryDirectory(dir=MEMORY) as room:
        yield Copy(other, room)


class NextServer(Server):
    """A server of a database that is there, with its tokens."""

    letter = None

    def get(self, data):
        """The reply to a download of the object of these bytes."""
        return self.ask(message("GET", content(name_of(data))))

    def has_lock(self):
        """Whether the path of the push is locked."""
        status, body = self.ask(message("GET", target(f"locks?path={PATH}")))
        require(status == 200, f"a list of locks got {status}")
        return PATH.encode() in body


def fill(server):
    """Stores objects, locks, of which one is released, and a retired name. Kills the server."""
    for data in [*KEPT[:3], RETIRED, *KEPT[3:]]:
        require(server.ask(put(data))[0] == 200, "an upload was refused")
    for path in ("art/a.psd", "art/b.psd", "art/c.psd"):
        require(server.ask(lock(path))[0] == 201, "a lock was refused")
    require(server.ask(message("POST", target("locks/2/unlock"), {}))[0] == 200, "an unlock was refused")
    require(server.via("retire", "--repo", FILM, name_of(RETIRED))[0] == 0, "retire failed")
    server.end(signal.SIGKILL)


def each_kill(options, server, run):
    """For each kill a copy of the server's database, with what `run` returned: it runs the program on the copy, with
    the number of a call, and whether the kill comes after it. At last the same of the program that ended by itself."""
    for number in itertools.count(1, options.every):
        for is_after in (False, True):
            with copied(server) as files:
                process, result = run(files, number, is_after)
                yield files, process, result
                if not process.is_killed:
                    require(process.child.returncode == 0, f"the program ended with {process.child.returncode}")
                    return


def run_command(*words):
    """A run of a command over the files: with the process, what it printed."""

    def run(files, number, is_after):
        """Runs it on a copy."""
        process = killed_at([files.program, words[0], *files.files()[:2], *words[1:]], number, is_after)
        return process, process.printed()[0]

    return run


def counted(kills, process):
    """The line of a check."""
    what = "write, sync, cut, rename, remove or make a file, or set its mode or owner"
    return f"{kills} kills at {process.count} calls that {what}"


def judge_left(files, checked, rows, process):
    """What a kill of a migration left has all rows and objects, whichever form it has."""
    with copied(files) as left:
        what = f"a kill {'after' if process.is_after else 'before'} call {process.count}"
        require(left.passes("check") == checked, f"{what} left other objects")
        require(read_copy(left.database, ROWS) == rows, f"{what} left other rows")


def check_migrate(server, options):
    """A migration that is killed leaves a database that has all; the same command goes on, also after a second kill."""
    fill(server)
    option, number = ("--chunks", 3) if server.form == "file" else ("--contents", 2)
    lines = (f"migrated from version {number}, {len(KEPT)} objects\n", f"already version {5 - number}\n")
    names = {""} if server.form == "file" else {"", "-contents"}
    with copied(server) as files:
        shown, rows = files.shown(), read_copy(files.database, ROWS)
    chance, migrate, kills = random.Random(3), run_command("migrate", option), 0
    for files, process, _ in each_kill(options, server, migrate):
        judge_left(files, shown[0], rows, process)
        again, _ = migrate(files, chance.randrange(1, process.count + 1), chance.random() < 0.5)
        judge_left(files, shown[0], rows, again)
        kills += process.is_killed + again.is_killed
        came = files.passes("migrate", option)
        require(came in lines and files.suffixes() == names, f"{came!r}, {files.suffixes()}")
        require(read_copy(files.database, ROWS) == rows, "the rows differ")
        require(objects_in(files.database) == named(KEPT), "the bytes of an object differ")
        require(files.shown() == shown, "the database has something else")
    server.start()
    return counted(kills, process)


def push(port, requests, ending):
    """Sends the requests to a server, which may end at any moment. Returns how many got their replies."""
    replies = 0
    while not ending.done():
        with contextlib.suppress(OSError), Client(port) as client:
            for request in requests:
                require(client.ask(request)[0] in (200, 201), "a request was refused")
                replies += 1
            return replies
        if replies:
            break
        time.sleep(0.002)
    return replies


def run_push(files, number, is_after):
    """A run of a server to which is pushed: with the process, how many requests got their replies."""
    port = free_port()
    words = [files.program, "serve", *files.files(), "--listen", f"127.0.0.1:{port}", "--requests", "1"]
    with ThreadPoolExecutor(1) as pool:
        ending = pool.submit(killed_at, words, number, is_after)
        replies = push(port, [*map(put, PUSHED[files.form]), lock(PATH)], ending)
        process = ending.result()
    process.printed()
    return process, replies


def judge_push(files, replies):
    """The next server has what was answered, and nothing of an upload that was cut off; the rest is pushed again."""
    pushed = PUSHED[files.form]
    with NextServer(files.program, files.room, POLICY) as server:
        for data in KEPT:
            require(server.get(data) == (200, data), "an object is lost")
        for number, data in enumerate(pushed):
            status, came = server.get(data)
            is_right = (status, came) == (200, data) or (number >= replies and status == 404)
            require(is_right, f"object {number} got {status}, after {replies} replies")
        require(server.has_lock() or replies <= len(pushed), "a lock is lost")
        require(staged_in(files.database) == 0, "an upload is staged")
        for data in pushed:
            require(server.ask(put(data))[0] == 200, "an object was not pushed again")
        server.end(signal.SIGTERM)
    files.passes("check")
    require(objects_in(files.database) == named(KEPT + pushed), "the bytes of an object differ")
    require(files.form == "rows" or files.is_cut(), "the file of contents is too long")


def check_push(server, options):
    """A server that is killed within a push has what it answered, and removes the rest."""
    fill(server)
    kills = answered = 0
    for files, process, replies in each_kill(options, server, run_push):
        kills += process.is_killed
        answered += replies if process.is_killed else 0
        judge_push(files, replies)
    require(replies == len(PUSHED[server.form]) + 1, f"{replies} requests got replies without a kill")
    server.start()
    return f"{counted(kills, process)}, after {answered} replies"


def judge_removal(server, options, words, lines, objects, is_done, is_right):
    """A command that removes is killed: what is left is as before it or as after it, and the second run completes it.
    `lines` has what the command prints, and what it prints if nothing is left to be removed; `objects` are those that
    stay. `is_done` says whether the files have what is to be removed no more; `is_right` judges them, given that."""
    kills = done = 0
    for files, process, printed in each_kill(options, server, run_command(*words)):
        kills += process.is_killed
        was_done = is_done(files)
        done += was_done and process.is_killed
        require(was_done or not printed, f"{words[0]} printed {printed!r} and did nothing")
        with copied(files) as left:
            is_right(left, was_done)
        came = files.passes(*words)
        require(came == lines[was_done], f"{words[0]} printed {came!r} after call {process.count}")
        files.passes("check")
        require(is_done(files) and staged_in(files.database) == 0, "something is left")
        require(objects_in(files.database) == named(objects), "the objects differ")
    server.start()
    return f"{counted(kills, process)}, {done} of them after it was done"


def check_retire(server, options):
    """A removal for good that is killed is done or not, as a whole."""
    fill(server)

    def is_done(files):
        """Whether the object is removed, and its name kept: both or neither."""
        names = read_copy(files.database, "SELECT oid FROM retired;").split()
        require((CHOSEN in names) == (CHOSEN not in objects_in(files.database)), "a part of the removal is done")
        return CHOSEN in names

    lines = (f"retired {CHOSEN}\n", f"already retired {CHOSEN}\n")
    words = ("retire", "--repo", FILM, CHOSEN)
    return judge_removal(server, options, words, lines, OTHERS, is_done, lambda files, _: files.passes("check"))


def spoil(server):
    """Changes bytes of the object CHOSEN."""
    chosen = f"(SELECT id FROM uploads WHERE oid = '{CHOSEN}')"
    if server.form == "file":
        place = read_copy(server.database, f"SELECT hex(bytes) FROM chunks WHERE upload = {chosen} AND n = {PLACE};")
        with open(server.contents(), "r+b") as contents:
            contents.seek(int(place[:16], 16))
            contents.write(bytes(10))
    else:
        sqlite3(server.database, "UPDATE chunks SET bytes = zeroblob(length(bytes)) "
                                 f"WHERE upload = {chosen} AND n = 0;")


def check_repair(server, options):
    """A repair that is killed leaves the damaged object, which is found again, or none."""
    fill(server)
    spoil(server)

    def is_right(files, was_done):
        """Requires that `check` names the object, if it is there."""
        wanted = "" if was_done else f"damaged {FILM} {CHOSEN}\n"
        wanted += f"checked {len(KEPT) - was_done} objects\n"
        came = files.over_files("check")
        require(came == (not was_done, wanted, ""), f"check gave {came}")

    lines = (f"removed {FILM} {CHOSEN}\nremoved 1 objects\n", "removed 0 objects\n")
    return judge_removal(server, options, ("repair",), lines, OTHERS,
                         lambda files: CHOSEN not in objects_in(files.database), is_right)


def stage(server):
    """Has the server killed within an upload."""
    with server.client() as client:
        client.send(put(made(10, 500_000))[:-1])
        require(comes_true(lambda: staged_in(server.database) == 1), "no upload is staged")
        server.end(signal.SIGKILL)


def check_sweep(server, options):
    """A sweep that is killed leaves the upload that was cut off, or nothing of it."""
    fill(server)
    server.start()
    stage(server)
    lines = ("swept 1 uploads\n", "swept 0 uploads\n")
    return judge_removal(server, options, ("sweep",), lines, KEPT, lambda files: staged_in(files.database) == 0,
                         lambda files, _: files.passes("check"))


CHECKS = {"migrate": check_migrate, "push": check_push, "retire": check_retire, "repair": check_repair,
          "sweep": check_sweep}


def main():
    """Runs the checks."""
    parser = arguments(__doc__, CHECKS, forms=True)
    parser.add_argument("--every", type=int, default=1, metavar="N",
                        help="kill at one of N calls [default: %(default)s]")
    options = parser.parse_args()
    return judge_on_forms(CHECKS, options,
                          lambda program, room, form: ControlledServer(program, room, POLICY, form=form))


if __name__ == "__main__":
    sys.exit(main())
