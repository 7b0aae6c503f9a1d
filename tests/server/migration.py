"""Tries `custody migrate` on database files of version 1, and `custody retire` on what it leaves.

The files are those that tests/server/version_1_files.py makes with a program of version 1. Each check works on a copy;
the rows are read with the command sqlite3, from a copy too, and compared with those of the files' text.
"""
import random
import shutil
import subprocess
import sys
import tempfile
import time
from pathlib import Path

from tests.studio.checks import arguments, judge_each, require
from tests.studio.policy import FILM, GAME, MAIN, open_policy
from tests.studio.program import TOP, Files, content, message, put
from tests.studio.tables import read_copy, sqlite3

ABC = "ba7816bf8f01cfea414140de5dae2223b00361a396177a9cb410ff61f20015ad"
TABLES = ["repos", "tokens", "uploads", "chunks", "locks", "sqlite_sequence"]
# What the lists of the film print, before and after.
OBJECTS = f"""{ABC} 3
bca09f4a757d5571c7d9f3341d4301f3c391c090826acc1a3013c6bcb7c01722 70000
e3b0c44298fc1c149afbf4c8996fb92427ae41e4649b934ca495991b7852b855 0
"""
LOCKS = """1 refs/heads/main ann 2016-05-17T15:49:06Z art/hero.psd
2 refs/heads/main bob 2016-05-17T15:49:06Z art/b c.psd
4 refs/heads/release/1 bob 2016-05-17T15:49:06Z art/hero.psd
"""
# These commands read the policy.
WITH_POLICY = ["session", "serve", "authenticate", "may", "pushcheck"]
REFUSED = (1, "", "custody: store G1\n")


class Database(Files):
    """A copy of a database in a folder of its own, and the program."""

    def __init__(self, options, room, name="version_1.db"):
        super().__init__(options.program, room, open_policy(repos=(FILM, GAME), quota=1_000_000), "db")
        for end in ("", "-wal"):
            found = Path(options.files, name + end)
            if found.exists():
                shutil.copy(found, self.database + end)

    def expect(self, want, name, *more, with_policy=False):
        """Requires the status, the output and the error stream of a command."""
        came = self.over_files(name, *more, with_policy=with_policy)
        require(came == want, f"{name} {' '.join(more)} gave {came}, and not {want}")

    def reply(self, request):
        """The reply to a request, as a text."""
        return self.session(request).decode()

    def sql(self, statement):
        """What sqlite3 prints, of a copy."""
        return read_copy(self.database, statement)

    def rows(self):
        """The rows of all tables but those that `migrate` makes."""
        return {table: self.sql(all_of(table)) for table in TABLES}

    def version(self):
        """The version, and what sqlite3 says of the file."""
        return self.sql("SELECT * FROM meta; PRAGMA integrity_check;")


def all_of(table):
    """The statements that print the rows of a table."""
    return f".mode quote\nSELECT * FROM {table} ORDER BY 1, 2;\n"


def rows_of_text(options):
    """The rows that the text of the files makes anew."""
    with tempfile.TemporaryDirectory() as room:
        sqlite3(f"{room}/db", Path(options.files, "version_1.sql").read_text(encoding="utf-8"))
        return {table: sqlite3(f"{room}/db", all_of(table)) for table in TABLES}


def is_migrated(database, wanted):
    """Requires version 2 with the rows, and no retired name."""
    require(database.version() == "1|2\nok\n", f"version and state are {database.version()!r}")
    require(database.sql("SELECT count(*) FROM retired;") == "0\n", "a name is retired")
    came = database.rows()
    for table in TABLES:
        require(came[table] == wanted[table], f"the rows of {table} differ")


def check_refused(options, room):
    """Each command refuses the file, and leaves it byte for byte."""
    database = Database(options, room)
    before = Path(database.database).read_bytes()
    commands = [
        ["objects", "--repo", FILM],
        ["locks", "--repo", FILM],
        ["retire", "--repo", FILM, ABC],
        ["check"],
        ["sweep"],
        ["prune"],
        ["session"],
        ["serve", "--listen", "127.0.0.1:0"],
        ["authenticate", "--user", "ann", FILM, "download"],
        ["may", "--user", "ann", "--repo", FILM, "pull"],
        ["pushcheck", "--user", "ann", "--repo", FILM, "--ref", MAIN],
    ]
    for name, *more in commands:
        database.expect(REFUSED, name, *more, with_policy=name in WITH_POLICY)
        require(Path(database.database).read_bytes() == before, f"{name} changed the file")
    return f"{len(commands)} commands refuse a file of version 1"


def check_rows(options, room):
    """All rows are kept, and the commands print them."""
    database = Database(options, room)
    database.expect((0, "migrated from version 1\n", ""), "migrate")
    database.expect((0, "already version 2\n", ""), "migrate")
    is_migrated(database, rows_of_text(options))
    database.expect((0, OBJECTS, ""), "objects", "--repo", FILM)
    database.expect((0, LOCKS, ""), "locks", "--repo", FILM)
    database.expect((0, "checked 5 objects\n", ""), "check")
    reply = database.reply(message("GET", content(ABC)))
    require(reply.endswith("\r\n\r\nabc"), f"the object is {reply!r}")
    database.expect((0, "swept 1 uploads\n", ""), "sweep")
    database.expect((0, "pruned 2 tokens\n", ""), "prune")
    return "each row is as it was"


def check_log(options, room):
    """A file whose rows are in its log."""
    database = Database(options, room, "version_1_log.db")
    before = database.rows()
    database.expect((0, "migrated from version 1\n", ""), "migrate")
    is_migrated(database, before)
    database.expect((0, f"{ABC} 3\n", ""), "objects", "--repo", FILM)
    return "rows that are in the log alone are kept"


def check_retire(options, room):
    """An object of the file is retired."""
    database = Database(options, room)
    database.over_files("migrate")
    database.expect((0, f"retired {ABC}\n", ""), "retire", "--repo", FILM, ABC)
    database.expect((0, f"already retired {ABC}\n", ""), "retire", "--repo", FILM, ABC)
    database.expect((1, "", "custody: no such object\n"), "retire", "--repo", GAME, ABC)
    database.expect((2, "", "custody: bad value for OID\n"), "retire", "--repo", FILM, "abc")
    replies = [database.reply(it) for it in (message("GET", content(ABC)), put(b"abc"))]
    require(all(it.startswith("HTTP/1.1 410 Gone\r\n") for it in replies), f"the replies are {replies}")
    require("\r\nConnection: close\r\n" in replies[1], f"the reply to the upload is {replies[1]!r}")
    used = database.sql("SELECT used FROM repos WHERE name = 'studio/film'; SELECT * FROM retired;")
    require(used == f"70000\n{FILM}|{ABC}\n", f"used and retired are {used!r}")
    database.expect((0, "checked 4 objects\n", ""), "check")
    return "it is 410 from then on"


def check_killed(options, room):
    """A command that is killed at a random moment leaves version 1 or version 2, whole."""
    wanted, old, new = rows_of_text(options), "1|1\nok\n", "1|2\nok\n"
    count = 0
    begun = time.monotonic()
    Database(options, room).over_files("migrate")
    longest = time.monotonic() - begun
    for _ in range(options.rounds):
        with tempfile.TemporaryDirectory() as place:
            database = Database(options, place)
            child = subprocess.Popen([options.program, "migrate", *database.files()[:2]], stdout=subprocess.DEVNULL)
            time.sleep(random.random() * longest)
            child.kill()
            child.wait()
            version = database.version()
            require(version in (old, new), f"version and state are {version!r}")
            count += version == old
            require(database.rows() == wanted, "rows differ after a kill")
            require(database.over_files("migrate")[0] == 0, "the command could not be run again")
            is_migrated(database, wanted)
    return f"{options.rounds} times, of which {count} left version 1"


def check_schema(options, room):
    """A new database and a migrated one have the same definitions."""
    migrated = Database(options, room)
    migrated.over_files("migrate")
    with tempfile.TemporaryDirectory() as place:
        new = Database(options, place, "none")
        new.expect((0, "already version 2\n", ""), "migrate")
        schemas = [it.sql("SELECT name, sql FROM sqlite_schema ORDER BY name;") for it in (migrated, new)]
    require(schemas[0] == schemas[1], f"the definitions are {schemas}")
    return "a new database and a migrated one have the same definitions"


CHECKS = {
    "refused": check_refused,
    "rows": check_rows,
    "log": check_log,
    "retire": check_retire,
    "killed": check_killed,
    "schema": check_schema,
}


def run(check, options):
    """Runs a check in a folder of its own. Returns what it found."""
    with tempfile.TemporaryDirectory() as room:
        return check(options, room)


def main():
    """Runs the checks."""
    parser = arguments(__doc__, CHECKS)
    parser.add_argument("--files", default=str(TOP / "crates/program_tests/data"), help="the folder of the files")
    parser.add_argument("--rounds", type=int, default=20, help="how often the command is killed")
    options = parser.parse_args()
    return judge_each(CHECKS, options, lambda name: run(CHECKS[name], options))


if __name__ == "__main__":
    sys.exit(main())
