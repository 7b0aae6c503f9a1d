"""Tries `custody migrate --contents` and `migrate --chunks`: a database is copied into new files of the other form.

Each check makes a database with a server on a free port of this machine. What an object has to be is what the check has
made it of, and the rows are read with the command sqlite3 from a copy.
"""
import random
import signal
import subprocess
import sys
import time
from pathlib import Path

from tests.studio.checks import arguments, judge_on_server, require
from tests.studio.policy import FILM, open_policy
from tests.studio.program import CHUNK, NotStarted, Server, content, lock, made, message, name_of, put
from tests.studio.tables import CHUNKS, ROWS, read_copy
from tests.studio.traced import BY_NAME, Traced

SIZES = [0, 1, CHUNK - 1, CHUNK, CHUNK + 1, 3 * CHUNK, 10 << 20]


class MovedServer(Server):
    """A server whose database is migrated while it does not run."""

    def migrate(self, *more):
        """What the command over the files printed."""
        status, output, errors = self.over_files("migrate", *more)
        require((status, errors) == (0, ""), f"migrate ended with {status}, {output!r}, {errors!r}")
        return output

    def has(self, data):
        """Whether the object of these bytes is served whole."""
        return self.ask(message("GET", content(name_of(data))), 600) == (200, data)

    def fill(self):
        """Stores objects of all sizes, locks, of which one is released, and a retired name. Returns the objects."""
        objects = [made(size, size) for size in SIZES]
        for data in [*objects, b"retired"]:
            require(self.ask(put(data), 600)[0] == 200, "an upload was refused")
        for path in ("art/a.psd", "art/b.psd", "art/c.psd"):
            require(self.ask(lock(path))[0] == 201, "a lock was refused")
        self.end(signal.SIGTERM)
        require(self.over_files("retire", "--repo", FILM, name_of(b"retired"))[0] == 0, "retire failed")
        return objects

    def is_refused(self):
        """Whether a server that is started now ends at once. One that does not is ended."""
        try:
            self.start()
        except NotStarted:
            return True
        self.end()
        return False

    def path(self, suffix):
        """A file beside the database."""
        return Path(f"{self.database}{suffix}")


class Paused(Traced):
    """A process of which something is done before each of its calls that give a file another name."""

    def __init__(self, words, act):
        super().__init__(words, stdout=subprocess.PIPE, stderr=subprocess.PIPE)
        self.act = act

    def changes_file(self, number, arguments):
        """Whether the call changes a file or a folder."""
        if BY_NAME.get(number, "").startswith("rename"):
            self.act()
        return super().changes_file(number, arguments)


def check_there_and_back(server, _):
    """A database that is migrated serves the same, and has the same rows when it is migrated back."""
    objects = server.fill()
    before, chunks = read_copy(server.database, ROWS), read_copy(server.database, CHUNKS)
    line = f"migrated from version 2, {len(objects)} objects\n"
    require(server.migrate("--contents") == line, "the line differs")
    require(server.migrate("--contents") == "already version 3\n", "it was migrated twice")
    require(server.migrate() == "already version 3\n", "migrate changed it")
    require(not server.path("-moving").exists(), "the copy's name is still there")
    large = sum(size for size in SIZES if size >= CHUNK)
    require(server.path("-contents").stat().st_size == large, "the file of contents has another size")
    require(read_copy(server.database, ROWS) == before, "the rows differ")
    server.start()
    require(all(map(server.has, objects)), "an object differs")
    server.end(signal.SIGTERM)
    require(server.migrate("--chunks") == f"migrated from version 3, {len(objects)} objects\n", "the line differs")
    require(read_copy(server.database, ROWS) == before, "the rows differ")
    require(read_copy(server.database, CHUNKS) == chunks, "the chunks differ")
    require(not server.path("-contents").exists(), "the file of contents is still there")
    server.start()
    require(all(map(server.has, objects)), "an object differs")
    return f"{len(objects)} objects of up to {SIZES[-1]} bytes, there and back"


def check_killed(server, options):
    """A migration that is killed again and again goes on, and loses nothing."""
    objects = server.fill()
    before = read_copy(server.database, ROWS)
    words = [server.program, "migrate", "--db", server.database]
    chance, kills = random.Random(2), 0
    for option in ("--contents", "--chunks"):
        for _ in range(options.rounds):
            with subprocess.Popen([*words, option], stdout=subprocess.PIPE, stderr=subprocess.PIPE) as child:
                time.sleep(chance.random() * options.span)
                if child.poll() is None:
                    child.kill()
                    kills += 1
        server.migrate(option)
        require(read_copy(server.database, ROWS) == before, "the rows differ")
        server.start()
        require(all(map(server.has, objects)), "an object differs")
        server.end(signal.SIGTERM)
    server.start()
    return f"{kills} migrations were killed"


def check_changed(server, _):
    """A copy of an earlier state is begun anew."""
    objects = server.fill()
    words = [server.program, "migrate", "--db", server.database, "--contents"]
    with subprocess.Popen(words, stdout=subprocess.PIPE, stderr=subprocess.PIPE) as child:
        time.sleep(0.1)
        child.kill()
    require(server.over_files("retire", "--repo", FILM, name_of(objects[0]))[0] == 0, "retire failed")
    require(server.migrate("--contents").startswith("migrated from version 2, "), "it was not migrated")
    server.start()
    require(all(map(server.has, objects[1:])) and not server.has(objects[0]), "an object differs")
    return "an object that was retired between two runs is not there"


def check_held(server, _):
    """Until the copy has its name, no server starts, which would take what is lost then."""
    objects, found = server.fill(), []
    words, before = [server.program, "migrate", "--db", server.database], server.errors()
    for option in ("--contents", "--chunks"):
        paused = Paused([*words, option], lambda: found.append(server.is_refused())).run()
        printed = paused.printed()
        require(paused.child.returncode == 0, f"migrate {option} printed {printed}")
    # The file of contents, and the database in both directions.
    require(found == [True] * 3, f"before a name was given, a server was refused: {found}")
    require(server.errors() == before + "custody: store G2\n" * 3, "a server printed something else")
    server.start()
    require(all(map(server.has, objects)), "an object differs")
    return f"{len(found)} servers were refused"


CHECKS = {"there-and-back": check_there_and_back, "killed": check_killed, "changed": check_changed,
          "held": check_held}


def main():
    """Runs the checks."""
    parser = arguments(__doc__, CHECKS)
    parser.add_argument("--rounds", type=int, default=50, help="migrations that are killed [default: %(default)s]")
    parser.add_argument("--span", type=float, default=0.5, help="seconds until a kill at most [default: %(default)s]")
    options = parser.parse_args()
    policy = open_policy(["ann"], (FILM,))
    return judge_on_server(CHECKS, options, lambda program, room: MovedServer(program, room, policy))


if __name__ == "__main__":
    sys.exit(main())
