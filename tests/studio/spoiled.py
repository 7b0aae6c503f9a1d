"""A good database, and spoiled copies of it.

The good one has three repositories with objects of no byte to three chunks, locks of two users on two refs, tokens, an
expired one, and two names that were removed for good. Its first half is in the file, and the rest in the log, as a
program that was killed leaves them; contents of a chunk and more are in a file beside it, if it has that form. What
was stored after each request is kept too, and the files of some moments.
"""
import contextlib
import random
import sqlite3
import tempfile
from dataclasses import dataclass, field
from pathlib import Path

from tests.studio.checks import stop
from tests.studio.policy import ART, FILM, GAME, MAIN, open_policy
from tests.studio.program import CHUNK, LAST, NOW, Files, lock, message, name_of, put, target
from tests.studio.tables import PLACE, copied

REPOS = [FILM, GAME, ART]
POLICY = open_policy(repos=REPOS, quota=100_000_000)
# Each token's letter: user, repository, operation, when it is issued.
TOKENS = {
    "a": ("ann", FILM, "upload", LAST - 86400),
    "b": ("bob", FILM, "upload", LAST - 86400),
    "c": ("ann", GAME, "upload", LAST - 86400),
    "d": ("bob", GAME, "download", LAST - 86400),
    "e": ("ann", ART, "upload", LAST - 86400),
    "f": ("bob", FILM, "upload", NOW),
}
# The token that uploads to each repository.
LETTERS = {FILM: "a", GAME: "c", ART: "e"}
# Copies are made in memory if there is such a file system.
MEMORY = "/dev/shm" if Path("/dev/shm").is_dir() else None
PAGE, LOG_HEAD, FRAME_HEAD = 4096, 32, 24
TABLES = ["meta", "repos", "tokens", "uploads", "chunks", "locks", "retired", "sqlite_sequence"]


def bytes_of(size):
    """An object of this size."""
    return random.Random(size).randbytes(size)


def name_of_size(size):
    """Its name."""
    return name_of(bytes_of(size))


def put_size(repo, size):
    """Its upload."""
    return put(bytes_of(size), LETTERS[repo], repo)


# What is stored, by its name.
SIZES = [0, 1, 5, 100, 1_000, 5_000, 10_000, 20_000, CHUNK, CHUNK + 1, 2 * CHUNK, 150_000]
CONTENTS = {name_of_size(it): bytes_of(it) for it in SIZES}


def lock_of(letter, path, ref=MAIN):
    """A request for a lock of the repository of a token."""
    return lock(path, letter, TOKENS[letter][1], ref)


def locks_of(letter, numbers, ref=MAIN):
    """Requests for locks of paths with these numbers."""
    return [lock_of(letter, f"art/{number:02}.psd", ref) for number in numbers]


def unlock(letter, number):
    """A request that releases a lock of the film."""
    return message("POST", target(f"locks/{number}/unlock"), {}, letter)


# What is in the file at the end: requests, and names that are removed for good.
FIRST = [
    *(put_size(FILM, size) for size in (0, 1, 5, CHUNK, 20_000, 150_000)),
    *(put_size(GAME, size) for size in (0, 100, 1_000, 5_000)),
    put_size(ART, 5),
    *locks_of("a", range(1, 12)),
    *locks_of("b", range(12, 20), "refs/heads/release/1"),
    lock_of("b", "art/" + "\u00e9" * 510),
    unlock("b", 13),
    *locks_of("c", range(3)),
    ("retire", FILM, name_of_size(20_000)),
]
# What is in the log alone.
SECOND = [
    put_size(FILM, CHUNK + 1),
    put_size(GAME, 2 * CHUNK),
    put_size(ART, 10_000),
    *locks_of("b", range(30, 36)),
    unlock("a", 2),
    unlock("a", 3),
    *locks_of("e", range(2)),
    ("retire", GAME, name_of_size(5_000)),
    lock_of("a", "art/last.psd"),
]
RETIRED = [(FILM, name_of_size(20_000)), (GAME, name_of_size(5_000))]


@dataclass
class Moment:
    """The files as they were at one moment, and the rows of all tables. There may be no file of contents."""

    file: bytes
    log: bytes
    contents: bytes
    rows: dict


@dataclass
class Good:
    """The moments, of which the last is the good database, and the same with the log in the file; the rows after each
    step; whose each page is."""

    moments: list = field(default_factory=list)
    whole: Moment = None
    states: list = field(default_factory=lambda: [{table: frozenset() for table in TABLES}])
    pages: dict = field(default_factory=dict)


@contextlib.contextmanager
def opened(folder):
    """A connection of Python's sqlite3 to a copy of the database."""
    with (tempfile.TemporaryDirectory(dir=MEMORY) as room,
          contextlib.closing(sqlite3.connect(copied(f"{folder}/db", room))) as base):
        yield base


def rows_of(folder):
    """The rows of each table, or None if sqlite3 cannot read one of them."""
    with opened(folder) as base:
        base.text_factory = bytes
        try:
            if not base.execute("SELECT * FROM sqlite_schema").fetchall():
                return {table: frozenset() for table in TABLES}
            return {table: frozenset(base.execute(f"SELECT * FROM {table}").fetchall()) for table in TABLES}
        except (sqlite3.Error, UnicodeError):
            return None


def is_sound(folder):
    """Whether `PRAGMA integrity_check` finds nothing."""
    with opened(folder) as base:
        try:
            return base.execute("PRAGMA integrity_check").fetchall() == [("ok",)]
        except (sqlite3.Error, UnicodeError):
            return False


def pages_of(folder):
    """The table or index of each page of the database; pages of none are not in it."""
    with opened(folder) as base:
        try:
            return dict(base.execute("SELECT pageno, name || ', ' || pagetype FROM dbstat").fetchall())
        except sqlite3.Error as fault:
            return stop(f"Python's sqlite3 has no dbstat: {fault}")


class Maker(Files):
    """Makes the good database with the program."""

    def __init__(self, program, room, form):
        super().__init__(program, room, POLICY, "db")
        self.good = Good()
        if form == "file":
            self.make_beside()

    def step(self, request):
        """Answers a request, or removes an object for good."""
        if isinstance(request, tuple):
            status, _, errors = self.over_files("retire", "--repo", *request[1:])
            if status != 0:
                stop(f"retire ended with status {status}: {errors}")
        else:
            reply = self.session(request)
            if not reply.startswith((b"HTTP/1.1 200 ", b"HTTP/1.1 201 ")):
                stop(f"a request was refused: {reply!r}")
        self.good.states.append(rows_of(self.room))

    def moment(self):
        """The files as they are."""
        log, contents = Path(self.room, "db-wal"), Path(self.room, "db-contents")
        data = log.read_bytes() if log.exists() else b""
        beside = contents.read_bytes() if contents.exists() else None
        return Moment(Path(self.room, "db").read_bytes(), data, beside, rows_of(self.room))

    def move_log(self):
        """Moves the log into the file. No row is changed."""
        with contextlib.closing(sqlite3.connect(f"{self.room}/db")) as base:
            base.execute("PRAGMA wal_checkpoint(TRUNCATE)").fetchall()

    def make(self):
        """The good database."""
        for letter, (user, repo, operation, now) in TOKENS.items():
            self.issue(letter, "--now", str(now), user=user, repo=repo, operation=operation)
            self.good.states.append(rows_of(self.room))
        for number, request in enumerate(FIRST):
            self.step(request)
            if number % 8 == 0:
                self.good.moments.append(self.moment())
        self.move_log()
        self.good.moments.append(self.moment())
        for number, request in enumerate(SECOND):
            self.step(request)
            if number % 4 == 0 or number == len(SECOND) - 1:
                self.good.moments.append(self.moment())
        self.good.pages = pages_of(self.room)
        self.move_log()
        self.good.whole = self.moment()
        return self.good


def frames_of(log):
    """The number of the page of each frame of a log. After the last frame come zeros."""
    size = FRAME_HEAD + PAGE
    numbers = [int.from_bytes(log[at : at + 4], "big") for at in range(LOG_HEAD, len(log), size)]
    return [it for it in numbers if it]


@dataclass
class Spoiled:
    """A spoiled database: what was done, whose bytes they are, the files, and the moment that it was made from. The
    file of contents is that of the moment, unless it is the one that was spoiled: then it costs these objects and no
    other, or the database is refused."""

    what: str
    whose: str
    file: bytes
    log: bytes
    moment: Moment
    contents: bytes = None
    costs: set = None

    def put(self, folder):
        """Writes the files into the folder."""
        contents = self.moment.contents if self.contents is None else self.contents
        for end, data in (("", self.file), ("-wal", self.log), ("-contents", contents)):
            if data is not None:
                Path(folder, f"db{end}").write_bytes(data)


def flip(data, at, bit):
    """The data with one bit changed."""
    return data[:at] + bytes([data[at] ^ 1 << bit]) + data[at + 1 :]


def zero(data, at):
    """The data with zeros for a page."""
    return data[:at] + bytes(len(data[at : at + PAGE])) + data[at + PAGE :]


class Spoiler:
    """Makes spoiled databases, at random."""

    def __init__(self, good, seed):
        self.good, self.random = good, random.Random(seed)
        self.last = good.moments[-1]

    def whose(self, number):
        """The table or index of a page."""
        return self.good.pages.get(number, "a free page")

    def whose_of_file(self, moment, at):
        """Whose a byte of the file is."""
        number = at // PAGE + 1
        if number in frames_of(moment.log):
            return "a page that is in the log too"
        return "the head of the file" if at < 100 else self.whose(number)

    def whose_of_log(self, at):
        """Whose a byte of the log is."""
        if at < LOG_HEAD:
            return "the head of the log"
        frame, within = divmod(at - LOG_HEAD, FRAME_HEAD + PAGE)
        frames = frames_of(self.last.log)
        if frame >= len(frames):
            return "what follows the last frame"
        return "the head of a frame" if within < FRAME_HEAD else self.whose(frames[frame])

    def page(self):
        """A database with its last changes in the log or in the file, and where a page of its file begins; in half of
        the cases one with more than bytes of an object."""
        moment = self.random.choice([self.last, self.good.whole])
        numbers, logged = range(1, len(moment.file) // PAGE + 1), frames_of(moment.log)
        if self.random.random() < 0.5:
            numbers = [it for it in numbers if not self.whose(it).endswith("overflow") and it not in logged]
        return moment, (self.random.choice(numbers) - 1) * PAGE

    def file_bit(self):
        """One bit of the file, in half of the cases of a byte that is not zero: most bytes of a page are free."""
        moment, at = self.page()
        used = [it for it in range(PAGE) if moment.file[at + it]] if self.random.random() < 0.5 else []
        at, bit = at + self.random.choice(used or range(PAGE)), self.random.randrange(8)
        what, whose = f"bit {bit} of byte {at} of the file", self.whose_of_file(moment, at)
        return Spoiled(what, whose, flip(moment.file, at, bit), moment.log, moment)

    def file_page(self):
        """Zeros for a page of the file."""
        moment, at = self.page()
        what, whose = f"zeros from byte {at} of the file", self.whose_of_file(moment, at + 100)
        return Spoiled(what, whose, zero(moment.file, at), moment.log, moment)

    def file_cut(self):
        """A file that is cut short."""
        moment, at = self.page()
        size = self.random.choice([0, at, at + self.random.randrange(PAGE)])
        return Spoiled(f"a file of {size} bytes", "the end of the file", moment.file[:size], moment.log, moment)

    def log_bit(self):
        """One bit of the log."""
        at, bit = self.random.randrange(len(self.last.log)), self.random.randrange(8)
        return self.of_log(f"bit {bit} of byte {at} of the log", self.whose_of_log(at), flip(self.last.log, at, bit))

    def log_page(self):
        """Zeros for 4,096 bytes of the log."""
        at = self.random.randrange(len(self.last.log)) // PAGE * PAGE
        return self.of_log(f"zeros from byte {at} of the log", self.whose_of_log(at), zero(self.last.log, at))

    def log_cut(self):
        """A log that is cut short."""
        size = self.random.randrange(len(self.last.log))
        return self.of_log(f"a log of {size} bytes", "the end of the log", self.last.log[:size])

    def of_log(self, what, whose, log):
        """The last file with this log."""
        return Spoiled(what, whose, self.last.file, log, self.last)

    def other_log(self):
        """The file of one moment with the log of another."""
        one, other = self.random.sample(range(len(self.good.moments)), 2)
        moment = self.good.moments[one]
        what = f"the file of moment {one} and the log of moment {other}"
        return Spoiled(what, "the log", moment.file, self.good.moments[other].log, moment)

    def no_log(self):
        """The file of a moment without its log."""
        number = self.random.randrange(len(self.good.moments))
        moment = self.good.moments[number]
        return Spoiled(f"the file of moment {number} without its log", "the log", moment.file, None, moment)


    def of_contents(self, what, contents, costs=None):
        """The last database with this file of contents."""
        return Spoiled(what, "the file of contents", self.last.file, self.last.log, self.last, contents, costs)

    def place(self):
        """The region of an object in the file of contents, and the object."""
        rows = self.last.rows
        names = {it[0]: (it[1].decode(), it[2].decode()) for it in rows["uploads"] if it[4] == 1}
        places = sorted((it[2], names[it[0]]) for it in rows["chunks"] if it[1] == PLACE)
        region, name = self.random.choice(places)
        return int.from_bytes(region[:8], "big"), int.from_bytes(region[8:], "big"), name

    def contents_bit(self):
        """One bit of an object in the file of contents."""
        start, size, name = self.place()
        at, bit = start + self.random.randrange(size), self.random.randrange(8)
        return self.of_contents(f"bit {bit} of byte {at} of the contents", flip(self.last.contents, at, bit), {name})

    def contents_page(self):
        """Zeros for 4,096 bytes of an object in the file of contents."""
        start, size, name = self.place()
        at = start + self.random.randrange(size - PAGE + 1)
        return self.of_contents(f"zeros from byte {at} of the contents", zero(self.last.contents, at), {name})

    def contents_cut(self):
        """A file of contents that is cut short."""
        size = self.random.randrange(len(self.last.contents))
        return self.of_contents(f"contents of {size} bytes", self.last.contents[:size])


# The ways to spoil a database, and how many of 100 databases each gets.
WAYS = {
    "file-bit": (Spoiler.file_bit, 30),
    "log-bit": (Spoiler.log_bit, 15),
    "file-page": (Spoiler.file_page, 20),
    "log-page": (Spoiler.log_page, 10),
    "file-cut": (Spoiler.file_cut, 8),
    "log-cut": (Spoiler.log_cut, 8),
    "other-log": (Spoiler.other_log, 7),
    "no-log": (Spoiler.no_log, 2),
}
# The same of a file of contents.
WAYS_BESIDE = {
    "contents-bit": (Spoiler.contents_bit, 10),
    "contents-page": (Spoiler.contents_page, 10),
    "contents-cut": (Spoiler.contents_cut, 5),
}
