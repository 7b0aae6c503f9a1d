"""Makes database files of version 1 with a program of that version, for trying `custody migrate`.

    python3 -m tests.server.version_1_files PROGRAM [FOLDER]

PROGRAM is one that still makes files of version 1, as bin/custody builds it at commit 34ebb2b. FOLDER is
crates/program_tests/data if none is given. Four files are written into it:

    version_1.db           rows in every table, as below; the log is in the file
    version_1.sql          the same as a text, by the command sqlite3: its statements make these rows anew
    version_1_log.db, -wal fewer rows, which are in the log alone, as a session leaves them

Nothing in them depends on the time or the machine, except how the pages lie in the log. The rows of the first:

    meta             version 1
    repos            studio/film: 4 locks were made, and 70,003 bytes are used; studio/game: 1 lock and 5 bytes
    tokens           64 times a and c, ann: to upload to the film and to the game, until the end of the year 9999
                     64 times b and d, bob: to upload to the film and to download the game, until 2016-05-18
    uploads, chunks  the film: an empty object, abc, and 70,000 times x in two chunks
                     the game: an empty object, hello, and an upload of 100,000 times y that a stop cut off, with its
                     first chunk
    locks            the film: three, of two users and on two refs, and a fourth that was released; the game: one
"""
import os
import re
import subprocess
import sys
import tempfile
import time
from pathlib import Path

from tests.studio.checks import stop
from tests.studio.policy import FILM, GAME, MAIN, open_policy
from tests.studio.program import CHUNK, LAST, NOW, TOP, Client, Files, free_port, lock, message, put, target
from tests.studio.tables import has_begun, sqlite3

# Each token's letter: user, repository, operation, when it is issued.
TOKENS = {
    "a": ("ann", FILM, "upload", LAST - 86400),
    "b": ("bob", FILM, "upload", NOW),
    "c": ("ann", GAME, "upload", LAST - 86400),
    "d": ("bob", GAME, "download", NOW),
}
CUT_OFF = b"y" * 100_000
# The requests of one session.
REQUESTS = [
    put(b"", "a", FILM),
    put(b"abc", "a", FILM),
    put(b"x" * 70_000, "b", FILM),
    put(b"hello", "c", GAME),
    put(b"", "c", GAME),
    lock("art/hero.psd", "a", FILM, MAIN),
    lock("art/b c.psd", "b", FILM, MAIN),
    lock("art/tree.psd", "a", FILM, MAIN),
    lock("art/hero.psd", "b", FILM, "refs/heads/release/1"),
    message("POST", target("locks/3/unlock"), {}, "a"),
    lock("levels/1.map", "c", GAME, MAIN),
]
# Those of the session of the smaller database.
FEW_REQUESTS = [put(b"abc", "a", FILM), lock("art/hero.psd", "a", FILM, MAIN)]


def begin_upload(port, database):
    """A connection to the server at the port, with an upload of which the server has stored the first chunk."""
    client = Client(port)
    client.send(put(CUT_OFF, "c", GAME)[: CHUNK + 1000])
    for _ in range(300):
        if has_begun(database):
            return client
        time.sleep(0.1)
    return stop("the server stored nothing of an upload")


def stop_within_upload(files):
    """Kills a server that has stored the first chunk of an upload."""
    port = free_port()
    words = [files.program, "serve", *files.files(), "--listen", f"127.0.0.1:{port}"]
    with subprocess.Popen(words, stdout=subprocess.PIPE) as child:
        try:
            child.stdout.readline()
            client = begin_upload(port, files.database)
        finally:
            child.kill()
        client.close()


def repeated(byte, size):
    """An expression of SQL for the byte, repeated: a text in which each letter is replaced by several of the next."""
    factors = []
    while size > 1:
        factors += [next((it for it in range(min(size, 64), 1, -1) if size % it == 0), size)]
        size //= factors[-1]
    letters = [*"abcdefg"[: len(factors) - 1], byte]
    text = f"'{letters[0] * factors[0]}'"
    for before, after, factor in zip(letters, letters[1:], factors[1:]):
        text = f"replace({text}, '{before}', '{after * factor}')"
    return f"CAST({text} AS BLOB)"


def text_of(path):
    """The statements that make the database's rows anew. A long content is one letter, and is written as an
    expression."""

    def short(found):
        """An expression in the place of a long content."""
        content = bytes.fromhex(found[1])
        return repeated(chr(content[0]), len(content)) if set(content) <= set(b"xy") else found[0]

    return re.sub(r"X'([0-9a-f]{128,})'", short, sqlite3(path, ".dump"))


def fill(files, letters, requests):
    """Issues the tokens, and sends the requests in one session."""
    for letter in letters:
        user, repo, operation, now = TOKENS[letter]
        files.issue(letter, "--now", str(now), user=user, repo=repo, operation=operation)
    replies = re.findall(rb"HTTP/1.1 (\d+) ", files.session(b"".join(requests)))
    if len(replies) != len(requests) or not set(replies) <= {b"200", b"201"}:
        stop(f"a request was refused: {replies}")


def make(program, room):
    """The two databases."""
    policy = open_policy(repos=(FILM, GAME), quota=1_000_000)
    full = Files(program, room, policy, "full")
    fill(full, TOKENS, REQUESTS)
    stop_within_upload(full)
    fill(Files(program, room, policy, "log"), "ab", FEW_REQUESTS)


def keep(room, folder):
    """Writes the files into the folder."""
    folder.mkdir(parents=True, exist_ok=True)
    for end in ("", "-wal"):
        (folder / f"version_1_log.db{end}").write_bytes(Path(room, f"log{end}").read_bytes())
    # This moves the log into the file; no row is changed.
    sqlite3(f"{room}/full", "PRAGMA wal_checkpoint(TRUNCATE)")
    (folder / "version_1.db").write_bytes(Path(room, "full").read_bytes())
    (folder / "version_1.sql").write_text(text_of(f"{room}/full"), encoding="utf-8")


def main():
    """Makes the files."""
    if len(sys.argv) < 2:
        stop("the first argument is a program that makes files of version 1")
    program = os.path.abspath(sys.argv[1])
    folder = Path(sys.argv[2]) if len(sys.argv) > 2 else TOP / "crates" / "program_tests" / "data"
    with tempfile.TemporaryDirectory() as room:
        make(program, room)
        if sqlite3(f"{room}/full", "SELECT version FROM meta;") != "1\n":
            stop("the program does not make files of version 1")
        keep(room, folder)
    return 0


if __name__ == "__main__":
    sys.exit(main())
