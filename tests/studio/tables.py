"""Reads databases with the command sqlite3, from copies."""
import shutil
import subprocess
import tempfile
from pathlib import Path

# The number of a row of `chunks` that says where a content in the file of contents is.
PLACE = 4_294_967_295
# The rows that do not depend on where contents are, and those that do.
ROWS = """SELECT name, made, used FROM repos ORDER BY rowid;
SELECT repo, id, ref, path, owner, moment FROM locks ORDER BY rowid;
SELECT hex(digest), user, repo, op, expires FROM tokens ORDER BY rowid;
SELECT repo, oid FROM retired ORDER BY rowid;
SELECT id, repo, oid, size, done FROM uploads WHERE done = 1 ORDER BY id;
"""
CHUNKS = "SELECT upload, n, hex(bytes) FROM chunks ORDER BY upload, n;"
# The names of objects, each with the number and the bytes of its chunks, or of the row that has its place.
PIECES = """SELECT oid, coalesce(n, 0), coalesce(hex(bytes), '')
FROM uploads LEFT JOIN chunks ON upload = id WHERE done = 1 ORDER BY id, n;"""


def sqlite3(path, statements):
    """What the command sqlite3 prints for the statements."""
    ran = subprocess.run(["sqlite3", str(path)], input=statements, check=True, capture_output=True, text=True)
    return ran.stdout


def copied(path, folder):
    """A copy of a database and its log in a folder. Returns the path of the copy."""
    for end in ("", "-wal"):
        if Path(f"{path}{end}").exists():
            shutil.copyfile(f"{path}{end}", f"{folder}/copy.db{end}")
    return f"{folder}/copy.db"


def read_copy(path, statements):
    """What sqlite3 prints for the statements, of a copy of the database and its log."""
    with tempfile.TemporaryDirectory() as folder:
        return sqlite3(copied(path, folder), statements)


def objects_in(path):
    """The bytes of each object of a database of one repository, by its name."""
    found = {}
    for oid, number, digits in (line.split("|") for line in read_copy(path, PIECES).splitlines()):
        data = bytes.fromhex(digits)
        if int(number) == PLACE:
            start, size = int.from_bytes(data[:8], "big"), int.from_bytes(data[8:], "big")
            with open(f"{path}-contents", "rb") as contents:
                contents.seek(start)
                data = contents.read(size)
        found[oid] = found.get(oid, b"") + data
    return found


def staged_in(path):
    """How many uploads of the database are not complete."""
    return int(read_copy(path, "SELECT count(*) FROM uploads WHERE done = 0;"))


def has_begun(path):
    """Whether the database has the first chunk of an upload that is not complete."""
    return read_copy(path, "SELECT count(*) FROM uploads, chunks WHERE upload = id AND done = 0;") == "1\n"
