"""Tries `custody serve` with objects, and reads what it stored with the command sqlite3.

Each check starts a server on a new database of each form and a free port of this machine. A database is read by
sqlite3 while the server is killed, from a copy, and then by a server again. The names of objects come from the command
sha256sum.
"""
import signal
import subprocess
import sys
import time
from pathlib import Path

from tests.studio.checks import arguments, judge_on_forms, require
from tests.studio.policy import FILM, GAME, open_policy
from tests.studio.program import CHUNK, Server, content, lock, message, target
from tests.studio.tables import PLACE, has_begun, read_copy

SIZES = [0, 1, CHUNK - 1, CHUNK, CHUNK + 1, 256 << 20]
HELLO = "2cf24dba5fb0a30e26e83b2ac5b9e29e1b161e5c1fa7425e73043362938b9824"


def sum_of(path):
    """The SHA-256 of the file, by sha256sum."""
    found = subprocess.run(["sha256sum", path], check=True, capture_output=True, text=True)
    return found.stdout.split()[0]


def file_of(server, size):
    """A file of this many bytes, and its name."""
    path = f"{server.room}/content"
    pattern = bytes(range(251)) * 4177
    with open(path, "wb") as out:
        left = size
        while left > 0:
            left -= out.write(pattern[:left])
    return path, sum_of(path)


def upload(server, oid, data, repo=FILM, token="a", step=1 << 30):
    """Uploads the data, at most `step` bytes a write. Returns the status."""
    with server.client(600) as client:
        text = message("PUT", content(oid, repo), data, token)
        for at in range(0, len(text), step):
            client.send(text[at : at + step])
        return client.reply()[0]


def get(server, oid, repo=FILM, token="a"):
    """Downloads the object. Returns the status and the body."""
    return server.ask(message("GET", content(oid, repo), token=token), 600)


def verify(server, oid, size):
    """Asks whether the object is stored. Returns the status."""
    return server.ask(message("POST", target("verify"), {"oid": oid, "size": size}), 600)[0]


def stored(server, question):
    """The lines that sqlite3 prints for the question, on a copy of the database. The server is killed and started."""
    server.end(signal.SIGKILL)
    lines = read_copy(server.database, f"PRAGMA integrity_check; {question}").split()
    server.start()
    require(lines[:1] == ["ok"], f"sqlite3 says {lines[:1]} of the database")
    return lines[1:]


def expect_stored(server, question, want):
    """Requires that sqlite3 prints these lines for the question."""
    found = stored(server, question)
    require(found == want, f"{question} prints {found}, not {want}")


# For each upload: its repository, size, whether it is an object; the number, last number and bytes of its chunks.
UPLOADS = """SELECT repo, size, done, count(n), coalesce(max(n), -1), coalesce(sum(length(bytes)), 0)
FROM uploads LEFT JOIN chunks ON upload = id GROUP BY id ORDER BY id;"""


def row(server, size, repo=FILM):
    """The line of UPLOADS for an object of this size. One row of 16 bytes says where a content in the file is."""
    if server.form == "file" and size >= CHUNK:
        return f"{repo}|{size}|1|1|{PLACE}|16"
    count = -(-size // CHUNK)
    return f"{repo}|{size}|1|{count}|{count - 1}|{size}"


def cut_row(server, size, cut):
    """The line of UPLOADS for an upload of more than a chunk that was cut off, and is not removed yet. What is in the file
    of it has no row."""
    whole = 0 if server.form == "file" else cut // CHUNK
    return f"{FILM}|{size}|0|{whole}|{whole - 1}|{whole * CHUNK}"


def check_sizes(server, _):
    """Objects beside the size of a chunk, and of the largest size."""
    for size in SIZES:
        path, oid = file_of(server, size)
        require(get(server, oid)[0] == 404, f"an object of {size} bytes exists before its upload")
        require(verify(server, oid, size) == 404, f"an object of {size} bytes is verified before its upload")
        require(upload(server, oid, Path(path).read_bytes()) == 200, f"an upload of {size} bytes was refused")
        require(verify(server, oid, size) == 200, f"an object of {size} bytes is not verified")
        status, data = get(server, oid)
        Path(path).write_bytes(data)
        require((status, sum_of(path)) == (200, oid),
                f"an object of {size} bytes came back with {status}, as {sum_of(path)}")
    expect_stored(server, UPLOADS, [row(server, size) for size in SIZES])
    expect_stored(server, "SELECT name, used FROM repos;", [f"studio/film|{sum(SIZES)}"])
    lengths = ["1", "16", str(CHUNK - 1)] if server.form == "file" else ["1", str(CHUNK - 1), str(CHUNK)]
    expect_stored(server, "SELECT DISTINCT length(bytes) FROM chunks ORDER BY 1;", lengths)
    for size in SIZES:
        path, oid = file_of(server, size)
        Path(path).write_bytes(get(server, oid)[1])
        require(sum_of(path) == oid, f"an object of {size} bytes differs after a restart")
    return f"{len(SIZES)} objects of up to {SIZES[-1]} bytes, each as it was uploaded, before and after restarts"


def check_bytes(server, _):
    """Objects that are sent byte by byte."""
    for size in SIZES[:-1]:
        path, oid = file_of(server, size)
        data = Path(path).read_bytes()
        require(upload(server, oid, bytes(size) + b"x", step=1) == 422,
                f"other bytes than those of {size} bytes were not refused")
        require(get(server, oid)[0] == 404, f"an object of {size} bytes exists before its upload")
        require(upload(server, oid, data, step=1) == 200, f"an upload of {size} bytes was refused")
        require(get(server, oid) == (200, data), f"an object of {size} bytes differs")
    expect_stored(server, UPLOADS, [row(server, size) for size in SIZES[:-1]])
    return f"{len(SIZES) - 1} objects of up to {SIZES[-2]} bytes"


def check_cut(server, _):
    """Uploads whose connection ends within the content."""
    size = 200_000
    path, oid = file_of(server, size)
    data = Path(path).read_bytes()
    edges = [number * CHUNK + beside for number in range(4) for beside in (-1, 0, 1)]
    cuts = sorted({*range(0, size, 10_000), *(edge for edge in edges if 0 <= edge < size)})
    for cut in cuts:
        with server.client() as client:
            client.send(message("PUT", content(oid), data[:cut], length=size))
            client.socket.shutdown(1)
            require(client.socket.recv(1) == b"", f"an upload that was cut after {cut} bytes got a reply")
        # A server that was killed meanwhile removes what is left at its first request, another one at its next.
        if cut % 3:
            expect_stored(server, UPLOADS, [cut_row(server, size, cut)])
        require(get(server, oid)[0] == 404, f"an upload that was cut after {cut} bytes is served")
        expect_stored(server, UPLOADS, [])
        expect_stored(server, "SELECT count(*) FROM chunks;", ["0"])
        expect_stored(server, "SELECT count(*) FROM repos;", ["0"])
    require(upload(server, HELLO, b"hello") == 200, "the next upload was refused")
    expect_stored(server, UPLOADS, [row(server, 5)])
    require(upload(server, oid, data) == 200, "the upload was refused")
    require(get(server, oid) == (200, data), "the object differs")
    expect_stored(server, UPLOADS, [row(server, 5), row(server, size)])
    return f"{len(cuts)} uploads that were cut left no object, and after the next request nothing of their bytes"


def has_first_chunk(server):
    """Whether the server has stored the first chunk of an upload."""
    return server.contents().stat().st_size >= CHUNK if server.form == "file" else has_begun(server.database)


def stop_after_first_chunk(server):
    """Kills the server once it has stored the first of two chunks of an upload. Returns the name of the object."""
    path, oid = file_of(server, 2 * CHUNK)
    with server.client() as client:
        client.send(message("PUT", content(oid), Path(path).read_bytes()[:CHUNK], length=2 * CHUNK))
        begun = time.monotonic()
        while not has_first_chunk(server):
            require(time.monotonic() - begun < 10, "the first chunk was not stored within 10 s")
            time.sleep(0.01)
        server.end(signal.SIGKILL)
    return oid


def check_stopped(server, _):
    """A server that is killed after the first of two chunks: the upload is not served, and is removed."""
    oid = stop_after_first_chunk(server)
    _, replied, _ = server.over_files("session", given=message("GET", content(oid)), with_policy=True)
    require(replied.startswith("HTTP/1.1 404 ") and '"X1: ' in replied, f"a session replied {replied!r}")
    swept = [server.over_files("sweep") for _ in range(2)]
    require(swept == [(0, f"swept {count} uploads\n", "") for count in (1, 0)], f"sweep gave {swept}")
    server.start()
    expect_stored(server, "SELECT (SELECT count(*) FROM uploads), (SELECT count(*) FROM chunks);", ["0|0"])
    require(stop_after_first_chunk(server) == oid, "another upload")
    server.start()
    status, body = get(server, oid)
    require(status == 404 and b'"X1: ' in body, f"a server that was started again replied {status} {body!r}")
    expect_stored(server, "SELECT (SELECT count(*) FROM uploads), (SELECT count(*) FROM chunks);", ["0|0"])
    data = Path(f"{server.room}/content").read_bytes()
    is_stored = upload(server, oid, data) == 200 and get(server, oid) == (200, data)
    require(is_stored, "the object is not stored by a later upload")
    return "X1 after each stop; sweep removes the upload, and a server does so before its first connection"


def check_repositories(server, _):
    """Two repositories with the same object."""
    server.end(signal.SIGTERM)
    server.issue("b", repo=GAME)
    server.start()
    path, oid = file_of(server, 100_000)
    data = Path(path).read_bytes()
    require(upload(server, oid, data) == 200, "the first upload was refused")
    require(get(server, oid, GAME, "b")[0] == 404, "an object of another repository is served")
    require(get(server, oid, GAME, "a")[0] == 404, "a token of another repository is accepted")
    require(upload(server, oid, data, GAME, "b") == 200, "the second upload was refused")
    for repo, token in ((FILM, "a"), (GAME, "b")):
        require(get(server, oid, repo, token) == (200, data), f"the object of {repo} differs")
    expect_stored(server, UPLOADS, [row(server, 100_000), row(server, 100_000, GAME)])
    expect_stored(server, "SELECT name, used FROM repos ORDER BY name;", ["studio/film|100000", "studio/game|100000"])
    return "two repositories store the same object, each for itself"


def check_refused(server, _):
    """Uploads that are refused, before their content and after it, and an upload of what is stored."""
    require(upload(server, HELLO, b"abc") == 422, "other bytes were not refused")
    require(upload(server, HELLO, b"hello", token="c") == 401, "an unknown token was not refused")
    require(upload(server, "xyz", lock("art/hero.psd")) == 422, "an upload without a name was not refused")
    # The bytes of another name are removed; the other requests began no upload.
    expect_stored(server, UPLOADS, [])
    expect_stored(server, "SELECT count(*) FROM locks; SELECT count(*) FROM chunks;", ["0", "0"])
    require(get(server, HELLO)[0] == 404, "an incomplete upload was served")
    for data in (b"hello", b"hello"):
        require(upload(server, HELLO, data) == 200, "an upload was refused")
    require(upload(server, HELLO, b"jello") == 422, "other bytes were not refused")
    require(get(server, HELLO) == (200, b"hello"), "the object differs")
    expect_stored(server, UPLOADS, [row(server, 5)])
    return "refused uploads left no object, and an object that was uploaded twice has one row"


CHECKS = {
    "sizes": check_sizes,
    "bytes": check_bytes,
    "cut": check_cut,
    "stopped": check_stopped,
    "repositories": check_repositories,
    "refused": check_refused,
}


def main():
    """Runs the checks."""
    options = arguments(__doc__, CHECKS, forms=True).parse_args()
    policy = open_policy(["ann"], (FILM, GAME))
    return judge_on_forms(CHECKS, options, lambda program, room, form: Server(program, room, policy, form=form))


if __name__ == "__main__":
    sys.exit(main())
