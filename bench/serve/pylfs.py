#!/usr/bin/env python3
"""A peer of `custody serve` to measure against, and no server to run: requests for locks, answered by Python's
http.server over the C library sqlite3, with the same rows and the same durability (a write-ahead log, synced at each
commit). It serves one connection after the other, keeps each alive, and checks only that the token exists. It has no
policy, no repositories but one, and no limits.

    pylfs.py PORT DATABASE
"""
import hashlib
import json
import socket
import sqlite3
import sys
from http.server import BaseHTTPRequestHandler, HTTPServer

SCHEMA = """
CREATE TABLE repos (name TEXT NOT NULL PRIMARY KEY, made INTEGER NOT NULL, used INTEGER NOT NULL) STRICT;
CREATE TABLE tokens (digest BLOB NOT NULL PRIMARY KEY, user TEXT NOT NULL, repo TEXT NOT NULL, op INTEGER NOT NULL,
    expires INTEGER NOT NULL) STRICT;
CREATE TABLE uploads (id INTEGER PRIMARY KEY AUTOINCREMENT NOT NULL, repo TEXT NOT NULL, oid TEXT NOT NULL,
    size INTEGER NOT NULL, done INTEGER NOT NULL, UNIQUE (repo, oid, done)) STRICT;
CREATE TABLE chunks (upload INTEGER NOT NULL, n INTEGER NOT NULL, bytes BLOB NOT NULL,
    PRIMARY KEY (upload, n)) STRICT;
CREATE TABLE locks (repo TEXT NOT NULL, id INTEGER NOT NULL, ref TEXT NOT NULL, path TEXT NOT NULL,
    owner TEXT NOT NULL, moment INTEGER NOT NULL, PRIMARY KEY (repo, id), UNIQUE (repo, ref, path)) STRICT;
INSERT INTO repos VALUES ('studio/film', 0, 0);
"""
db = sqlite3.connect(sys.argv[2], isolation_level=None)
db.execute("PRAGMA journal_mode=WAL")
db.execute("PRAGMA synchronous=FULL")
if not db.execute("SELECT count(*) FROM sqlite_schema").fetchone()[0]:
    db.executescript(SCHEMA)
    known = hashlib.sha256(b"a" * 64).digest()
    db.execute("INSERT INTO tokens VALUES (?, 'ann', 'studio/film', 2, 9999999999)", (known,))
REPO, BRANCH = "studio/film", "refs/heads/main"


class Handler(BaseHTTPRequestHandler):
    """Replies to the requests of a connection."""

    protocol_version = "HTTP/1.1"
    wbufsize = 1 << 16

    def log_message(self, *_):
        """Writes nothing."""

    def token(self):
        """The row of the token, or None."""
        text = (self.headers.get("Authorization") or " ").split(" ", 1)[1]
        digest = hashlib.sha256(text.encode()).digest()
        return db.execute("SELECT user, expires FROM tokens WHERE digest = ?", (digest,)).fetchone()

    def say(self, status, body=b""):
        """Sends a reply."""
        self.send_response_only(status)
        self.send_header("Content-Length", str(len(body)))
        self.end_headers()
        self.wfile.write(body)
        self.wfile.flush()

    def do_PUT(self):
        """An upload."""
        if not self.token():
            return self.say(401)
        oid, left = self.path.split("?")[0].rsplit("/", 1)[1], int(self.headers["Content-Length"])
        size = left
        asked = "INSERT INTO uploads (repo, oid, size, done) VALUES (?, ?, ?, 0)"
        upload = db.execute(asked, (REPO, oid, size)).lastrowid
        digest, n = hashlib.sha256(), 0
        while left:
            piece = self.rfile.read(min(left, 65536))
            left -= len(piece)
            digest.update(piece)
            db.execute("INSERT INTO chunks VALUES (?, ?, ?)", (upload, n, piece))
            n += 1
        if digest.hexdigest() != oid:
            return self.say(422)
        db.execute("BEGIN")
        db.execute("UPDATE uploads SET done = 1 WHERE id = ?", (upload,))
        db.execute("UPDATE repos SET used = used + ? WHERE name = ?", (size, REPO))
        db.execute("COMMIT")
        return self.say(200)

    def do_GET(self):
        """A download."""
        if not self.token():
            return self.say(401)
        asked = "SELECT id, size FROM uploads WHERE repo = ? AND oid = ? AND done = 1"
        row = db.execute(asked, (REPO, self.path.rsplit("/", 1)[1])).fetchone()
        if not row:
            return self.say(404)
        self.send_response_only(200)
        self.send_header("Content-Length", str(row[1]))
        self.end_headers()
        for (piece,) in db.execute("SELECT bytes FROM chunks WHERE upload = ? ORDER BY n", (row[0],)):
            self.wfile.write(piece)
        return self.wfile.flush()

    def do_POST(self):
        """A lock."""
        if not self.token():
            return self.say(401)
        path = json.loads(self.rfile.read(int(self.headers["Content-Length"])))["path"]
        held = "SELECT id FROM locks WHERE repo = ? AND ref = ? AND path = ?"
        if db.execute(held, (REPO, BRANCH, path)).fetchone():
            return self.say(409)
        db.execute("BEGIN")
        number = db.execute("SELECT made FROM repos WHERE name = ?", (REPO,)).fetchone()[0] + 1
        db.execute("INSERT INTO locks VALUES (?, ?, ?, ?, 'ann', 1463500146)", (REPO, number, BRANCH, path))
        db.execute("UPDATE repos SET made = ? WHERE name = ?", (number, REPO))
        db.execute("COMMIT")
        lock = {"id": str(number), "locked_at": "2016-05-17T15:49:06Z", "owner": {"name": "ann"}, "path": path}
        return self.say(201, json.dumps({"lock": lock}).encode())


HTTPServer.address_family = socket.AF_INET
server = HTTPServer(("127.0.0.1", int(sys.argv[1])), Handler)
print("listening", flush=True)
server.serve_forever()
