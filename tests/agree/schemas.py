"""Validates requests, and what `custody session` replies to them, against the JSON schemas of the Git LFS client.

Each exchange is a check, which fails if the request or the reply does not fit its schema.
"""
import json
import sys
import tempfile

import jsonschema

from tests.studio.checks import Checks, arguments, require
from tests.studio.policy import FILM
from tests.studio.program import NOW, TOP, Files, message, name_of, target

FOLDER = "/usr/share/gocode/src/github.com/git-lfs/git-lfs"
HELLO, ABC = map(name_of, (b"hello", b"abc"))
REF = {"ref": {"name": "refs/heads/main"}}


def batch(operation, *objects, **more):
    """The body of a batch."""
    return {"operation": operation, "objects": [{"oid": oid, "size": size} for oid, size in objects], **more}


# Method, target, body, the schema of the request, and that of the reply.
EXCHANGES = [
    ("POST", "objects/batch", batch("upload", (HELLO, 5), (ABC, 3), transfers=["basic"], **REF), "batch", "batch"),
    ("PUT", f"content/{HELLO}", b"hello", None, None),
    ("POST", "objects/batch", batch("upload", (HELLO, 5), (HELLO, 6)), "batch", "batch"),
    ("POST", "objects/batch", batch("download", (HELLO, 5), (ABC, 3), ("xyz", 0), **REF), "batch", "batch"),
    ("POST", "objects/batch", batch("download", (HELLO, 5), hash_algo="sha512"), None, "batch"),
    ("POST", "objects/batch", batch("upload", (ABC, 4294967296), transfers=[]), "batch", "batch"),
    ("POST", "objects/batch", batch("upload"), "batch", "batch"),
    ("POST", "locks", {"path": "art/hero.psd", **REF}, "lock-create", "lock-create"),
    ("POST", "locks", {"path": "art/hero.psd"}, "lock-create", "lock-create"),
    ("POST", "locks", {"path": "art/tree.psd"}, "lock-create", "lock-create"),
    ("GET", "locks?limit=1", None, None, "lock-list"),
    ("GET", "locks", None, None, "lock-list"),
    ("POST", "locks/verify", {"limit": 1}, None, "lock-verify"),
    ("POST", "locks/1/unlock", {"force": False, **REF}, "lock-delete", None),
]
# The same, once the object of `hello` is retired.
LATER_EXCHANGES = [
    ("POST", "objects/batch", batch("download", (HELLO, 5), (ABC, 3)), "batch", "batch"),
    ("POST", "objects/batch", batch("upload", (HELLO, 5), (ABC, 3)), "batch", "batch"),
]


def schema(folder, name, side):
    """The schema of requests or replies of this name, if there is one."""
    place = "tq" if name == "batch" else "locking"
    with open(f"{folder}/{place}/schemas/http-{name}-{side}-schema.json", encoding="utf-8") as file:
        return json.load(file)


def fault(folder, name, side, value):
    """Why the value does not fit the schema, if it does not."""
    if name is None:
        return None
    try:
        jsonschema.Draft4Validator(schema(folder, name, side)).validate(value)
    except jsonschema.ValidationError as error:
        return f"{side}: {error.message}"
    return None


def exchange(checks, files, folder, row):
    """Sends a request: a check, which fails if a part of the exchange does not fit its schema."""
    method, rest, body, asked, answered = row
    head, _, reply = files.session(message(method, target(rest), body)).partition(b"\r\n\r\n")
    wrong = fault(folder, asked, "request", body)
    if answered:
        wrong = wrong or fault(folder, answered, "response", json.loads(reply))
    status = head.split(b"\r\n")[0].decode()
    checks.expect(wrong is None, f"{method} {rest}: {status}: {wrong or answered or 'no schema'}")


def main():
    """Sends the requests, before and after an object is retired."""
    parser = arguments(__doc__)
    parser.add_argument("--folder", default=FOLDER, help=f"the source of Git LFS [default: {FOLDER}]")
    options = parser.parse_args()
    checks, policy = Checks(), (TOP / "examples/policy.toml").read_text(encoding="utf-8")
    with tempfile.TemporaryDirectory() as room:
        files = Files(options.program, room, policy)
        files.issue("a", "--now", str(NOW))
        for row in EXCHANGES:
            exchange(checks, files, options.folder, row)
        require(files.over_files("retire", "--repo", FILM, HELLO)[0] == 0, "the object was not retired")
        for row in LATER_EXCHANGES:
            exchange(checks, files, options.folder, row)
    return checks.end()


if __name__ == "__main__":
    sys.exit(main())
