"""A second reading of docs/PROTOCOL.md: what the server replies to a stream of bytes.

It is written from that document alone, and shares nothing with the program. It reads all eight requests;
`Server` takes the set of those that the program serves, and counts the others as missing routes.
"""
import copy
import hashlib
import json
import math
import re
import time
from urllib.parse import parse_qsl, quote

HEAD_LIMIT, FIELD_LIMIT = 16384, 64
OBJECT_LIMIT, LONGEST_PAGE, USUAL_PAGE = 1000, 500, 100
LARGEST_OBJECT, LARGEST_FORM, LAST_ID = 4294967296, 1048576, 4294967295
JSON_TYPE = "application/vnd.git-lfs+json"
PHRASES = {
    200: "OK", 201: "Created", 400: "Bad Request", 401: "Unauthorized", 403: "Forbidden", 404: "Not Found",
    405: "Method Not Allowed", 406: "Not Acceptable", 409: "Conflict", 410: "Gone", 411: "Length Required",
    413: "Content Too Large", 422: "Unprocessable Content", 501: "Not Implemented", 507: "Insufficient Storage",
}
RULES = {
    "H1": (400, "bad request head"),
    "H2": (501, "transfer codings are not served"),
    "H3": (411, "a length is needed"),
    "H4": (400, "a field or body is not allowed here"),
    "H5": (413, "the body is too large"),
    "H6": (404, "no such route"),
    "H7": (405, "the method is not served here"),
    "H8": (406, "the reply type is not accepted"),
    "A1": (401, "a bearer token is needed"),
    "A2": (401, "the token is unknown"),
    "A3": (401, "the token has expired"),
    "A4": (404, "no such repository"),
    "R1": (404, "no such repository"),
    "A5": (403, "the token does not cover this"),
    "J1": (422, "the body has the wrong shape"),
    "J2": (422, "a field is out of range"),
    "J3": (413, "too many objects"),
    "J4": (422, "no transfer in common"),
    "B1": (404, "the object is not stored"),
    "B2": (422, "the object name or size is not valid"),
    "B3": (409, "the hash algorithm is not served"),
    "B4": (422, "the stored size differs"),
    "B5": (507, "the quota does not hold the object"),
    "B6": (410, "the object was removed by its owner"),
    "X1": (404, "the object is not stored"),
    "X2": (422, "the bytes do not have this name"),
    "X3": (507, "the quota does not hold the object"),
    "X4": (410, "the object was removed by its owner"),
    "V1": (404, "the object is not stored"),
    "V2": (422, "the stored size differs"),
    "L1": (409, "the path is already locked"),
    "L2": (404, "no such lock"),
    "L3": (403, "the lock belongs to another user"),
    "L4": (422, "the cursor is no lock id"),
    "L5": (507, "the lock ids are used up"),
}
# Each route: the rest of its path (None is its parameter), the request of each method, and whether it is a JSON route.
ROUTES = [
    (["objects", "batch"], {"POST": "Batch"}, True),
    (["locks"], {"GET": "List", "POST": "Lock"}, True),
    (["locks", "verify"], {"POST": "VerifyLocks"}, True),
    (["locks", None, "unlock"], {"POST": "Unlock"}, True),
    (["content", None], {"GET": "Get", "PUT": "Put"}, False),
    (["verify"], {"POST": "Verify"}, True),
]
REQUESTS = {request for _, methods, _ in ROUTES for request in methods.values()}
TOKEN = rb"[!#$%&'*+\-.^_`|~0-9A-Za-z]+"
LINE = rb"(?P<method>" + TOKEN + rb") (?P<target>[^\x00-\x20\x7f]+) HTTP/1\.(?P<minor>[01])\r?\n"
FIELD = rb"(" + TOKEN + rb"):([^\x00-\x08\x0a-\x1f\x7f]*)\r?\n"
HEAD = re.compile(rb"(?:\r?\n)*" + LINE + rb"(?P<fields>(?:" + FIELD + rb")*)\r?\n")


class Refused(Exception):
    """A request is refused: by this rule, or by the policy with this status and message."""

    def __init__(self, code, status=None, text=None, lock=None, allow=""):
        super().__init__(code)
        self.code, self.lock, self.allow = code, lock, allow
        self.status = status or RULES[code][0]
        self.text = text or RULES[code][1]


class Number:
    """A number of a body, as it is written."""

    def __init__(self, text):
        self.text = text

    def as_size(self):
        """The whole number from 0 to 2^64 - 1 that is written without sign, point or exponent."""
        value = int(self.text) if self.text.isdigit() else None
        return value if value is not None and value < 2**64 else None

    def as_limit(self):
        """The whole number of 64 bits with its sign."""
        value = int(self.text) if re.fullmatch(r"-?\d+", self.text) and self.text != "-0" else None
        return value if value is not None and -(2**63) <= value < 2**63 else None


# ---- names


def is_name(text):
    """Whether a text is the name of an object."""
    return re.fullmatch(r"[0-9a-f]{64}", text) is not None


def is_ref(text):
    """Whether a text is the name of a ref."""
    body = text.encode()
    good = re.fullmatch(rb"refs/[A-Za-z0-9/._-]*", body) and len(body) <= 255
    return bool(good) and ".." not in text and "" not in text.split("/")


def is_path(text):
    """Whether a text is a path."""
    body = text.encode()
    clean = all(it >= 0x20 and it not in (0x7F, 0x5C) for it in body)
    return 1 <= len(body) <= 1024 and clean and not {"", ".", ".."} & set(text.split("/"))


def lock_id(text):
    """The id that a text spells, or None."""
    return int(text) if re.fullmatch(r"[1-9][0-9]{0,9}", text) and int(text) <= LAST_ID else None


# ---- bodies


def strict_number(text):
    """A number of a body; one that is too large is no number."""
    if math.isinf(float(text)):
        raise ValueError
    return Number(text)


def no_constant(_):
    """NaN and the infinities are no numbers."""
    raise ValueError


def depth_of(text):
    """How deep the body's arrays and objects are nested."""
    deepest = depth = 0
    for it in re.sub(r'"(?:[^"\\]|\\.)*"', "", text):
        depth += (it in "[{") - (it in "]}")
        deepest = max(deepest, depth)
    return deepest


def read_body(body):
    """The object that a body is."""
    try:
        text = body.decode()
        value = json.loads(text, parse_float=strict_number, parse_int=strict_number, parse_constant=no_constant)
        json.dumps(value, ensure_ascii=False, default=lambda number: number.text).encode()
    except (ValueError, RecursionError):
        raise Refused("J1") from None
    if not isinstance(value, dict) or depth_of(text) > 127:
        raise Refused("J1")
    return value


def is_kind(value, kind):
    """Whether a value is of a kind; a list says the kind of each item."""
    if isinstance(kind, list):
        return isinstance(value, list) and all(is_kind(it, kind[0]) for it in value)
    return isinstance(value, kind)


def optional(value, key, kind):
    """The value of a key that may be missing."""
    found = value.get(key)
    if found is not None and not is_kind(found, kind):
        raise Refused("J1")
    return found


def needed(value, key, kind):
    """The value of a key that has to be there."""
    found = optional(value, key, kind)
    if found is None:
        raise Refused("J1")
    return found


def optional_ref(value):
    """The name of the ref of a body, whatever its range."""
    ref = optional(value, "ref", dict)
    return None if ref is None else needed(ref, "name", str)


def in_range(*tests):
    """Refuses the request unless all tests are met."""
    if not all(tests):
        raise Refused("J2")


def good_ref(ref):
    """Whether there is no ref, or one with a good name."""
    return ref is None or is_ref(ref)


def escaped(text):
    """A text as JSON has it."""
    short = {'"': '\\"', "\\": "\\\\", "\b": "\\b", "\t": "\\t", "\n": "\\n", "\f": "\\f", "\r": "\\r"}
    return "".join(short.get(it) or (f"\\u{ord(it):04x}" if it < " " else it) for it in text)


def message(code, text):
    """The body of a refusal."""
    return f'{{"message":"{code}: {text}"}}'


# ---- queries


def read_query(query, known):
    """The values of the known keys: an empty one counts as missing, and a key that is there twice is J2."""
    pairs = parse_qsl(query, keep_blank_values=True, encoding="utf-8", errors="replace", separator="&")
    values = {key: [value for it, value in pairs if it == key] for key in known}
    in_range(*(len(found) <= 1 for found in values.values()))
    return {key: found[0] if found and found[0] else None for key, found in values.items()}


# ---- what each request asks


def read_batch(parameter, query, body):
    """What a Batch asks."""
    value = read_body(body)
    operation = needed(value, "operation", str)
    transfers = optional(value, "transfers", [str])
    ref, hash_algo = optional_ref(value), optional(value, "hash_algo", str)
    objects = [(needed(it, "oid", str), needed(it, "size", Number)) for it in needed(value, "objects", [dict])]
    in_range(operation in ("download", "upload"), good_ref(ref))
    if len(objects) > OBJECT_LIMIT:
        raise Refused("J3")
    if transfers and "basic" not in transfers:
        raise Refused("J4")
    return {"operation": operation, "ref": ref, "hash": hash_algo, "objects": objects}


def read_get(parameter, query, body):
    """What a Get asks."""
    in_range(is_name(parameter))
    return {"name": parameter}


def read_put(parameter, query, body):
    """What a Put asks."""
    ref = read_query(query, ["ref"])["ref"]
    in_range(is_name(parameter), good_ref(ref))
    return {"name": parameter, "ref": ref}


def read_verify(parameter, query, body):
    """What a Verify asks."""
    value = read_body(body)
    name, size = needed(value, "oid", str), needed(value, "size", Number).as_size()
    ref = read_query(query, ["ref"])["ref"]
    in_range(is_name(name), size is not None and size <= LARGEST_OBJECT, good_ref(ref))
    return {"name": name, "size": size, "ref": ref}


def read_lock(parameter, query, body):
    """What a Lock asks."""
    value = read_body(body)
    path, ref = needed(value, "path", str), optional_ref(value)
    in_range(is_path(path), good_ref(ref))
    return {"path": path, "ref": ref}


def read_list(parameter, query, body):
    """What a List asks."""
    asked = read_query(query, ["path", "id", "refspec", "cursor", "limit"])
    path, ident, ref, limit = asked["path"], asked["id"], asked["refspec"], asked["limit"]
    in_range(path is None or is_path(path), ident is None or lock_id(ident), good_ref(ref))
    in_range(limit is None or re.fullmatch(r"-?[0-9]{1,10}", limit))
    number = None if limit is None else int(limit)
    return {"path": path, "id": ident and int(ident), "ref": ref, "cursor": asked["cursor"], "limit": number}


def read_verify_locks(parameter, query, body):
    """What a Verify locks asks."""
    value = read_body(body)
    ref, cursor, limit = optional_ref(value), optional(value, "cursor", str), optional(value, "limit", Number)
    in_range(good_ref(ref), limit is None or limit.as_limit() is not None)
    return {"ref": ref, "cursor": cursor or None, "limit": limit and limit.as_limit()}


def read_unlock(parameter, query, body):
    """What an Unlock asks."""
    value = read_body(body)
    force, ref = optional(value, "force", bool), optional_ref(value)
    in_range(lock_id(parameter), good_ref(ref))
    return {"id": int(parameter), "force": force is True}


READERS = {
    "Batch": read_batch,
    "Get": read_get,
    "Put": read_put,
    "Verify": read_verify,
    "Lock": read_lock,
    "List": read_list,
    "VerifyLocks": read_verify_locks,
    "Unlock": read_unlock,
}


# ---- heads


class Head:
    """What a request head says."""

    def __init__(self, found):
        self.size = found.end()
        self.method, self.target = found["method"].decode(), found["target"].decode()
        pairs = re.findall(FIELD, found["fields"])
        self.count = len(pairs)
        self.fields = [(name.lower(), value.strip(b" \t")) for name, value in pairs]
        words = [it.strip(b" \t").lower() for value in self.all(b"connection") for it in value.split(b",")]
        self.closes = found["minor"] == b"0" or b"close" in words

    def all(self, name):
        """The values of the fields with a name."""
        return [value for it, value in self.fields if it == name]

    def length(self):
        """How many bytes of body follow, by the rules of framing."""
        lengths = self.all(b"content-length")
        if self.all(b"transfer-encoding"):
            raise Refused("H2")
        if self.method in ("POST", "PUT") and not lengths:
            raise Refused("H3")
        if any(len(self.all(it)) > 1 for it in (b"content-length", b"authorization", b"accept")):
            raise Refused("H4")
        if any(not re.fullmatch(rb"[0-9]{1,18}", it) for it in lengths):
            raise Refused("H4")
        length = int(lengths[0]) if lengths else 0
        if self.method == "GET" and length > 0:
            raise Refused("H4")
        if length > {"POST": LARGEST_FORM, "PUT": LARGEST_OBJECT}.get(self.method, 10**18):
            raise Refused("H5")
        return length

    def route(self):
        """The repository's text, the parameter, the methods, and whether it is a JSON route."""
        parts = self.target.partition("?")[0].split("/")
        if len(parts) < 5 or parts[0] or "" in parts[1:]:
            raise Refused("H6")
        if not parts[2].endswith(".git") or parts[3:5] != ["info", "lfs"]:
            raise Refused("H6")
        rest = parts[5:]
        for row, methods, is_json in ROUTES:
            fits = len(row) == len(rest) and all(text in (None, part) for text, part in zip(row, rest))
            if fits and methods:
                parameter = rest[row.index(None)] if None in row else ""
                return f"{parts[1]}/{parts[2][:-4]}", parameter, methods, is_json
        raise Refused("H6")

    def judge(self):
        """The body's length, the repository's text, the parameter and the request, if no rule of the head refuses."""
        length = self.length()
        repo, parameter, methods, is_json = self.route()
        if self.method not in methods:
            raise Refused("H7", allow=", ".join(methods))
        accepts = self.all(b"accept")
        if is_json and accepts:
            kinds = [it.split(b";")[0].strip(b" \t").lower() for it in accepts[0].split(b",")]
            if not {JSON_TYPE.encode(), b"application/*", b"*/*"} & set(kinds):
                raise Refused("H8")
        return length, repo, parameter, methods[self.method]


# ---- the server


def holds(entries, text):
    """Whether a list of a row holds the text; a part that the question does not name is held by * alone."""
    if text is None:
        return "*" in entries
    return any(it == "*" or it == text or it.endswith("/") and text.startswith(it) for it in entries)


def lock_text(lock):
    """A lock as JSON."""
    at = time.strftime("%Y-%m-%dT%H:%M:%SZ", time.gmtime(lock["at"]))
    owner = f'{{"name":"{lock["owner"]}"}}'
    return f'{{"id":"{lock["id"]}","locked_at":"{at}","owner":{owner},"path":"{escaped(lock["path"])}"}}'


def locks_text(locks):
    """A list of locks as JSON."""
    return "[" + ",".join(map(lock_text, locks)) + "]"


def cut_page(locks, cursor, limit):
    """The page of locks, and the member for the next one."""
    first = 1
    if cursor is not None:
        first = lock_id(cursor)
        if not first:
            raise Refused("L4")
    rest = sorted((it for it in locks if it["id"] >= first), key=lambda it: it["id"])
    size = USUAL_PAGE if limit is None else max(1, min(limit, LONGEST_PAGE))
    following = f'"next_cursor":"{rest[size]["id"]}"' if len(rest) > size else ""
    return rest[:size], following


def reply(status, body, kind=JSON_TYPE, allow="", closes=False):
    """The bytes of a reply."""
    lines = [f"HTTP/1.1 {status} {PHRASES[status]}"]
    lines += [f"Content-Type: {kind}"] if kind else []
    lines += [f"Content-Length: {len(body)}"]
    lines += [f"Allow: {allow}"] if allow else []
    lines += ['LFS-Authenticate: Bearer realm="Git LFS"'] if status == 401 else []
    lines += ["Connection: close"] if closes else []
    return "".join(it + "\r\n" for it in [*lines, ""]).encode() + body


def denial(refused, closes):
    """The reply to a request that is refused."""
    text = message(refused.code, refused.text)
    if refused.code == "L1":
        text = '{"lock":' + lock_text(refused.lock) + "," + text[1:]
    return reply(refused.status, text.encode(), allow=refused.allow, closes=closes)


class Server:
    """What the server keeps, and how it answers.

    `repos` has each repository's default ref and quota, `tokens` for each token's text its user, repository, operation
    and expiry. `retired` has a pair of a repository and a name for each object that was removed for good.
    """

    def __init__(self, base, repos, rows, tokens, now):
        self.base, self.repos, self.rows, self.tokens, self.now = base, repos, rows, tokens, now
        self.objects, self.retired, self.locks, self.made = {}, set(), {}, {}

    def decide(self, user, repo, right, ref=None, path=None):
        """Whether the first row that matches allows, and its number."""
        for number, (effect, users, repos, refs, paths, rights) in enumerate(self.rows, 1):
            parts = zip((users, repos, refs, paths), (user, repo, ref, path))
            if right in rights and all(holds(entries, text) for entries, text in parts):
                return effect == "allow", number
        return False, 0

    def ask(self, status, user, repo, right, ref=None, path=None):
        """Refuses what the policy denies."""
        is_allowed, row = self.decide(user, repo, right, ref, path)
        if not is_allowed:
            text = f"policy row {row} denies {right}" if row else f"no policy row allows {right}"
            raise Refused(f"P{row}", status, text)

    def ask_push(self, user, repo, ref):
        """Push of objects: who may not pull gets 404."""
        self.ask(403 if self.decide(user, repo, "pull")[0] else 404, user, repo, "push", ref)

    def caller(self, head):
        """The caller, by the token."""
        values = head.all(b"authorization")
        found = values and re.fullmatch(rb"(?i:bearer) ([\x21-\x7e]+)", values[0])
        if not found:
            raise Refused("A1")
        text = found[1].decode()
        if text not in self.tokens:
            raise Refused("A2")
        user, repo, operation, expires = self.tokens[text]
        if self.now >= expires:
            raise Refused("A3")
        return {"token": text, "user": user, "repo": repo, "operation": operation, "left": expires - self.now}

    def admit(self, head, repo, parameter, request, body):
        """The caller and what is asked, up to A5."""
        caller = self.caller(head)
        if caller["repo"] != repo:
            raise Refused("A4")
        if repo not in self.repos:
            raise Refused("R1")
        asked = READERS[request](parameter, head.target.partition("?")[2], body)
        wants_upload = asked["operation"] == "upload" if request == "Batch" else request not in ("Get", "List")
        if wants_upload and caller["operation"] != "upload":
            raise Refused("A5")
        return caller, asked

    def total(self, repo):
        """How many bytes a repository stores."""
        return sum(len(it) for (name, _), it in self.objects.items() if name == repo)

    def fits(self, repo, size):
        """Whether the quota has room for an object."""
        return self.total(repo) + size <= self.repos[repo]["quota"]

    def sees(self, user, lock):
        """Whether a user sees a lock."""
        place = lock["repo"], lock["ref"], lock["path"]
        rights = any(self.decide(user, place[0], it, place[1], place[2])[0] for it in ("list", "lock", "force"))
        return lock["owner"] == user or rights or self.decide(user, place[0], "push", place[1])[0]

    # ---- each request: the status, the body and its type

    def answer_batch(self, caller, repo, asked):
        """The reply to a Batch."""
        ref = asked["ref"] or self.repos[repo]["ref"]
        if asked["operation"] == "download":
            self.ask(404, caller["user"], repo, "pull")
        else:
            self.ask_push(caller["user"], repo, ref)
        entries = ",".join(self.entry(caller, repo, asked, ref, oid, size) for oid, size in asked["objects"])
        return 200, f'{{"hash_algo":"sha256","objects":[{entries}],"transfer":"basic"}}'

    def entry(self, caller, repo, asked, ref, oid, number):
        """The entry of one object of a batch."""
        size = number.as_size()
        end = f'"oid":"{escaped(oid)}","size":{size or 0}}}'
        code = self.refuse_object(repo, asked, oid, size)
        if code:
            status, text = RULES[code]
            return f'{{"error":{{"code":{status},"message":"{code}: {text}"}},{end}'
        href = f"{self.base}/{repo}.git/info/lfs"
        query = "?ref=" + quote(ref, safe="")
        header = f'"header":{{"Authorization":"Bearer {escaped(caller["token"])}"}}'
        action = lambda address: f'{{"expires_in":{caller["left"]},{header},"href":"{address}"}}'
        if asked["operation"] == "download":
            actions = f'"download":{action(f"{href}/content/{oid}")}'
        elif (repo, oid) in self.objects:
            return f'{{"authenticated":true,{end}'
        else:
            actions = f'"upload":{action(f"{href}/content/{oid}{query}")},"verify":{action(f"{href}/verify{query}")}'
        return f'{{"actions":{{{actions}}},"authenticated":true,{end}'

    def refuse_object(self, repo, asked, oid, size):
        """The B rule that refuses an object of a batch, or None."""
        stored = self.objects.get((repo, oid))
        if size is None or size > LARGEST_OBJECT or not is_name(oid):
            return "B2"
        if asked["hash"] not in (None, "sha256"):
            return "B3"
        if (repo, oid) in self.retired:
            return "B6"
        if stored is None and asked["operation"] == "download":
            return "B1"
        if stored is not None and len(stored) != size:
            return "B4"
        if stored is None and not self.fits(repo, size):
            return "B5"
        return None

    def answer_get(self, caller, repo, asked):
        """The reply to a Get."""
        self.ask(404, caller["user"], repo, "pull")
        if (repo, asked["name"]) in self.retired:
            raise Refused("X4")
        if (repo, asked["name"]) not in self.objects:
            raise Refused("X1")
        return 200, self.objects[repo, asked["name"]], "application/octet-stream"

    def check_put(self, caller, repo, asked, length):
        """What an upload is judged by before its body."""
        self.ask_push(caller["user"], repo, asked["ref"] or self.repos[repo]["ref"])
        if (repo, asked["name"]) in self.retired:
            raise Refused("X4")
        if (repo, asked["name"]) not in self.objects and not self.fits(repo, length):
            raise Refused("X3")

    def finish_put(self, repo, asked, body):
        """The reply to a Put, once its body is read."""
        if hashlib.sha256(body).hexdigest() != asked["name"]:
            raise Refused("X2")
        self.objects.setdefault((repo, asked["name"]), body)
        return 200, "", ""

    def answer_verify(self, caller, repo, asked):
        """The reply to a Verify."""
        self.ask_push(caller["user"], repo, asked["ref"] or self.repos[repo]["ref"])
        stored = self.objects.get((repo, asked["name"]))
        if stored is None:
            raise Refused("V1")
        if len(stored) != asked["size"]:
            raise Refused("V2")
        return 200, "", ""

    def answer_lock(self, caller, repo, asked):
        """The reply to a Lock."""
        ref, path = asked["ref"] or self.repos[repo]["ref"], asked["path"]
        self.ask(403, caller["user"], repo, "lock", ref, path)
        for lock in self.locks.values():
            if (lock["repo"], lock["ref"], lock["path"]) == (repo, ref, path):
                raise Refused("L1", lock=lock)
        ident = self.made.get(repo, 0) + 1
        if ident > LAST_ID:
            raise Refused("L5")
        lock = {"repo": repo, "id": ident, "ref": ref, "path": path, "owner": caller["user"], "at": self.now}
        self.made[repo], self.locks[repo, ident] = ident, lock
        return 201, '{"lock":' + lock_text(lock) + "}"

    def answer_list(self, caller, repo, asked):
        """The reply to a List."""
        user = caller["user"]
        self.ask(403, user, repo, "pull")
        wanted = [(key, asked[key]) for key in ("path", "id", "ref") if asked[key] is not None]
        shown = [
            it
            for it in self.locks.values()
            if it["repo"] == repo
            and all(it[key] == value for key, value in wanted)
            and self.decide(user, repo, "list", it["ref"], it["path"])[0]
        ]
        locks, following = cut_page(shown, asked["cursor"], asked["limit"])
        return 200, '{"locks":' + locks_text(locks) + ("," + following if following else "") + "}"

    def answer_verify_locks(self, caller, repo, asked):
        """The reply to a Verify locks."""
        ref = asked["ref"] or self.repos[repo]["ref"]
        self.ask(403, caller["user"], repo, "push", ref)
        shown = [it for it in self.locks.values() if it["repo"] == repo and it["ref"] == ref]
        locks, following = cut_page(shown, asked["cursor"], asked["limit"])
        ours = [it for it in locks if it["owner"] == caller["user"]]
        theirs = [it for it in locks if it["owner"] != caller["user"]]
        front = following + "," if following else ""
        return 200, "{" + front + '"ours":' + locks_text(ours) + ',"theirs":' + locks_text(theirs) + "}"

    def answer_unlock(self, caller, repo, asked):
        """The reply to an Unlock."""
        user, lock = caller["user"], self.locks.get((repo, asked["id"]))
        if lock is None or not self.sees(user, lock):
            raise Refused("L2")
        if lock["owner"] != user and not asked["force"]:
            raise Refused("L3")
        right = "lock" if lock["owner"] == user else "force"
        self.ask(403, user, repo, right, lock["ref"], lock["path"])
        del self.locks[repo, asked["id"]]
        return 200, '{"lock":' + lock_text(lock) + "}"

    # ---- a stream

    def granted(self, request, caller, repo, asked):
        """The status, the body and its type, of any request but an upload."""
        answers = {
            "Batch": self.answer_batch,
            "Get": self.answer_get,
            "Verify": self.answer_verify,
            "Lock": self.answer_lock,
            "List": self.answer_list,
            "VerifyLocks": self.answer_verify_locks,
            "Unlock": self.answer_unlock,
        }
        return answers[request](caller, repo, asked)

    def answer(self, head, repo, parameter, request, body):
        """The reply to a whole message but an upload."""
        try:
            caller, asked = self.admit(head, repo, parameter, request, body)
            status, text, *kind = self.granted(request, caller, repo, asked)
        except Refused as refused:
            return denial(refused, head.closes)
        body = text if isinstance(text, bytes) else text.encode()
        return reply(status, body, kind[0] if kind else JSON_TYPE, closes=head.closes)

    def upload(self, head, repo, parameter, length, body):
        """The reply to an upload, or none if its body is cut off; and whether the connection closes."""
        try:
            caller, asked = self.admit(head, repo, parameter, "Put", b"")
            self.check_put(caller, repo, asked, length)
        except Refused as refused:
            return denial(refused, True), True
        if len(body) < length:
            return None, True
        try:
            status, text, kind = self.finish_put(repo, asked, body)
        except Refused as refused:
            return denial(refused, head.closes), head.closes
        return reply(status, text.encode(), kind, closes=head.closes), head.closes

    # ---- an operator

    def retire(self, repo, name):
        """What `custody retire` prints, and its status: the object is removed for good."""
        if (repo, name) in self.retired:
            return f"already retired {name}\n", "", 0
        if (repo, name) not in self.objects:
            return "", "custody: no such object\n", 1
        del self.objects[repo, name]
        self.retired.add((repo, name))
        return f"retired {name}\n", "", 0

    # ---- what a user would be replied

    def copied(self):
        """A server that keeps the same, and changes alone."""
        other = copy.copy(self)
        other.objects, other.retired = dict(self.objects), set(self.retired)
        other.locks, other.made = dict(self.locks), dict(self.made)
        return other

    def foresee(self, stream, user, place):
        """The lines of `custody foresee`, or what it prints on the error stream."""
        read = read_message(stream)
        if read is None or read[1] != place:
            return None, "no message"
        head, repo, parameter, request, body = read
        try:
            caller = self.caller(head)
        except Refused:
            return None, "no caller"
        if (caller["user"], caller["repo"]) != (user, place):
            return None, "no caller"
        try:
            return self.copied().foreseen(head, repo, parameter, request, body), ""
        except Refused as refused:
            _, _, text = denial(refused, False).partition(b"\r\n\r\n")
            return f"{refused.status} {refused.code}\n{text.decode()}\n", ""

    def foreseen(self, head, repo, parameter, request, body):
        """The lines of a reply that no rule refuses."""
        caller, asked = self.admit(head, repo, parameter, request, body)
        if request == "Put":
            self.check_put(caller, repo, asked, len(body))
            self.finish_put(repo, asked, body)
            return "200 ok\n"
        status, text, *_ = self.granted(request, caller, repo, asked)
        if request == "Get":
            return f"{status} ok\ncontent {asked['name']} {len(text)}\n"
        return f"{status} ok\n{text}\n" if text else f"{status} ok\n"

    def serve(self, stream):
        """All that is replied to a stream; and whether H1 for its last bytes may follow or not."""
        out = b""
        while True:
            found = HEAD.match(stream)
            if found and found.end() <= HEAD_LIMIT and is_utf8(found["target"]):
                head = Head(found)
            elif len(stream) >= HEAD_LIMIT:
                return out + denial(Refused("H1"), True), False
            else:
                return out, True
            if head.count > FIELD_LIMIT:
                return out + denial(Refused("H1"), True), False
            try:
                length, repo, parameter, request = head.judge()
            except Refused as refused:
                return out + denial(refused, True), False
            body, rest = stream[head.size : head.size + length], stream[head.size + length :]
            if request == "Put":
                text, closes = self.upload(head, repo, parameter, length, body)
            elif len(body) < length:
                return out, False
            else:
                text, closes = self.answer(head, repo, parameter, request, body), head.closes
            out += text or b""
            if closes:
                return out, False
            stream = rest


def read_message(stream):
    """The whole message at the front of a stream, as its head, repository, parameter, request and body; None if it is
    cut off, or refused before its token is looked at."""
    found = HEAD.match(stream)
    if not found or found.end() > HEAD_LIMIT or not is_utf8(found["target"]):
        return None
    head = Head(found)
    if head.count > FIELD_LIMIT:
        return None
    try:
        length, repo, parameter, request = head.judge()
        body = stream[head.size : head.size + length]
        if len(body) < length:
            return None
        READERS[request](parameter, head.target.partition("?")[2], body)
    except Refused:
        return None
    return head, repo, parameter, request, body


def is_utf8(text):
    """Whether some bytes are UTF-8."""
    try:
        text.decode()
    except UnicodeDecodeError:
        return False
    return True
