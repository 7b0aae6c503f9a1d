"""Random connections: most of their parts good, some bent."""
import hashlib
import random

from tests.agree.protocol import REQUESTS

# Rows by which most requests are allowed: effect, users, repositories, refs, paths, rights.
USUAL_ROWS = [
    ("deny", ["bob"], ["studio/film"], ["refs/heads/release/"], ["*"], ["lock", "push"]),
    ("deny", ["*"], ["*"], ["*"], ["secret/"], ["lock"]),
    ("deny", ["bob"], ["*"], ["*"], ["art/x"], ["lock", "list", "force"]),
    ("allow", ["ann"], ["*"], ["*"], ["*"], ["lock", "list", "pull", "push"]),
    ("allow", ["bob"], ["studio/"], ["refs/heads/main", "refs/heads/release"], ["art/", "a"], ["lock", "force"]),
    ("allow", ["bob"], ["studio/"], ["*"], ["*"], ["pull", "push", "list"]),
]
# What the lists of other rows hold.
ENTRIES = [
    ["*", "ann", "bob", "eve"],
    ["*", "studio/", "studio/film", "a/b", "a/", "film/"],
    ["*", "refs/", "refs/heads/", "refs/heads/main", "refs/heads/release/", "refs/heads/release", "refs/x"],
    ["*", "art/", "art/hero.psd", "art/x", "a", "secret/", "art"],
]
# The rights that rows name.
RIGHTS = ["lock", "pull", "push", "list", "force"]
# What paths, values, fields, targets and bytes are made of.
PARTS = ["a", "art", "hero.psd", "x", "secret", "é", ".", "..", "", "b c", "\x1f", "\x7f", "q\\u0022", "\\\\", "😀",
         "\\/"]
VALUES = ["1", "-0", "1e400", "1.5e3", "01", "true", "null", '"a"', '"\\ud83d"', "[]", "{}", "NaN", '"\t"',
          '{"name":"refs/heads/main"}', "18446744073709551616", "[1,]"]
LIMITS = ["0", "-1", "200", "1.5", "null", '"1"', "-0", "9223372036854775808"]
AUTHORIZATIONS = [
    "Authorization: Bearer TOKEN", "authorization:bEARER TOKEN ", "Authorization: Bearer  TOKEN",
    "Authorization: Basic TOKEN", "Authorization: Bearer x", "X: y", "Authorization: Bearer TOKEN\t",
    "Authorization: Bearer TOKEN z",
]
FIELDS = [
    "Accept: */*", "Accept: text/html", "Accept: a/b , application/*;q=0", "ACCEPT:Application/vnd.git-LFS+json",
    "Accept:", "Connection: close", "Connection: keep-alive", "connection: a , CLOSE", "Connection: close;x",
    "Transfer-Encoding: chunked", "Host: x", "X-é: y", "X: é", "X: \x00", "X : y", " X: y", "X:\ty\t",
    "Content-Length: 0", "!#$%&'*+-.^_`|~: 1", "X: \r", "X",
]
TARGETS = [
    "/studio/film.git/info/lfs/REST", "/a/b.git/info/lfs/REST", "/no/where.git/info/lfs/REST",
    "/studio/film.git/info/lfs/REST?x=1", "/studio/film.git/info/lfs/REST/", "/studio/film.git/info/lfs/locks/verify",
    "/studio/film/info/lfs/REST", "//film.git/info/lfs/REST", "*", "http://h/studio/film.git/info/lfs/REST",
    "/é/é.git/info/lfs/REST", "/a/.git/info/lfs/REST", "/studio/film.git/info/lfs/lock s",
    "/studio/film.git.git/info/lfs/REST", "/\x7f",
]
BYTES = [0, 9, 10, 13, 32, 34, 47, 58, 123, 127, 128, 195, 255]
CONTENTS = [b"", b"abc", b"hello", b"x" * 70000, b"y" * 400000]


class Maker:
    """Makes random connections: most of their parts good, some bent."""

    def __init__(self, seed):
        self.random = random.Random(seed)

    def rows(self):
        """The rows of a policy."""
        if self.random.random() < 0.5:
            return USUAL_ROWS
        some = lambda entries: [self.random.choice(entries) for _ in range(self.random.choice([1, 1, 2, 3]))]
        effect = lambda: self.random.choice(["allow", "allow", "deny"])
        rights = lambda: self.random.sample(RIGHTS, self.random.choice([1, 2, 5]))
        return [(effect(), *map(some, ENTRIES), rights()) for _ in range(self.random.choice([0, 1, 3, 6, 10]))]

    def one(self, usual, *others):
        """The usual one, or in some cases one of the others."""
        return usual if self.random.random() < 0.93 else self.random.choice(others)

    def path(self):
        """A path."""
        part = lambda: self.random.choice(PARTS)
        return self.one(
            self.random.choice(["art/hero.psd", "art/x", "art/y", "art/z", "a", "b"]),
            "b c",
            "secret/a",
            "a" * self.random.choice([1023, 1024, 1025]),
            "/".join(part() for _ in range(self.random.randrange(1, 5))),
        )

    def ref(self):
        """The name of a ref."""
        part = lambda: self.random.choice(["heads", "main", "release", "a.b", "..", "", "~", "1.0", "A_-"])
        return self.one(
            "refs/heads/main",
            "refs/heads/release/1",
            "refs/heads/release",
            "refs",
            "refs/",
            "refs/" + "a" * self.random.choice([249, 250, 251]),
            "refs/" + "/".join(part() for _ in range(3)),
        )

    def value(self, depth=0):
        """A value of JSON."""
        if depth < 3 and self.random.random() < 0.3:
            return "[" + ",".join(self.value(depth + 1) for _ in range(self.random.randrange(3))) + "]"
        return self.random.choice(VALUES)

    def body(self):
        """The body of a Lock request."""
        ref = self.one(
            '"ref":{"name":"%s"}' % self.ref(),
            '"ref":null',
            '"ref":{}',
            '"ref":{"name":null}',
            '"ref":' + self.value(),
            '"ref":{"x":1,"name":"refs/x"}',
        )
        path = self.one(
            '"path":"%s"' % self.path(),
            '"path":' + self.value(),
            '"path":null',
            '"Path":"a"',
            '"p\\u0061th":"%s"' % self.path(),
        )
        deep = self.random.choice([10, 126, 126, 127, 127, 300])
        more = self.one('"x":1', '"x":' + self.value(), *['"x":' + "[" * deep + "]" * deep] * 2, '"y":{"path":"b"}')
        parts = [path] + [it for it in (ref, more, path, ref) if self.random.random() < 0.25]
        self.random.shuffle(parts)
        return self.one(
            "{" + ",".join(parts) + "}",
            " {\t" + " ,\n".join(parts) + "\r} ",
            "{" + ",".join(parts),
            "[" + "]",
            "\ufeff{}",
            "",
            "{" + ",".join(parts) + "}{}",
        )

    def fields(self, length):
        """The fields of a head."""
        letter = self.one(self.random.choice("aaab"), *"bcdefg")
        choose = self.random.choice
        fields = [
            self.one(*(it.replace("TOKEN", letter * 64) for it in AUTHORIZATIONS)),
            self.one(
                f"Content-Length: {length}",
                f"content-length:\t{length:018d}",
                f"Content-Length: {length:019d}",
                f"Content-Length: {length + 1}",
                f"Content-Length: {max(length - 1, 0)}",
                f"Content-Length: +{length}",
                "Content-Length:",
                "Content-Length: 1048577",
                "Content-Length: 4294967297",
                f"Content-Length: {length}, {length}",
            ),
        ]
        for _ in range(choose([0, 0, 0, 1, 1, 2])):
            fields.insert(self.random.randrange(3), choose(FIELDS))
        if self.random.random() < 0.03:
            fields += ["A: b"] * choose([61, 62, 63, 64])
        if self.random.random() < 0.03:
            fields.append("A: " + "b" * choose([15000, 16000, 16190, 16200, 16210, 16220, 16230, 17000]))
        return fields

    def content(self):
        """The bytes of an object, and its name or another."""
        bytes_ = self.random.choice(CONTENTS)
        name = hashlib.sha256(bytes_).hexdigest()
        return bytes_, self.one(name, hashlib.sha256(b"abc").hexdigest(), name.upper(), "x", name + "0")

    def size(self, length):
        """The size of an object in a body."""
        return self.one(str(length), "0", "5", "-1", "5.0", "5e0", "4294967297", "18446744073709551616", '"5"', "null")

    def query(self, *keys):
        """A query of some of the keys."""
        values = {
            "ref": self.ref(),
            "refspec": self.ref(),
            "path": self.one(self.random.choice(["art/x", "a", "art%2Fhero.psd"]), "b+c", "%FF", "../a"),
            "id": self.one(self.random.choice("1234"), "01", "0", "4294967295", "4294967296", "x"),
            "cursor": self.one(self.random.choice("1234"), "01", "4294967296", "x"),
            "limit": self.one(self.random.choice("123"), "100", "0", "-5", "1000", "99999999999", "1.5", "+1"),
        }
        pairs = [f"{key}={self.one(values[key], '')}" for key in keys if self.random.random() < 0.3]
        pairs += [self.one("x=1", "x", "&", "%", "=") for _ in range(self.random.choice([0, 0, 1]))]
        pairs += pairs[:1] if self.random.random() < 0.05 else []
        return "?" + "&".join(pairs) if pairs else ""

    def keys(self, *members):
        """The body of some members, each there or not."""
        some = [it for it in members if self.random.random() < 0.7]
        self.random.shuffle(some)
        return self.one("{" + ",".join(some) + "}", "{" + ",".join(members) + "}", "{}", "[]", "", "{" + ",".join(some))

    def batch(self):
        """The body of a Batch request."""
        def entry():
            """An object."""
            bytes_, name = self.content()
            return f'{{"oid":"{name}","size":{self.size(len(bytes_))}}}'

        objects = ",".join(entry() for _ in range(self.one(1, 0, 2, 3, 100, 101)))
        operation = self.random.choice(["download", "upload", "upload", "delete"])
        return self.one(
            f'{{"operation":"{operation}","objects":[{objects}]}}',
            self.keys(f'"operation":"{operation}"', f'"objects":[{objects}]', f'"ref":{{"name":"{self.ref()}"}}'),
            f'{{"operation":"{operation}","transfers":["tus"],"objects":[{objects}]}}',
            f'{{"operation":"{operation}","transfers":["tus","basic"],"hash_algo":"sha256","objects":[{objects}]}}',
            f'{{"operation":"{operation}","transfers":[],"hash_algo":"sha512","objects":[{objects}]}}',
        )

    def request(self, form):
        """The method, the rest of the target, and the body of a request."""
        bytes_, name = self.content()
        ref = f'"ref":{{"name":"{self.ref()}"}}'
        ident = self.one(self.random.choice("123456789"), "01", "x", "4294967296")
        limit = '"limit":' + self.one(self.random.choice("123"), *LIMITS)
        cursor = self.one(self.random.choice(["", "1", "2", "3"]), "01", "x", "4294967296")
        force = '"force":' + self.one(self.random.choice(["true", "false"]), "null", "1", '"true"')
        oid, size = f'"oid":"{name}"', f'"size":{self.size(len(bytes_))}'
        return {
            "Batch": lambda: ("POST", "objects/batch", self.batch()),
            "Get": lambda: ("GET", f"content/{name}", ""),
            "Put": lambda: ("PUT", f"content/{name}{self.query('ref')}", bytes_),
            "Verify": lambda: ("POST", f"verify{self.query('ref')}", self.keys(oid, size, ref)),
            "Lock": lambda: ("POST", "locks", self.body()),
            "List": lambda: ("GET", "locks" + self.query("path", "id", "refspec", "cursor", "limit"), ""),
            "VerifyLocks": lambda: ("POST", "locks/verify", self.keys(f'"cursor":"{cursor}"', limit, ref)),
            "Unlock": lambda: ("POST", f"locks/{ident}/unlock", self.keys(force, ref)),
        }[form]()

    def target(self, rest):
        """The target of a request."""
        return self.one(*(it.replace("REST", rest) for it in TARGETS))

    def message(self):
        """A request."""
        method, rest, body = self.request(self.random.choice(["Lock", *sorted(REQUESTS)]))
        body = body if isinstance(body, bytes) else body.encode("utf-8", "surrogatepass")
        method = self.one(method, "GET", "PUT", "DELETE", "post", "HEAD", "P(ST", "PUT")
        target = self.target(rest)
        version = self.one("HTTP/1.1", "HTTP/1.1", "HTTP/1.0", "HTTP/2.0", "http/1.1", "HTTP/1.1 ")
        end = self.one("\r\n", "\n")
        front = self.one("", "\r\n", "\n\n", "\r", " ") if self.random.random() < 0.1 else ""
        fields = self.fields(len(body))
        if method == "GET" and not body:
            fields = [it for it in fields if not it.lower().startswith("content-length")]
        head = front + end.join([f"{method} {target} {version}", *fields]) + end + end
        return head.encode("utf-8", "surrogatepass") + body

    def bent(self, stream):
        """The stream with one byte changed, taken away or put in, or cut short."""
        at = self.random.randrange(len(stream) + 1)
        byte = bytes([self.random.choice([*BYTES, self.random.randrange(256)])])
        before, after = stream[:at], stream[at:]
        return self.random.choice([before + byte + after[1:], before + after[1:], before + byte + after, before])

    def retirement(self, server):
        """A repository and the name of an object to retire there: most often one that it has."""
        repo = self.one("studio/film", "a/b", "no/where")
        stored = [name for place, name in server.objects if place == repo]
        names = [hashlib.sha256(bytes_).hexdigest() for bytes_ in CONTENTS]
        return repo, self.random.choice(stored if stored and self.random.random() < 0.7 else names)

    def connection(self):
        """The bytes of a connection."""
        stream = b"".join(self.message() for _ in range(self.random.choice([1, 1, 1, 2, 3, 5])))
        for _ in range(self.random.choice([0, 0, 0, 1, 1, 3])):
            stream = self.bent(stream)
        return stream
