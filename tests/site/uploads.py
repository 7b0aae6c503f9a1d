"""What the suite of the site tries of nginx: whose bodies it keeps, and which requests of objects it passes on."""
import contextlib
import glob
import http.client
import json
import os
import re
import subprocess
from pathlib import Path

from tests.studio.checks import comes_true
from tests.studio.control import token_of
from tests.studio.policy import FILM, GAME, MAIN, WORK, row
from tests.studio.program import content, name_of, target

LARGEST, SENT, SMALL = 4 << 30, 4_000_000, 1_000
# More requests than an address may have at a time.
MADE_UP = 70
# Requests in less than half a minute.
REPEATED = 20
ART, DEEP = "refs/heads/art/new", "refs/heads/art/" + "/".join("abcdefg")
ROWS = (
    row("deny", ["bob"], ["push"], refs=[MAIN]),
    row("deny", ["carl"], [*WORK, "force"]),
    row("allow", ["vera"], ["pull"]),
    row("allow", ["bob"], WORK, refs=[MAIN, "refs/heads/art/"]),
    row("allow", ["ann", "carl"], WORK),
)
# Requests that nginx refuses itself: what is sent after the first line, and the reply.
BAD_HEAD, NO_CODING = (400, "H1: bad request head"), (501, "H2: transfer codings are not served")
TOKEN = f"Host: localhost\r\nAuthorization: Bearer {'0' * 64}\r\n"
WRONG = {
    "no request": ("\x01\r\n", BAD_HEAD),
    "a head without Host": ("GET /a HTTP/1.1\r\n", BAD_HEAD),
    "a long field without a token": (f"GET /a HTTP/1.1\r\nHost: localhost\r\nX: {'x' * 40_000}\r\n", BAD_HEAD),
    "a long target": (f"GET /{'a' * 9_000} HTTP/1.1\r\n{TOKEN}", BAD_HEAD),
    "a long field": (f"GET /a HTTP/1.1\r\n{TOKEN}X: {'x' * 40_000}\r\n", BAD_HEAD),
    "a head with two lengths": (f"POST /a HTTP/1.1\r\n{TOKEN}Content-Length: 1\r\nContent-Length: 2\r\n", BAD_HEAD),
    "a body with a coding": (f"POST /a HTTP/1.1\r\n{TOKEN}Transfer-Encoding: gzip\r\n", NO_CODING),
}
# What a field may have before and after what it says: the server does not look at such spaces and tabs.
SPACES = [*(("", "\t" * it) for it in range(10)), ("\t", ""), ("\t \t", ""), ("", " \t "), ("", "\t" * 300)]
# Nobody may push to the default branch but ann; what is no ref is asked about as that branch.
NO_REFS = ("refs/heads/a..b", "refs/heads/a b", "refs//main", "main", "refs/heads/" + "a" * 300, DEEP + "/h", '"}}')


def where_of(ref=None, oid="0" * 64, repo=FILM):
    """The target of an upload to a ref."""
    return content(oid, repo) + (f"?ref={ref.replace('/', '%2F').replace(' ', '+')}" if ref else "")


def spooled(site):
    """How many bytes the site's nginx keeps in temporary files, which have no names any more."""
    master, total = site.children[0].pid, 0
    workers = Path(f"/proc/{master}/task/{master}/children").read_text(encoding="utf-8").split()
    for file in (it for number in workers for it in glob.glob(f"/proc/{number}/fd/*")):
        with contextlib.suppress(OSError):
            if os.readlink(file).endswith(" (deleted)"):
                total += os.stat(file).st_size
    return total


class Begun:
    """A request that announces the largest body and sends a piece of it, with the reply that comes in 3 seconds."""

    def __init__(self, site, method, where, token, length=LARGEST):
        self.connection, self.status, self.text, self.fields = site.connect(timeout=3), 0, "", {}
        self.connection.putrequest(method, where)
        for name, value in (("Authorization", f"Bearer {token}"), ("Content-Length", str(length))):
            self.connection.putheader(name, value)
        with contextlib.suppress(OSError):
            self.connection.endheaders()
            self.connection.send(b"x" * min(SENT, length))
        with contextlib.suppress(OSError, http.client.HTTPException):
            reply = self.connection.getresponse()
            self.status, self.text, self.fields = reply.status, reply.read().decode(), reply.headers

    def close(self):
        """Gives the request up."""
        self.connection.close()


def try_kept(site, what, status, begun):
    """Requests that are not whole get this reply in JSON, and nginx keeps nothing of them."""
    kept, found = spooled(site), {it.status for it in begun}
    for it in begun:
        it.close()
    comes_true(lambda: spooled(site) == 0)
    site.expect(found == {status} and kept == 0 and all('{"message":' in it.text for it in begun),
                f"{what}: {len(begun)} of 4 GiB are {status}, and nothing of them is kept",
                f"{found}, {kept} bytes kept, {begun[0].text}")


def try_refused(site):
    """Uploads of those who may not push."""
    tokens = {user: site.server.token(user=user) for user in ("ann", "bob", "carl", "vera", "dora")}
    for user, what in (("dora", "whom no row names"), ("carl", "whom the first row denies all"),
                       ("vera", "who may read alone"), ("bob", "who may push to another branch")):
        begun = [Begun(site, "PUT", where_of(MAIN), tokens[user]) for _ in range(5)]
        try_kept(site, f"uploads of somebody {what}", 403, begun)
    begun = [Begun(site, "PUT", where_of(ref), tokens["bob"]) for ref in NO_REFS]
    try_kept(site, "uploads to what is no ref, or of too many parts, of somebody who may not push to the default", 403,
             begun)
    reading = token_of(site.server.line("ann", "download"))
    try_kept(site, "uploads with a token to read", 403, [Begun(site, "PUT", where_of(MAIN), reading)])
    try_kept(site, "uploads to another repository", 404, [Begun(site, "PUT", where_of(MAIN, repo=GAME), tokens["ann"])])
    try_kept(site, "uploads with a made-up token", 401, [Begun(site, "PUT", where_of(MAIN), "0" * 64)])


def try_methods(site):
    """Methods that objects have not, and downloads with a body."""
    token = site.server.token()
    for method in ("POST", "DELETE", "PATCH", "PROPFIND"):
        begun = Begun(site, method, where_of(MAIN), token)
        site.expect(begun.fields.get("Allow") == "GET, PUT", f"the reply to {method} has the methods that there are")
        try_kept(site, f"requests of the method {method}", 405, [begun])
    try_kept(site, "downloads with a body", 413, [Begun(site, "GET", where_of(), token)])
    small = Begun(site, "GET", where_of(), token, 10)
    site.expect(small.status == 400 and "H4" in small.text, "with a small one the server refuses them", small.text)
    words = ["curl", "-s", "--http2", "--cacert", site.certificate, "-X", "GET", "-T", "-", "-m", "5", "-w",
             "%{http_version} %{http_code}", "-o", "/dev/null", "-H", f"Authorization: Bearer {token}",
             f"{site.server.base}{where_of()}"]
    with subprocess.Popen(words, stdin=subprocess.PIPE, stdout=subprocess.PIPE) as child:
        with contextlib.suppress(OSError):
            child.stdin.write(b"x" * SENT)
            child.stdin.flush()
        kept = spooled(site)
        with contextlib.suppress(OSError):
            child.stdin.close()
        found = child.stdout.read().decode()
    site.expect(found == "2 413" and kept == 0, "so over HTTP/2, where the body has no length", f"{found}, {kept}")


def ask(site, method, where, token, body=None):
    """The status, the body and the fields of the reply to a whole request."""
    with contextlib.closing(site.connect()) as connection:
        connection.request(method, where, body, {"Authorization": f"Bearer {token}"})
        reply = connection.getresponse()
        return reply.status, reply.read(), reply.headers


def try_passed(site):
    """Uploads of those who may push, and downloads."""
    tokens = {user: site.server.token(user=user) for user in ("ann", "bob", "vera")}
    data = os.urandom(300_000)
    for user, ref in (("bob", ART), ("bob", DEEP), ("bob", "refs/heads/art/a"), ("ann", MAIN), ("ann", None),
                      ("ann", DEEP + "/h"), ("ann", "refs/x")):
        found = ask(site, "PUT", where_of(ref, name_of(data)), tokens[user], data)
        site.expect(found[0] == 200, f"a large upload of {user} to {ref} is stored", found)
    plain = content(name_of(data)) + f"?ref={ART}"
    site.expect(ask(site, "PUT", plain, tokens["bob"], data)[0] == 200, "also if the ref is not encoded")
    status, text, _ = ask(site, "PUT", where_of("refs/heads/a..b", name_of(data)), tokens["ann"], data)
    site.expect(status == 422 and b"J2" in text, "what is no ref is the server's to refuse", text)
    status, text, _ = ask(site, "PUT", where_of(MAIN), tokens["vera"], b"x" * SMALL)
    site.expect(status == 403 and b"P0" in text, "a small upload is refused by the server, with its rule", text)
    found = ask(site, "GET", content(name_of(data)), tokens["vera"])
    site.expect(found[:2] == (200, data), "who may read alone downloads it", found[0])
    status, text = site.run("curl", "-s", "--http2", "--cacert", site.certificate, "-o", f"{site.room}/downloaded",
                            "-w", "%{http_version} %{http_code}", "-H", f"Authorization: Bearer {tokens['vera']}",
                            site.server.base + content(name_of(data)), may_fail=True)
    site.expect(text == "2 200" and Path(site.room, "downloaded").read_bytes() == data, "also over HTTP/2", text)


def try_fields(site):
    """What a reply says of nginx, and to browsers."""
    token = site.server.token()
    replies = {where: ask(site, "GET", where, token)
               for where in ("/locks", "/none", target("locks"), content("0" * 64))}
    replies |= {"no token": ask(site, "GET", target("locks"), ""), "HEAD": ask(site, "HEAD", content("0" * 64), token)}
    wrong = {where: dict(fields) for where, (_, _, fields) in replies.items()
             if fields.get("Server") != "nginx" or "max-age" not in fields.get("Strict-Transport-Security", "")}
    site.expect(not wrong, "no reply has nginx's version, and each asks browsers to use TLS alone", wrong)


def begin(site, kept, number, field, method="PUT", rest="content/"):
    """Begins a small request, and leaves it unfinished. Returns the status of the reply that comes at once, if any."""
    connection = kept.enter_context(contextlib.closing(site.connect(timeout=0.5)))
    connection.connect()
    where = target(f"{rest}{number:064}" if rest.endswith("/") else rest)
    fields = ("Host: localhost", f"Content-Length: {SMALL}", f"Authorization:{field}")
    head = (f"{method} {where} HTTP/1.1", *fields, "", "x")
    connection.sock.sendall("\r\n".join(head).encode())
    with contextlib.suppress(OSError):
        return int(connection.sock.recv(100).split()[1])
    return None


def try_spellings(site):
    """However the field of a token is written, the token has 10 requests at a time, and no log has it."""
    token = site.server.token()
    with contextlib.ExitStack() as kept:
        found = [begin(site, kept, number, f"{before} Bearer {token}{after}")
                 for number, (before, after) in enumerate(SPACES)]
    refused = found.count(429)
    site.expect(refused == len(SPACES) - 10 and found.count(None) == 10,
                f"of {len(SPACES)} requests with a token in as many spellings, {refused} are 429", found)
    logs = [it.name for it in Path(site.room).glob("*.log") if token in it.read_text(encoding="utf-8")]
    site.expect(not logs, "and no log of nginx has the token", logs)


def try_made_up(site):
    """Whoever makes tokens up, and never ends a request, keeps nobody of the same address from being served."""
    token, data = site.server.token(), os.urandom(SMALL)
    kinds = (("PUT", "content/"), ("POST", "objects/batch"), ("POST", "locks"), ("GET", "locks"), ("GET", "content/"))
    with contextlib.ExitStack() as kept:
        found = [begin(site, kept, number, f" Bearer {number:064x}", *kinds[number % len(kinds)])
                 for number in range(MADE_UP)]
        served = [ask(site, "GET", target("locks"), token)[0], ask(site, "PUT", content(name_of(data)), token, data)[0]]
    site.expect(served == [200, 200], f"beside {MADE_UP} requests with made-up tokens, which are not whole, a request "
                "and an upload with a token are served", served)
    site.expect(set(found) == {401}, "and none of these waits for its body", found)


def replies(site):
    """How many replies the server has written."""
    return int(re.search(r"^custody_replies_total (\d+)$", site.via("status")[1], re.M)[1])


def try_answers(site):
    """What the server says of a token is kept for half a minute, and not on the disk."""
    token, data, before = site.server.token(), os.urandom(SMALL), replies(site)
    found = {ask(site, "PUT", content(name_of(data)), token, data)[0] for _ in range(REPEATED)}
    count = replies(site) - before
    site.expect(found == {200} and count == REPEATED + 1, f"for {REPEATED} uploads the server is asked {count} times",
                found)
    files = [str(it) for it in Path(site.room, "spool/known").rglob("*")]
    site.expect(not files, "no file has the answer", files)


def try_wrong(site):
    """What nginx itself refuses gets a reply in the form of the server's."""
    for what, (head, wanted) in WRONG.items():
        with contextlib.closing(site.connect(timeout=10)) as connection:
            connection.connect()
            with contextlib.suppress(OSError):
                connection.sock.sendall(f"{head}\r\n".encode())
            reply = http.client.HTTPResponse(connection.sock)
            reply.begin()
            found, kind = (reply.status, reply.read().decode()), reply.headers.get("Content-Type")
        site.expect(found == (wanted[0], json.dumps({"message": wanted[1]}, separators=(",", ":")))
                    and kind == "application/vnd.git-lfs+json", f"{what} is {wanted[0]}, {wanted[1]}", found)
    for where in ("/-/malformed", "/-/granted"):
        found = ask(site, "GET", where, "0" * 64)
        site.expect(found[0] == 404, f"{where} is no target", found)


def try_uploads(site):
    """Uploads under a policy of their own."""
    site.change_policy(rows=ROWS)
    for part in (try_refused, try_methods, try_passed, try_fields, try_wrong, try_spellings,
                 try_made_up, try_answers):
        part(site)
    site.change_policy()
