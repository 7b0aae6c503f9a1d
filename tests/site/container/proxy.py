"""nginx: what it keeps, how much it takes of one client, and what it replies if the server is away."""
import contextlib
import glob
import os
import re
import shutil
import socket
import struct
import subprocess
import time
from pathlib import Path

from tests.site.container.machine import EXAMPLES, PORT, check, mode_of, must, run, start, stop, token
from tests.site.container.web import CERTIFICATE, KEY, ask, bearer, begun, connect, put, reply_of, spooled
from tests.studio.checks import beside, comes_true
from tests.studio.policy import GAME
from tests.studio.program import LOCKS, content, target

SITE = Path("/etc/nginx/sites-enabled/lfs")
ABSENT = content("0" * 64)
UNREACHABLE = '{"message":"the LFS server is not reachable now; try again in a minute"}'


def set_up_nginx():
    """nginx with the package's site."""
    must("openssl", "req", "-x509", "-newkey", "rsa:2048", "-nodes", "-days", "2", "-subj", "/CN=lfs.example",
         "-addext", "subjectAltName=DNS:lfs.example", "-keyout", KEY, "-out", CERTIFICATE)
    with open("/etc/hosts", "a", encoding="utf-8") as file:
        file.write("127.0.0.1 lfs.example\n")
    shutil.copy(EXAMPLES / "nginx-site", SITE)
    status, text = run("nginx", "-t")
    check(status == 0, "nginx takes the site", text)
    must("systemctl", "restart", "nginx")


def try_no_token():
    """A body is not read before nginx knows that there is a token."""
    own = ask("GET", LOCKS, plain=True)
    for method, rest, length in (("PUT", "content/" + "0" * 64, 200_000_000), ("POST", "objects/batch", 900_000)):
        with begun(method, target(rest), [], length, 100_000) as connection:
            reply = reply_of(connection, 5)
        names = ("content-type", "lfs-authenticate", "content-length")
        same = all(reply.fields.get(it) == own.fields.get(it) for it in names)
        check(reply.status == own.status == 401 and same and reply.body == own.body,
              f"a {method} without a token is answered before its body, as the server itself does: {own.text}", reply)
    with begun("PUT", ABSENT, bearer("0" * 64), 200_000_000, 100_000) as connection:
        reply = reply_of(connection, 5)
    check(reply.status == 401 and "message" in reply.text,
          "a large PUT with a made-up token is answered before its body", reply)
    for field_of, what in ((lambda _: [], "20 unfinished PUTs without a token take no room on nginx's disk"),
                           (bearer, "nor do 20 with made-up tokens")):
        oids = [f"{number:064}" for number in range(20)]
        connections = [begun("PUT", content(oid), field_of(oid), 60_000_000, 4_000_000) for oid in oids]
        found = spooled()
        check(found == 0, what, f"{found} bytes")
        for connection in connections:
            connection.close()
        comes_true(lambda: spooled() == 0)


def try_streams():
    """HTTP/2: how many streams a connection may have, and 60 uploads over one."""
    with connect(protocol="h2") as connection:
        connection.sendall(b"PRI * HTTP/2.0\r\n\r\nSM\r\n\r\n" + b"\0\0\0\4\0\0\0\0\0")
        time.sleep(0.5)
        data = connection.recv(4096)
    settings = data[9:9 + int.from_bytes(data[:3], "big")] if data[3] == 4 else b""
    pairs = dict(struct.iter_unpack(">HI", settings))
    check(pairs.get(3, 0) <= 32, f"an HTTP/2 connection has {pairs.get(3)} streams at a time", pairs)
    Path("/try/large").write_bytes(os.urandom(4_000_000))
    upload = ["-s", "--http2", "--cacert", CERTIFICATE, "--limit-rate", "100k", "-m", "6", "-o", "/dev/null", "-T",
              "/try/large"]
    words = ["curl", "-Z", "--parallel-max", "60"]
    for number in range(60):
        words += [*upload, f"https://lfs.example{content(f'{number:064}')}", "--next"]
    most = 0
    with subprocess.Popen(words[:-1], stdout=subprocess.DEVNULL, stderr=subprocess.DEVNULL) as child:
        while child.poll() is None:
            most = max(most, spooled())
            time.sleep(0.1)
    check(most == 0, "60 uploads over HTTP/2 without a token take no room on nginx's disk", f"{most} bytes")


def hold(texts, count):
    """Begins small uploads with the tokens in turn, and leaves them unfinished. Returns how many were not refused."""
    held, refused = [], []
    for number in range(count):
        word = ("Bearer", "bearer", "BEARER")[number % 3]
        field = [("Authorization", f"{word} {texts[number % len(texts)]}")]
        connection = begun("PUT", content(f"{number:064}"), field, 1000, 500)
        reply = reply_of(connection, 0.3)
        (refused if reply.status else held).append((connection, reply))
    for connection, _ in held + refused:
        connection.close()
    return len(held), [reply for _, reply in refused]


def try_limits():
    """How much one token and one address may do at once."""
    one = token()
    held, refused = hold([one], 24)
    good = refused and all(it.status == 429 and "message" in it.text and "retry-after" in it.fields for it in refused)
    check(8 <= held <= 16 and good, f"one token has {held} requests at a time, and the others are 429 with a message",
          refused[0] if refused else "")
    held, refused = hold([token() for _ in range(10)], 100)
    check(16 < held < 100 and refused and all(it.status == 429 for it in refused),
          f"one address has {held} requests at a time", refused[0] if refused else "")
    check(ask("GET", LOCKS, bearer(one)).status == 200, "and is served again after that")
    held, refused = hold([f"{number:064}" for number in range(100)], 100)
    check(held == 0 and all(it.status == 401 for it in refused), "with made-up tokens it has none",
          [str(it) for it in refused if it.status != 401][:3])


def try_prefix():
    """IPv6: the addresses of one network of 64 bits count together."""
    before = SITE.read_text()
    SITE.write_text(before.replace("    listen 443 ssl http2;\n",
                                   "    listen 443 ssl http2;\n    listen [::]:443 ssl http2;\n"))
    for address in ("fd00:1::1", "fd00:1::2", "fd00:2::1", "fd00:9::9"):
        must("ip", "-6", "address", "add", f"{address}/128", "dev", "lo", "nodad")
    must("systemctl", "restart", "nginx")
    tokens = [token() for _ in range(10)]

    def begin(source, number):
        """A request that is not whole, from this address, and the status that it gets at once."""
        field = bearer(tokens[number % len(tokens)])
        connection = begun("PUT", content(f"{number:064}"), field, 1000, 500, host="fd00:9::9", source=source)
        return connection, reply_of(connection, 0.2).status

    begun_here = [begin(f"fd00:1::{1 + number % 2}", number) for number in range(80)]
    statuses = [status for _, status in begun_here]
    other = begin("fd00:2::1", 99)
    check(16 < statuses.count(0) < 80 and statuses.count(0) + statuses.count(429) == 80 and other[1] == 0,
          f"two IPv6 addresses of one network have {statuses.count(0)} requests together, and another network its own",
          statuses)
    for connection, _ in [*begun_here, other]:
        connection.close()
    SITE.write_text(before)
    must("systemctl", "restart", "nginx")


def try_fields():
    """How many fields a client may send to the server through nginx."""
    text = token()

    def passes(count):
        """Whether a request with this many fields is served."""
        own = bearer(text) + [(f"X-{number}", "x") for number in range(count - 2)]
        return ask("GET", LOCKS, own).status == 200

    most = max((it for it in range(55, 70) if passes(it)), default=0)
    check(most == 63,
          f"a client may send {most} fields, Host among them, since nginx adds Connection to the server's 64")


def try_log():
    """What is in nginx's logs of somebody who sends a token as a name."""
    text = token()
    for where in (LOCKS, ABSENT):
        run("curl", "-s", "--cacert", CERTIFICATE, "-u", f"{text}:x", f"https://lfs.example{where}")
        run("curl", "-s", "--cacert", CERTIFICATE, "-u", f"{text}:x", "-T", "/try/large", f"https://lfs.example{where}")
        ask("GET", where, bearer(text))
    hold([text], 24)
    must("systemctl", "reload", "nginx")
    logs = {file: Path(file).read_text(errors="replace") for file in glob.glob("/var/log/nginx/*")}
    wrong = [file for file, lines in logs.items() if text in lines]
    check(any("/locks" in it for it in logs.values()) and not wrong,
          "no log of nginx has a token that was sent as a user's name", [(file, mode_of(file)) for file in wrong])


def try_given_up():
    """A server that closes the first connection without a reply, as ours does if the request is late."""
    stop()

    def serve(listener):
        """Closes the first connection, and replies on the second."""
        for number in range(2):
            with listener.accept()[0] as connection:
                if number:
                    connection.recv(65536)
                    connection.sendall(b"HTTP/1.0 200 OK\r\nContent-Length: 2\r\n\r\nok")

    with socket.create_server(("127.0.0.1", PORT)) as listener, beside(lambda _: serve(listener)):
        reply = ask("GET", LOCKS, bearer("0" * 64))
        with contextlib.suppress(OSError), socket.create_connection(("127.0.0.1", PORT), timeout=1):
            pass
    check((reply.status, reply.text) == (200, "ok"), "a request whose connection the server gave up is sent once more",
          reply)
    start()


def try_unreachable():
    """The server is away: nginx says so in the form of the server."""
    text = token()
    stop()
    for method, rest, body in (("GET", "locks", b""), ("PUT", "content/" + "0" * 64, b"x" * 1000),
                               ("PUT", "content/" + "0" * 64, b"x" * 300_000), ("POST", "objects/batch", b"{}")):
        reply = ask(method, target(rest), bearer(text), body)
        check((reply.status, reply.text) == (503, UNREACHABLE)
              and reply.fields.get("content-type") == "application/vnd.git-lfs+json",
              f"while the server is down, {method} of {len(body)} bytes is 503 with a message", reply)
    start()


def try_several():
    """Several servers: a path of none of them is a 404."""
    before = SITE.read_text()
    after = re.sub(r"(?m)^    default custody;$", '    "~^/studio/film\\\\.git/" custody;', before)
    if not check(after != before, "the site says how several servers are set up"):
        return
    SITE.write_text(after)
    must("systemctl", "restart", "nginx")
    text = token()
    known = ask("GET", LOCKS, bearer(text))
    others = [ask(method, target(rest, GAME), bearer(text), b"x" * size)
              for method, rest, size in (("GET", "locks", 0), ("PUT", "content/" + "0" * 64, 200_000))]
    check(known.status == 200 and all(it.status == 404 and "H6" in it.text for it in others),
          "with several servers, a path of none of them is 404 with a message", [str(it) for it in others])
    SITE.write_text(before)
    must("systemctl", "restart", "nginx")


def try_full_spool():
    """What clients send has a disk of its own, and that one is full."""
    if not check(Path("/var/spool/custody").is_dir(), "what clients send has a place of its own"):
        return
    text = token()
    must("systemctl", "stop", "nginx")
    must("mount", "-t", "tmpfs", "-o", "size=8m", "tmpfs", "/var/spool/custody")
    must("systemctl", "start", "nginx")
    large = put(text, 20_000_000)
    small = put(text, 200_000)
    check(large.status == 503 and "message" in large.text and small.status == 200,
          "if that place is full, an upload that does not fit is 503, and others are served", [str(large), str(small)])
    must("systemctl", "stop", "nginx")
    must("umount", "/var/spool/custody")
    must("systemctl", "start", "nginx")


def try_locks_page():
    """The page with the locks needs no token, and nothing beside it does without one."""
    reply = ask("GET", "/locks")
    security = reply.fields.get("content-security-policy", "")
    check(reply.status == 200 and security.startswith("default-src 'none'") and "<title>Locks" in reply.text,
          "nginx serves the page with the locks, with a security policy", reply)
    for path in ("/locks/", "/LOCKS", "/locks%0a", "/locks.html", LOCKS):
        check(ask("GET", path).status == 401, f"and {path} needs a token")
