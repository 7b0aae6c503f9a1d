"""Requests to nginx, and to the server itself, of which not each is whole."""
import contextlib
import glob
import http.client
import os
import socket
import ssl
from dataclasses import dataclass, field
from email.message import Message

from tests.site.container.machine import PORT, run
from tests.studio.program import content, name_of

CERTIFICATE, KEY = "/etc/ssl/certs/lfs.example.pem", "/etc/ssl/private/lfs.example.key"


@dataclass
class Reply:
    """The status, the fields and the body of a reply. The status is 0 if none has come."""

    status: int = 0
    fields: Message = field(default_factory=Message)
    body: bytes = b""

    @property
    def text(self):
        """The body, as a text."""
        return self.body.decode("utf-8", "replace")

    def __str__(self):
        return f"{self.status} {self.fields.items()} {self.text[:300]}"


def connect(plain=False, protocol="http/1.1", host="127.0.0.1", source=None):
    """A connection to nginx, or to the server itself."""
    raw = socket.create_connection((host, PORT if plain else 443), timeout=20, source_address=source and (source, 0))
    if plain:
        return raw
    context = ssl.create_default_context(cafile=CERTIFICATE)
    context.set_alpn_protocols([protocol])
    return context.wrap_socket(raw, server_hostname="lfs.example")


def head_of(method, where, fields):
    """The head of a request, with these fields alone."""
    lines = [f"{method} {where} HTTP/1.1", "Host: lfs.example", *(f"{name}: {value}" for name, value in fields)]
    return ("\r\n".join(lines) + "\r\n\r\n").encode("latin-1")


def reply_of(connection, seconds=20):
    """Reads one reply, or what of it comes in time."""
    connection.settimeout(seconds)
    found, reply = Reply(), http.client.HTTPResponse(connection)
    with contextlib.suppress(OSError, http.client.HTTPException):
        reply.begin()
        found = Reply(reply.status, reply.headers)
        found.body = reply.read()
    return found


def ask(method, where, fields=(), body=b"", plain=False, seconds=60):
    """One request, whole, and its reply."""
    with connect(plain) as connection:
        length = [("Content-Length", len(body))] if method in ("PUT", "POST") else []
        with contextlib.suppress(OSError):
            connection.sendall(head_of(method, where, [*fields, *length]) + body)
        return reply_of(connection, seconds)


def bearer(text):
    """The field of a token."""
    return [("Authorization", f"Bearer {text}")]


def begun(method, where, fields, length, sent, **more):
    """A connection on which a request of this length has begun, with as much of its body as nginx takes of `sent`."""
    connection = connect(**more)
    connection.sendall(head_of(method, where, [*fields, ("Content-Length", length)]))
    connection.settimeout(2)
    with contextlib.suppress(OSError):
        connection.sendall(b"x" * sent)
    return connection


def spooled():
    """How many bytes nginx keeps in temporary files, which have no names any more."""
    total = 0
    for number in run("pgrep", "nginx")[1].split():
        for file in glob.glob(f"/proc/{number}/fd/*"):
            with contextlib.suppress(OSError):
                if os.readlink(file).endswith(" (deleted)"):
                    total += os.stat(file).st_size
    return total


def put(text, size, plain=False):
    """The reply to an upload of random bytes with this token."""
    data = os.urandom(size)
    return ask("PUT", content(name_of(data)), bearer(text), data, plain, 300)
