"""What costs others something: wrong uploads, locks and tokens without number, and a full disk."""
import contextlib
import os
import pwd
import sqlite3
import tempfile
import threading
import time

from tests.site.container.keys import over_ssh
from tests.site.container.machine import check, database, measured, must, run, serving, start, stop, token, via
from tests.site.container.web import ask, bearer, connect, head_of, put, reply_of
from tests.studio.checks import beside, comes_true, require
from tests.studio.control import issue_words
from tests.studio.program import LOCKS, content, lock, name_of
from tests.studio.tables import copied


def upload_wrong(text, size, results, begun):
    """Uploads bytes under a name that they do not have, half of them before all others have begun, and notes the
    status."""
    with connect() as connection:
        half = b"x" * (size // 2)
        with contextlib.suppress(OSError):
            connection.sendall(head_of("PUT", content("0" * 64), [*bearer(text), ("Content-Length", size)]) + half)
        begun.wait()
        with contextlib.suppress(OSError):
            connection.sendall(half)
        results.append(reply_of(connection, 600).status)


def try_wrong_names(count=24, size=32_000_000):
    """Uploads of wrong bytes with one token, and how long another user waits meanwhile."""
    bad, good = token("ann"), token("bob")
    results, waits = [], []
    began = time.monotonic()
    begun = threading.Barrier(count)
    with beside(*[lambda _: upload_wrong(bad, size, results, begun)] * count) as threads:
        while any(it.is_alive() for it in threads):
            asked = time.monotonic()
            reply = ask("GET", LOCKS, bearer(good), seconds=600)
            waits.append(time.monotonic() - asked if reply.status == 200 else 10_000)
            time.sleep(0.1)
    served = results.count(422)
    check(served <= 16 and served + results.count(429) == count and waits and max(waits) < 10_000,
          f"of {count} uploads of {size // 1_000_000} MB under a wrong name with one token at once, {served} were "
          "taken", results)
    taken = time.monotonic() - began
    measured(f"they took {taken:.1f} s; another user waited {max(waits):.1f} s at most, of {len(waits)} requests")
    _, out = via("sweep")
    check(out.strip() == "swept 0 uploads", "and nothing of their bytes is kept", out)


def pages():
    """How many bytes the pages of the database that are used have, its log included."""
    names = ("page_count", "freelist_count", "page_size")
    with (tempfile.TemporaryDirectory() as folder,
          contextlib.closing(sqlite3.connect(copied(database(), folder))) as opened):
        count, free, size = (opened.execute(f"PRAGMA {it}").fetchone()[0] for it in names)
        return (count - free) * size


def make_locks(text, count, length):
    """Makes locks on paths of this length, over one connection to the server."""
    with connect(plain=True) as connection:
        for number in range(count):
            connection.sendall(lock(f"{number:0{length}}", text))
            reply = reply_of(connection)
            require(reply.status == 201, f"a lock was not made: {reply}")


def measure_growth():
    """What locks and tokens cost, for which there is no quota."""
    text = token()
    for length in (24, 1024):
        before, began = pages(), time.monotonic()
        make_locks(text, 2000, length)
        taken = time.monotonic() - began
        measured(f"a lock with a path of {length} bytes takes {(pages() - before) / 2000:.0f} bytes; "
                 f"{2000 / taken:.0f} a second")
    before, began = pages(), time.monotonic()
    for _ in range(500):
        token()
    taken = time.monotonic() - began
    measured(f"a token takes {(pages() - before) / 500:.0f} bytes; {500 / taken:.0f} a second by the control socket")
    began = time.monotonic()
    for _ in range(20):
        over_ssh("ann", "git-lfs-authenticate studio/film.git upload")
    measured(f"{20 / (time.monotonic() - began):.1f} a second over SSH, one connection after the other")


def try_more_room(folder, size):
    """The disk is filled once more, and then has this many MiB."""
    text = token()
    while put(text, 40_000_000, plain=True).status == 200:
        pass
    _, out = via("sweep")
    check("store G2" in out, "an upload that fills the disk once more is kept, since removing it needs room", out)
    must("mount", "-o", f"remount,size={size}m", folder)
    reply = ask("GET", LOCKS, bearer(text), plain=True)
    _, out = via("sweep")
    check(reply.status == 200 and out.strip() == "swept 0 uploads",
          "with more room, it is removed before the next connection", out)
    _, lines = run("journalctl", "-u", "custody", "-o", "cat")
    check(any(line.endswith(" StoreRefused") for line in lines.splitlines()), "and the journal has a line for each S1")


def try_full_disk(size=400):
    """A disk of this many MiB is filled by an upload, and is cleared again."""
    folder = database().parent
    stop()
    must("mount", "-t", "tmpfs", "-o", f"size={size}m,mode=0700,uid={pwd.getpwnam('custody').pw_uid}", "tmpfs", folder)
    check(start(), "the server starts with a database on a disk of its own")
    text = token()
    data = os.urandom(1_000_000)
    last = name_of(data)
    stored = [ask("PUT", content(last), bearer(text), data, plain=True).status]
    while stored[-1] == 200:
        stored.append(put(text, 40_000_000, plain=True).status)
    measured(f"{len(stored) - 2} objects of 40 MB were stored, and the next one was {stored[-1]}")
    for word in ("sweep", "prune"):
        measured(f"custody {word} on the full disk: {via(word)}")
    run("systemctl", "restart", "custody")
    comes_true(serving)
    measured(f"after a restart, authenticate ends with {via(*issue_words())[0]}")
    reply = ask("GET", content(last), bearer(text), plain=True)
    check(reply.status == 200 and name_of(reply.body) == last,
          "on a full disk, objects can be fetched")
    began = time.monotonic()
    status, out = run("sh", "-c", "/usr/lib/custody/spare sweep")
    check(status == 0 and "swept" in out,
          f"a full disk is cleared: {out.strip()}, in {time.monotonic() - began:.1f} s", out)
    status, out = via(*issue_words())
    check(status == 0, "and users get tokens again", out)
    spare = folder / "spare"
    check(spare.exists() and spare.stat().st_size > 5_000_000, "the spare file is there again",
          f"{spare.stat().st_size if spare.exists() else 0} bytes")
    body = b'{"path":"art/full.psd"}'
    check(status == 0 and ask("POST", LOCKS, bearer(text), body, plain=True).status == 201, "and lock paths")
    status, out = via("check")
    check(status == 0 and out.strip() == f"checked {len(stored) - 1} objects",
          "and each object that was stored is whole", out)
    try_more_room(folder, size + 20)
    stop()
    must("umount", folder)
    start()
