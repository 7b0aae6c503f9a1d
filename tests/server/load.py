"""Tries `custody serve` under the load of many clients, through nginx and without it.

Each client has a user, a token and an address of its own (127.0.1.1 and so on), and pushes, pulls and locks in turn
without a pause: a batch with an upload and its verification, a batch with a download, and a lock that is made, listed,
verified and released. 200 of them use nginx with deploy/nginx/site, over TLS and one connection each; 50 use the server
itself, with a connection for each push, pull or lock. Every reply has to be the right one, and the memory of the server
may not grow: its highest in the last fifth of the time is at most 8 MiB more than in the second fifth. No connection
may break off. Each check is tried over a database of each form.

Each check prints one line: the requests, those that were refused with the status, the waits, the memory, how far the
queue of the server's port was filled, and the kernel's counters of connections that found it full, which count those
of other programs on this machine too.
"""
import collections
import json
import multiprocessing
import random
import re
import subprocess
import sys
import tempfile
import time
from pathlib import Path

from tests.studio.checks import Checks, arguments, beside, judge_forms, require
from tests.studio.policy import WORK, row
from tests.studio.program import memory_of, name_of, target
from tests.studio.site import Site, connection_to

ROWS = (row("allow", ["*"], WORK),)
SIZES = [0, 100, 1_000, 5_000, 5_000, 20_000, 20_000, 70_000, 150_000]
PROCESSES = 4
GROWTH = 8192
COUNTERS = ["ListenOverflows", "ListenDrops", "TCPReqQFullDrop", "TCPSynRetrans"]


class Refused(Exception):
    """A reply with a status that the server does not give here; its text is the status."""


class User:
    """A client, which knows what it stored."""

    def __init__(self, number, token, connect, keeps):
        self.name, self.token, self.connect, self.keeps = f"user-{number}", token, connect, keeps
        self.address = f"127.0.1.{number + 1}"
        self.random = random.Random(number)
        self.connection, self.stored, self.count = None, [], 0
        self.times, self.refused, self.faults = collections.defaultdict(list), collections.Counter(), []

    def ask(self, name, method, rest, body=None, data=None, want=200):
        """The body of the reply, which has to have the status that is wanted."""
        if body is not None:
            data = json.dumps(body).encode()
        begun = time.monotonic()
        if self.connection is None:
            self.connection = self.connect(self.address)
        self.connection.request(method, target(rest), data, {"Authorization": f"Bearer {self.token}"})
        reply = self.connection.getresponse()
        text = reply.read()
        self.times[name].append(time.monotonic() - begun)
        if reply.status in (429, 500, 502, 503, 504):
            raise Refused(str(reply.status))
        require(reply.status == want, f"{name} got {reply.status}: {text[:200]!r}")
        return json.loads(text) if name != "get" and text else text

    def batch(self, operation, oid, size):
        """The actions of a batch with one object."""
        body = {"operation": operation, "objects": [{"oid": oid, "size": size}]}
        found = self.ask("batch", "POST", "objects/batch", body)["objects"]
        require(len(found) == 1 and (found[0]["oid"], found[0]["size"]) == (oid, size), f"a batch got {found}")
        return found[0]["actions"]

    def push(self):
        """A batch, an upload and its verification."""
        self.count += 1
        data = self.random.randbytes(self.random.choice(SIZES)) + f"{self.name} {self.count}".encode()
        oid = name_of(data)
        require(set(self.batch("upload", oid, len(data))) == {"upload", "verify"}, "a batch lacks an action")
        require(self.ask("put", "PUT", f"content/{oid}", data=data) == b"", "an upload got a body")
        self.ask("verify", "POST", "verify", {"oid": oid, "size": len(data)})
        self.stored = [*self.stored[-20:], (oid, data)]

    def pull(self):
        """A batch and a download of something that was stored."""
        if not self.stored:
            return
        oid, data = self.random.choice(self.stored)
        require(set(self.batch("download", oid, len(data))) == {"download"}, "a batch lacks the action")
        require(self.ask("get", "GET", f"content/{oid}") == data, "a download has other bytes")

    def lock(self):
        """A lock that is made, listed, verified and released."""
        self.count += 1
        path = f"{self.name}/{self.count}.psd"
        made = self.ask("lock", "POST", "locks", {"path": path}, want=201)["lock"]
        require((made["path"], made["owner"]["name"]) == (path, self.name), f"a lock is {made}")
        listed = self.ask("list", "GET", f"locks?path={path.replace('/', '%2F')}")
        require(listed == {"locks": [made]}, f"a list is {listed}, and not of {made}")
        found = self.ask("verify locks", "POST", "locks/verify", {})
        owners = [{it["owner"]["name"] for it in found[side]} for side in ("ours", "theirs")]
        require(owners[0] <= {self.name} and self.name not in owners[1], f"locks are split as {owners}")
        gone = self.ask("unlock", "POST", f"locks/{made['id']}/unlock", {})
        require(gone == {"lock": made}, f"an unlock got {gone}, and not {made}")

    def close(self):
        """Closes the connection, if there is one."""
        if self.connection:
            self.connection.close()
        self.connection = None

    def act(self):
        """A push, a pull or a lock."""
        try:
            self.random.choice([self.push, self.push, self.pull, self.pull, self.lock])()
        except Refused as refused:
            self.refused[str(refused)] += 1
        except Exception as fault:  # Whatever is wrong with a reply is a failure of the check.
            self.faults.append(f"{type(fault).__name__} {fault}")
            self.close()
        if not self.keeps:
            self.close()

    def run(self, end):
        """Acts until the moment."""
        while time.monotonic() < end:
            self.act()
        self.close()


def work(users, end, results):
    """Runs users, each in a thread, and adds what they measured."""
    with beside(*(lambda _, user=user: user.run(end) for user in users)):
        pass
    results.put([(dict(user.times), user.refused, user.faults) for user in users])


def memory_with_children(process):
    """The resident memory of a process and of its children, in KiB."""
    children = Path(f"/proc/{process}/task/{process}/children").read_text().split()
    return memory_of(process) + sum(map(memory_with_children, children))


def queue_of(port):
    """How many connections wait at the port, and for how many it has room."""
    ran = subprocess.run(["ss", "-ltnH", f"sport = :{port}"], capture_output=True, text=True, check=True)
    return tuple(map(int, ran.stdout.split()[1:3]))


def counters():
    """The counters of the kernel."""
    lines = [line.split() for line in Path("/proc/net/netstat").read_text().splitlines()]
    found = dict(zip(lines[0][1:], map(int, lines[1][1:])))
    return {name: found[name] for name in COUNTERS}


class Watch:
    """The memory and the queue, which are read each second."""

    def __init__(self, site):
        self.site = site
        self.memory, self.proxy, self.queue, self.room = [], [], [], 0
        self.before = counters()

    def run(self, is_over):
        """Reads until the event."""
        while not is_over.wait(1):
            self.memory.append(self.site.server.memory())
            self.proxy += [memory_with_children(child.pid) for child in self.site.children]
            waiting, self.room = queue_of(self.site.server.port)
            self.queue.append(waiting)

    def says(self):
        """The queue and the counters, as a text."""
        after = counters()
        counted = ", ".join(f"{name} {after[name] - self.before[name]}" for name in COUNTERS)
        return f"at most {max(self.queue)} waited at the port with room for {self.room}; {counted}"

    def growth(self):
        """The memory in the second fifth and in the last one."""
        fifth = max(len(self.memory) // 5, 1)
        return max(self.memory[fifth : 2 * fifth]), max(self.memory[-fifth:])


def load(site, connect, keeps, count, seconds):
    """What each of the users measured, and the watch."""
    users = [User(number, site.server.token(user=f"user-{number}"), connect, keeps) for number in range(count)]
    results, watch = multiprocessing.Queue(), Watch(site)
    end = time.monotonic() + seconds
    parts = [users[it::PROCESSES] for it in range(PROCESSES)]
    workers = [multiprocessing.Process(target=work, args=(part, end, results)) for part in parts]
    for worker in workers:
        worker.start()
    with beside(watch.run):
        found = [it for _ in workers for it in results.get()]
    for worker in workers:
        worker.join()
    return found, watch


def proxy_says(site):
    """What nginx logged: the statuses that are not the server's, and its errors, without numbers and addresses."""
    log = Path(site.room, "custody.access.log")
    statuses = collections.Counter(re.findall(r'" (\d{3}) \d+ \d+ [\d.]+ "', log.read_text()))
    errors = re.findall(r"\*\d+ (.*?)(?: while|,)", Path(site.room, "custody.error.log").read_text())
    return statuses, collections.Counter(errors)


def names_of(counter):
    """What was counted, as a text."""
    return ", ".join(f"{count} of {name}" for name, count in counter.most_common()) or "none"


def report(site, found, watch):
    """The line of a check. Requires what the check promises."""
    times = collections.defaultdict(list)
    refused, faults = collections.Counter(), []
    for theirs, theirs_refused, theirs_faults in found:
        for name, some in theirs.items():
            times[name] += some
        refused, faults = refused + theirs_refused, faults + theirs_faults
    waits = sorted(wait for some in times.values() for wait in some)
    (early, late), total = watch.growth(), len(waits)
    counted = ", ".join(f"{len(times[name])} {name}" for name in sorted(times))
    parts = [
        f"{len(found)} clients, {total} requests ({counted}): {len(faults)} failed, refused: {names_of(refused)}",
        f"waits: median {waits[total // 2] * 1e3:.0f} ms, one of 100 longer than {waits[total * 99 // 100]:.2f} s, "
        f"longest {waits[-1]:.2f} s",
        f"memory {early} KiB, later {late} KiB (at most {GROWTH} more)",
        watch.says(),
    ]
    if site.children:
        statuses, errors = proxy_says(site)
        parts.append(f"nginx: at most {max(watch.proxy)} KiB, errors: {names_of(errors)}")
        if sum(statuses.values()) != total:
            faults.append(f"nginx logged {sum(statuses.values())} requests: {names_of(statuses)}")
    errors = re.findall(r"[A-Z]\w+Failed|StoreRefused|custody: [a-z].*", site.server.errors())
    parts.append(f"the server reported: {names_of(collections.Counter(errors))}")
    text = "; ".join(parts)
    require(not faults, f"{text}; failures: {faults[:5]}")
    require(not refused, f"{text}; requests were refused")
    require(late <= early + GROWTH, f"{text}; the memory grew")
    return text


def check(options, form, count, with_proxy):
    """Many clients for the time that is asked for."""
    with tempfile.TemporaryDirectory() as room, Site(options.program, room, ROWS, Checks(), form=form) as site:
        if with_proxy:
            site.start_nginx()
        port, certificate = (site.https, site.certificate) if with_proxy else (site.server.port, None)
        return report(site, *load(site, lambda source: connection_to(port, certificate, source), with_proxy, count,
                                  options.seconds))


# The clients, and whether they use nginx.
CHECKS = {
    "through-nginx": (200, True),
    "without-nginx": (50, False),
}


def main():
    """Runs the suite."""
    parser = arguments(__doc__, CHECKS, forms=True)
    parser.add_argument("--seconds", type=int, default=60, help="for how long, each check")
    options = parser.parse_args()
    multiprocessing.set_start_method("fork")
    return judge_forms(CHECKS, options, lambda name, form: check(options, form, *CHECKS[name]))


if __name__ == "__main__":
    sys.exit(main())
