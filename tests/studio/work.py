"""Requests and commands of one user in a repository of its own, and what of them was acknowledged.

Each act is a request or a command by the control socket, whose reply has to be the right one, or a refusal of the store
where one is allowed. After a kill the one request that got no reply may have been carried out or not; whatever else is
stored has to be what was acknowledged.
"""
import collections
import json
import random
import re
import time
from dataclasses import dataclass, field, replace

from tests.studio.checks import require
from tests.studio.control import issue_words, token_of
from tests.studio.policy import FILM, MAIN
from tests.studio.program import NOW, message, name_of, target

SIZES = [0, 1, 5_000, 65_536, 65_537, 300_000, 1_000_000]
# What a request and a command get if the store refuses.
REFUSED = (500, b'{"message":"S1: the store refused"}')
COMMAND_REFUSED = (1, "custody: store G2\n")
NO_REPLY = (1, "custody: control socket\n")
# What a check or a repair gets while one of another user runs, and for how many seconds it is tried again.
BUSY, PATIENCE = (1, "", "custody: another check or repair runs\n"), 30
ABSENT = "0" * 64
WRITES = ["upload", "lock", "unlock", "authenticate", "retire"]
# These write only if there is something to remove.
REMOVALS = ["sweep", "prune"]
REQUESTS = ["upload", "lock", "unlock", "get", "verify_object", "batch", "list_locks", "verify_locks"]
COMMANDS = ["authenticate", "retire", "sweep", "prune", "print_locks", "print_objects", "check", "repair", "pushcheck",
            "foresee"]


class Killed(Exception):
    """The server was killed within a request."""


@dataclass(frozen=True)
class Stored:
    """What is stored after some acts. None of its parts is changed: an act makes another."""

    # The bytes of the objects and of those that were removed for good, by name; the ids of the locks, by path.
    objects: dict = field(default_factory=dict)
    retired: dict = field(default_factory=dict)
    locks: dict = field(default_factory=dict)
    released: frozenset = frozenset()
    # How many locks were made.
    made: int = 0
    # Tokens that are valid and that have expired, and those that are not stored: pruned, or refused once printed.
    tokens: frozenset = frozenset()
    expired: frozenset = frozenset()
    gone: frozenset = frozenset()

    def with_object(self, oid, data):
        """After an upload."""
        return replace(self, objects={**self.objects, oid: data})

    def without_object(self, oid):
        """After a removal for good."""
        rest = {name: data for name, data in self.objects.items() if name != oid}
        return replace(self, objects=rest, retired={**self.retired, oid: self.objects[oid]})

    def with_lock(self, path):
        """After a lock."""
        return replace(self, made=self.made + 1, locks={**self.locks, path: self.made + 1})

    def without_lock(self, path):
        """After an unlock."""
        rest = {other: number for other, number in self.locks.items() if other != path}
        return replace(self, locks=rest, released=self.released | {self.locks[path]})

    def pruned(self):
        """After the removal of the tokens that have expired."""
        return replace(self, expired=frozenset(), gone=self.gone | self.expired)

    def lists(self):
        """The sizes of the objects by name, and the ids of the locks by path."""
        return {oid: len(data) for oid, data in self.objects.items()}, self.locks


class Work:
    """The acts of ann in a repository, one after the other."""

    def __init__(self, server, seed, repo=FILM, token="a", sizes=SIZES):
        self.server, self.repo, self.token, self.sizes = server, repo, token, sizes
        self.random = random.Random(seed)
        # What is stored, and what is if the request that got no reply was carried out.
        self.stored, self.unknown = Stored(), None
        self.is_killed, self.may_refuse = False, False
        self.done, self.refused = collections.Counter(), collections.Counter()

    def ask(self, method, rest, body=None, after=None, token=None):
        """The reply, or None for a refusal. `after` is what is stored if it is granted."""
        self.unknown = after
        try:
            reply = self.server.ask(message(method, target(rest, self.repo), body, token or self.token))
        except OSError as fault:
            if not self.is_killed:
                raise
            raise Killed() from fault
        self.unknown = None
        return None if self.may_refuse and reply == REFUSED else reply

    def command(self, *words, given=b"", want=0, after=None):
        """What the command prints, or None for a refusal."""
        self.unknown, until = after, time.monotonic() + PATIENCE
        while (ran := self.server.via(*words, given=given)) == BUSY and time.monotonic() < until:
            time.sleep(0.001)
        # What a command has printed before its server is killed says nothing of whether it was done.
        if (ran[0], ran[2]) == NO_REPLY and self.is_killed:
            raise Killed()
        self.unknown = None
        if self.may_refuse and (ran[0], ran[2]) == COMMAND_REFUSED:
            # A token's line is written before the token is stored.
            require(not ran[1] or words[0] == "authenticate", f"{words[0]} gave {ran}")
            lost = {token_of(ran[1])} if ran[1] else set()
            self.stored = replace(self.stored, gone=self.stored.gone | lost)
            return None
        require(ran[0] == want and not ran[2], f"{words[0]} gave {ran}")
        return ran[1]

    def granted(self, reply, after):
        """Whether there is a reply. If so, what is stored has changed."""
        if reply is not None:
            self.stored = after
        return reply is not None

    # Acts that write: each returns whether it was granted.

    def upload(self):
        """Uploads an object, unless its name was removed for good."""
        data = self.random.randbytes(self.random.choice(self.sizes))
        oid = name_of(data)
        if oid in self.stored.retired:
            return True
        after = self.stored.with_object(oid, data)
        reply = self.ask("PUT", f"content/{oid}", data, after)
        require(reply in (None, (200, b"")), f"an upload got {reply}")
        return self.granted(reply, after)

    def lock(self):
        """Locks a new path."""
        path = f"art/{self.random.getrandbits(60)}.psd"
        after = self.stored.with_lock(path)
        reply = self.ask("POST", "locks", {"path": path}, after)
        require(reply is None or reply[0] == 201, f"a lock got {reply}")
        is_next = reply is None or f'"id":"{after.made}"'.encode() in reply[1]
        require(is_next, f"lock {after.made} is {reply and reply[1]}")
        return self.granted(reply, after)

    def unlock(self):
        """Releases a lock."""
        if not self.stored.locks:
            return True
        path = self.random.choice(list(self.stored.locks))
        after = self.stored.without_lock(path)
        reply = self.ask("POST", f"locks/{self.stored.locks[path]}/unlock", {}, after)
        require(reply is None or reply[0] == 200, f"an unlock got {reply}")
        return self.granted(reply, after)

    def authenticate(self):
        """Issues a token, in some cases one that has expired."""
        is_expired = self.random.random() < 0.2
        printed = self.command(*issue_words(repo=self.repo), *(["--now", str(NOW)] if is_expired else []))
        if printed:
            name, token = "expired" if is_expired else "tokens", token_of(printed)
            self.stored = replace(self.stored, **{name: getattr(self.stored, name) | {token}})
        return bool(printed)

    def retire(self):
        """Removes an object for good."""
        if not self.stored.objects:
            return True
        oid = self.random.choice(list(self.stored.objects))
        after = self.stored.without_object(oid)
        printed = self.command("retire", "--repo", self.repo, oid, after=after)
        require(printed in (None, f"retired {oid}\n"), f"retire printed {printed!r}")
        return self.granted(printed, after)

    def sweep(self):
        """Removes uploads that were cut off."""
        printed = self.command("sweep")
        require(printed is None or re.fullmatch(r"swept \d+ uploads\n", printed), f"sweep printed {printed!r}")
        return bool(printed)

    def prune(self):
        """Removes tokens that have expired."""
        printed = self.command("prune")
        require(printed is None or re.fullmatch(r"pruned \d+ tokens\n", printed), f"prune printed {printed!r}")
        return self.granted(printed, self.stored.pruned())

    # Acts that read: none of them may be refused.

    def some(self, of):
        """One of the items, or none if there is none."""
        return [self.random.choice(list(of.items()))] if of else []

    def get(self):
        """Downloads an object."""
        for oid, data in self.some(self.stored.objects):
            require(self.ask("GET", f"content/{oid}") == (200, data), "an object is not served as it was sent")
        return True

    def verify_object(self):
        """Verifies an object."""
        for oid, data in self.some(self.stored.objects):
            reply = self.ask("POST", "verify", {"oid": oid, "size": len(data)})
            require(reply == (200, b""), f"a verification of an object got {reply}")
        return True

    def batch(self):
        """Asks for an object, for one that is not stored, and for one that was removed for good."""
        objects, retired = self.stored.objects, self.stored.retired
        found = [*self.some(objects), (ABSENT, b""), *self.some(retired)]
        codes = [None] * (len(objects) > 0) + [404] + [410] * (len(retired) > 0)
        asked = [{"oid": oid, "size": len(data)} for oid, data in found]
        status, body = self.ask("POST", "objects/batch", {"operation": "download", "objects": asked})
        require(status == 200, f"a batch got {status} {body}")
        listed = json.loads(body)["objects"]
        came = [it["error"]["code"] if "error" in it else None for it in listed]
        require(came == codes, f"a batch has {came}, and not {codes}")
        return True

    def list_locks(self):
        """Lists the lock of a path."""
        for path, number in self.some(self.stored.locks):
            status, body = self.ask("GET", f"locks?path={path}")
            found = [(it["path"], it["id"]) for it in json.loads(body)["locks"]]
            require((status, found) == (200, [(path, str(number))]), f"a list got {status} {body}")
        return True

    def verify_locks(self):
        """Verifies a lock."""
        for path, number in self.some(self.stored.locks):
            status, body = self.ask("POST", "locks/verify", {"cursor": str(number), "limit": 1})
            found = json.loads(body)
            ours = [(it["path"], it["id"]) for it in found["ours"]]
            is_right = (status, ours, found["theirs"]) == (200, [(path, str(number))], [])
            require(is_right, f"a verification of locks got {status} {body}")
        return True

    def print_locks(self):
        """Prints all locks."""
        is_right = locks_of(self) == self.stored.locks
        require(is_right, "the command locks prints others than those that were acknowledged")
        return True

    def print_objects(self):
        """Prints all objects."""
        is_right = objects_of(self) == self.stored.lists()[0]
        require(is_right, "the command objects prints others than those that were acknowledged")
        return True

    def check(self):
        """Checks all objects."""
        printed = self.command("check")
        require(re.fullmatch(r"checked \d+ objects\n", printed), f"check printed {printed!r}")
        return True

    def repair(self):
        """Repairs nothing."""
        require(self.command("repair") == "removed 0 objects\n", "repair removed an object")
        return True

    def pushcheck(self):
        """Checks a push of bob, of a path that ann has locked and of one that is free."""
        for path, number in self.some(self.stored.locks):
            words = ["--user", "bob", "--repo", self.repo, "--ref", MAIN]
            printed = self.command("pushcheck", *words, given=f"{path}\nfree\n".encode(), want=1)
            wanted = f"locked by ann, id {number}: {path}\nok: free\n"
            require(printed == wanted, f"pushcheck printed {printed!r}")
        return True

    def foresee(self):
        """Foresees the reply to a lock of a path that is locked."""
        for path, _ in self.some(self.stored.locks):
            asked = message("POST", target("locks", self.repo), {"path": path}, self.token)
            printed = self.command("foresee", "--user", "ann", "--repo", self.repo, given=asked)
            require(printed.startswith("409 L1\n"), f"foresee printed {printed!r}")
        return True

    def act(self, names):
        """Does one of the acts. Returns whether it was granted."""
        name = self.random.choice(names)
        is_done = getattr(self, name)()
        (self.done if is_done else self.refused)[name] += 1
        return is_done

    def settle(self):
        """After a kill: finds out whether the request that got no reply was carried out."""
        self.is_killed = False
        after, self.unknown = self.unknown, None
        if after and (objects_of(self), locks_of(self)) != self.stored.lists():
            self.stored = after


def objects_of(work):
    """The sizes of the objects that are listed, by their names."""
    lines = (line.split() for line in work.command("objects", "--repo", work.repo).splitlines())
    return {oid: int(size) for oid, size in lines}


def locks_of(work):
    """The ids of the locks that are listed, by their paths."""
    lines = (line.split(" ", 4) for line in work.command("locks", "--repo", work.repo).splitlines())
    return {it[4]: int(it[0]) for it in lines}


def compare(work, when):
    """Exactly the objects and locks that were acknowledged are listed."""
    for one, other, what in zip((objects_of(work), locks_of(work)), work.stored.lists(), ("objects", "locks")):
        require(one == other, f"{when}: {len(one)} {what} are listed, {len(other)} were acknowledged; "
                              f"they differ in {list(set(one.items()) ^ set(other.items()))[:3]}")


def compare_all(work, when):
    """The same; each object is served as it was sent, what was removed is not there, and tokens are valid."""
    compare(work, when)

    def expect(want, *request, **more):
        """The body of the reply, whose status is one of these."""
        reply = work.ask(*request, **more)
        require(reply is not None and reply[0] in want, f"{when}: {request[1]} got {reply}, and not {want}")
        return reply[1]

    for oid, data in work.stored.objects.items():
        require(expect([200], "GET", f"content/{oid}") == data, f"{when}: an object is not served as it was sent")
    for oid in work.stored.retired:
        expect([410], "GET", f"content/{oid}")
    for number in work.stored.released:
        expect([404], "POST", f"locks/{number}/unlock", {})
    for token in work.stored.tokens:
        expect([200], "GET", "locks?limit=1", token=token)
    for token in work.stored.expired:
        expect([401], "GET", "locks?limit=1", token=token)
    for token in work.stored.gone:
        require(b'"A2: ' in expect([401], "GET", "locks?limit=1", token=token), f"{when}: a token is stored again")
    work.check()
