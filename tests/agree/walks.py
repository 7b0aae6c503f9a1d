"""Compares walks through the pages of locks of `custody session` with a second reading of docs/PROTOCOL.md.

A database has about 5,000 locks of two users on three refs. Each connection has a policy of its own, most of which
hide some of the locks, and a few walks by List and by Verify locks, whose pages have limits of 1 to 100. Between the
pages other requests make and release locks. The cursor of each page is the one that the page before it returned, by
the second reading, which is in protocol.py.

Each reply is compared as a whole with that of the reading. Then the pages of each walk are joined, as the program
returned them: ids rise, so no lock occurs twice, and each lock that was shown at every page of the walk is there. The
first difference fails the check.
"""
import json
import random
import sys
import tempfile
import time
from functools import lru_cache

from tests.agree.both import REPOS, Both, comparison, policy_text, report, until
from tests.agree.protocol import Server, lock_id
from tests.studio.policy import FILM
from tests.studio.program import message, target

# The requests of a connection and the pages of a walk, at most about.
MESSAGES, PAGES = 400, 120
LIMITS = [1, 2, 3, 7, 10, 31, 32, 33, 50, 63, 64, 65, 99, 100]
REFS = ["refs/heads/main", "refs/heads/main", "refs/heads/main", "refs/heads/release/1", "refs/heads/x"]
FOLDERS = ["art/", "art/old/", "secret/", "plates/", ""]
USERS = {"ann": "a", "bob": "b"}
# The last rows of each policy: all that a walk and the changes need.
LAST_ROWS = [("allow", ["ann", "bob"], ["*"], ["*"], ["*"], ["pull", "push", "lock", "force"])]
ALL_LISTED = ("allow", ["*"], ["*"], ["*"], ["*"], ["list"])


class Reading(Server):
    """The second reading, with its answers of the policy kept: a page asks one for each lock."""

    def __init__(self, *words):
        super().__init__(*words)
        self.obey(self.rows)

    def obey(self, rows):
        """Takes another policy."""
        self.rows = rows
        self.decide = lru_cache(None)(super().decide)


class Walk:
    """One caller's walk through the pages of one repository, and what it has met."""

    def __init__(self, make, server):
        choose = make.choice
        self.user, self.repo = choose(["ann", "bob"]), FILM
        self.is_list = make.random() < 0.6
        self.ref = choose([None, *REFS])
        self.path = make.path(server) if self.is_list and make.random() < 0.05 else None
        self.limit = choose(LIMITS)
        self.cursor = None if make.random() < 0.5 else str(make.randrange(1, server.made[self.repo] + 2))
        self.first, self.has_ended = int(self.cursor or 1), False
        self.steps, self.always = [], None

    def shown(self, server):
        """The ids of the locks that the walk is about, as things are now."""
        if not self.is_list:
            ref = self.ref or REPOS[self.repo]["ref"]
            return {it["id"] for it in server.locks.values() if (it["repo"], it["ref"]) == (self.repo, ref)}
        wanted = [(key, it) for key, it in (("ref", self.ref), ("path", self.path)) if it]
        return {
            it["id"]
            for it in server.locks.values()
            if it["repo"] == self.repo
            and all(it[key] == value for key, value in wanted)
            and server.decide(self.user, self.repo, "list", it["ref"], it["path"])[0]
        }

    def request(self, make):
        """The next page's request."""
        limit = self.limit if make.random() < 0.95 else make.choice([None, 0, -7, 101, 1000, *LIMITS])
        if self.is_list:
            values = {"path": self.path, "refspec": self.ref, "cursor": self.cursor, "limit": limit}
            query = "&".join(f"{key}={value}" for key, value in values.items() if value is not None)
            return request(self.user, "GET", self.repo, "locks" + ("?" + query if query else ""))
        body = {"cursor": self.cursor, "limit": limit, "ref": self.ref and {"name": self.ref}}
        some = {key: value for key, value in body.items() if value is not None or make.random() < 0.1}
        return request(self.user, "POST", self.repo, "locks/verify", some)

    def met(self, ids):
        """Notes what is shown at a page."""
        self.always = ids if self.always is None else self.always & ids

    def fault(self, replies):
        """What is wrong with the joined pages of the program's replies, or None."""
        joined, following = [], None
        for step in self.steps:
            page = json.loads(replies[step].partition(b"\r\n\r\n")[2])
            locks = page["locks"] if self.is_list else page["ours"] + page["theirs"]
            ids = [int(it["id"]) for it in locks]
            joined += ids if self.is_list else sorted(ids)
            following = page.get("next_cursor")
        if any(one >= next_ for one, next_ in zip(joined, joined[1:])):
            return f"the ids do not rise: {joined}"
        end = lock_id(following) if following else 2**32
        missing = {it for it in self.always if self.first <= it < end} - set(joined)
        return f"these were shown at every page, and are missing: {sorted(missing)}" if missing else None


class Maker(random.Random):
    """Makes policies, walks and changes, of about as many locks as there are to be."""

    def __init__(self, seed, locks):
        super().__init__(seed)
        self.locks = locks

    def path(self, server):
        """The path of a lock that exists, or a new one."""
        if self.random() < 0.1:
            return self.choice(list(server.locks.values()))["path"]
        return self.choice(FOLDERS) + str(self.randrange(10**6))

    def rows(self, server):
        """The rows of a policy, by which locks are shown or hidden."""
        paths = lambda: [it["path"] for it in self.sample(list(server.locks.values()), self.choice([1, 5, 64]))]
        entries = lambda: self.choice([self.sample([it for it in FOLDERS if it], 2), paths(), ["*"]])
        refs = lambda: self.choice([["*"], ["*"], [self.choice(REFS)], ["refs/heads/release/", "refs/heads/x"]])
        users = lambda: self.choice([["*"], ["ann"], ["bob"]])
        effect = lambda: self.choice(["allow", "deny"])
        some = [(effect(), users(), ["*"], refs(), entries(), ["list"]) for _ in range(self.choice([0, 1, 2, 3, 8]))]
        return some + LAST_ROWS + ([ALL_LISTED] if self.random() < 0.5 else [])

    def new_lock(self, server):
        """A request for a lock."""
        body = {"path": self.path(server), "ref": {"name": self.choice(REFS)}}
        place = self.choice([FILM] * 9 + ["a/b"])
        return request("ann" if place == "a/b" else self.choice(["ann", "bob"]), "POST", place, "locks", body)

    def release(self, server, walks):
        """A request that releases a lock: any, or the one at which a walk goes on."""
        ids = [ident for repo, ident in server.locks if repo == FILM]
        cursors = [int(walk.cursor) for walk in walks if walk.cursor]
        ident = self.choice(cursors if cursors and self.random() < 0.4 else ids or [1])
        return request(self.choice(["ann", "bob"]), "POST", FILM, f"locks/{ident}/unlock", {"force": True})

    def change(self, server, walks):
        """A request that makes or releases a lock; there stay about as many."""
        count = len(server.locks)
        return self.new_lock(server) if self.random() * 2 * self.locks > count else self.release(server, walks)


def request(user, method, place, rest, body=None):
    """A request with a token of the user."""
    return message(method, target(rest, place), body, "d" if place == "a/b" else USERS[user])


def cut(stream):
    """The replies of a stream."""
    replies = []
    while stream:
        head, _, rest = stream.partition(b"\r\n\r\n")
        lengths = [line for line in head.split(b"\r\n") if line.startswith(b"Content-Length: ")]
        size = len(head) + 4 + (int(lengths[0][16:]) if lengths else 0)
        replies.append(stream[:size])
        stream = stream[size:]
    return replies


class Connection:
    """The requests of one connection, and the replies that they want."""

    def __init__(self, server):
        self.server, self.requests, self.wanted = server, [], []

    def ask(self, request):
        """Adds a request, and returns the reply to it."""
        wanted, _ = self.server.serve(request)
        self.requests.append(request)
        self.wanted.append(wanted)
        return wanted

    def step(self, walk, make):
        """Adds the next page of a walk."""
        walk.met(walk.shown(self.server))
        walk.steps.append(len(self.requests))
        wanted = self.ask(walk.request(make))
        walk.cursor = json.loads(wanted.partition(b"\r\n\r\n")[2]).get("next_cursor")
        walk.has_ended = walk.cursor is None or len(walk.steps) == PAGES

    def difference(self, both):
        """What the program replied in another way, or None; and its replies."""
        ran = both.session(b"".join(self.requests))
        replies = cut(ran.stdout)
        for request, reply, wanted in zip(self.requests, replies, self.wanted):
            if reply != wanted:
                return f"of {request!r}\nthe program: {reply!r}\nthe document: {wanted!r}", replies
        if ran.returncode or len(replies) != len(self.wanted):
            many = f"{len(replies)} replies to {len(self.wanted)} requests"
            return f"the program, with status {ran.returncode}: {many}, {ran.stderr!r}", replies
        return None, replies


def walk_through(server, make):
    """A connection of several walks, with changes between their pages."""
    connection, walks, all_walks = Connection(server), [], []
    while len(connection.requests) < MESSAGES or walks:
        if len(walks) < 3 and len(connection.requests) < MESSAGES:
            walks.append(Walk(make, server))
            all_walks.append(walks[-1])
        walk = make.choice(walks)
        connection.step(walk, make)
        walks = [it for it in walks if not it.has_ended]
        for _ in range(make.choice([0, 0, 1, 1, 2, 5])):
            connection.ask(make.change(server, walks))
    return connection, all_walks


def fill(server, make):
    """A connection that makes the first locks."""
    connection = Connection(server)
    while len(server.locks) < make.locks:
        connection.ask(make.new_lock(server))
    return connection


COUNTED = ["connections", "requests", "walks", "pages", "locks on pages", "locks at the end"]


def compare(program, room, make, end):
    """Serves connections until the end. Returns what was compared, and what differed."""
    counts = dict.fromkeys(COUNTED, 0)
    both = Both(program, room, LAST_ROWS, reading=Reading)
    server = both.reading
    connection, walks = fill(server, make), []
    while True:
        fault, replies = connection.difference(both)
        fault = fault or next(filter(None, (walk.fault(replies) for walk in walks)), None)
        counts["connections"] += 1
        counts["requests"] += len(connection.requests)
        counts["walks"] += len(walks)
        pages = [step for walk in walks for step in walk.steps]
        counts["pages"] += len(pages)
        counts["locks on pages"] += sum(connection.wanted[it].count(b'"locked_at"') for it in pages)
        counts["locks at the end"] = len(server.locks)
        if fault or time.time() > end:
            return counts, fault
        rows = make.choice([make.rows(server)] * 4 + [[*LAST_ROWS, ALL_LISTED]])
        server.obey(rows)
        both.files.set_policy(policy_text(rows))
        connection, walks = walk_through(server, make)


def main():
    """Compares for some time."""
    parser = comparison(__doc__)
    parser.add_argument("--locks", type=int, default=5000, help="about how many locks there are")
    options = parser.parse_args()
    with tempfile.TemporaryDirectory() as room:
        counts, fault = compare(options.program, room, Maker(options.seed, options.locks), until(options))
    return report(options, ", ".join(f"{name} {count}" for name, count in counts.items()), fault)


if __name__ == "__main__":
    sys.exit(main())
