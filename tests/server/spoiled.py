"""Tries `custody` on spoiled databases: what it refuses, what `custody check` finds, and what nothing finds.

Each database is a copy of a good one, of each form, with one flipped bit, 4,096 zeros, a cut end, a log of another
moment or no log. A file of contents is spoiled too, which costs the object of the bytes and no other.
`objects`, `locks`, `check` and `serve` each get a copy of their own. The check fails if one of them is ended by a
signal, takes longer than 20 seconds, or prints a line or a status that docs/COMMANDS.md does not state; if the server
sends bytes that do not have the object's name, and `check` does not name it as damaged; or if `check` names an object
that is served whole. `repair` has to remove what `check` names, and the server then stores the same objects again.

What is shown then is compared with the rows of the good database, and with what Python's sqlite3 reads. Each check
prints how many databases were

    refused     by one of the commands or in a reply (G1, G2, S1)
    named       `check` names a damaged object
    the same    nothing that is stored has changed
    older       some of the last changes are missing, and nothing says so
    changed     something else has changed, and nothing says so; the tables follow, and how many of these the command
                `PRAGMA integrity_check` of sqlite3 finds

and how many of those that are not refused sqlite3 refuses or reads otherwise. With --list a line comes before it for
each that has changed, or is older for another reason than its log.

The check `dump` copies the rows of databases without one page into a new file, as docs/OPERATING.md says (A spoiled
database): only rows of that page's table may be missing, and `check` names the objects that are not whole.
"""
import collections
import contextlib
import datetime
import hashlib
import json
import os
import random
import re
import signal
import subprocess
import sys
import tempfile
from dataclasses import dataclass, field
from pathlib import Path

from tests.studio.checks import Checks, Failed, arguments, require
from tests.studio.control import ControlledServer, issue_words, token_of
from tests.studio.policy import FILM
from tests.studio.program import FORMS, Closed, NotStarted, content, message, name_of, put, run, target
from tests.studio.spoiled import (CONTENTS, LETTERS, MEMORY, PAGE, POLICY, REPOS, RETIRED, TABLES, TOKENS, WAYS,
                                  WAYS_BESIDE, Maker, Spoiled, Spoiler, bytes_of, is_sound, name_of_size, rows_of, zero)

LONGEST = 20
REFUSALS = ("custody: store G1\n", "custody: store G2\n")
LINES = {
    "objects": r"([0-9a-f]{64} \d+\n)*",
    "locks": r"(\d+ refs/[^ ]+ [^ ]+ \d{4}-\d\d-\d\dT\d\d:\d\d:\d\dZ [^\n]+\n)*",
    "check": r"(damaged [^ ]+ [0-9a-f]{64}\n)*checked \d+ objects\n",
    "repair": r"(removed [^ ]+ [0-9a-f]{64}\n)*removed \d+ objects\n",
}
ERRORS = r"(custody: connection \d+ (ReadFailed|WriteFailed|StoreRefused|StoreFailed)\n)*"
STATUSES = {200, 201, 401, 403, 404, 409, 410, 422, 500, 507}
# What --list prints, and prints of a file whose log was not spoiled.
UNNOTICED = [["changed"], ["changed", "older"]]
# An object that is in no database, for trying an upload.
NEW = 77


def seconds_of(text):
    """The seconds since 1970 of a moment as it is printed."""
    return int(datetime.datetime.fromisoformat(text.replace("Z", "+00:00")).timestamp())


@dataclass
class View:
    """What the program shows of a database; None for what it refuses."""

    objects: set = None
    locks: set = None
    damaged: set = None
    # The status of a list with each token, and of a download of each name that was removed for good.
    tokens: dict = field(default_factory=dict)
    retired: dict = field(default_factory=dict)

    def key(self):
        """What can be compared."""
        return self.objects, self.locks, self.tokens, self.retired


def view_of(rows):
    """The view of these rows, if nothing is damaged."""
    def text(it):
        """The text of some bytes."""
        return it.decode(errors="replace")

    now = datetime.datetime.now().timestamp()
    valid = {it[0] for it in rows["tokens"] if it[4] > now}
    expired = {it[0] for it in rows["tokens"]} - valid
    known = {letter: hashlib.sha256(letter.encode() * 64).digest() for letter in TOKENS}
    names = {(text(repo), text(oid)) for repo, oid in rows["retired"]}
    objects = {(text(it[1]), text(it[2]), it[3]) for it in rows["uploads"] if it[4] == 1}
    stored = {it[:2] for it in objects}
    return View(
        objects,
        {(text(it[0]), it[1], text(it[2]), text(it[3]), text(it[4]), it[5]) for it in rows["locks"]},
        set(),
        {letter: 200 if digest in valid else 401 for letter, digest in known.items()},
        {name: 410 if name in names else 200 if name in stored else 404 for name in RETIRED},
    )


def over(folder):
    """The words that name the database of a folder."""
    return ["--db", f"{folder}/db"]


class SpoiledServer(ControlledServer):
    """A server over the database of a folder, which it may refuse."""

    patience = LONGEST
    # The database has its tokens.
    letter = None

    def __init__(self, program, folder):
        super().__init__(program, folder, POLICY, database="db")

    def start(self):
        """Starts the server, unless it refuses the database."""
        try:
            super().start()
            self.has_started = True
        except NotStarted:
            self.has_started = False

    def reply(self, data):
        """The reply, or None if the connection was closed before its end."""
        try:
            status, body = self.ask(data, LONGEST)
        except Closed:
            return None
        require(status in STATUSES, f"a reply has the status {status}: {body[:100]!r}")
        require(status != 500 or b'"S1: ' in body, f"a reply with 500 is {body!r}")
        return status, body

    def socket(self):
        """The words that name the control socket."""
        return ["--via", self.control()]

    def new_token(self, repo):
        """A new token, by the control socket, or None."""
        ran = run(self.command(*issue_words(repo=repo)), timeout=LONGEST)
        require(ran[0] == 0 or (ran[0], ran[2]) == (1, REFUSALS[1]), f"authenticate gave {ran}")
        return token_of(ran[1]) if ran[0] == 0 else None

    def close(self):
        """Ends the server, which ran until now. Returns whether it refused a request."""
        ended = self.child.poll()
        self.child.send_signal(signal.SIGTERM)
        self.child.wait(LONGEST)
        if not self.has_started:
            require(self.child.returncode == 1 and self.errors() in REFUSALS,
                    f"serve ended with {self.child.returncode} and printed {self.errors()!r}")
            return True
        require(ended is None, f"the server ended with {ended} and printed {self.errors()!r}")
        require(re.fullmatch(ERRORS, self.errors()), f"the server printed {self.errors()!r}")
        return "StoreRefused" in self.errors()


class Trial:
    """One spoiled database, and what the program does with it."""

    def __init__(self, program, spoiled, room):
        self.program, self.spoiled, self.room = program, spoiled, room
        self.refused, self.view = set(), View()
        # What the lists print, by the socket and over files.
        self.printed, self.over_files = {}, {}
        # Whether each listed object is served whole; None if the server refused to serve it.
        self.served = {}

    def copy(self):
        """A folder with a copy of the database."""
        folder = tempfile.mkdtemp(dir=self.room)
        self.spoiled.put(folder)
        return folder

    def run(self, place, name, *more):
        """What a command prints, or None if it refuses the database."""
        status, output, errors = run([self.program, name, *place, *more], timeout=LONGEST)
        if status == 1 and errors in REFUSALS:
            self.refused.add(name)
            return None
        wanted = 1 if name == "check" and output.startswith("damaged ") else 0
        is_stated = (status, errors) == (wanted, "") and re.fullmatch(LINES[name], output)
        require(is_stated, f"{name} ended with {status} and printed {output[-300:]!r}, {errors!r}")
        return output

    def listed(self, place, name):
        """The words of the lines for each repository, or None if the command refuses the database."""
        found = {repo: self.run(place, name, "--repo", repo) for repo in REPOS}
        if None in found.values():
            return None
        self.printed.update({(name, repo): text for repo, text in found.items()})
        return [(repo, *line.split(" ", 4)) for repo, text in found.items() for line in text.split("\n")[:-1]]

    def objects(self, place):
        """The objects that are listed, or None if the command refuses the database."""
        lines = self.listed(place, "objects")
        return None if lines is None else {(repo, oid, int(size)) for repo, oid, size in lines}

    def locks(self, place):
        """The locks that are listed, or None if the command refuses the database."""
        lines = self.listed(place, "locks")
        if lines is None:
            return None
        return {(repo, int(it[0]), it[1], it[4], it[2], seconds_of(it[3])) for repo, *it in lines}

    def check(self, place):
        """The names of the damaged objects."""
        output = self.run(place, "check")
        if output is None:
            return None
        return {tuple(line.split()[1:]) for line in output.splitlines() if line.startswith("damaged ")}

    def look(self, repo):
        """Runs the commands over files, each over a copy: the lists of one of the repositories."""
        for name in ("objects", "locks"):
            self.over_files[name, repo] = self.run(over(self.copy()), name, "--repo", repo)
        self.view.damaged = self.check(over(self.copy()))

    @contextlib.contextmanager
    def serving(self, folder):
        """A server over the database of the folder."""
        with SpoiledServer(self.program, folder) as server:
            yield server
            if server.close():
                self.refused.add("serve")

    def serve(self):
        """Tries requests on a server."""
        with self.serving(self.copy()) as server:
            if server.has_started:
                self.view.objects, self.view.locks = self.objects(server.socket()), self.locks(server.socket())
                self.ask_all(server)

    def ask_all(self, server):
        """Lists with each token, downloads of each object, and requests that write."""
        for letter, (_, repo, _, _) in TOKENS.items():
            reply = server.reply(message("GET", target("locks", repo), token=letter))
            require(reply is not None, "a list got no reply")
            self.view.tokens[letter] = reply[0]
        tokens = {repo: self.token(server, repo) for repo in REPOS}
        for repo, oid in RETIRED:
            self.view.retired[repo, oid] = self.get(server, tokens, repo, oid)[0]
        wanted = {(repo, oid) for repo in REPOS for oid in CONTENTS} | {it[:2] for it in self.view.objects or ()}
        for repo, oid in sorted(wanted):
            status, data = self.get(server, tokens, repo, oid)
            self.served[repo, oid] = data is not None and name_of(data) == oid if status == 200 else None
        if tokens[FILM]:
            self.write(server, tokens[FILM])

    def token(self, server, repo):
        """A token to upload: that of the database, or a new one."""
        letter = LETTERS[repo]
        return letter if self.view.tokens[letter] == 200 else server.new_token(repo)

    def get(self, server, tokens, repo, oid):
        """The status and the bytes of a download; 200 and None if it was cut off."""
        if tokens[repo] is None:
            return 500, None
        reply = server.reply(message("GET", content(oid, repo), token=tokens[repo]))
        if reply is None:
            require("StoreFailed" in server.errors(), "a download was cut off, and the server did not report it")
            self.refused.add("get")
            return 200, None
        require(reply[0] in (200, 404, 410, 500), f"a download got {reply[0]}")
        return reply if reply[0] == 200 else (reply[0], None)

    def write(self, server, token):
        """Requests that write, and those that follow them."""
        replies = []

        def ask(method, rest, body=None):
            """A reply, which has to come."""
            replies.append(server.reply(message(method, target(rest), body, token)))
            require(replies[-1] is not None, f"{method} {rest} got no reply")
            return replies[-1]

        status, body = ask("POST", "locks", {"path": "new/lock.psd"})
        if status == 201:
            number = json.loads(body)["lock"]["id"]
            require(ask("POST", "locks", {"path": "new/lock.psd"})[0] in (409, 500), "a path was locked twice")
            require(ask("POST", f"locks/{number}/unlock", {})[0] in (200, 500), "a new lock was not released")
        ask("POST", "locks/verify", {})
        ask("POST", "objects/batch", {"operation": "download", "objects": [{"oid": name_of_size(5), "size": 5}]})
        if ask("PUT", f"content/{name_of_size(NEW)}", bytes_of(NEW))[0] == 200:
            require(ask("GET", f"content/{name_of_size(NEW)}")[1] == bytes_of(NEW), "a new object is served otherwise")
            verified, _ = ask("POST", "verify", {"oid": name_of_size(NEW), "size": NEW})
            require(verified == 200, "a new object is not verified")
        if any(status == 500 for status, _ in replies):
            self.refused.add("serve")

    def require_same(self):
        """The lists over files are those by the socket."""
        for key, text in self.over_files.items():
            require(text == self.printed.get(key, text), f"{' '.join(key)} prints another list by the socket")

    def require_named(self):
        """Each object that is not served whole is named by `check`, and no other."""
        if self.view.damaged is None or self.view.objects is None:
            return
        listed = {it[:2] for it in self.view.objects}
        for name, is_whole in self.served.items():
            if is_whole is not None:
                is_named = name in self.view.damaged
                require(is_whole or is_named, f"{name} is not served whole, and check does not name it")
                require(not is_whole or not is_named, f"{name} is served whole, and check names it")
        for name in self.view.damaged - listed:
            require(name[0] not in REPOS, f"check names {name}, which is not listed")

    def require_cost(self):
        """A spoiled file of contents costs the object whose bytes were spoiled, and no other. A cut one is refused."""
        if self.spoiled.contents is not None:
            costs = self.spoiled.costs
            is_right = not self.refused and self.view.damaged == costs if costs else self.refused >= {"check", "serve"}
            require(is_right, f"check names {self.view.damaged}, refused: {self.refused}; it was to cost {costs}")

    def repair(self):
        """Repairs a copy, and stores the removed objects again."""
        folder = self.copy()
        output = self.run(over(folder), "repair")
        if output is None:
            require(self.refused - {"repair"}, "only repair refuses the database")
            return
        *lines, last = output.splitlines()
        removed = {tuple(line.split()[1:]) for line in lines}
        if self.view.damaged is not None:
            require(removed == self.view.damaged, f"repair removed {removed}, and check named {self.view.damaged}")
        require(last == f"removed {len(removed)} objects", f"repair printed {output!r}")
        require(self.check(over(folder)) == set(), "after repair, check finds damaged objects")
        self.require_sums(folder, {repo for repo, _ in removed})
        with self.serving(folder) as server:
            require(server.has_started or self.refused, "after repair, the server does not start")
            if server.has_started:
                self.require_rest(server, removed)
                self.store_again(server, removed)

    def require_rest(self, server, removed):
        """The objects that were not removed, and the locks, are as before."""
        if self.view.objects is not None:
            rest = {it for it in self.view.objects if it[:2] not in removed}
            require(self.objects(server.socket()) == rest, "repair changed other objects")
        require(self.view.locks is None or self.locks(server.socket()) == self.view.locks, "repair changed locks")

    def require_sums(self, folder, repos):
        """The number of bytes of each of the repositories is the sum of the sizes of its objects."""
        rows = rows_of(folder)
        if rows is None:
            return
        used = {it[0].decode(errors="replace"): it[2] for it in rows["repos"]}
        for repo in repos:
            sizes = sum(it[3] for it in rows["uploads"] if it[1].decode(errors="replace") == repo and it[4] == 1)
            require(used.get(repo) == sizes, f"after repair, {repo} uses {used.get(repo)} bytes, and not {sizes}")

    def store_again(self, server, removed):
        """The removed objects are stored again, and all that are known are served whole."""
        tokens = {repo: server.new_token(repo) for repo in REPOS}
        require(None not in tokens.values(), "after repair, no token is issued")
        for repo, oid in sorted(removed):
            if repo in REPOS and oid in CONTENTS:
                reply = server.reply(put(CONTENTS[oid], tokens[repo], repo))
                require(reply == (200, b""), f"after repair, {oid} is not stored again")
        names = {name for name, is_whole in self.served.items() if is_whole} | removed
        for repo, oid in sorted(it for it in names if it[0] in REPOS and it[1] in CONTENTS):
            data = self.get(server, tokens, repo, oid)[1]
            require(data == CONTENTS[oid], f"after repair, {oid} is not served whole")


def verdict(trial, good, rows):
    """Which of the five it is, and the tables that changed in silence."""
    if trial.refused:
        return "refused", []
    if trial.view.damaged:
        return "named", []
    base = trial.spoiled.moment.rows
    changed = [table for table in TABLES if rows is not None and rows[table] != base[table]]
    if trial.view.key() == view_of(base).key():
        return ("changed", changed) if changed else ("the same", [])
    if any(trial.view.key() == view_of(it).key() for it in good.states):
        return "older", []
    return "changed", changed or ["as the program reads it"]


def is_read_otherwise(trial, rows):
    """Whether Python's sqlite3 reads other objects or locks than the program, of a database that the program reads."""
    if trial.refused:
        return False
    return rows is None or (view_of(rows).objects, view_of(rows).locks) != (trial.view.objects, trial.view.locks)


def differs(view, base):
    """What the view lacks, and what it has beyond the base."""
    found = []
    for name, one, other in zip(("objects", "locks"), view.key(), base.key()):
        found += [f"{name} without {sorted(other - one)[:2]}"] if other - one else []
        found += [f"{name} with {sorted(one - other)[:2]}"] if one - other else []
    for one, other in ((view.tokens, base.tokens), (view.retired, base.retired)):
        found += [f"{key}: {one[key]}, and not {other[key]}" for key in one if one[key] != other[key]]
    return "; ".join(found)


@dataclass
class Result:
    """What was found of a spoiled database."""

    view: View
    kind: str
    tables: list
    # Whether sqlite3 reads it otherwise, and whether its integrity_check finds what has changed.
    is_otherwise: bool
    is_found: bool


def try_one(options, good, spoiled, repo):
    """What the program does with a spoiled database."""
    with tempfile.TemporaryDirectory(dir=MEMORY) as room:
        trial = Trial(options.program, spoiled, room)
        try:
            trial.look(repo)
            trial.serve()
            trial.require_same()
            trial.require_named()
            trial.require_cost()
            before = set(trial.refused)
            trial.repair()
            trial.refused = before
            rows = rows_of(trial.copy())
            kind, tables = verdict(trial, good, rows)
            return Result(trial.view, kind, tables, is_read_otherwise(trial, rows),
                          kind in ("changed", "older") and not is_sound(trial.copy()))
        except (Failed, OSError, subprocess.SubprocessError, ValueError) as fault:
            raise Failed(f"{spoiled.what} ({spoiled.whose}): {fault}") from fault


def line_of(spoiled, result):
    """A line about a database that has changed in silence."""
    found = "found by integrity_check" if result.is_found else "not found by integrity_check"
    return (f"     {result.kind}: {spoiled.what}; {spoiled.whose}; {', '.join(result.tables)}; {found}; "
            f"{differs(result.view, view_of(spoiled.moment.rows))}")


def check(options, good, name):
    """The databases that are spoiled in one way."""
    way, share = (WAYS | WAYS_BESIDE)[name]
    spoiler = Spoiler(good, f"{options.seed} {name}")
    results, faults = [], []
    for number in range(-(-options.count * share // 100)):
        spoiled = way(spoiler)
        try:
            results.append(try_one(options, good, spoiled, REPOS[number % len(REPOS)]))
        except Failed as fault:
            faults.append(str(fault))
            continue
        if options.list and results[-1].kind in UNNOTICED[name.startswith("file-")]:
            print(line_of(spoiled, results[-1]), flush=True)
    require(not faults, f"{len(faults)} of {len(results) + len(faults)}: " + "\n     ".join(faults[:5]))
    return counted(results)


def counted(results):
    """How many databases there were of each kind."""
    kinds = collections.Counter(it.kind for it in results)
    tables = collections.Counter(table for it in results for table in it.tables)
    text = ", ".join(f"{kinds[kind]} {kind}" for kind in ("refused", "named", "the same", "older", "changed"))
    if tables:
        text += (f" ({', '.join(f'{count} {table}' for table, count in tables.most_common())}; "
                 f"integrity_check finds {sum(it.is_found for it in results)})")
    return f"{len(results)} databases: {text}; sqlite3 reads {sum(it.is_otherwise for it in results)} otherwise"


DUMP = "sqlite3 db .dump | sed 's/^ROLLBACK;.*/COMMIT;/' | sqlite3 new/db"


def dumped(program, good, number):
    """What is left of the database without its page of this number, after its rows were copied into a new file."""
    whole, whose = good.whole, good.pages[number]
    file = zero(whole.file, (number - 1) * PAGE)
    with tempfile.TemporaryDirectory(dir=MEMORY) as room:
        trial = Trial(program, Spoiled(f"page {number}", whose, file, whole.log, whole), room)
        folder = trial.copy()
        os.mkdir(f"{folder}/new")
        if whole.contents is not None:
            Path(folder, "new/db-contents").write_bytes(whole.contents)
        subprocess.run(DUMP, shell=True, cwd=folder, capture_output=True, timeout=LONGEST, check=False)
        damaged, rows = trial.check(over(f"{folder}/new")), rows_of(f"{folder}/new")
    if damaged is None:
        return "refused"
    if whose.startswith("sqlite_schema"):
        return "empty"
    changed = [table for table in TABLES if rows[table] != whole.rows[table]]
    require(set(changed) <= {whose.split(",")[0]}, f"{whose}: the rows of {changed} have changed")
    lost = {it[0] for it in whole.rows["chunks"] - rows["chunks"]}
    names = {(it[1].decode(), it[2].decode()) for it in whole.rows["uploads"] if it[0] in lost}
    require(damaged == names, f"{whose}: check names {damaged}, and the chunks of {names} are lost")
    return f"without rows of {changed[0]}" if changed else "whole"


def check_dump(options, good, _):
    """Databases without one page, whose rows the command sqlite3 copies into a new file."""
    few = [number for number, whose in good.pages.items() if not whose.endswith("overflow")]
    many = [number for number, whose in good.pages.items() if whose.endswith("overflow")]
    chosen = few + random.Random(options.seed).sample(many, min(options.count // 10, len(many)))
    found = collections.Counter(dumped(options.program, good, number) for number in sorted(chosen))
    kinds = ", ".join(f"{count} {kind}" for kind, count in found.most_common())
    return f"{len(chosen)} databases without a page: {kinds}"


def main():
    """Makes the good database, and runs the checks."""
    names = {"rows": [*WAYS, "dump"], "file": [*WAYS, *WAYS_BESIDE, "dump"]}
    parser = arguments(__doc__, names["file"], forms=True)
    parser.add_argument("--count", type=int, default=200, help="how many databases, in all ways together")
    parser.add_argument("--seed", type=int, default=1, help="for the same databases again")
    parser.add_argument("--list", action="store_true", help="a line for each that has changed")
    options = parser.parse_args()
    judged = Checks()
    for form in options.form or FORMS:
        with tempfile.TemporaryDirectory(dir=MEMORY) as room:
            good = Maker(options.program, room, form).make()
        print(f"{form}: {len(good.moments[-1].log)} bytes of log, {len(good.whole.file)} bytes of file with it")
        for name in names[form] if not options.only else [it for it in names[form] if it in options.only]:
            act = check_dump if name == "dump" else check
            judged.judge(f"{name}, {form}", lambda: act(options, good, name))
    return judged.end()


if __name__ == "__main__":
    sys.exit(main())
