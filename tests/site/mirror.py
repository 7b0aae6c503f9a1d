"""Tries deploy/programs/mirror and deploy/programs/unlock with real servers, each part with new databases.

A check fails if an object is not copied, is copied with other bytes than its name says, is copied twice or brought
back; if a run that is killed, or whose server ends, leaves what the next one cannot
complete; if a token is on a command line or in a file; if a server or a user of a folder who means harm gets more than
is stated; or if the words that are printed are not those that are stated.
"""
import contextlib
import hashlib
import http.server
import itertools
import json
import os
import random
import re
import signal
import sqlite3
import ssl
import subprocess
import sys
import tempfile
import threading
import time
from pathlib import Path

from tests.site.hostile import try_escapes, try_hosts, try_links, try_too_much
from tests.studio.checks import Checks, arguments, beside, comes_true, require
from tests.studio.clone import Clone, Workroom, same_files
from tests.studio.policy import FILM, GAME, MAIN, WORK, row
from tests.studio.program import LAST, TOP, free_port, name_of, put, run
from tests.studio.site import Site, SiteServer, placed

ROWS = (
    row("allow", ["ann"], ["force"], repos=["*"]),
    row("allow", ["ann", "bob"], WORK, repos=["*"]),
    row("allow", ["mirror"], ["pull", "push"], repos=["*"]),
)
DONE = re.compile(r"copied (\d+) objects, (\d+) bytes; (\d+) were there\n")
TOKEN = re.compile(rb"(?<![0-9a-f])[0-9a-f]{64}(?![0-9a-f])")
# In the place of ssh: it writes down its words, and does what sshd does for the key of ann.
SSH = """#!/bin/sh
printf '%s\\n' "$*" >> @room/asked
for words in "$@"; do :; done
SSH_ORIGINAL_COMMAND=$words SSH_USER_AUTH=@room/user_auth exec sh @room/forced-command ann
"""


class Place(SiteServer):
    """A server of two repositories, in a folder of its own."""

    def __init__(self, program, room):
        super().__init__(program, room, ROWS, repos=(FILM, GAME))

    def change_policy(self, **more):
        """Writes the policy, and has the server read it."""
        self.set_policy(self.policy(**more))
        require(self.via("reload")[0] == 0, "the policy was not read")

    def digests(self):
        """The first digits of the SHA-256 of each token that the server has, also of those that have expired."""
        return [line.split()[3] for line in self.via("tokens", "--repo", FILM, "--now", "0")[1].splitlines()]

    def put(self, sizes, token):
        """Pushes an object of random bytes for each of the sizes."""
        with self.client(600) as client:
            for size in sizes:
                status, _ = client.ask(put(os.urandom(size), token))
                require(status == 200, f"an upload got {status}")

    def make_lock(self, path, token, ref=MAIN):
        """Locks a path."""
        status = self.lock(path, token, ref)
        require(status == 201, f"a lock got {status}")

    def is_whole(self):
        """Whether `custody check` finds each object whole."""
        return self.via("check", "--quiet") == (0, "", "")


class Trial(contextlib.ExitStack):
    """The folder of a part with its servers, which end with it, and the programs with the checks of their lines."""

    def __init__(self, program, checks):
        super().__init__()
        self.program, self.checks, self.check = program, checks, checks.expect
        self.room = self.enter_context(tempfile.TemporaryDirectory())

    def folder(self):
        """A new folder."""
        return tempfile.mkdtemp(dir=self.room)

    def place(self, sizes=()):
        """A new server, with objects of these sizes."""
        place = self.enter_context(Place(self.program, self.folder()))
        place.put(sizes, place.token())
        return place

    def start(self, *words, repo=FILM, **more):
        """Starts the mirror. The last two words are folders, servers or addresses; `more` has variables of the
        environment."""
        *options, source, to = [it.control() if isinstance(it, Place) else it for it in words]
        return subprocess.Popen([TOP / "deploy/programs/mirror", *options, repo, source, to],
                                stdout=subprocess.PIPE, stderr=subprocess.PIPE, text=True,
                                env={**os.environ, "CUSTODY": self.program, **more})

    def mirror(self, *words, **more):
        """Runs the mirror. Returns its status, its output and its error stream."""
        return end_of(self.start(*words, **more))

    def expect(self, what, ran, copied, there, byte_count=None):
        """Checks that a run ended well, with these numbers in its line."""
        found = DONE.fullmatch(ran[1])
        holds = ran[0] == 0 and ran[2] == "" and found and (int(found[1]), int(found[3])) == (copied, there)
        self.check(holds and byte_count in (None, int(found[2])), what, ran)

    def unlock(self, place, *words, **more):
        """Runs unlock. Returns its status, its output and its error stream."""
        environment = {"CUSTODY": self.program, "CUSTODY_URL": place.base, "CUSTODY_VIA": place.control()}
        return run([TOP / "deploy/programs/unlock", *words], env={**os.environ, **environment, **more})


def end_of(ran):
    """Waits for the end of a run. Returns its status, its output and its error stream."""
    output, errors = ran.communicate()
    return ran.returncode, output, errors


def mixed(count):
    """Sizes of 0 bytes to 5 MB. No two objects of a few bytes, which may be the same."""
    edges = [0, 1, 65_535, 65_536, 65_537, 5_000_000]
    return edges + [int(100 * 50_000 ** random.random()) for _ in range(count - len(edges))]


def path_of(folder, oid):
    """The file of an object in a folder."""
    return Path(folder, "objects", oid[:2], oid[2:4], oid)


def stored(folder):
    """The sizes of the objects of a folder, by name; each has the bytes that its name says."""
    files = list(Path(folder).glob("objects/*/*/*"))
    for file in files:
        oid = name_of(file.read_bytes())
        require(file == path_of(folder, oid), f"{file} has the bytes of {oid}")
    return {file.name: file.stat().st_size for file in files}


def objects_of(place):
    """The sizes of the objects of a server or a folder, by name."""
    return place.objects() if isinstance(place, Place) else stored(place)


def others(folder):
    """The files of a folder that are no objects."""
    return {str(it.relative_to(folder)) for it in Path(folder).rglob("*") if it.is_file() and len(it.name) != 64}


def wait_until(holds, what):
    """Waits until the condition holds: 60 seconds at most."""
    require(comes_true(holds, 60, 0.005), f"{what} within 60 s")


def count_files(folder):
    """How many objects the folder has."""
    return sum(1 for _ in Path(folder).glob("objects/*/*/*"))


def try_folder(trial):
    """A folder, while others push and lock."""
    place, folder = trial.place(mixed(300)), trial.folder()
    before, token = place.objects(), place.token(user="bob")
    place.make_lock("art/first lock.psd", token)
    first = place.locks()

    def work(is_over):
        """Pushes and locks until the run is over."""
        for number in itertools.takewhile(lambda _: not is_over.is_set(), itertools.count()):
            place.put([20_000], token)
            place.make_lock(f"art/{number}.psd", token)

    with beside(work):
        ran = trial.mirror(place, folder)
    found, pushed, copied = stored(folder), len(place.objects()) - 300, int(DONE.fullmatch(ran[1])[1])
    trial.check(ran[0] == 0 and ran[2] == "" and before.items() <= found.items() <= place.objects().items()
                and len(found) == copied,
                f"{copied} objects, while {pushed} were pushed and locked: {ran[1].strip()}", ran)
    written = Path(folder, "locks.txt").read_text(encoding="utf-8").splitlines()
    trial.check(first == written[:1] and set(written) <= set(place.locks()),
                f"{len(written)} of {len(place.locks())} locks")
    trial.mirror(place, folder)
    count = len(place.objects())
    trial.expect("a run without new objects copies nothing", trial.mirror(place, folder), 0, count, 0)
    place.put(range(1, 11), token)
    trial.expect("ten new objects are copied", trial.mirror(place, folder), 10, count, sum(range(1, 11)))
    trial.check(stored(folder) == place.objects() and others(folder) == {"lock", "locks.txt"},
                "the folder has each, and no other file")


def try_words(trial):
    """Words that are wrong, and places that do not exist."""
    place, folder = trial.place(), trial.folder()
    for status, repo, words in [
        (2, FILM, ("film", place)),
        (2, FILM, (place, "film")),
        (2, FILM, ("ssh://custody@localhost", folder)),
        (2, FILM, (folder, "ssh://-oProxyCommand=x/")),
        (1, FILM, (place, f"{folder}/none")),
        (1, FILM, (folder, place)),
        (2, "film", (place, folder)),
    ]:
        ran = trial.mirror(*words, repo=repo)
        trial.check(ran[0] == status and ran[2] and "Traceback" not in ran[2],
                    f"status {status}: {ran[2].splitlines()[-1]}", ran)
    place.put([5], place.token())
    ran = trial.mirror("--user", "eve", place, folder)
    trial.check(ran[0] == 1 and "P0: no policy row allows pull" in ran[2], f"a user without rights: {ran[2].strip()}",
                ran)
    trial.check(stored(folder) == {} and others(folder) == {"lock", "locks.txt"}, "and no object is copied")


def try_git_lfs(trial):
    """Git LFS itself: its store is copied to a server, and a copy of that is its store."""
    place, folder = trial.place(), trial.folder()
    room = Workroom(place.room, trial.checks)
    room.set_up_git()
    ann, bob = Clone(room, "ann", "ann", {}), Clone(room, "bob", "bob", {"lfs.storage": folder})
    ann.begin(f"{room.room}/none")
    ann.git("lfs", "track", "*.psd")
    ann.git("add", ".gitattributes")
    ann.add_files("art", 20, 100_000)
    store = f"{ann.folder}/.git/lfs"
    trial.expect("the store of a clone is copied to a server", trial.mirror(store, place, repo=GAME), 20, 0)
    trial.expect("and from there to a folder", trial.mirror(place, folder, repo=GAME), 20, 0)
    same = room.run("diff", "-r", f"{store}/objects", f"{folder}/objects", may_fail=True)
    trial.check(same == (0, ""), "whose files are those of the clone", same[1])
    room.environment["GIT_LFS_SKIP_SMUDGE"] = "1"
    require(bob.take(ann.folder)[0] == 0, "the repository was not cloned")
    status, text = bob.tried("lfs", "checkout")
    trial.check(status == 0 and same_files(ann, bob, "art"),
                "with lfs.storage, git lfs checkout takes the files from it", text)
    status, text = bob.tried("lfs", "fsck")
    trial.check(status == 0, f"git lfs fsck: {text.strip()}", text)


def kill_often(trial, words, seconds, look):
    """Kills ten runs, each within about a tenth of the time that a whole one takes; fewer, but three, if all is copied
    before. Returns what `look` found after each."""
    found = []
    for _ in range(10):
        ran = trial.start(*words)
        time.sleep(random.uniform(0.2, 0.3 + seconds / 10))
        ran.kill()
        status, _, _ = end_of(ran)
        if status == 0 and len(found) >= 3:
            break
        require(status == -signal.SIGKILL, f"a run ended with {status} before it was killed")
        found.append(look())
    return found


def try_killed(trial):
    """Runs that are killed."""
    place, folder = trial.place(mixed(600)), trial.folder()
    begun = time.monotonic()
    trial.mirror(place, trial.folder())
    seconds, listed = time.monotonic() - begun, place.objects()

    def look():
        """What the folder has: a part of what the server has."""
        require(stored(folder).items() <= listed.items(), "an object that the server does not have")
        require(others(folder) <= {"lock", "locks.txt", "objects/arriving"}, f"{others(folder)}")
        return len(stored(folder)), "objects/arriving" in others(folder)

    found = kill_often(trial, (place, folder), seconds, look)
    counts = [count for count, _ in found]
    trial.check(0 < counts[-1] < 600, f"killed {len(counts)} times on the way to a folder, with {counts} whole objects in it")
    trial.check(any(it for _, it in found), f"{sum(it for _, it in found)} of them left a file without a name")
    there, _ = look()
    trial.expect("the next run copies the rest", trial.mirror(place, folder), 600 - there, there)
    trial.check(stored(folder) == listed and others(folder) == {"lock", "locks.txt"},
                "each is whole, and nothing else is there")
    back = trial.place()

    def look_back():
        """What the new server has: a part of what the folder has."""
        require(back.objects().items() <= listed.items() and back.is_whole(), "the server has a wrong object")
        return len(back.objects())

    counts = kill_often(trial, (folder, back), 2 * seconds, look_back)
    trial.check(0 < counts[-1] < 600, f"killed {len(counts)} times on the way back, with {counts} whole objects there")
    there = look_back()
    trial.expect("the next run copies the rest", trial.mirror(folder, back), 600 - there, there)
    trial.check(back.objects() == listed and back.is_whole(),
                "the new server lists the same, and `custody check` finds all whole")


def try_servers(trial):
    """From one server to another."""
    place, other = trial.place(mixed(100)), trial.place()
    trial.expect("a server is copied to another", trial.mirror(place, other), 100, 0, sum(place.objects().values()))
    trial.check(other.objects() == place.objects() and other.is_whole(), "which lists the same, all whole")
    trial.expect("a second run copies nothing", trial.mirror(place, other), 0, 100, 0)
    folder, full = trial.folder(), trial.folder()
    trial.mirror(place, full)
    trial.expect("a folder is copied to another", trial.mirror(full, folder), 100, 0)
    trial.check(stored(folder) == place.objects(), "which has the same")


def try_one_run(trial):
    """A second run in the same folder."""
    place, folder = trial.place(mixed(300)), trial.folder()
    ran = trial.start(place, folder)
    wait_until(lambda: count_files(folder) > 0, "an object")
    status, output, errors = trial.mirror(place, folder)
    trial.check((status, output) == (1, "") and "another run" in errors, f"a second run: {errors.strip()}", errors)
    status, _, errors = end_of(ran)
    trial.check((status, errors) == (0, "") and stored(folder) == place.objects(), "the first one passes")


def try_tokens(trial):
    """Tokens that are removed, and tokens that live for 2 seconds."""
    place, folder = trial.place([10_000] * 1000), trial.folder()
    place.via("prune", "--now", str(LAST))
    trial.expect("1000 objects are copied", trial.mirror(place, trial.folder()), 1000, 0)
    trial.check(len(place.digests()) == 1, "with one token")
    other = trial.folder()
    ran = trial.start(place, other)
    wait_until(lambda: count_files(other) > 20, "20 objects")
    status, text, _ = place.via("prune", "--now", str(LAST))
    require(status == 0 and count_files(other) < 900, "the tokens were not removed in time")
    trial.expect(f"and all of them, if meanwhile: {text.strip()}", end_of(ran), 1000, 0)
    trial.check(len(place.digests()) == 1, "with one more token")
    # More than are copied in 2 seconds, in groups of 100.
    count = 4000
    place, folder = trial.place([10_000] * count), trial.folder()
    for source, to in ((place, folder), (folder, trial.place()), (place, trial.place())):
        servers = [it for it in (source, to) if isinstance(it, Place)]
        for server in servers:
            server.change_policy(seconds=2)
        before, begun = [len(it.digests()) for it in servers], time.monotonic()
        ran = trial.mirror(source, to)
        taken, issued = time.monotonic() - begun, [len(it.digests()) - had for it, had in zip(servers, before)]
        # At most one for each group, and one each time that one has expired.
        holds = ran[0] == 0 and taken > 2 and all(1 < it <= count // 100 + taken for it in issued)
        trial.check(holds, f"{count} objects in {taken:.1f} s, with {issued} tokens of 2 seconds: {ran[1].strip()}", ran)
        trial.check(objects_of(to) == place.objects() and len(place.objects()) == count, "each is there")


def try_restarts(trial):
    """Servers that are ended within a run, and started again."""
    place, folder = trial.place(mixed(300)), trial.folder()
    trial.mirror(place, folder)
    for kind, is_back in itertools.product((signal.SIGTERM, signal.SIGKILL), (False, True)):
        source, to = (folder, trial.place()) if is_back else (place, trial.folder())
        server = to if is_back else source
        ran = trial.start(source, to)
        wait_until(lambda: (len(to.objects()) if is_back else count_files(to)) > 20, "20 objects")
        server.end(kind)
        is_within = ran.poll() is None
        time.sleep(2)
        server.start()
        status, output, errors = end_of(ran)
        trial.check(is_within and (status, errors) == (0, "") and objects_of(to) == place.objects(),
                    f"{'TO' if is_back else 'FROM'} is ended by {kind.name}, and started 2 s later: {output.strip()}",
                    errors)


def try_no_server(trial):
    """A server that ends within a run, and is started after it."""
    place, folder = trial.place(mixed(300)), trial.folder()
    ran, begun = trial.start(place, folder), time.monotonic()
    wait_until(lambda: count_files(folder) > 20, "20 objects")
    place.end(signal.SIGTERM)
    status, output, errors = end_of(ran)
    trial.check(status == 1 and DONE.fullmatch(output) and re.fullmatch("mirror: .*\n", errors),
                f"the run ends after {time.monotonic() - begun:.0f} s: {errors.strip()}", f"{output}{errors}")
    count = len(stored(folder))
    place.start()
    trial.expect(f"the next run copies what was missing, {300 - count} objects", trial.mirror(place, folder),
                 300 - count, count)
    trial.check(stored(folder) == place.objects(), "each is there")


def named(ran):
    """The names of objects on the error stream of a run."""
    return {it.decode() for it in TOKEN.findall(ran[2].encode())}


def try_damaged(trial):
    """Damaged objects, in a folder and in a server."""
    place, folder, other = trial.place([*mixed(100), 200_000, 200_000]), trial.folder(), trial.place()
    listed = place.objects()
    trial.mirror(place, folder)
    oids = [oid for oid, size in listed.items() if size == 200_000]
    flipped, cut = (path_of(folder, oid) for oid in oids)
    data = flipped.read_bytes()
    flipped.write_bytes(data[:100_000] + bytes([data[100_000] ^ 1]) + data[100_001:])
    os.truncate(cut, 100_000)
    ran = trial.mirror(folder, other)
    lines = {f"mirror: damaged {oid}" for oid in oids}
    trial.check(ran[0] == 1 and set(ran[2].splitlines()) == lines, f"two damaged files: {ran[1].strip()}", ran)
    rest = listed.items() - {(oid, 200_000) for oid in oids}
    trial.check(other.objects().items() == rest and other.is_whole(), "all others are stored, and whole")
    chunk = "WHERE n = 1 AND upload = (SELECT id FROM uploads WHERE oid = ?)"
    place.end(signal.SIGTERM)
    with contextlib.closing(sqlite3.connect(place.database, isolation_level=None)) as database:
        for text, oid in zip(("UPDATE chunks SET bytes = zeroblob(length(bytes))", "DELETE FROM chunks"), oids):
            require(database.execute(f"{text} {chunk}", (oid,)).rowcount == 1, "no chunk was changed")
    place.start()
    new = trial.folder()
    ran = trial.mirror(place, new)
    lines = [f"mirror: damaged {oids[0]}",
             f"mirror: {oids[1]}: 127.0.0.1:{place.port}: the connection ended within a reply"]
    trial.check(ran[0] == 1 and sorted(ran[2].splitlines()) == sorted(lines),
                f"of a server, one of zeros and one without its end: {ran[1].strip()}", ran)
    trial.check(stored(new).items() == rest, "all others are in the folder, and whole")


def try_quota(trial):
    """A server whose quota is too small."""
    place, folder, other = trial.place([100_000] * 150), trial.folder(), trial.place()
    trial.mirror(place, folder)
    # Room for 20 objects of the batch, and then for an object that is larger than the rest of the room.
    other.change_policy(quota=2_050_000)
    ran = trial.mirror(folder, other)
    count, rules = len(other.objects()), set(re.findall(r"[A-Z]\d+: .*", ran[2]))
    trial.check(ran[0] == 1 and named(ran) == set(place.objects()) - set(other.objects()) and count == 20,
                f"{ran[1].strip()}; {rules}", ran)
    trial.check(rules == {"B5: the quota does not hold the object", "X3: the quota does not hold the object"},
                "with the rules' own words")
    other.change_policy()
    trial.expect("the next run, with room, copies the others", trial.mirror(folder, other), 130, 20)
    trial.check(other.objects() == place.objects() and other.is_whole(), "each is there, and whole")


def try_retired(trial):
    """Objects that are removed within a run."""
    place, folder = trial.place(mixed(300)), trial.folder()
    listed = place.objects()
    ran, last = trial.start(place, folder), max(listed)
    wait_until(lambda: count_files(folder) > 0, "an object")
    status, _, _ = place.via("retire", "--repo", FILM, last)
    require(status == 0 and count_files(folder) < 200, "the object was not removed in time")
    status, output, errors = end_of(ran)
    trial.check((status, errors) == (1, f"mirror: {last}: B6: the object was removed by its owner\n"), errors.strip(),
                output)
    trial.check(stored(folder).items() == listed.items() - {(last, listed[last])},
                f"the others are copied: {output.strip()}")
    trial.expect("the next run does not ask for it", trial.mirror(place, folder), 0, 299, 0)
    back = trial.place()
    kept = next(iter(stored(folder)))
    trial.mirror(folder, back)
    require(back.via("retire", "--repo", FILM, kept)[0] == 0, "it was not removed")
    ran = trial.mirror(folder, back)
    trial.check(ran[0] == 1 and named(ran) == {kept} and "B6" in ran[2],
                "an object that was removed in TO is not brought back", ran)


def tokens_in(texts, digests):
    """What there is in the texts whose SHA-256 begins as that of a token."""
    return [it for text in texts for it in TOKEN.findall(text) if hashlib.sha256(it).hexdigest()[:8] in digests]


def try_secrets(trial):
    """Tokens on command lines and in files."""
    place, folder, other = trial.place([20_000] * 300), trial.folder(), trial.place()
    token = place.token(user="bob")
    for number in range(20):
        place.make_lock(f"art/{number}.psd", token)
    command_lines = set()

    def watch(is_over):
        """Reads the command lines of all processes."""
        while not is_over.is_set():
            for file in Path("/proc").glob("[0-9]*/cmdline"):
                with contextlib.suppress(OSError):
                    command_lines.add(file.read_bytes())

    with beside(watch):
        for words in ((place, folder), (folder, other)):
            require(trial.mirror(*words)[0] == 0, "a run failed")
        released = [trial.unlock(place, "ann", FILM, f"art/{number}.psd")[0] for number in range(20)]
    digests = {*place.digests(), *other.digests()}
    seen = b" ".join(command_lines)
    require(tokens_in([token.encode()], digests) == [token.encode()], "a token is not found by its digest")
    require(all(it in seen for it in (b"deploy/programs/mirror", b"authenticate", b"curl")), "not all was seen")
    require(released == [0] * 20, "a lock was not released")
    trial.check(not tokens_in(command_lines, digests) and b"Bearer" not in seen,
                f"no token in {len(command_lines)} command lines")
    texts = [it.read_bytes() for it in Path(folder).rglob("*") if it.is_file()]
    trial.check(len(texts) == 302 and not tokens_in(texts, digests), f"no token in {len(texts)} files")


def try_ssh(trial):
    """A server that is reached by SSH."""
    place, folder, remote = trial.place(mixed(50)), trial.folder(), trial.place()
    room = Workroom(remote.room, trial.checks)
    forced = (TOP / "deploy/programs/forced-command").read_text(encoding="utf-8")
    room.write("forced-command", placed(forced, remote.room, remote.port))
    room.write_key(["ann"], f"{remote.room}/lib/forced-command")
    room.write("bin/ssh", SSH.replace("@room", remote.room), 0o755)
    Path(remote.room, "bin/custody").symlink_to(remote.program)
    path = {"PATH": room.environment["PATH"]}
    trial.expect("a server is copied to one by SSH",
                 trial.mirror("--also", remote.base, place, "ssh://custody@lfs.example:2222", **path), 50, 0)
    trial.check(remote.objects() == place.objects() and remote.is_whole(), "which lists the same, all whole")
    trial.mirror(place, folder)
    trial.expect("a folder has nothing new for it",
                 trial.mirror("--also", remote.base, folder, "ssh://custody@lfs.example", **path), 0, 50, 0)
    asked = Path(remote.room, "asked").read_text().splitlines()
    words = f"custody@lfs.example git-lfs-authenticate {FILM} upload"
    trial.check(asked == [f"-p 2222 {words}", words], f"ssh got: {asked}")
    ran = trial.mirror("ssh://custody@lfs.example", folder, **path)
    trial.check(ran[0] == 2, f"as FROM: {ran[2].splitlines()[-1]}", ran)
    ran = trial.mirror(folder, "ssh://custody@lfs.example", repo="studio/none", **path)
    trial.check(ran[0] == 1 and "R1: no such repository" in ran[2], f"no such repository: {ran[2].strip()}", ran)


def try_tls(trial):
    """A server that is reached through nginx, by TLS."""
    place, folder, new = trial.place([10_000] * 1000), trial.folder(), trial.folder()
    trial.mirror(place, folder)
    site = trial.enter_context(Site(trial.program, trial.folder(), ROWS, trial.checks))
    site.start_nginx()
    # A client knows many certificates, which take long to read.
    texts = [Path(it).read_text() for it in (ssl.get_default_verify_paths().cafile, site.certificate) if it]
    control, more = site.server.control(), {"SSL_CERT_FILE": str(site.write("known.pem", "".join(texts)))}
    timed(trial, "1000 objects of 10 KB by TLS", (folder, control), 1000, **more)
    timed(trial, "and back", (control, new), 1000, **more)
    trial.check(stored(new) == place.objects(), "each is whole")
    lines = Path(site.room, "custody.access.log").read_text(encoding="utf-8").splitlines()
    count = len({line.split()[1] for line in lines})
    # nginx ends a connection after 1,000 requests.
    trial.check(count <= len(lines) / 500, f"{len(lines)} requests came by {count} connections")
    begun, ran = time.monotonic(), trial.mirror(folder, control)
    taken = time.monotonic() - begun
    trial.check(ran[0] == 1 and "its certificate is not trusted" in ran[2] and taken < 20,
                f"without the certificate, after {taken:.1f} s (at most 20): {ran[2].strip()}", ran)


class Busy(http.server.BaseHTTPRequestHandler):
    """In the place of nginx: refuses two batches, and replies to the third one that all is stored."""

    def do_POST(self):
        """Replies to a batch."""
        batch = json.loads(self.rfile.read(int(self.headers["Content-Length"])))
        status = self.server.replies.pop(0)
        body = b"<html>" if status == 502 else json.dumps({"message": "too many", "objects": batch["objects"]}).encode()
        self.send_response(status)
        self.send_header("Content-Length", str(len(body)))
        if status == 429:
            self.send_header("Retry-After", "3")
        self.end_headers()
        self.wfile.write(body)

    def log_message(self, *_):
        """Prints nothing."""


def try_busy(trial):
    """A proxy that asks to wait."""
    place, folder = trial.place([1_000]), trial.folder()
    trial.mirror(place, folder)
    with http.server.HTTPServer(("127.0.0.1", 0), Busy) as proxy:
        threading.Thread(target=proxy.serve_forever).start()
        proxy.replies = [429, 502, 200]
        line = {"expires_in": 60, "header": {}, "href": f"http://127.0.0.1:{proxy.server_port}/x"}
        room = Workroom(place.room, trial.checks)
        room.write("bin/ssh", f"#!/bin/sh\necho '{json.dumps(line)}'\n", 0o755)
        begun = time.monotonic()
        also = f"http://127.0.0.1:{proxy.server_port}"
        ran = trial.mirror("--also", also, folder, "ssh://custody@lfs.example", PATH=room.environment["PATH"])
        taken = time.monotonic() - begun
        proxy.shutdown()
    trial.expect("429 and 502 are waited for", ran, 0, 1, 0)
    trial.check(taken >= 3 and proxy.replies == [], f"for {taken:.1f} s, of which Retry-After asks 3")


def try_unlock(trial):
    """The release of locks."""
    place = trial.place()
    token, spaced, twice = place.token(user="bob"), " art/a hero  of two.psd ", "art/twice.psd"
    # A terminal would act on the one character, and show the rest in another order after the other.
    acted = "art/\x9b31m\u202e.psd"
    for path, ref in ((spaced, MAIN), (acted, MAIN), ("art/a hero", MAIN), (twice, MAIN), (twice, "refs/heads/dev")):
        place.make_lock(path, token, ref)
    moments = {line.split(" ", 4)[4]: line.split()[3] for line in place.locks()}
    for status, words, text in [
        (1, ("mirror", FILM, spaced), "unlock: P0: no policy row allows force\n"),
        (0, ("ann", FILM, spaced), f"released: {spaced} on {MAIN}, which bob had locked since {moments[spaced]}\n"),
        (1, ("ann", FILM, spaced), f"unlock: there is no lock on {spaced}\n"),
        (0, ("ann", FILM, acted),
         f"released: art/?31m?.psd on {MAIN}, which bob had locked since {moments[acted]}\n"),
        (1, ("ann", FILM, "art/a"), "unlock: there is no lock on art/a\n"),
        (1, ("ann", FILM, twice), "unlock: the path is locked on several refs, name one of them:\n" + "".join(
            f"{line}\n" for line in place.locks() if line.endswith(f" {twice}"))),
        (1, ("ann", FILM, twice, "refs/heads/none"), f"unlock: there is no lock on {twice} on refs/heads/none\n"),
        (0, ("ann", FILM, twice, "refs/heads/dev"),
         f"released: {twice} on refs/heads/dev, which bob had locked since {moments[twice]}\n"),
        (0, ("ann", FILM, twice), f"released: {twice} on {MAIN}, which bob had locked since {moments[twice]}\n"),
        (2, ("ann", FILM), "usage: unlock USER REPO PATH [REF]\n"),
    ]:
        ran = trial.unlock(place, *words)
        trial.check(ran == ((0, text, "") if status == 0 else (status, "", text)), text.strip().replace("\n", "; "),
                    ran)
    trial.check([line.split()[-1] for line in place.locks()] == ["hero"], "one lock is left")
    nobody = f"http://127.0.0.1:{free_port()}"
    ran = trial.unlock(place, "ann", FILM, "art/a hero", CUSTODY_URL=nobody)
    trial.check(ran[0] == 1 and f"no server answers at {nobody}" in ran[2], f"no server: {ran[2].splitlines()[-1]}",
                ran)
    ran = trial.unlock(place, "ann", FILM, "art/a hero", CUSTODY_VIA=f"{place.room}/none")
    trial.check(ran[0] == 1 and ran[2].startswith("custody: control socket\n"),
                f"no socket: {ran[2].splitlines()[-1]}", ran)


def timed(trial, what, words, count, **more):
    """A run that copies this many objects, with its time."""
    begun = time.monotonic()
    ran = trial.mirror(*words, **more)
    trial.expect(f"{what}: {time.monotonic() - begun:.1f} s", ran, count, 0)


def try_times(trial):
    """How long copies take."""
    place, folder, back = trial.place([10_000] * 1000), trial.folder(), trial.place()
    timed(trial, "1000 objects of 10 KB to a folder", (place, folder), 1000)
    timed(trial, "and back", (folder, back), 1000)
    trial.check(stored(folder) == back.objects() == place.objects() and back.is_whole(), "each is whole")
    place, folder = trial.place([1 << 28] * 4), trial.folder()
    timed(trial, "1 GiB in four objects to a folder", (place, folder), 4)
    trial.check(stored(folder) == place.objects(), "each is whole")


PARTS = {name.removeprefix("try_"): part for name, part in list(globals().items()) if name.startswith("try_")}


def main():
    """Runs the suite."""
    options = arguments(__doc__, PARTS).parse_args()
    checks = Checks()
    for name in options.only or PARTS:
        print(f"{name}: {PARTS[name].__doc__}", flush=True)
        with Trial(options.program, checks) as trial:
            checks.part(name, lambda: PARTS[name](trial))
    return checks.end()


if __name__ == "__main__":
    sys.exit(main())
