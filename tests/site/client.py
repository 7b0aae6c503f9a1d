"""Two users of the real Git LFS lock, list, verify and release paths of a repository over SSH, and push to it.

A script takes the place of sshd, and runs deploy/programs/forced-command for one of the two users; each request by HTTP
goes to a `custody session` of its own, so that no server runs. For each command of a user its status, what it prints,
and which requests get which status have to follow from docs/PROTOCOL.md: the checks name the rules. A check fails if
one of them differs.
"""
import json
import os
import re
import shutil
import socketserver
import subprocess
import sys
import tempfile
import threading
from pathlib import Path

from tests.studio.checks import Checks, arguments
from tests.studio.clone import Clone, Workroom
from tests.studio.policy import BASE, row
from tests.studio.program import TOP, free_port, name_of, target

# As sshd runs the forced command of a user's key: the client's own words come as one text. Git's own commands are run
# on the repository of this folder.
SSH = """#!/bin/sh
user=@user
for words in "$@"; do :; done
printf '%s\\n' "$words" >> "@room/ssh.log"
case $words in
git-receive-pack* | git-upload-pack*) exec git shell -c "${words%% *} '@room/film.git'" ;;
esac
export SSH_ORIGINAL_COMMAND="$words" SSH_USER_AUTH=@room/user_auth
PATH="@room/bin:$PATH" exec "@room/bin/forced-command" "$user"
"""
API = target("")
VERIFIED = "POST locks/verify 200"
MOMENT = re.compile(r"\d{4}-\d\d-\d\dT\d\d:\d\d:\d\dZ")
MORE = 120
# The most bytes of an object.
MOST = 4 << 30


def read_message(connection):
    """The bytes of one request, by its Content-Length; those that came if the client has gone."""
    received, wanted = b"", None
    while wanted is None or len(received) < wanted:
        piece = connection.recv(1 << 16)
        if not piece:
            break
        received += piece
        head, end, _ = received.partition(b"\r\n\r\n")
        if end and wanted is None:
            length = re.search(rb"(?i)\ncontent-length: *(\d+)", head)
            wanted = len(head) + len(end) + (int(length[1]) if length else 0)
    return received


class Feeder(socketserver.BaseRequestHandler):
    """Feeds the requests of one connection to the program, one after the other."""

    def handle(self):
        """Replies until the client has gone. The listener keeps each request and the status of its reply."""
        listener = self.server
        while message := read_message(self.request):
            with listener.one_at_a_time:
                reply = subprocess.run(listener.words, input=message, stdout=subprocess.PIPE, check=False).stdout
                method, where = message.decode("latin-1").split(" ")[:2]
                status = reply.decode("latin-1").split(" ")[1:2]
                listener.asked.append(" ".join([method, where.removeprefix(API), *status]))
            self.request.sendall(reply)


class Listener(socketserver.ThreadingTCPServer):
    """A thread for each connection: a client may open a second one while it keeps the first."""

    allow_reuse_address = True
    daemon_threads = True

    def __init__(self, port, words):
        super().__init__(("127.0.0.1", port), Feeder)
        self.words, self.asked, self.one_at_a_time = words, [], threading.Lock()


class Studio(Workroom):
    """The folder with the stand-ins, and the clones of ann and bob."""

    def __init__(self, options, room, checks):
        super().__init__(room, checks, options.show)
        port = free_port()
        self.set_up_git()
        self.make_bare("film")
        policy = (TOP / "examples/policy.toml").read_text(encoding="utf-8").replace(BASE, f"http://127.0.0.1:{port}")
        self.policy = self.write("policy.toml", policy)
        files = f"--db {room}/custody.db --policy {self.policy}"
        forced = (TOP / "deploy/programs/forced-command").read_text(encoding="utf-8")
        self.write("bin/forced-command", forced.replace('--via "$control"', files)
                   .replace("/etc/custody/authorized_keys", f"{room}/authorized_keys"), 0o755)
        self.write_key(("ann", "bob"))
        Path(room, "bin/custody").symlink_to(options.program)
        self.listener = Listener(port, [options.program, "session", *files.split()])
        self.ann, self.bob = self.clone("ann"), self.clone("bob")

    def clone(self, user):
        """The user's clone, with the script in the place of ssh."""
        text = SSH.replace("@user", user).replace("@room", self.room)
        ssh = self.write(f"bin/ssh-{user}", text, 0o755)
        clone = Clone(self, user, user, {"core.sshCommand": str(ssh), "ssh.variant": "simple"})
        clone.begin("ssh://git@studio.example/studio/film.git")
        clone.git("lfs", "install", "--local")
        return clone

    def change_policy(self, change):
        """Writes the policy's text, changed by the function. Each request reads the policy again."""
        self.policy.write_text(change(self.policy.read_text(encoding="utf-8")), encoding="utf-8")

    def told(self, clone, words, *asked, status=0, prints=None, says=(), issued=None):
        """One check: a command of a user ends with this status. It prints these lines and no others, or says these
        texts among others; and these requests, as `GET locks 200`, were made. `issued` has the operations of the
        tokens that were asked for over SSH; without it they have to be those that such requests need."""
        log = Path(self.room, "ssh.log")
        log.write_text("", encoding="utf-8")
        self.listener.asked.clear()
        found, text = clone.tried(*words.split())
        # The query of a request is left out.
        made = [re.sub(r"\?\S*", "", it) for it in self.listener.asked]
        tokens = re.findall(r"git-lfs-authenticate \S+ (\w+)", log.read_text(encoding="utf-8"))
        needed = list(dict.fromkeys("download" if it.startswith("GET") else "upload" for it in made))
        seen = f"status {found}, requests {self.listener.asked}, tokens {tokens}\n{text}"
        if self.shows:
            print(f"    {seen.splitlines()[0]}")
        is_met = (found, made) == (status, list(asked)) and set(tokens) == set(issued or needed)
        is_met = is_met and (prints is None or text.splitlines() == list(prints)) and all(it in text for it in says)
        name = clone.settings["user.name"]
        what = "; ".join([*(prints or ()), *says][:2]).replace("\n", "; ") or "nothing"
        self.expect(is_met, f"{name}: git {words}: {what}", seen)
        return text


def write_and_commit(clone, **files):
    """Commits files of the folder art."""
    clone.path("art").mkdir(exist_ok=True)
    for name, text in files.items():
        path = clone.path(f"art/{name}.psd")
        path.write_text(f"{text}\n", encoding="utf-8")
    clone.commit("A change")


def try_locks(studio):
    """Locks of two users, and how they are listed."""
    ann, bob, told = studio.ann, studio.bob, studio.told
    write_and_commit(ann, hero="hero", tree="tree")
    told(ann, "push -q origin main", VERIFIED, says=["Locking support detected on remote"])
    bob.git("pull", "-q", "origin", "main")
    told(ann, "lfs lock art/hero.psd", "POST locks 201", prints=["Locked art/hero.psd"])
    refused = "Locking art/hero.psd failed: L1: the path is already locked"
    told(ann, "lfs lock art/hero.psd", "POST locks 409", status=2, prints=[refused])
    told(ann, "lfs lock ../hero.psd", status=2, prints=['unable to canonicalize path "../hero.psd"'])
    told(bob, "lfs lock art/hero.psd", "POST locks 409", status=2, prints=[refused])
    told(bob, "lfs lock art/tree.psd", "POST locks 201", prints=["Locked art/tree.psd"])
    hero, tree = "art/hero.psd\tann\tID:1", "art/tree.psd\tbob\tID:2"
    told(ann, "lfs locks", "GET locks 200", prints=[hero, tree])
    listed = told(ann, "lfs locks --json", "GET locks 200", says=['"id":"1"', '"id":"2"'])
    check_json(studio, "ann", listed, ["art/hero.psd ann", "art/tree.psd bob"])
    told(ann, "lfs locks --path=art/tree.psd", "GET locks 200", prints=[tree])
    told(ann, "lfs locks --id=1", "GET locks 200", prints=[hero])
    told(ann, "lfs locks --limit=1", "GET locks 200", prints=[hero])
    told(ann, "lfs locks --verify", VERIFIED, prints=[f"O {hero}", f"  {tree}"])
    split = told(bob, "lfs locks --verify --json", VERIFIED, says=['"ours":[{"id":"2"', '"theirs":[{"id":"1"'])
    check_json(studio, "bob", split, ["art/tree.psd bob", "art/hero.psd ann"])
    told(bob, "lfs locks --cached", status=2, prints=["Error while retrieving locks: no cached locks present"])


def check_json(studio, user, text, wanted):
    """The locks of a list of JSON have these paths and owners, and the moment of each."""
    listed = json.loads(text)
    locks = listed if isinstance(listed, list) else [*listed["ours"], *listed["theirs"]]
    found = [f"{it['path']} {it['owner']['name']}" for it in locks]
    studio.expect(found == wanted and all(MOMENT.fullmatch(it["locked_at"]) for it in locks),
                  f"{user}: the list is {', '.join(wanted)}, each with its moment", text)


def try_pushes(studio):
    """Pushes of a path that another has locked, without and with the client's verification."""
    bob, told = studio.bob, studio.told
    write_and_commit(bob, hero="a second hero")
    told(bob, "push -q origin main", VERIFIED, says=[
        "Unable to push locked files:\n* art/hero.psd - ann (refs: main)",
        "warning: The above files would have halted this push."])
    told(bob, "config lfs.https://studio.example/studio/film.git/info/lfs.locksverify true", prints=[])
    write_and_commit(bob, tree="a second tree")
    told(bob, "push -q origin main", VERIFIED, prints=[])
    write_and_commit(bob, hero="a third hero")
    told(bob, "push -q origin main", VERIFIED, status=1, says=[
        "Unable to push locked files:\n* art/hero.psd - ann (refs: main)", "Cannot update locked files."])


def try_releases(studio):
    """Locks that are released by their owner, by force, and by nobody."""
    bob, told = studio.bob, studio.told
    found = "GET locks 200"
    told(bob, "lfs unlock art/hero.psd", found, "POST locks/1/unlock 403", status=2,
         prints=["L3: the lock belongs to another user"])
    told(bob, "lfs unlock --force art/hero.psd", found, "POST locks/1/unlock 403", status=2,
         prints=["P0: no policy row allows force"])
    told(bob, "lfs unlock --force --id=1", "POST locks/1/unlock 403", status=2,
         prints=["Unable to unlock 1: P0: no policy row allows force"])
    studio.change_policy(lambda text: text + row("allow", ["bob"], ["force"], paths=["art/"]))
    told(bob, "lfs unlock --force art/hero.psd", found, "POST locks/1/unlock 200", prints=["Unlocked art/hero.psd"])
    told(bob, "push -q origin main", VERIFIED, prints=[])
    bob.path("art/tree.psd").write_text("a third tree\n", encoding="utf-8")
    told(bob, "lfs unlock art/tree.psd", status=2, prints=["Cannot unlock file with uncommitted changes"])
    told(bob, "lfs unlock --force art/tree.psd", found, "POST locks/2/unlock 200",
         prints=["warning: unlocking with uncommitted changes because --force", "Unlocked art/tree.psd"])
    bob.git("checkout", "-q", "art/tree.psd")
    told(bob, "lfs unlock art/tree.psd", found, status=2, prints=["unable to get lock ID: no matching locks found"])
    told(bob, "lfs unlock --id=7", found, "POST locks/7/unlock 404", status=2,
         prints=["Unable to unlock 7: L2: no such lock"])


def try_ids(studio):
    """No id is used again."""
    ann, told = studio.ann, studio.told
    locked = ("lfs lock art/hero.psd", "POST locks 201")
    told(ann, "lfs locks", "GET locks 200", prints=[])
    told(ann, *locked, prints=["Locked art/hero.psd"])
    told(ann, "lfs unlock --id=3", "POST locks/3/unlock 200", prints=["Unlocked Lock 3"])
    told(ann, *locked, prints=["Locked art/hero.psd"])
    told(ann, "lfs unlock art/hero.psd", "GET locks 200", "POST locks/4/unlock 200", prints=["Unlocked art/hero.psd"])
    told(ann, "lfs unlock art/hero.psd", "GET locks 200", status=2,
         prints=["unable to get lock ID: no matching locks found"])


def try_branches(studio):
    """A path may be locked on each branch."""
    ann, bob, told = studio.ann, studio.bob, studio.told
    told(bob, "lfs lock art/hero.psd", "POST locks 201", prints=["Locked art/hero.psd"])
    ann.git("checkout", "-q", "-b", "side")
    told(ann, "push -q -u origin side", VERIFIED, says=["Locking support detected on remote"])
    told(ann, "lfs lock art/hero.psd", "POST locks 201", prints=["Locked art/hero.psd"])
    told(ann, "lfs locks", "GET locks 200", prints=["art/hero.psd\tann\tID:6"])
    told(ann, "lfs unlock art/hero.psd", "GET locks 200", status=2,
         prints=["unable to get lock ID: multiple locks found; ambiguous"])
    told(ann, "lfs unlock --id=6", "POST locks/6/unlock 200", prints=["Unlocked Lock 6"])


def try_pages(studio):
    """More locks than a page has: each is listed once."""
    ann, told = studio.ann, studio.told
    paths = [f"art/shot-{number}.psd" for number in range(1, MORE + 1)]
    ann.git("lfs", "lock", *paths)
    lines = sorted(f"{path}\tann\tID:{number}" for number, path in enumerate(paths, 7))
    for option, request, mark in (("", "GET locks 200", ""), (" --verify", VERIFIED, "O ")):
        text = told(ann, f"lfs locks{option}", request, request, says=[f"ID:{MORE + 6}"])
        found = sorted(re.sub(r"\t+| +\t", "\t", re.sub(r"(\S) +\t", r"\1\t", it)) for it in text.splitlines())
        studio.expect(found == [f"{mark}{it}" for it in lines],
                      f"ann: git lfs locks{option}: lines with a lock: {MORE}", text)


def try_rights(studio):
    """Without the right list a user sees, and releases, only what is locked by this user."""
    bob, told = studio.bob, studio.told
    studio.change_policy(lambda text: text.replace('"list", ', ""))
    told(bob, "lfs locks", "GET locks 200", prints=[])
    told(bob, "lfs locks --verify", VERIFIED, prints=["O art/hero.psd\tbob\tID:5"])
    told(bob, "lfs unlock art/hero.psd", "GET locks 200", status=2,
         prints=["unable to get lock ID: no matching locks found"])
    told(bob, "lfs unlock --id=5", "POST locks/5/unlock 200", prints=["Unlocked Lock 5"])


def try_settings(studio):
    """A setting that is committed holds in each clone; and the lock of a path that does not exist."""
    ann, bob, told = studio.ann, studio.bob, studio.told
    ann.git("checkout", "-q", "main")
    ann.git("pull", "-q", "origin", "main")
    told(bob, "lfs lock art/tree.psd", "POST locks 201", prints=["Locked art/tree.psd"])
    told(ann, "config -f .lfsconfig lfs.locksverify true", prints=[])
    write_and_commit(ann, tree="a tree of ann's")
    told(ann, "push -q origin main", VERIFIED, status=1, says=[
        "Unable to push locked files:\n* art/tree.psd - bob (refs: main)", "Cannot update locked files."])
    ann.git("reset", "-q", "--hard", "origin/main")
    told(bob, "lfs unlock art/tree.psd", "GET locks 200", f"POST locks/{MORE + 7}/unlock 200",
         prints=["Unlocked art/tree.psd"])
    ann.git("lfs", "track", "--lockable", "*.max")
    told(ann, "lfs lock art/heroo.max", "POST locks 201", prints=["Locked art/heroo.max"])
    told(ann, "lfs unlock art/heroo.max", "GET locks 200", f"POST locks/{MORE + 8}/unlock 200", status=2,
         says=["art/heroo.max: no such file or directory"])


def try_sizes(studio):
    """A file that is larger than the server takes: the hook of the examples names it, and a push without the hook does
    not. Only the pointer is written, and in its place among the objects a file without blocks."""
    ann, told = studio.ann, studio.told
    ann.git("lfs", "track", "*.mov")
    ann.commit("Tracks films")
    shutil.copy(TOP / "examples/custody-check-size", ann.path(".git/hooks/pre-commit"))
    for name, size in (("cut", MOST), ("first cut", MOST + 1), ("second", 300_000_000)):
        oid = name_of(name.encode())
        text = f"version https://git-lfs.github.com/spec/v1\noid sha256:{oid}\nsize {size}\n"
        ann.path(f"art/{name}.mov").write_text(text, encoding="utf-8")
        stored = ann.path(f".git/lfs/objects/{oid[:2]}/{oid[2:4]}/{oid}")
        stored.parent.mkdir(parents=True)
        stored.touch()
        os.truncate(stored, size)
    told(ann, "add art/cut.mov", prints=[])
    told(ann, "commit -m Cut", says=["art/cut.mov"])
    told(ann, "add art", prints=[])
    told(ann, "commit -m Cuts", status=1, prints=[
        f"custody: art/first cut.mov has {MOST + 1} bytes, and the server takes at most {MOST}: it is not committed"])
    told(ann, "config custody.largest 256m", prints=[])
    told(ann, "commit -m Cuts", status=1, says=["art/second.mov has 300000000 bytes, and the server takes at most "
                                                f"{256 << 20}: "])
    told(ann, "reset -q HEAD art/second.mov", prints=[])
    told(ann, "commit --no-verify -m Cuts", says=["art/first cut.mov"])
    oid = name_of(b"first cut")
    told(ann, "push -q origin main", VERIFIED, "POST objects/batch 200", status=1, says=[
        f"[{oid}] B2: the object name or size is not valid"])
    told(ann, "lfs ls-files --size", says=[f"{oid[:10]} - art/first cut.mov"])


def try_all(studio):
    """Each part: the later ones go on from what the earlier ones have locked."""
    for part in (try_locks, try_pushes, try_releases, try_ids, try_branches, try_pages, try_settings, try_rights,
                 try_sizes):
        part(studio)


def main():
    """Runs the suite."""
    parser = arguments(__doc__)
    parser.add_argument("--show", action="store_true", help="print each command and what the client prints")
    options = parser.parse_args()
    checks = Checks()
    with tempfile.TemporaryDirectory() as room:
        studio = Studio(options, room, checks)
        threading.Thread(target=studio.listener.serve_forever, daemon=True).start()
        try:
            checks.part("client", lambda: try_all(studio))
        finally:
            studio.listener.shutdown()
    return checks.end()


if __name__ == "__main__":
    sys.exit(main())
