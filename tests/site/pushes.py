"""What the suite of the site tries of pushes: deploy/programs/pre-receive and forced-command, with the real git.

Each push goes past the client's own checks: without the hook of Git LFS (--no-verify), or without its verification of
locks.
"""
import contextlib
import os
import signal
import subprocess
import time
from pathlib import Path

from tests.studio.checks import beside
from tests.studio.policy import FILM, WORK, row
from tests.studio.program import memory_of

ROWS = (
    row("deny", ["bob"], ["push"], refs=["refs/heads/main", "refs/heads/release/"], paths=["final/"]),
    row("deny", ["bob"], ["push"], repos=["*"], refs=["refs/tags/"]),
    row("allow", ["vera"], ["pull"], repos=["studio/"]),
    row("allow", ["ann"], ["force"]),
    row("allow", ["ann", "bob"], WORK),
)
ODD_NAMES = [b"two words.txt", b"quote's \"both\".txt", b"line\nbreak.txt", b"tab\there.txt", b"back\\slash.txt",
             b"latin-\xfc.txt", b"f/" * 511 + b"x.txt", "umlaut-ü.txt".encode()]
# Trees that nobody can check out: the names of their entries.
BAD_NAMES = [("..",), (".git",), ("./art",), ("art", "art")]
# A new name, and one that is there already, which are one file elsewhere.
TWINS = [("art/4.PSD", "art/4.psd"), ("Art/new.psd", "art"), ("art/4.psd.", "art/4.psd"), ("art/4.psd ", "art/4.psd"),
         ("art/u\u0308.txt", "art/\u00fc.txt")]


class Pushes:
    """A clone of bob, which starts each change from what the server has."""

    def __init__(self, site):
        self.site, self.clone = site, site.clone("bob", "pushing")
        site.expect(self.clone.take(site.remote())[0] == 0, "bob has a clone to push from")

    def git(self, *words, may_fail=False):
        """Runs Git in the clone, which takes each object for what it is."""
        return self.clone.git("--no-replace-objects", *words, may_fail=may_fail)

    def start(self):
        """Goes to what the server has."""
        self.git("fetch", "-q", "--prune", "origin")
        self.git("checkout", "-q", "-f", "-B", "main", "origin/main")
        self.git("clean", "-q", "-f", "-d", "-x")

    def write(self, name, text):
        """Writes a file, also where Git LFS has made one read-only. A name may be bytes."""
        path = os.path.join(os.fsencode(self.clone.folder), os.fsencode(name))
        os.makedirs(os.path.dirname(path), exist_ok=True)
        if os.path.exists(path):
            os.chmod(path, 0o644)
        with open(path, "w", encoding="utf-8") as file:
            file.write(text)

    def write_many(self, count, text):
        """Commits as many files in a folder."""
        for number in range(count):
            self.write(f"many-{count}/{number}.txt", f"{text}{number}")
        self.clone.commit("A change")

    def change(self, name, text):
        """Commits a file on what the server has."""
        self.start()
        self.write(name, text)
        self.clone.commit("A change")

    def command(self, *words):
        """Commits what a command of Git does to what the server has."""
        self.start()
        self.git(*words)
        self.clone.commit("A change")

    def push(self, *push):
        """Pushes without the client's hook. Returns the status, what was printed, and whether a ref moved."""
        refs = ["git", "-C", f"{self.site.room}/git/{FILM}.git", "for-each-ref"]
        before = self.site.run(*refs)
        status, text = self.git("push", "--no-verify", "origin", *(push or ["main"]), may_fail=True)
        return status, text, self.site.run(*refs) != before

    def refused(self, what, words, *push):
        """A push is refused whole, with these words."""
        status, text, has_moved = self.push(*push)
        self.site.expect(status != 0 and all(it in text for it in words) and not has_moved, what, text)

    def tree(self, entries):
        """A tree of these entries, of any names: a mode, a name and an object each."""
        data = b"".join(f"{mode} {name}".encode() + b"\0" + bytes.fromhex(what) for mode, name, what in entries)
        path = self.site.write("tree", "")
        path.write_bytes(data)
        return self.git("hash-object", "-t", "tree", "-w", "--literally", path)[1].strip()

    def bomb(self, levels, width=2, is_empty=False):
        """A commit on the server's main with a tree of ten entries that are all the same tree, as often. At the end is
        a file, or an empty folder."""
        mode, what = "100644", self.git("rev-parse", "origin/main:.gitattributes")[1].strip()
        if is_empty:
            mode, what = "40000", self.tree([])
        for _ in range(levels):
            what = self.tree([(mode, str(it).rjust(width, "f"), what) for it in range(10)])
            mode = "40000"
        return self.commit(what)

    def commit(self, tree):
        """A commit of a tree, after the one of the server's main."""
        return self.git("commit-tree", "-p", "origin/main", "-m", "A tree", tree)[1].strip()

    def passes(self, what, *push):
        """A push is taken."""
        status, text, has_moved = self.push(*push)
        self.site.expect(status == 0 and has_moved, what, text)


def try_locked(site, pushes):
    """Whatever changes a path that ann has locked is refused, and nothing of the push is taken."""
    site.ann.git("pull", "-q")
    for name in ("art/1.psd", "art/2.psd"):
        site.expect("Locked" in site.ann.tried("lfs", "lock", name)[1], f"ann locks {name}")
    locked = "art/1.psd: ann has locked it"
    pushes.change("art/1.psd", "a hero of bob")
    status, text = pushes.git("-c", "lfs.locksverify=false", "push", "origin", "main", may_fail=True)
    site.expect(status != 0 and locked in text and "Nothing was pushed" in text,
                "a client that verifies no locks is refused", text)
    pushes.refused("and one that runs no hook", [locked])
    pushes.git("branch", "-f", "side", "origin/main")
    pushes.refused("with all that it pushes", [locked], "main", "side")
    pushes.command("rm", "-q", "art/1.psd")
    pushes.refused("the removal of a locked path", [locked])
    pushes.command("mv", "-f", "art/3.psd", "art/1.psd")
    pushes.refused("a rename over a locked path", [locked])
    pushes.command("mv", "art/1.psd", "art/elsewhere.psd")
    pushes.refused("a rename of a locked path", [locked])
    pushes.change("notes.txt", "of bob")
    pushes.passes("a push of other paths passes")


def try_history(site, pushes):
    """Pushes that move a ref back, or add one, or remove one."""
    site.ann.git("pull", "-q", "--rebase")
    site.ann.git("lfs", "unlock", "art/2.psd")
    site.ann.change("art/2.psd", b"ann's ship")
    site.ann.git("push", "-q", "origin", "main")
    site.ann.git("lfs", "lock", "art/2.psd")
    pushes.start()
    pushes.git("reset", "-q", "--hard", "HEAD~1")
    pushes.refused("a force push that takes a locked path back", ["art/2.psd: ann has locked it"], "+main")
    pushes.change("aside.txt", "bob's")
    pushes.git("push", "-q", "--no-verify", "origin", "main")
    pushes.git("reset", "-q", "--hard", "HEAD~1")
    pushes.passes("one that takes other paths back", "+main")
    pushes.passes("a new branch at a commit of the server", "main:refs/heads/copy")
    pushes.write("art/1.psd", "a hero of bob")
    pushes.clone.commit("A change")
    pushes.passes("a new branch with a change of a path that is locked on main alone", "main:refs/heads/mine")
    pushes.refused("and the same commit for main", ["art/1.psd: ann has locked it"])
    site.lock("ann", "art/3.psd", "refs/heads/mine")
    pushes.refused("the removal of a branch with a lock of ann's", ["art/3.psd: ann has locked it"], ":mine")
    pushes.passes("the removal of a branch without one", ":copy")
    merge = pushes.git("commit-tree", "-p", "origin/main", "-p", "HEAD", "-m", "A merge", "HEAD^{tree}")[1].strip()
    pushes.refused("a merge that brings a locked path to main", ["art/1.psd"], f"{merge}:refs/heads/main")
    commit = pushes.git("rev-parse", "HEAD")[1].strip()
    pushes.refused("a replacement of a commit, which looks like main", ["no ref of refs/replace can be pushed here"],
                   f"origin/main:refs/replace/{commit}")
    bare = f"{site.room}/git/{FILM}.git"
    site.run("git", "-C", bare, "update-ref", f"refs/replace/{commit}", "refs/heads/main")
    pushes.refused("with one that the server has, the commit itself is looked at", ["art/1.psd: ann has locked it"])
    pushes.passes("and it can be removed", f":refs/replace/{commit}")


def memory_of_hook(site):
    """The memory of Git and the hook for pushes to the site, in MB."""
    mark, found = f"CUSTODY_VIA={site.room}/control".encode(), 0
    for process in filter(str.isdigit, os.listdir("/proc")):
        with contextlib.suppress(OSError, StopIteration):
            if mark in Path("/proc", process, "environ").read_bytes().split(b"\0"):
                found += memory_of(process)
    return found // 1000


def refused_early(site, pushes, what, *push):
    """A push of too many paths is refused in words, with little time and memory."""
    found = [0]

    def watch(is_over):
        """Keeps the most memory that is seen."""
        while not is_over.wait(0.01):
            found.append(memory_of_hook(site))

    words = ["timeout", "30", "git", "-C", pushes.clone.folder, "push", "--no-verify", "origin", *push]
    began = time.monotonic()
    with beside(watch):
        status, text = site.run(*words, may_fail=True)
    taken = time.monotonic() - began
    site.expect(status == 1 and "changes more than 1,000,000 files or folders" in text, f"{what} is refused", text)
    site.expect(taken < 10 and 0 < max(found) < 100, f"in {taken:.1f} s, with {max(found)} MB", f"{taken} {max(found)}")


def try_trees(site, pushes):
    """Trees of a few hundred bytes with any number of paths, and trees that nobody can check out."""
    pushes.start()
    bomb = pushes.bomb(7)
    refused_early(site, pushes, "a new branch with ten million paths", f"{bomb}:refs/heads/bomb")
    refused_early(site, pushes, "a change to ten million paths", f"{bomb}:refs/heads/main")
    large = pushes.bomb(6, 160)
    refused_early(site, pushes, "a million paths of a thousand bytes", f"{large}:refs/heads/large")
    some, more = pushes.bomb(5), pushes.bomb(5, 3)
    refs = [f"{it}:refs/heads/part/{it}-{at}" for it in (some, more) for at in range(6)]
    refused_early(site, pushes, "twelve branches with 100,000 paths each", *refs)
    began = time.monotonic()
    pushes.passes("one branch with 100,000 paths", f"{some}:refs/heads/some")
    print(f"     in {time.monotonic() - began:.1f} s", flush=True)
    pushes.passes("and it is removed", ":some")
    began = time.monotonic()
    pushes.passes("ten billion empty folders", f"{pushes.bomb(10, is_empty=True)}:refs/heads/empty")
    site.expect(time.monotonic() - began < 10, "take no time")
    file = pushes.git("rev-parse", "origin/main:.gitattributes")[1].strip()
    for names in BAD_NAMES:
        tree = pushes.tree([("100644", it, file) for it in names])
        pushes.refused(f"a tree with {' and '.join(names)}", ["fsck"], f"{pushes.commit(tree)}:refs/heads/bad")
    bare = f"{site.room}/git/{FILM}.git"
    try_old_mode(site, pushes, bare)
    pushes.change("notes.txt", "before the setting")
    site.run("git", "-C", bare, "config", "receive.fsckObjects", "false")
    pushes.refused("a push to a repository that takes such trees", ["git config receive.fsckObjects true"])
    site.run("git", "-C", bare, "config", "receive.fsckObjects", "true")


def try_old_mode(site, pushes, bare):
    """Where the administrator lets the modes of an old history pass, such a folder is one all the same."""
    pushes.change("art/1.psd", "bob's")
    folder = pushes.git("rev-parse", "HEAD:art")[1].strip()
    pushed = pushes.commit(pushes.tree([("040000", "art", folder)]))
    pushes.refused("a tree with the mode 040000", ["zeroPaddedFilemode"], f"{pushed}:refs/heads/main")
    site.run("git", "-C", bare, "config", "receive.fsck.zeroPaddedFilemode", "warn")
    pushes.refused("and a locked path in it", ["art/1.psd: ann has locked it"], f"{pushed}:refs/heads/main")
    site.run("git", "-C", bare, "config", "--unset", "receive.fsck.zeroPaddedFilemode")


def try_names_of_branches(site, pushes):
    """A branch by another name, and a branch that is made anew."""
    bare = f"{site.room}/git/{FILM}.git"
    site.run("git", "-C", bare, "symbolic-ref", "refs/heads/master", "refs/heads/main")
    pushes.change("art/1.psd", "a hero of bob")
    pushes.refused("a locked path by another name of its branch", ["main (which master names)",
                                                                   "art/1.psd: ann has locked it"], "main:master")
    pushes.change("notes.txt", "by another name")
    pushes.passes("other paths pass by it", "main:master")
    site.run("git", "-C", bare, "symbolic-ref", "-d", "refs/heads/master")
    site.lock("ann", "art/1.psd", "refs/heads/feature")
    pushes.change("art/1.psd", "a feature of bob")
    locked = ["art/1.psd: ann has locked it"]
    pushes.refused("a new branch with a path that is locked there", locked, "main:refs/heads/feature")
    pushes.passes("the same on a branch without a lock", "main:refs/heads/side")
    pushes.refused("and from there", locked, "main:refs/heads/feature")
    pushes.refused("nor as it is on main", locked, "origin/main:refs/heads/feature")
    pushes.start()
    pushes.passes("a branch", "main:refs/heads/rel")
    site.lock("ann", "new.psd", "refs/heads/rel")
    pushes.change("new.psd", "bob's")
    pushes.refused("a new path that is locked", ["new.psd: ann has locked it"], "main:rel")
    pushes.passes("the branch without it is removed", ":rel")
    pushes.passes("another branch has it", "main:refs/heads/other")
    pushes.refused("and the branch is not made anew with it", ["new.psd: ann has locked it"], "main:refs/heads/rel")
    site.ann.git("fetch", "-q", "origin")
    status, text = site.ann.tried("push", "-q", "--no-verify", "origin", "origin/other:refs/heads/rel")
    site.expect(status == 0, "but by ann, who has the lock", text)


def try_twins(site, pushes):
    """New names that are one file with another one on Windows or macOS."""
    pushes.change("art/\u00fc.txt", "bob's")
    pushes.passes("a name with an umlaut", "main")
    for name, other in TWINS:
        pushes.change(name, "bob's")
        pushes.refused(f"{name!r} beside {other!r}", [f"it is the same file as {other}: give it another name"])
    pushes.command("mv", "art/\u00fc.txt", "art/\u00dc.txt")
    pushes.passes("a name whose case changes")
    site.lock("ann", "art/hero.txt")
    pushes.change("art/Hero.txt", "bob's")
    pushes.refused("a name beside a locked one", ["it is the same file as art/hero.txt, which ann has locked"])
    bare = f"{site.room}/git/{FILM}.git"
    site.run("git", "-C", bare, "config", "custody.portablePaths", "false")
    pushes.passes("the same, where the setting lets it pass")
    site.run("git", "-C", bare, "config", "--unset", "custody.portablePaths")


def try_rows(site, pushes):
    """What the rows of the policy say of paths, branches and tags."""
    pushes.change("final/cut.txt", "bob's")
    pushes.refused("a path that a row denies", ["final/cut.txt: row 1 of the policy denies it"])
    pushes.refused("a new branch below release/", ["final/cut.txt: row 1"], "main:refs/heads/release/1")
    pushes.passes("the same path on a branch that the row does not name", "main:refs/heads/idea")
    site.ann.git("pull", "-q", "--rebase")
    site.ann.path("final").mkdir()
    site.ann.path("final/cut.txt").write_text("ann's")
    site.ann.commit("A cut", "final")
    site.ann.git("push", "-q", "origin", "main", "main:refs/heads/release/2")
    pushes.refused("the removal of a branch with such a path", ["final/cut.txt: row 1"], ":release/2")
    pushes.refused("a tag, which changes no path",
                   ["refs/tags/one", "this branch or tag: row 2 of the policy denies it"], "origin/main:refs/tags/one")
    pushes.refused("a branch with a character that the server does not take", ["A-Z a-z 0-9"], "main:refs/heads/idea#2")
    blob = pushes.git("rev-parse", "HEAD:final/cut.txt")[1].strip()
    pushes.refused("a tag of a file", ["it is no commit"], f"{blob}:refs/tags/file")
    site.environment["GIT_SSH_COMMAND"] = f"{site.ssh_command('bob')} -o SetEnv=CUSTODY_USER=ann"
    pushes.refused("a client that sets the environment of the hook", ["final/cut.txt: row 1"], "+main")
    del site.environment["GIT_SSH_COMMAND"]
    pushes.start()
    for name in ODD_NAMES:
        pushes.write(b"odd/" + name, "odd")
    pushes.clone.commit("A change")
    pushes.passes("odd paths pass where the rows let them")
    for name in ODD_NAMES:
        pushes.change(b"final/" + name, "odd")
        pushes.refused(f"final/{name[:20]!r} is denied by the row of its folder", ["row 1 of the policy denies it"])
    pushes.command("rm", "-q", "-r", "odd")
    pushes.passes("odd paths are removed")


def try_many(site, pushes):
    """Pushes of many paths, with the time that the hook takes."""
    for count in (1_000, 2_500, 10_001):
        pushes.start()
        pushes.write_many(count, "")
        began = time.monotonic()
        pushes.passes(f"{count} paths are pushed")
        print(f"     in {time.monotonic() - began:.2f} s, {without_hook(site, pushes, count):.2f} s without the hook",
              flush=True)
    last = sorted(f"many-10001/{it}.txt" for it in range(10_001))[-1]
    site.lock("ann", last)
    pushes.start()
    pushes.write_many(10_001, "changed ")
    pushes.refused("10001 paths, the last of which is locked", [f"{last}: ann has locked it"])
    token = site.server.token()
    for number in range(30):
        site.server.lock(f"many-1000/{number}.txt", token)
    pushes.command("rm", "-q", "-r", "many-1000")
    pushes.refused("of 30 locked paths 20 are named", ["many-1000/0.txt: ann has locked it", "and 10 more"])


def without_hook(site, pushes, count):
    """How long a push of as many paths takes if there is no hook."""
    hook = Path(site.room, "git", f"{FILM}.git", "hooks/pre-receive")
    unused = hook.rename(hook.with_name("unused"))
    pushes.write_many(count, "again ")
    began = time.monotonic()
    pushes.git("push", "-q", "--no-verify", "origin", "main")
    taken = time.monotonic() - began
    unused.rename(hook)
    return taken


def try_users(site, pushes):
    """The policy is asked before Git is served."""
    vera, carl = site.clone("vera"), site.clone("carl")
    status, text = vera.take(site.remote())
    site.expect("Cloning" in text or status == 0, "vera, who may only pull, clones", text)
    vera.fails("and may not push", "does not let vera push to studio/film", "push", "--no-verify", "origin",
               "main:refs/heads/vera")
    status, text = carl.take(site.remote())
    site.expect(status != 0 and "does not let carl pull from studio/film" in text,
                "carl, whom no row names, may not clone", text)
    site.run("git", "init", "-q", "--bare", f"{site.room}/git/other/film.git")
    vera.fails("nor vera a repository that the policy does not have", "R1: no such repository", "ls-remote",
               site.remote("other/film"))
    policy = Path(site.room, "policy.toml")
    whole = policy.read_text()
    policy.write_text("no policy")
    status, text = pushes.git("fetch", "origin", may_fail=True)
    site.expect(status == 0, "the server has its policy until it reads another one", text)
    policy.write_text(whole)


def try_silence(site, pushes):
    """A server that does not answer."""
    pushes.change("notes.txt", "of bob, again")
    site.server.end(signal.SIGTERM)
    pushes.refused("no push passes while the server is down", ["The Git LFS server is not running"])
    site.server.start()
    hook = Path(site.room, "lib/pre-receive").read_text(encoding="utf-8")
    impatient = site.write("impatient", hook.replace("PATIENCE = 300", "PATIENCE = 1"), 0o755)
    bare = f"{site.room}/git/{FILM}.git"
    commit = site.run("git", "-C", bare, "rev-parse", "main")[1].strip()
    words = site.server.command("hold", "--seconds", "20")
    with subprocess.Popen(words, stdin=subprocess.PIPE, stdout=subprocess.PIPE) as held:
        held.stdout.readline()
        status, text = site.run("env", "CUSTODY_USER=bob", f"CUSTODY_REPO={FILM}", f"CUSTODY_VIA={site.room}/control",
                                impatient, folder=bare, given=f"{'0' * 40} {commit} refs/heads/held\n", may_fail=True)
        site.expect(status == 1 and "did not answer" in text, "nor while it does not answer", text)
        held.communicate()
    pushes.passes("it passes when the server is there again")
    pushes.clone.fails("a push by a path says that nobody knows whose it is", "did not come over SSH", "push",
                       "--no-verify", f"{site.room}/git/{FILM}.git", "main:refs/heads/local")


def try_pushes(site):
    """Pushes under a policy of their own."""
    site.change_policy(rows=ROWS)
    pushes = Pushes(site)
    for part in (try_locked, try_history, try_names_of_branches, try_twins, try_trees, try_rows, try_many, try_users,
                 try_silence):
        part(site, pushes)
    site.change_policy()
    site.release_all()
    site.ann.git("pull", "-q", "--rebase")
