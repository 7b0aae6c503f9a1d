"""Pushes, clones, pulls and fetches with the real Git LFS client against `custody serve`.

Two users have repositories whose remotes are reached over SSH. A script is in the place of sshd: it runs Git's own
commands on the repositories of a temporary folder, and answers git-lfs-authenticate with the line that `custody
authenticate` prints. 200 files of 1 byte to 50 MB are pushed and cloned, with one transfer at a time and with eight,
over a database of each form. Then one of two files is removed for good. A check fails if a file has other bytes than
it was pushed with, or if the client ends otherwise, or without the words of the rule.
"""
import contextlib
import random
import shutil
import signal
import sys
import tempfile
from pathlib import Path

from tests.studio.checks import Checks, arguments
from tests.studio.clone import Clone, Workroom
from tests.studio.policy import WORK, repo, row
from tests.studio.program import FORMS, name_of
from tests.studio.site import SiteServer

QUOTAS = {"studio/film": 2_000_000_000, "studio/small": 100_000, "studio/gone": 100_000}
# The repositories, and the rows of the policy.
ROWS = (
    *(repo(*it) for it in QUOTAS.items()),
    row("deny", ["bob"], ["push"], repos=["*"], refs=["refs/heads/release"]),
    row("allow", ["ann", "bob"], WORK, repos=["studio/"]),
)
REASON = "B6: the object was removed by its owner"


class Trial(Workroom):
    """A server, its repositories, and the users' clones."""

    def __init__(self, options, room, checks, form):
        super().__init__(room, checks, options.show)
        self.program, self.count, self.form = options.program, options.files, form
        self.set_up_git()
        for user in ("ann", "bob"):
            self.write_ssh(user, options.program)
        for name in QUOTAS:
            self.make_bare(name)

    @contextlib.contextmanager
    def served(self):
        """Runs the server meanwhile."""
        with SiteServer(self.program, self.room, ROWS, repos=(), form=self.form) as server:
            yield
            self.expect(server.child.poll() is None, "the server still runs")
            server.end(signal.SIGTERM)

    def folder(self, user, name, transfers, mark=""):
        """The folder of a clone of the user, with a number of transfers at a time."""
        settings = {**self.over_ssh(user), "lfs.concurrenttransfers": str(transfers)}
        return Clone(self, f"{user}-{mark}{name.split('/')[1]}-{transfers}", user, settings)

    def clone(self, user, name, transfers, *settings):
        """A new clone of the repository, with its files, by `git clone`. Returns the status too."""
        clone = self.folder(user, name, transfers)
        return clone.take(self.bare_remote(name), *settings)[0], clone

    def new(self, user, name, transfers):
        """A new repository of the user, with nothing in it."""
        clone = self.folder(user, name, transfers, "new-")
        clone.begin(self.bare_remote(name))
        clone.git("lfs", "track", "*.bin")
        clone.git("add", ".gitattributes")
        return clone


def sizes(count):
    """Sizes of 1 byte to 50 MB: most are small, a few are large."""
    few = [1, 2, 3, 65_535, 65_536, 65_537, 1_000_000, 5_000_000, 50_000_000]
    return (few + [1_000 + 997 * n for n in range(count - len(few))])[:count]


def write_files(clone, seed, count):
    """Writes the files, whose bytes depend on the seed. Returns the digest of each by its name."""
    source, digests = random.Random(seed), {}
    for number, size in enumerate(sizes(count)):
        content, name = source.randbytes(size), f"{number:03}.bin"
        clone.path(name).write_bytes(content)
        digests[name] = name_of(content)
    return digests


def digests_in(clone):
    """The digest of each file of the clone."""
    return {it.name: name_of(it.read_bytes()) for it in sorted(clone.path("").glob("*.bin"))}


def transfer(trial, transfers):
    """Pushes and clones all files with this number of transfers at a time."""
    print(f"{transfers} transfers at a time", flush=True)
    ann = trial.new("ann", "studio/film", transfers)
    digests = write_files(ann, transfers, trial.count)
    ann.commit("files")
    branch = f"work-{transfers}"
    ann.passes(f"{len(digests)} files are pushed", "push", "origin", f"HEAD:refs/heads/{branch}")
    trial.run("git", "symbolic-ref", "HEAD", f"refs/heads/{branch}", folder=f"{trial.room}/studio/film.git")
    _, bob = trial.clone("bob", "studio/film", transfers)
    trial.expect(digests_in(bob) == digests, "a clone has the same bytes")
    bob.passes("git lfs fsck finds nothing", "lfs", "fsck", says="OK")
    bob.change("000.bin", b"changed by bob %d" % transfers)
    bob.passes("a change is pushed", "push", "origin", f"HEAD:refs/heads/{branch}")
    status, _ = ann.tried("pull", "-q", "--ff-only", "origin", branch)
    trial.expect(status == 0 and digests_in(ann) == digests_in(bob), "and pulled")
    shutil.rmtree(ann.path(".git/lfs/objects"))
    ann.passes("git lfs fetch fetches all objects again", "lfs", "fetch", "--all", "origin")
    ann.passes("objects that are there are not pushed again", "lfs", "push", "--all", "origin")


def refusals(trial):
    """Pushes that are refused."""
    print("refused", flush=True)
    bob = trial.folder("bob", "studio/film", 1)
    bob.git("checkout", "-q", "-b", "release")
    bob.change("001.bin", b"a release")
    bob.fails("a push that the policy denies by its ref", "P1: policy row 1 denies push", "push", "origin", "release")
    ann = trial.new("ann", "studio/small", 1)
    ann.path("large.bin").write_bytes(random.Random(1).randbytes(100_001))
    ann.commit("too large")
    ann.fails("a push over the quota", "B5: the quota does not hold the object", "push", "origin",
              "HEAD:refs/heads/main")
    ann.path("large.bin").write_bytes(random.Random(1).randbytes(100_000))
    ann.git("commit", "-q", "-a", "--amend", "-m", "as large as the quota")
    ann.passes("a push that fills the quota", "push", "origin", "HEAD:refs/heads/main")


def push_two(trial):
    """Pushes two files; returns the clone and the digest of each by its name."""
    ann = trial.new("ann", "studio/gone", 1)
    for name in ("hero", "tree"):
        ann.path(f"{name}.bin").write_bytes(random.Random(name).randbytes(1000))
    ann.commit("two files")
    ann.git("push", "-q", "origin", "HEAD:refs/heads/main")
    return ann, digests_in(ann)


def fetch_removed(trial, digests):
    """What the client does about an object that is removed for good, as it downloads."""
    status, bob = trial.clone("bob", "studio/gone", 1)
    trial.expect(status == 128 and not bob.path("hero.bin").exists(), "a clone stops at the file")
    status, bob = trial.clone("bob", "studio/gone", 2, "lfs.skipdownloaderrors=true")
    found = digests_in(bob)
    trial.expect(status == 0 and found["tree.bin"] == digests["tree.bin"], "one that skips errors has the other file")
    pointer = bob.path("hero.bin").read_bytes()
    trial.expect(pointer.startswith(b"version https://git-lfs"), "and the pointer of this one")
    shutil.rmtree(bob.path(".git/lfs/objects"))
    bob.fails("git lfs pull says why", REASON, "lfs", "pull", status=2)
    trial.expect(list(bob.path(".git/lfs/objects").rglob(digests["tree.bin"])), "and fetches the other file")


def commit_file(ann, name):
    """Commits a new file."""
    ann.path(f"{name}.bin").write_bytes(name.encode())
    ann.commit(name)


def push_removed(trial, ann):
    """What it does as it uploads: `ann` has two files, of which one is removed for good."""
    commit_file(ann, "all")
    ann.fails("git lfs push --all of the same file is refused", REASON, "lfs", "push", "--all", "origin", status=2)
    ann.git("push", "-q", "--no-verify", "origin", "HEAD:refs/heads/main")
    _, bob = trial.clone("bob", "studio/gone", 3, "lfs.skipdownloaderrors=true")
    trial.expect(bob.path("all.bin").exists() and digests_in(bob)["all.bin"] == digests_in(ann)["all.bin"],
                 "and uploads the other files")
    commit_file(ann, "another")
    ann.passes("another file is pushed", "push", "origin", "HEAD:refs/heads/main")
    # Without what it knows of the remote, the client asks for every object of the branch.
    ann.git("update-ref", "-d", "refs/remotes/origin/main")
    ann.git("commit", "-q", "--amend", "-m", "the same files")
    ann.fails("git push of the same file is refused", REASON, "push", "-f", "origin", "HEAD:refs/heads/again", status=1)
    _, text = ann.git("ls-remote", "origin")
    trial.expect("again" not in text, "and moves no ref")


def remove_from_branch(trial, ann):
    """A branch without the file, and a commit before it."""
    ann.git("push", "-q", "--no-verify", "origin", "HEAD:refs/heads/before")
    ann.git("rm", "-q", "hero.bin")
    ann.git("commit", "-q", "-m", "without it")
    ann.git("push", "-q", "-f", "origin", "HEAD:refs/heads/main")
    status, bob = trial.clone("bob", "studio/gone", 4)
    trial.expect(status == 0, "a branch without the file is cloned")
    bob.fails("a checkout of a commit with the file stops", REASON, "checkout", "origin/before", status=128)
    bob.passes("one that skips errors does not", "-c", "lfs.skipdownloaderrors=true", "checkout", "-f", "origin/before")


def try_all(trial):
    """Each part, of which the last one goes on from what is stored."""
    with trial.served():
        for transfers in (1, 8):
            transfer(trial, transfers)
        refusals(trial)
        ann, digests = push_two(trial)
    print("removed for good", flush=True)
    name = digests["hero.bin"]
    ran = trial.run(trial.program, "retire", "--db", f"{trial.room}/custody.db", "--repo", "studio/gone", name)
    trial.equal(ran, (0, f"retired {name}\n"), "an object is removed for good")
    with trial.served():
        fetch_removed(trial, digests)
        push_removed(trial, ann)
        remove_from_branch(trial, ann)


def main():
    """Runs the suite."""
    parser = arguments(__doc__, forms=True)
    parser.add_argument("--files", type=int, default=200, help="how many files are pushed [default: 200]")
    parser.add_argument("--show", action="store_true", help="print each command and what the client prints")
    options = parser.parse_args()
    checks = Checks()
    for form in options.form or FORMS:
        print(f"a database of the form {form}", flush=True)
        with tempfile.TemporaryDirectory() as room:
            checks.part("transfers", lambda: try_all(Trial(options, room, checks, form)))
            errors = Path(room, "errors")
            if errors.exists() and errors.stat().st_size:
                print(f"the server printed:\n{errors.read_text(encoding='utf-8')}")
    return checks.end()


if __name__ == "__main__":
    sys.exit(main())
