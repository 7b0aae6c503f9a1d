"""Sets up a site on this machine, and uses it with the real clients: pushes, locks, large files, the runbook.

nginx has deploy/nginx/site and a certificate, sshd has deploy/programs/forced-command, the server has a control socket,
and the repository of Git has the hook deploy/programs/pre-receive. Users have keys and clones of their own. A check
fails if a client prints or ends with something else than the pages say, if a file that was pushed is not there or has
other bytes, or if the commands of the runbook do not do what it says of them.
"""
import getpass
import shutil
import signal
import sys
import tempfile
import threading
import time
from pathlib import Path

from tests.site.handbook import try_handbook
from tests.site.pushes import try_pushes
from tests.site.uploads import try_uploads
from tests.studio.checks import Checks, arguments, comes_true, require
from tests.studio.clone import same_files
from tests.studio.policy import FILM, WORK, row
from tests.studio.program import LAST, TOP, content
from tests.studio.site import Site

ROWS = (row("allow", ["ann"], ["force"]), row("allow", ["ann", "bob"], WORK))
# Who has a key that sshd knows. The rows name the first two.
USERS = ("ann", "bob", "vera", "carl")
PUSH = ("push", "-q", "origin", "main")
# How many seconds a push may take until it has stored something.
PATIENCE = 120


class Studio(Site):
    """The site with the clones of ann and bob, and the size of the largest files."""

    def __init__(self, options, room, checks):
        super().__init__(options.program, room, ROWS, checks)
        self.ann, self.bob = self.clone("ann"), self.clone("bob")
        self.large = options.gib << 30

    def count(self):
        """How many objects the server has."""
        return len(self.server.objects())

    def pushed_beside(self):
        """Pushes as ann while the caller goes on. The result returns the status, and what was printed."""
        ran = []
        thread = threading.Thread(target=lambda: ran.append(self.ann.tried(*PUSH)))
        thread.start()

        def result():
            """What the push ended with."""
            thread.join()
            return ran[0]

        return result

    def wait_for_objects(self, count):
        """Waits until the server has at least this many objects."""
        require(comes_true(lambda: self.count() >= count, PATIENCE, 0.02), f"{count} objects within {PATIENCE} s")


def push_and_clone(site):
    """The first push, and the first clone."""
    site.ann.begin(site.remote())
    site.ann.git("lfs", "track", "*.psd", "--lockable")
    site.ann.git("add", ".gitattributes")
    site.ann.add_files("art", 20, 100_000)
    status, text = site.ann.tried("push", "-q", "-u", "origin", "main")
    site.expect(status == 0 and site.count() == 20, "ann pushes 20 files", text)
    status, text = site.bob.take(site.remote())
    site.expect(status == 0 and same_files(site.ann, site.bob, "art"), "bob clones them", text)
    site.bob.passes("git lfs fsck finds them whole", "lfs", "fsck")


def try_locks(site):
    """Locks that are made, listed, broken and released, and a push of a locked path."""
    site.ann.passes("ann locks a path", "lfs", "lock", "art/1.psd", says="Locked art/1.psd")
    site.bob.fails("bob is refused the same path", "L1", "lfs", "lock", "art/1.psd")
    site.bob.passes("bob locks another", "lfs", "lock", "art/2.psd", says="Locked art/2.psd")
    status, text = site.ann.tried("lfs", "locks")
    site.expect("art/1.psd" in text and "art/2.psd" in text, "ann lists both locks", text)
    site.bob.fails("bob may not break ann's lock", "P0", "lfs", "unlock", "--force", "art/1.psd")
    site.ann.passes("ann breaks bob's lock", "lfs", "unlock", "--force", "art/2.psd", says="Unlocked art/2.psd")
    site.bob.change("art/1.psd", b"bob's hero")
    site.bob.fails("bob's push of the locked path is stopped", "art/1.psd", *PUSH)
    site.ann.passes("ann releases the lock", "lfs", "unlock", "art/1.psd", says="Unlocked art/1.psd")
    site.bob.passes("bob's push passes", *PUSH)
    status, text = site.ann.tried("pull", "-q")
    site.expect(same_files(site.ann, site.bob, "art"), "ann pulls it", text)


def try_transfers(site):
    """Many files, and large ones."""
    site.ann.add_files("many", 200, 20_000)
    site.ann.add_files("large", 3, 40_000_000)
    began = time.monotonic()
    status, text = site.ann.tried(*PUSH)
    site.expect(status == 0, f"203 files are pushed with 8 transfers at a time, in {time.monotonic() - began:.1f} s",
                text)
    began = time.monotonic()
    status, text = site.bob.tried("pull", "-q")
    site.expect(same_files(site.ann, site.bob, "many") and same_files(site.ann, site.bob, "large"),
                f"and pulled, in {time.monotonic() - began:.1f} s", text)


def try_tokens(site):
    """Tokens that are removed, and tokens that expire during a push."""
    status, text = site.via("prune", "--now", "0")
    site.expect((status, text) == (0, "pruned 0 tokens\n"), "no token is removed before it expires", text)
    status, text = site.via("prune", "--now", str(LAST))
    site.expect(status == 0 and text != "pruned 0 tokens\n", "all are removed after that, beside the running server",
                text)
    # The client does not use what expires within 5 seconds.
    site.change_policy(seconds=7)
    site.ann.add_files("expiring", 4000, 1_000)
    site.ann.git("config", "lfs.concurrenttransfers", "1")
    began = time.monotonic()
    status, text = site.ann.tried(*PUSH)
    taken = time.monotonic() - began
    site.expect(status == 0 and taken > 7, f"a push of 4000 files with tokens of 7 seconds passes, in {taken:.1f} s",
                text)
    site.ann.git("config", "lfs.concurrenttransfers", "8")
    site.change_policy()


def try_restart(site):
    """A server that is killed during a push, and started again."""
    site.ann.add_files("restarted", 150, 200_000)
    before = site.count()

    def restart():
        """Kills the server once it has stored something, and starts it again."""
        site.wait_for_objects(before + 20)
        site.server.end(signal.SIGKILL)
        site.server.start()

    thread = threading.Thread(target=restart)
    thread.start()
    status, text = site.ann.tried(*PUSH)
    thread.join()
    print(f"     a push during which the server was killed ended with {status}")
    if status != 0:
        status, text = site.ann.tried(*PUSH)
    site.expect(status == 0, "the push, or the one after it, passes", text)
    site.expect(site.count() == before + 150, "each object is there once")
    status, text = site.via("check")
    site.expect(status == 0, f"every object is whole: {text.strip()}", text)
    again = site.clone("bob", "again")
    status, text = again.take(site.remote())
    site.expect(status == 0 and same_files(site.ann, again, "restarted"), "a new clone has all files", text)


def try_backup(site):
    """A copy that deploy/programs/backup makes during a push is a whole database with the objects of that moment."""
    site.ann.add_files("copied", 300, 100_000)
    before = site.count()
    pushed = site.pushed_beside()
    site.wait_for_objects(before + 20)
    Path(site.room, "backups").mkdir()
    began, least = time.monotonic(), site.count()
    words = [TOP / "deploy/programs/backup", site.server.control(), site.server.database, f"{site.room}/backups", "2"]
    ran = site.run("env", f"CUSTODY={site.server.program}", *words, may_fail=True)
    taken, most = time.monotonic() - began, site.count()
    status, text = pushed()
    site.expect(ran[0] == 0, f"a copy is made during a push, and checked, in {taken:.1f} s: {ran[1].strip()}", ran[1])
    site.expect(status == 0, "the push passes", text)
    copies = list(Path(site.room, "backups").glob("*Z"))
    site.expect(len(copies) == 1, "there is one copy", str(copies))
    status, text = site.run(TOP / "deploy/programs/restore", copies[0], f"{site.room}/restored.db", may_fail=True)
    site.expect(status == 0, f"a database is made of it: {text.strip()}", text)
    words = [site.server.program, "objects", "--db", f"{site.room}/restored.db", "--repo", FILM]
    found = site.run(*words, may_fail=True)
    count = len(found[1].splitlines())
    site.expect(least <= count <= most, f"the copy has {count} objects: {least} or more", found[1][:200])


def time_of_lock(site, token, path):
    """How long the server takes to lock a path, for whoever has the token, without nginx."""
    began = time.monotonic()
    status = site.server.lock(path, token)
    return time.monotonic() - began if status == 201 else float("inf")


def locks_beside_a_push(site, token, name, meanwhile):
    """How long locks take while ann pushes 300 files, and something else is done, until both have ended."""
    site.ann.add_files(name, 300, 100_000)
    pushed = site.pushed_beside()
    other = threading.Thread(target=meanwhile)
    other.start()
    waits, before = [], site.count()
    while other.is_alive() or site.count() < before + 250:
        waits.append(time_of_lock(site, token, f"{name}/{len(waits)}"))
    status, text = pushed()
    site.expect(status == 0, f"a push passes, with {len(waits)} locks meanwhile", text)
    return max(waits)


def try_check(site):
    """Every object is hashed again during a push; no lock waits much longer than beside the push alone."""
    token = site.server.token(user="bob")
    alone = locks_beside_a_push(site, token, "unchecked", lambda: None)
    ran = []
    beside = locks_beside_a_push(site, token, "checked", lambda: ran.append(site.via("check")))
    site.expect(ran[0][0] == 0, f"every object is hashed again during a push: {ran[0][1].strip()}", ran[0][1])
    site.expect(beside <= alone + 0.5, f"a lock took at most {beside:.2f} s, and {alone:.2f} s without the check", "")


def try_stop(site):
    """A server that is stopped during a push breaks no transfer that it has in hand."""
    site.ann.add_files("stopped", 300, 100_000)
    before = site.count()
    pushed = site.pushed_beside()
    site.wait_for_objects(before + 20)
    status, text = site.via("stop")
    ended = site.server.child.wait(timeout=10)
    printed = site.server.child.stdout.read().decode()
    site.expect((status, text, ended) == (0, "", 0) and printed.startswith("served "),
                f"a server is stopped: {printed.strip()}", text)
    shutil.copyfile(site.server.database, f"{site.room}/alone")
    shutil.copyfile(site.server.contents(), f"{site.room}/alone-contents")
    site.server.start()
    status, text = pushed()
    print(f"     a push during which the server was stopped ended with {status}")
    if status != 0:
        status, text = site.ann.tried(*PUSH)
    site.expect(status == 0 and site.count() == before + 300, "the push, or the one after it, passes", text)
    status, text = site.run(site.server.program, "check", "--db", f"{site.room}/alone", may_fail=True)
    site.expect(status == 0, f"the files without the log are whole: {text.strip()}", text)


def try_reload(site):
    """A policy with a fault is not taken; one that takes a right away counts at the next push, without a restart."""
    whole = Path(site.room, "policy.toml").read_text()
    site.write("policy.toml", whole.replace('effect = "allow"', 'effect = "alow"', 1))
    status, text = site.via("reload")
    site.expect(status == 1 and text.startswith("custody: policy "),
                f"a bad policy is refused: {text.splitlines()[0]}", text)
    site.write("policy.toml", whole.replace('"push", ', ""))
    site.reload()
    site.ann.add_files("denied", 1, 1_000)
    site.ann.fails("an upload without the right is refused in words", "P0", "lfs", "push", "origin", "main")
    site.ann.fails("and Git is not served", "does not let ann push to studio/film", *PUSH)
    site.write("policy.toml", whole)
    site.reload()
    site.ann.passes("and passes when the right is there again", *PUSH)


def try_status(site):
    """What the server says of itself."""
    status, text = site.via("status")
    values = [line for line in text.splitlines() if not line.startswith("#")]
    site.expect(status == 0 and len(values) >= 20, f"the status has {len(values)} values", text)
    if shutil.which("promtool"):
        status, found = site.run("promtool", "check", "metrics", may_fail=True, given=text)
        site.expect(status == 0 and not found, "promtool finds nothing to say of it", found)
    status, text = site.via("usage")
    site.expect(status == 0 and "studio/film" in text, f"usage: {' '.join(text.splitlines()[-1].split())}", text)


def try_other_requests(site):
    """What sshd and nginx refuse."""
    command = ["ssh", "-p", str(site.ssh), *site.ssh_command("bob").split()[1:], f"{getpass.getuser()}@localhost"]
    status, text = site.run(*command, "cat /etc/passwd", may_fail=True)
    site.expect(status != 0 and "only git-lfs-authenticate" in text, "sshd runs no other command", text)
    status, text = site.run(*command, "git-upload-pack '../../etc'", may_fail=True)
    site.expect(status != 0 and "only git-lfs-authenticate" in text, "and serves no other folder", text)
    large = f"{site.room}/large"
    with open(large, "wb") as file:
        file.truncate((4 << 30) + 1)
    status, text = site.run("curl", "-sS", "--cacert", site.certificate, "-T", large, "-w", "\n%{http_code}",
                            "-H", f"Authorization: Bearer {'0' * 64}",
                            site.server.base + content("0" * 64), may_fail=True)
    site.expect("413" in text and '"message"' in text, "nginx refuses an object of more than 4 GiB", text)


def pass_on(site, name, size, way):
    """A new file of this size is pushed by one user, and pulled by the other."""
    site.ann.add_large(name, size)
    began = time.monotonic()
    status, text = site.ann.tried(*PUSH)
    site.expect(status == 0, f"a file of {size >> 20} MiB is pushed {way}, in {time.monotonic() - began:.1f} s", text)
    began = time.monotonic()
    status, text = site.bob.tried("pull", "-q")
    taken = time.monotonic() - began
    site.expect(status == 0 and same_files(site.ann, site.bob, name), f"and pulled, in {taken:.1f} s", text)


def try_large_files(site):
    """Files of the largest size, through nginx and without it."""
    site.bob.git("reset", "-q", "--hard", "origin/main")
    pass_on(site, "through.psd", site.large, "through nginx")
    # The server's address in the policy is where clients go.
    site.server.base = f"http://127.0.0.1:{site.server.port}"
    site.server.set_policy(site.server.policy())
    site.server.end(signal.SIGTERM)
    site.server.start()
    pass_on(site, "direct.psd", site.large, "to the server itself")


PARTS = {it.__name__.removeprefix("try_"): it for it in (
    try_locks, try_transfers, try_tokens, try_restart, try_backup, try_check, try_stop, try_reload, try_pushes,
    try_uploads, try_handbook, try_status, try_other_requests, try_large_files)}


def try_parts(site, names):
    """Sets up the site, and tries these parts."""
    site.set_up(USERS)
    push_and_clone(site)
    for name in names:
        site.checks.part(name, lambda: PARTS[name](site))


def main():
    """Runs the suite."""
    parser = arguments(__doc__)
    parser.add_argument("--gib", type=int, default=1, choices=range(1, 5), help="the GiB of the largest files")
    parser.add_argument("--part", action="append", choices=PARTS, metavar="NAME",
                        help=f"only this part: {', '.join(PARTS)}")
    options = parser.parse_args()
    checks = Checks()
    with tempfile.TemporaryDirectory() as room, Studio(options, room, checks) as site:
        checks.part("the site", lambda: try_parts(site, options.part or PARTS))
    return checks.end()


if __name__ == "__main__":
    sys.exit(main())
