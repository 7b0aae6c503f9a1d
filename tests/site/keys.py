"""Tries the keys of users: deploy/programs/custody-user, what sshd takes, and what the forced command then serves.

sshd has deploy/sshd/custody.conf and deploy/programs/forced-command, with the paths of a folder. A check fails if a
key without the forced command opens a connection, if a key that was removed goes on to work, if the program takes what
is not one public key, loses a key of another, or leaves the file with another owner or mode; or if Git is served to
somebody whom the policy of the running server denies it.
"""
import fcntl
import getpass
import os
import signal
import stat
import subprocess
import sys
import tempfile
import threading
from pathlib import Path

from tests.studio.checks import Checks, arguments, comes_true
from tests.studio.clone import Workroom
from tests.studio.policy import FILM, WORK, row
from tests.studio.program import TOP
from tests.studio.site import Site, placed

ROWS = (row("allow", ["*"], WORK),)
ISSUE = f"git-lfs-authenticate {FILM} upload"
RECEIVE, UPLOAD = f"git-receive-pack '{FILM}.git'", f"git-upload-pack '{FILM}.git'"
REMOVED = "is not a key of bob any more"
AT_ONCE = 20
# The users of the first keys, and the names of the keys.
OWNERS = (("ann", "ann"), ("ann", "second"), ("bob", "bob"))


class Desk(Workroom):
    """The program custody-user with a file of keys in a folder, and keys."""

    def __init__(self, room, checks):
        super().__init__(room, checks)
        text = (TOP / "deploy/programs/custody-user").read_text(encoding="utf-8")
        self.program = self.write("lib/custody-user", placed(text, room, 0), 0o755)
        self.keys = Path(room, "authorized_keys")
        self.public = {name: self.new_key(name) for name in ("ann", "second", "bob", "zoe")}

    def new_key(self, name):
        """The line of a new public key."""
        self.run("ssh-keygen", "-q", "-t", "ed25519", "-N", "", "-C", f"{name}@studio", "-f", f"{self.room}/{name}")
        return Path(self.room, f"{name}.pub").read_text(encoding="utf-8")

    def fingerprint(self, name):
        """What ssh-keygen prints of a key."""
        return self.run("ssh-keygen", "-l", "-f", f"{self.room}/{name}.pub")[1].split()[1]

    def do(self, *words, given=""):
        """Runs the program. Returns its status and what it printed."""
        return self.run(self.program, *words, may_fail=True, given=given)

    def text(self):
        """What is in the file."""
        return self.keys.read_text(encoding="utf-8")

    def line(self, user, public):
        """The line of a key."""
        return f'restrict,command="{self.room}/lib/forced-command {user}" {public}'

    def refuses(self, what, says, *words, given=""):
        """A call is refused with this reason, and the file stays as it is."""
        before = self.text()
        status, text = self.do(*words, given=given)
        self.expect(status == 1 and text.startswith("custody-user: ") and says in text and self.text() == before,
                    f"{what} is refused: {says}", f"status {status}: {text}")


def try_adding(desk):
    """Keys that are added and listed."""
    public, head = desk.public, "# The keys.\n"
    desk.keys.write_text(head)
    desk.keys.chmod(0o640)
    if os.getuid() == 0:
        os.chown(desk.keys, 1, 2)
    # While the old file is open, no new one gets its number.
    with open(desk.keys, "rb") as old:
        before = os.fstat(old.fileno())
        ran = [desk.do("add", user, given=public[key]) for user, key in OWNERS]
        after = desk.keys.stat()
    wanted = head + "".join(desk.line(user, public[key]) for user, key in OWNERS)
    desk.expect(all(status == 0 for status, _ in ran) and desk.text() == wanted, "a second key of a user is one more",
                f"{ran}\n{desk.text()}")
    desk.expect((after.st_mode, after.st_uid, after.st_gid) == (before.st_mode, before.st_uid, before.st_gid)
                and after.st_ino != before.st_ino, "the file is a new one, with the owner and the mode of the old one")
    status, text = desk.do("add", "ann", given=public["ann"].replace("\n", "\r\n"))
    desk.expect(status == 0 and desk.text() == wanted, "a key that the user has is not added again", text)
    desk.refuses("the key of another user", "the key is that of ann already", "add", "bob", given=public["ann"])
    status, text = desk.do("list")
    listed = [f"{user} {desk.fingerprint(key)} {key}@studio" for user, key in OWNERS]
    desk.expect(status == 0 and text.splitlines() == listed, "the keys are listed with their fingerprints", text)


def try_refusals(desk):
    """What is not one public key, and what is no name."""
    zoe, line, start = desk.public["zoe"], "has to be one line", "begin with the type of a key"
    kind, key, _ = zoe.split()
    desk.run("ssh-keygen", "-q", "-s", f"{desk.room}/ann", "-I", "zoe", "-n", "zoe", f"{desk.room}/zoe.pub")
    private, certificate = (Path(desk.room, it).read_text() for it in ("zoe", "zoe-cert.pub"))
    for what, says, given in (
            ("a file of two keys", line, zoe + desk.public["bob"]), ("nothing", line, ""),
            ("an empty line", line, "\n"),
            ("an empty line before the key", line, "\n" + zoe), ("a private key", line, private),
            ("a second line after a carriage return", line, f"{kind} {key}\r{zoe}"),
            ("a second line after U+2028", line, f"{kind} {key} \u2028{zoe}"),
            ("a long line", line, f"{kind} {key} {'a' * 9_000}\n"), ("a key with an option", start, f"no-pty {zoe}"),
            ("a command", start, f'command="id" {zoe}'), ("an authority", start, f"cert-authority {zoe}"),
            ("a certificate", start, certificate), ("another type", "ssh-keygen -l", f"ssh-rsa {key}\n"),
            ("a key that is cut off", "ssh-keygen -l", f"{kind} {key[:-8]}\n"), ("a type alone", "ssh-keygen -l", kind),
            ("a key that is no base64", "ssh-keygen -l", f"{kind} {key[:-1]}!\n"),
            ("an escape", "cannot be printed", f"{kind} {key} \x1b[2J\n")):
        desk.refuses(what, says, "add", "zoe", given=given)
    for name in ("", "Zoe", "zoe ann", 'zoe"', "zoe\n", "a" * 41, "../zoe", "$(id)"):
        desk.refuses(f"the name {name[:9]!r}", "1 to 40 of a-z 0-9 _ -", "add", name, given=zoe)
    desk.refuses("the removal of who has no key", "zoe has no key", "remove", "zoe")
    ran = [desk.do(*words)[0] for words in ((), ("add",), ("list", "ann"), ("drop", "ann"))]
    desk.expect(ran == [2] * 4, "other words are refused with the status 2", ran)


def try_changes(desk):
    """Keys that are removed, and many that are added at once; what has the name of the new file is not followed."""
    desk.keys.write_text(desk.text() + desk.public["zoe"])
    status, text = desk.do("list")
    desk.expect(status == 1 and "sshd takes no key from line 5" in text, "a line without the forced command is named",
                text)
    Path(desk.room, "other").write_text("of somebody else")
    Path(desk.room, "authorized_keys.new").symlink_to("other")
    status, text = desk.do("remove", "ann")
    desk.expect(status == 0 and text.startswith("removed 2 keys of ann, and ended 0 commands")
                and desk.text() == "# The keys.\n" + desk.line("bob", desk.public["bob"]) + desk.public["zoe"],
                "all keys of a user are removed, and no other line", f"{text}\n{desk.text()}")
    desk.expect(Path(desk.room, "other").read_text() == "of somebody else",
                "a link in the place of the new file is not followed")
    public = [desk.new_key(f"many-{it}") for it in range(AT_ONCE)]
    threads = [threading.Thread(target=desk.do, args=("add", f"user-{number}"), kwargs={"given": it})
               for number, it in enumerate(public)]
    for it in threads:
        it.start()
    for it in threads:
        it.join()
    found = [desk.text().count(desk.line(f"user-{number}", it)) for number, it in enumerate(public)]
    desk.expect(found == [1] * AT_ONCE, f"of {AT_ONCE} keys that are added at once, each is there", found)


def try_lock(desk):
    """Whoever may read the folder and the file of the keys cannot keep a key from being removed."""
    desk.do("add", "zoe", given=desk.public["zoe"])
    opened = [os.open(it, os.O_RDONLY) for it in (desk.room, desk.keys)]
    for file in opened:
        fcntl.flock(file, fcntl.LOCK_EX)
    status, text = desk.run("timeout", "5", desk.program, "remove", "zoe", may_fail=True)
    desk.expect(status == 0 and desk.line("zoe", desk.public["zoe"]) not in desk.text(),
                "a key is removed while somebody else locks the folder and the file", f"status {status}: {text}")
    for file in opened:
        os.close(file)
    mode = stat.S_IMODE(os.stat(f"{desk.room}/custody-user.lock").st_mode)
    desk.expect(mode == 0o600, f"what the program locks has the mode {mode:04o}")


def ssh_words(site, key, *more):
    """The words with which somebody connects with a key."""
    return [*site.ssh_command(key).split(), "-o", "BatchMode=yes", *more, "-p", str(site.ssh),
            f"{getpass.getuser()}@localhost"]


def over_ssh(site, key, command, *more):
    """Runs a command over SSH. Returns the status and what was printed."""
    return site.run(*ssh_words(site, key, *more), command, may_fail=True)


def try_lines(site):
    """sshd takes no line but those with the forced command of a user, and no certificate."""
    status, text = over_ssh(site, "ann", ISSUE)
    site.expect(status == 0 and "Bearer" in text, "ann's key gets a token", text)
    forced = f"{site.room}/lib/forced-command"
    for number, options in enumerate((
            "", "restrict ", 'command="id" ', f'command="{forced} ann" ', 'restrict,command="id" ',
            f'restrict,command="{forced}" ', f'restrict,command="{forced} ann; id" ',
            f'restrict,command="{forced} Ann" ', f'restrict,command="{forced} ann",command="id" ',
            f'restrict,command="{forced}s ann" ', f' restrict,command="{forced} ann" ')):
        with open(f"{site.room}/authorized_keys", "a", encoding="utf-8") as keys:
            keys.write(f"{options}{site.new_key(f'other-{number}')}\n")
        status, text = over_ssh(site, f"other-{number}", "id -un")
        site.expect(status == 255 and "Permission denied" in text, f"sshd does not take a line with the options "
                    f"{options.replace(site.room, '..')!r}", text)
    site.new_key("authority")
    Path(site.room, "authority.pub").write_text(Path(site.room, "key-authority.pub").read_text())
    site.new_key("vouched")
    site.run("ssh-keygen", "-q", "-s", f"{site.room}/key-authority", "-I", "vouched", "-n", getpass.getuser(),
             f"{site.room}/key-vouched.pub")
    status, text = over_ssh(site, "vouched", "id -un")
    site.expect(status == 255 and "Permission denied" in text, "nor a certificate of the machine's own authority", text)


def refuses(site, what, says, *commands):
    """Commands of bob's over SSH are refused in words, and nothing of the repository is shown."""
    for command in commands:
        status, text = over_ssh(site, "bob", command)
        site.expect(status == 1 and says in text and "agent=git" not in text,
                    f"{what}: {command.split()[0]} is refused, {says}", f"status {status}: {text}")


def try_policy(site):
    """Git is served as the policy says that the running server has. The repository has no hook."""
    Path(site.room, "git", f"{FILM}.git", "hooks/pre-receive").unlink()
    bob, push = site.clone("bob"), ("push", "-q", "origin", "HEAD:refs/heads/main")
    bob.begin(site.remote())
    bob.path("notes.txt").write_text("of bob", encoding="utf-8")
    bob.commit("A note")
    no_push, no_pull = (f"The policy does not let bob {it} {FILM}" for it in ("push to", "pull from"))
    site.change_policy(rows=(row("deny", ["bob"], [*WORK, "force"]), *ROWS))
    what = "row 1 denies bob all, and row 2 allows it"
    refuses(site, what, no_push, RECEIVE)
    refuses(site, what, no_pull, UPLOAD)
    bob.fails(f"{what}: a push is refused", no_push, *push)
    site.server.set_policy(site.server.policy())
    bob.fails("nor does it pass by a change of the file that the server has not read", no_push, *push)
    site.reload()
    bob.passes("when the server has read it, it passes", *push)
    site.write("policy.toml", "no policy")
    bob.passes("a file that the server has not read is in the way of nobody", "fetch", "-q", "origin")
    site.change_policy(rows=(row("deny", ["bob"], ["push"], refs=["refs/heads/main"]), *ROWS))
    bob.passes("a row that denies some pushes leaves others to the hook", "push", "-q", "origin", "HEAD:refs/heads/a")
    site.change_policy(rows=(row("allow", ["bob"], ["push"]),))
    refuses(site, "bob may push and not pull", no_pull, RECEIVE, UPLOAD)
    site.change_policy()
    site.make_repository("studio/none")
    refuses(site, "a repository that the policy does not have", "R1: no such repository",
            RECEIVE.replace(FILM, "studio/none"), UPLOAD.replace(FILM, "studio/none"))


def try_sentences(site):
    """What stops Git and Git LFS is said in words."""
    refuses(site, "a name with a capital letter", "has small letters, digits, _ and -, as studio/film",
            RECEIVE.replace(FILM, "studio/Film"), UPLOAD.replace(FILM, "studio/Film"))
    bare = Path(site.room, "git", f"{FILM}.git")
    bare.rename(f"{bare}.away")
    refuses(site, "a repository that only the policy has", "there is no Git repository for it", RECEIVE, UPLOAD)
    Path(f"{bare}.away").rename(bare)
    program = Path(site.room, "bin/custody")
    program.unlink()
    site.write("bin/custody", "#!/bin/sh\necho 'custody: store G2' >&2\nexit 1\n", 0o755)
    refuses(site, "a full disk", "cannot read or write its database now", RECEIVE, UPLOAD, ISSUE)
    program.unlink()
    program.symlink_to(site.server.program)
    site.server.end(signal.SIGTERM)
    refuses(site, "no server runs", "The Git LFS server is not running: try again in a minute", RECEIVE, UPLOAD, ISSUE)
    site.server.start()


def try_open(site):
    """A connection that is open when its key is removed."""
    control = f"{site.room}/open"
    with subprocess.Popen(ssh_words(site, "bob", "-M", "-S", control, "-N"), env=site.environment) as master:
        comes_true(Path(control).exists)
        status, text = over_ssh(site, "bob", ISSUE, "-S", control)
        site.expect(status == 0 and "Bearer" in text, "bob gets a token over a connection that he keeps open", text)
        words = ssh_words(site, "bob", "-S", control)
        with subprocess.Popen([*words, RECEIVE], env=site.environment, stdin=subprocess.PIPE,
                              stdout=subprocess.PIPE, stderr=subprocess.DEVNULL) as push:
            site.expect(b"report-status" in push.stdout.readline(), "and begins a push")
            status, text = site.run(f"{site.room}/lib/custody-user", "remove", "bob", may_fail=True)
            site.expect(status == 0 and "removed 1 keys of bob, and ended 1 commands" in text, text.strip(), text)
            site.expect(comes_true(lambda: push.poll() is not None, 10) and push.returncode != 0, "the push has ended")
            push.kill()
        for command in (ISSUE, RECEIVE, UPLOAD):
            status, text = over_ssh(site, "bob", command, "-S", control)
            site.expect(status == 1 and REMOVED in text, f"over the open connection {command} is refused", text)
        site.expect(master.poll() is None and Path(control).exists(), "which is open still")
        status, text = over_ssh(site, "bob", ISSUE)
        site.expect(status == 255 and "Permission denied" in text, "a new connection is not opened", text)
        site.add_key("bob", site.new_key("bob-2"))
        status, text = over_ssh(site, "bob", ISSUE, "-S", control)
        site.expect(status == 1 and REMOVED in text, "another key of bob's does not count for the open connection",
                    text)
        status, text = over_ssh(site, "bob-2", ISSUE)
        site.expect(status == 0 and "Bearer" in text, "it opens one of its own", text)
        master.terminate()
    status, text = over_ssh(site, "ann", ISSUE)
    site.expect(status == 0 and "Bearer" in text, "ann's key is served as before", text)
    words = ["env", "-u", "SSH_USER_AUTH", f"SSH_ORIGINAL_COMMAND={ISSUE}", f"{site.room}/lib/forced-command", "ann"]
    status, text = site.run(*words, may_fail=True)
    site.expect(status == 1 and "ExposeAuthInfo" in text, "if sshd does not say which key it is, nobody is served",
                text)


def main():
    """Runs the suite."""
    options, checks = arguments(__doc__).parse_args(), Checks()
    with tempfile.TemporaryDirectory() as room:
        desk = Desk(room, checks)
        for part in (try_adding, try_refusals, try_changes, try_lock):
            checks.part(part.__name__.removeprefix("try_"), lambda: part(desk))
    with tempfile.TemporaryDirectory() as room, Site(options.program, room, ROWS, checks) as site:
        Path(room, "bin").mkdir()
        Path(room, "bin/custody").symlink_to(site.server.program)
        site.install()
        site.start_sshd(("ann", "bob"))
        site.make_repository(FILM)
        for part in (try_lines, try_policy, try_sentences, try_open):
            checks.part(part.__name__.removeprefix("try_"), lambda: part(site))
    return checks.end()


if __name__ == "__main__":
    sys.exit(main())
