"""A folder in which commands run with an environment of their own, and clones of Git in it."""
import os
import random
import subprocess
import time
from pathlib import Path

from tests.studio.checks import require

# The last lines of a command that are shown.
SHOWN = 12
# In the place of sshd: the control socket is that of a server in the same folder.
SSH = """#!/bin/sh
for words in "$@"; do :; done
case $words in
git-receive-pack* | git-upload-pack*) exec git shell -c "$words" ;;
git-lfs-authenticate*)
    set -- $words
    exec @program authenticate --via @room/control --user @user "studio/$(basename "$2" .git)" "$3"
    ;;
esac
exit 1
"""


class Workroom:
    """A folder, and the environment of the commands that run in it: no setting of this machine's users is theirs."""

    def __init__(self, room, checks, shows=False):
        self.room, self.checks, self.shows = room, checks, shows
        self.environment = {
            **os.environ,
            "PATH": f"{room}/bin:{os.environ['PATH']}",
            "HOME": room,
            "GIT_CONFIG_GLOBAL": f"{room}/gitconfig",
            "GIT_CONFIG_NOSYSTEM": "1",
            "GIT_TERMINAL_PROMPT": "0",
        }

    def expect(self, is_met, what, text=""):
        """One check."""
        return self.checks.expect(is_met, what, text)

    def equal(self, found, wanted, what):
        """One check: what was found is what was wanted."""
        return self.expect(found == wanted, what, found)

    def write(self, name, text, mode=0o644):
        """Writes a file with this mode. Returns its path."""
        path = Path(self.room, name)
        path.parent.mkdir(parents=True, exist_ok=True)
        path.write_text(text, encoding="utf-8")
        path.chmod(mode)
        return path

    def run(self, *words, folder=None, may_fail=False, given=None):
        """Runs a command. Returns its status and what it printed. If it fails and may not, the check fails."""
        words, begun = [str(it) for it in words], time.monotonic()
        ran = subprocess.run(words, cwd=folder or self.room, env=self.environment, input=given, stdout=subprocess.PIPE,
                             stderr=subprocess.STDOUT, text=True, errors="replace", check=False)
        if self.shows:
            show(folder or self.room, words, ran, time.monotonic() - begun)
        require(may_fail or ran.returncode == 0, f"{' '.join(words)} ended with {ran.returncode}\n{ran.stdout}")
        return ran.returncode, ran.stdout

    def write_key(self, users, forced="/usr/lib/custody/forced-command"):
        """A file of keys, in which each of the users has one, and what sshd says of a client that came in by it: for a
        forced command that a script runs in the place of sshd."""
        lines = [f'restrict,command="{forced} {user}" ssh-ed25519 AAAA\n' for user in users]
        self.write("authorized_keys", "".join(lines))
        self.write("user_auth", "publickey ssh-ed25519 AAAA\n")

    def set_up_git(self):
        """The settings of every clone of the folder."""
        self.run("git", "config", "--global", "init.defaultBranch", "main")
        self.run("git", "lfs", "install", "--skip-repo")

    def write_ssh(self, user, program):
        """A script in the place of sshd, for one user: it runs Git's own commands on the repositories of the folder,
        and answers git-lfs-authenticate with the line that `custody authenticate` prints."""
        text = SSH.replace("@user", user).replace("@room", self.room).replace("@program", program)
        self.write(f"ssh-{user}", text, 0o755)

    def over_ssh(self, user):
        """The settings with which a clone of the user runs that script."""
        return {"core.sshCommand": f"{self.room}/ssh-{user}", "ssh.variant": "simple"}

    def bare_remote(self, name):
        """The address of a repository of the folder over SSH."""
        return f"ssh://git@studio.example{self.room}/{name}.git"

    def make_bare(self, name):
        """A new repository without files. Returns its path."""
        self.run("git", "init", "-q", "--bare", f"{self.room}/{name}.git")
        return f"{self.room}/{name}.git"


def show(folder, words, ran, seconds):
    """Prints a command and what it printed."""
    print(f"\n{Path(folder).name}$ {' '.join(words)}    ({seconds:.1f} s, status {ran.returncode})")
    lines = [line for line in ran.stdout.splitlines() if line.strip()]
    print("".join(f"    {line}\n" for line in lines[-SHOWN:]), end="", flush=True)


class Clone:
    """A clone of a user, in a folder of a workroom."""

    def __init__(self, place, name, user, settings):
        self.place, self.folder = place, f"{place.room}/{name}"
        self.settings = {"user.name": user, "user.email": f"{user}@studio.example", **settings}

    def git(self, *words, may_fail=False):
        """Runs Git in the clone. Returns its status and what it printed."""
        return self.place.run("git", *words, folder=self.folder, may_fail=may_fail)

    def tried(self, *words):
        """The same, of what may fail."""
        return self.git(*words, may_fail=True)

    def passes(self, what, *words, says=""):
        """One check: Git succeeds, and says this."""
        status, text = self.tried(*words)
        self.place.expect(status == 0 and says in text, what, text)

    def fails(self, what, says, *words, status=None):
        """One check: Git fails and says this, with the status if one is given."""
        found, text = self.tried(*words)
        self.place.expect(found != 0 and status in (None, found) and says in text, what, text)

    def path(self, name):
        """The path of a file."""
        return Path(self.folder, name)

    def configure(self):
        """Sets what this clone's settings are."""
        for name, value in self.settings.items():
            self.git("config", name, value)

    def begin(self, remote):
        """A repository with nothing in it, whose remote this is."""
        self.place.run("git", "init", "-q", self.folder)
        self.configure()
        self.git("remote", "add", "origin", remote)

    def take(self, remote, *more):
        """Clones the remote with more settings, as `name=value`. Returns the status and what was printed."""
        settings = [*(f"{name}={value}" for name, value in self.settings.items()), *more]
        words = [word for it in settings for word in ("-c", it)]
        ran = self.place.run("git", *words, "clone", "-q", remote, self.folder, may_fail=True)
        if os.path.isdir(self.folder):
            self.configure()
        return ran

    def commit(self, text, *names):
        """Commits these files, or all of them."""
        self.git("add", *(names or ["-A"]))
        self.git("commit", "-q", "-m", text)

    def change(self, name, data):
        """Commits other bytes of a file, which Git LFS may have made read-only."""
        self.path(name).chmod(0o644)
        self.path(name).write_bytes(data)
        self.git("commit", "-q", "-a", "-m", f"Changes {name}")

    def add_files(self, name, count, size):
        """Commits a folder with new files of about this size."""
        random_bytes = random.Random(name)
        self.path(name).mkdir(parents=True)
        for number in range(count):
            self.path(f"{name}/{number}.psd").write_bytes(random_bytes.randbytes(size + number))
        self.commit(f"Adds {name}", name)

    def add_large(self, name, size):
        """Commits a new file of this size."""
        with open(self.path(name), "wb") as file:
            for at in range(0, size, 1 << 24):
                file.write(os.urandom(min(1 << 24, size - at)))
        self.commit(f"Adds {name}", name)


def same_files(one, other, name):
    """Whether two clones have the same files in a folder."""
    words = ["diff", "-r", one.path(name), other.path(name)]
    return subprocess.run(words, check=False, stdout=subprocess.DEVNULL).returncode == 0
