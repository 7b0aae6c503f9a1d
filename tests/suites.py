"""The suites: what each tries, what it needs, how long it takes, and the arguments of its short form."""
import os
import shutil
import subprocess
import sys
from dataclasses import dataclass

# Each Debian package, and the command, module of Python or folder by which it is found.
PACKAGES = {
    "binutils": "strip",
    "chromium": "chromium",
    "chromium-driver": "chromedriver",
    "curl": "curl",
    "debootstrap": "debootstrap",
    "gcc": "cc",
    "git": "git",
    "git-lfs": "git-lfs",
    "golang-github-git-lfs-git-lfs-dev": "/usr/share/gocode/src/github.com/git-lfs/git-lfs",
    "iproute2": "ss",
    "lintian": "lintian",
    "nginx": "nginx",
    "openssh-server": "sshd",
    "openssl": "openssl",
    "pandoc": "pandoc",
    "python3-jsonschema": "module jsonschema",
    "python3-selenium": "module selenium",
    "rt": "rt",
    "sqlite3": "sqlite3",
    "strace": "strace",
    "systemd-container": "systemd-nspawn",
}
# A short form needs no other package than these, and not root.
QUICK = {"git", "git-lfs", "sqlite3"}
PATH = os.environ.get("PATH", os.defpath) + ":/usr/sbin:/sbin"
# The Python that finds Debian's modules: one that is first on the PATH may be another.
DEBIANS_PYTHON = "/usr/bin/python3"


def is_installed(package):
    """Whether the package is there."""
    found = PACKAGES[package]
    if found.startswith("module "):
        words = [DEBIANS_PYTHON, "-c", f"import {found.removeprefix('module ')}"]
        return shutil.which(DEBIANS_PYTHON) and subprocess.run(words, capture_output=True, check=False).returncode == 0
    return os.path.isdir(found) if found.startswith("/") else shutil.which(found, path=PATH) is not None


@dataclass(frozen=True)
class Suite:
    """A row of the table. It takes seconds if it takes 0 minutes; `quick` has the arguments of its short form, if there
    is one."""

    name: str
    module: str
    sentence: str
    minutes: int
    packages: tuple = ()
    root: bool = False
    quick: tuple = None

    def missing(self, quick=False):
        """Why the suite cannot run, or None."""
        packages = [it for it in self.packages if not is_installed(it) and (it in QUICK or not quick)]
        if packages:
            return f"{', '.join(packages)} {'is' if len(packages) == 1 else 'are'} not installed"
        return "only root can run it" if self.root and os.geteuid() != 0 else None

    def python(self):
        """The Python that runs the suite."""
        return DEBIANS_PYTHON if any(it.startswith("python3-") for it in self.packages) else sys.executable

    def needs(self):
        """What the suite needs, as a text."""
        return ", ".join([*(["root"] if self.root else []), *self.packages]) or "python3 alone"

    def time(self):
        """How long it takes, as a text."""
        return {0: "seconds", 1: "about a minute"}.get(self.minutes, f"about {self.minutes} minutes")


def only(*checks):
    """The arguments for these checks alone."""
    return tuple(word for check in checks for word in ("--only", check))


SUITES = [
    Suite("sessions", "tests.agree.sessions", "Random streams of requests get the replies that the protocol states.",
          1, quick=("--seconds", "5")),
    Suite("foresights", "tests.agree.foresights", "`custody foresee` prints the replies that the protocol states.",
          1, quick=("--messages", "100")),
    Suite("walks", "tests.agree.walks", "Pages of locks that change show each lock that is there at every page.",
          1, quick=("--seconds", "5", "--locks", "300")),
    Suite("policies", "tests.agree.policies", "Random policy files have the faults that the policy's page states.",
          1, quick=("--seconds", "5")),
    Suite("schemas", "tests.agree.schemas", "Requests and replies fit the JSON schemas of the Git LFS client.",
          0, ("golang-github-git-lfs-git-lfs-dev", "python3-jsonschema")),
    Suite("serve", "tests.server.serve", "A server has clients that are slow, silent, busy, gone or many.",
          8, quick=("--rounds", "1", "--connections", "200", "--requests", "20000",
                    *only("pipelined", "keep-alive", "one-connection", "idle-end", "early-reply", "reset", "killed",
                          "terminated", "load"))),
    Suite("giving-way", "tests.server.giving_way", "Locks wait for no download, and nobody for one who does not read.",
          5, quick=("--rounds", "2", "--form", "file", *only(
              "beside-pulls", "beside-pushes", "unread", "retired", "pipelined", "closes", "killed", "stopped"))),
    Suite("control", "tests.server.control", "Commands by the control socket act beside the clients of a server.",
          4, ("strace",), quick=("--rounds", "5", "--tokens", "20", *only(
              "same-words", "only-the-user", "stale", "no-server", "terminal", "idle-client", "under-load", "damaged",
              "hold-over", "stop", "reload", "status", "killed"))),
    Suite("asked", "tests.server.asked", "A command with `--via` ends as the reply says, and never well without one.",
          0, quick=()),
    Suite("objects", "tests.server.objects", "Objects of 0 bytes to 256 MiB are stored whole, and cut ones are not.",
          4, ("sqlite3",), quick=only("stopped", "repositories", "refused")),
    Suite("contents", "tests.server.contents", "Contents in a file beside the database are kept, found and given back.",
          2, ("sqlite3", "strace"), quick=("--rounds", "10", "--objects", "2000", *only(
              "sizes", "killed", "left", "room", "filled", "missing", "not-empty", "spoiled", "start"))),
    Suite("moving", "tests.server.moving", "A database is moved to a file of contents and back, and loses nothing.",
          2, ("sqlite3",), quick=("--rounds", "3")),
    Suite("stops", "tests.server.stops", "A program that is killed at a call that changes a file loses nothing.",
          10, ("sqlite3",), quick=("--every", "40")),
    Suite("backup", "tests.server.backup", "Copies of a running server are whole, and are restored with all they have.",
          2, ("sqlite3",), quick=("--form", "file", *only("again", "retired", "removed"))),
    Suite("transfers", "tests.server.transfers", "Git LFS pushes, clones and fetches 200 files of 1 byte to 50 MB.",
          2, ("git", "git-lfs"), quick=("--files", "8")),
    Suite("load", "tests.server.load", "200 clients through nginx and 50 without it push, pull and lock.",
          4, ("nginx", "openssl", "iproute2")),
    Suite("full", "tests.server.full", "A server on a full disk loses nothing, and goes on once it has room.",
          1, ("sqlite3",), root=True),
    Suite("spoiled", "tests.server.spoiled", "The program shows no spoiled object as whole, and names each.",
          4, ("sqlite3",), quick=("--count", "20")),
    Suite("causes", "tests.server.causes", "A fault of the system is printed with its cause.",
          0, root=True),
    Suite("migration", "tests.server.migration", "Database files of version 1 are migrated whole, or not at all.",
          0, ("sqlite3",), quick=("--rounds", "5")),
    Suite("client", "tests.site.client", "Two users of Git LFS lock, list, release and push over SSH.",
          1, ("git", "git-lfs"), quick=()),
    Suite("large", "tests.site.large", "Git LFS pushes and fetches files of any size and number, on little disk.",
          1, ("git", "git-lfs"), quick=("--files", "2", "--size", "16", "--at-once", "1")),
    Suite("site", "tests.site.site", "A whole site does what the pages say, with nginx, sshd and Git LFS.",
          15, ("nginx", "openssh-server", "openssl", "git", "git-lfs", "curl")),
    Suite("keys", "tests.site.keys", "sshd takes only keys with the forced command, and those that are removed end.",
          0, ("openssh-server", "git")),
    Suite("bounds", "tests.site.bounds", "Pushes and clones of Git take no more of the machine than they may.",
          0, ("git",), quick=()),
    Suite("blocks", "tests.site.blocks", "Each block of commands in the operating pages runs, and does what it says.",
          1, ("nginx", "openssh-server", "openssl", "git", "git-lfs", "sqlite3")),
    Suite("page", "tests.site.page", "The page with the locks works in a browser.",
          1, ("nginx", "openssl", "chromium", "chromium-driver", "python3-selenium")),
    Suite("mirror", "tests.site.mirror", "The programs `mirror` and `unlock` copy objects and release locks.",
          10, ("curl", "git", "git-lfs", "nginx", "openssl"), quick=only("words", "git_lfs", "ssh")),
    Suite("package", "tests.site.package", "The package follows no link, needs what it says, and has no dead link.",
          0, ("binutils", "git", "lintian", "pandoc"), quick=("--no-package",)),
    Suite("security", "tests.site.security", "A whole machine with the package keeps what the pages say of security.",
          5, ("debootstrap", "systemd-container", "binutils", "pandoc", "git"), root=True),
    Suite("release", "tests.site.release", "Checkouts use the files of a release, and prove again what is changed.",
          5, ("rt", "git", "git-lfs", "pandoc", "binutils")),
    Suite("allocations", "tests.server.allocations", "Each allocation that is refused leaves what was, or what is after.",
          4, ("gcc", "rt")),
]
