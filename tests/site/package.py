"""Runs the maintainer scripts of the package by themselves, over a folder that stands for the whole machine, and makes
a package of the program, whose files it looks at.

DPKG_ROOT names the folder, and stand-ins for the commands that need root or systemd write down their words. A check
fails if a script follows a link that the user custody made, changes something before it refuses one, does not say which
path it is, or does not do what it has to where there is no link; or if the unit, or a folder that the pages have made,
gives anybody more than is needed. Of the package, if it does not depend on the libraries that its program needs, or a
link of a page leads to nothing that it installs.
"""
import os
import re
import shutil
import socket
import stat
import subprocess
import sys
import tempfile
from pathlib import Path

from tests.studio.checks import Checks, arguments, require
from tests.studio.program import TOP, run

HOME = "var/lib/custody"
# What a script touches below the home, as an earlier package had it and as this one has it.
FILES = ("custody.db", "custody.db-wal", "custody.db-contents")
TOUCHED = ("db", *FILES, *(f"db/{it}" for it in FILES), ".ssh", ".ssh/authorized_keys")
STAND_IN = """#!/bin/sh
echo "${0##*/} $*" >> "$DPKG_ROOT/../asked"
case ${0##*/} in
install) for folder in "$@"; do :; done && mkdir -p "$folder" ;;
getent) exit 2 ;;
mv) PATH=/usr/bin:/bin exec mv "$@" ;;
esac
"""
COMMANDS = ("chown", "chmod", "install", "useradd", "getent", "systemctl", "deb-systemd-invoke", "mv")
# How many connections the server keeps.
CLIENTS, OPERATORS = 960, 8
CONFIGURE, REMOVE, PURGE = ("postinst", "configure", "0.0.9"), ("postrm", "remove"), ("postrm", "purge")


class Machine:
    """A folder that stands for a machine, with an earlier package's database if `is_earlier`."""

    def __init__(self, room, scripts, is_earlier):
        self.room, self.scripts, self.top = Path(room), scripts, Path(room, "machine")
        self.home, self.victim = self.top / HOME, self.room / "victim"
        self.home.mkdir(parents=True)
        (self.top / "run/systemd/system").mkdir(parents=True)
        self.victim.mkdir(mode=0o755)
        (self.victim / "spare").write_text("root's")
        if is_earlier:
            for name in FILES:
                (self.home / name).write_text(name)
        for name in COMMANDS:
            path = self.room / "bin" / name
            path.parent.mkdir(exist_ok=True)
            path.write_text(STAND_IN)
            path.chmod(0o755)

    def link(self, name, target=None):
        """A link in the place of a path below the home, or of the home itself."""
        path = self.home / name
        if path.is_dir():
            shutil.rmtree(path)
        path.unlink(missing_ok=True)
        path.parent.mkdir(exist_ok=True)
        path.symlink_to(target or self.victim)

    def run(self, name, *words):
        """Runs a script. Returns its status and what it said."""
        environment = {"PATH": f"{self.room}/bin:/usr/bin:/bin", "DPKG_ROOT": str(self.top)}
        status, output, errors = run(["sh", self.scripts / name, *words], env=environment)
        return status, output + errors

    def asked(self):
        """What was asked of the stand-ins, but for questions."""
        path = self.room / "asked"
        lines = path.read_text().splitlines() if path.exists() else []
        return [it for it in lines if not it.startswith("getent ")]

    def files(self):
        """Each path of the machine, and of what the links lead to, with the text of a file."""
        paths = [it for top in (self.top, self.victim) for it in top.rglob("*")]
        return {str(it): it.read_text() if it.is_file() and not it.is_symlink() else "" for it in paths}


def try_link(checks, scripts, words, name):
    """A script refuses a link in the place of a path, and changes nothing."""
    with tempfile.TemporaryDirectory() as room:
        machine = Machine(room, scripts, is_earlier=True)
        machine.link(name)
        before = machine.files()
        status, said = machine.run(*words)
        path = Path(HOME, name)
        checks.expect(status == 1 and f"{path} is a link" in said and machine.files() == before and not machine.asked(),
                      f"{words[0]} {words[1]} refuses a link in the place of {path}, and changes nothing",
                      f"status {status}, {machine.asked()}: {said}")


def try_file(checks, scripts):
    """A file in the place of the folder is refused too."""
    with tempfile.TemporaryDirectory() as room:
        machine = Machine(room, scripts, is_earlier=True)
        (machine.home / "db").write_text("a file")
        status, said = machine.run(*CONFIGURE)
        checks.expect(status == 1 and "db is no folder" in said and not machine.asked(),
                      "a file in the place of the folder is refused", f"{machine.asked()}: {said}")


def try_late_link(checks, scripts):
    """The user makes a link after the first look: in the home until that is root's, in the folder at any moment."""
    for name, when in (("db", "chown"), ("db/custody.db", "mv")):
        with tempfile.TemporaryDirectory() as room:
            machine = Machine(room, scripts, is_earlier=True)
            stand_in = machine.room / "bin" / when
            late = f'#!/bin/sh\n[ -L "{machine.home}/{name}" ] || ln -s "{machine.victim}" "{machine.home}/{name}"\n'
            stand_in.write_text(STAND_IN.replace("#!/bin/sh\n", late))
            machine.run(*CONFIGURE)
            found = sorted(it.name for it in machine.victim.iterdir())
            installed = [it for it in machine.asked() if it.startswith("install ")]
            checks.expect(found == ["spare"] and (name != "db" or not installed),
                          f"a link that is made at {name} when {when} runs is not followed", f"{found}, {installed}")


def try_upgrade(checks, scripts):
    """Without links the database of an earlier package is moved, and nothing else."""
    with tempfile.TemporaryDirectory() as room:
        machine = Machine(room, scripts, is_earlier=True)
        status, said = machine.run(*CONFIGURE)
        found = {name: (machine.home / "db" / name).read_text() for name in FILES}
        checks.expect(status == 0 and found == {name: name for name in found} and "custody migrate" in said,
                      "an earlier database is moved with its log and its file of contents", said)
        asked = [it.split()[0] for it in machine.asked()]
        checks.expect(asked == ["useradd", "chown", "chmod", "install", "systemctl", "systemctl", "deb-systemd-invoke",
                                "mv", "mv", "mv", "deb-systemd-invoke"], "while the server is stopped", machine.asked())
        moved = [it.split()[-1].rpartition("/")[2] for it in machine.asked() if it.startswith("mv ")]
        checks.expect(moved[-1] == "custody.db", "and the database itself as the last of its files", moved)
        status, said = machine.run(*CONFIGURE)
        checks.expect(status == 0, "the package is installed once more", said)
        (machine.home / "db/spare").write_text("spare")
        kept = [machine.run(*words)[0] for words in (REMOVE, PURGE)]
        names = sorted(it.name for it in (machine.home / "db").iterdir())
        checks.expect(kept == [0, 0] and names == sorted(FILES),
                      "its removal leaves the database, and not the spare file", names)
        (machine.home / "db/spare").mkdir()
        status, said = machine.run(*REMOVE)
        checks.expect(status == 0, "a folder in the place of the spare file is not in the way", said)


def try_keys(checks, scripts):
    """The keys are not the package's: no upgrade replaces them, and a purge removes them."""
    text = (TOP / "deploy/package.sh").read_text(encoding="utf-8")
    checks.expect("$root/etc/custody/authorized_keys" not in text, "the package has no file of keys")
    with tempfile.TemporaryDirectory() as room:
        machine = Machine(room, scripts, is_earlier=False)
        keys = machine.top / "etc/custody/authorized_keys"
        keys.parent.mkdir(parents=True)
        keys.write_text("a key")
        found = [(machine.run(*words)[0], keys.exists(), keys.parent.exists()) for words in (REMOVE, PURGE)]
        checks.expect(found == [(0, True, True), (0, False, False)], "the keys stay until a purge", found)


def try_unit(checks):
    """What the unit says of the network, of the Git repositories, of descriptors and of memory that is used up."""
    lines = (TOP / "deploy/systemd/custody.service").read_text().splitlines()
    values = dict(it.split("=", 1) for it in lines if "=" in it and not it.startswith("#"))
    checks.expect((values.get("IPAddressDeny"), values.get("IPAddressAllow")) == ("any", "localhost"),
                  "the unit lets the server connect to this machine alone")
    checks.expect(values.get("InaccessiblePaths") == "-/srv", "it hides the Git repositories from the server")
    checks.expect("--contents" in values["ExecStart"].split(), "it has a new database made with a file of contents")
    count = int(values.get("LimitNOFILE", 1024))
    # The connections of clients and operators, and what is opened beside them.
    checks.expect(count >= 2 * (CLIENTS + OPERATORS), f"it has {count} descriptors, for {CLIENTS} clients")
    score = int(values.get("OOMScoreAdjust", 0))
    checks.expect(-1000 < score < 0, f"others are ended before it if memory is used up: {score}")


def try_group(checks):
    """The drop-in waits for the socket, and not for one of a server that has ended. It opens the folder of Git too."""
    text = (TOP / "deploy/systemd/custody-group.conf").read_text(encoding="utf-8")
    command = re.search(r"^ExecStartPost=/bin/sh -c '(.*)'$", text, re.M)[1]
    with tempfile.TemporaryDirectory() as room, subprocess.Popen(["sleep", "20"]) as child:
        words = ["timeout", "5", "env", f"MAINPID={child.pid}", "sh", "-c", command.replace("/run/custody", room)]
        with socket.socket(socket.AF_UNIX) as control:
            control.bind(f"{room}/control")
            os.chmod(f"{room}/control", 0o600)
            os.mkdir(f"{room}/git", 0o700)
            status, _, errors = run(words)
            modes = [stat.S_IMODE(os.stat(f"{room}/{name}").st_mode) for name in ("control", "git")]
        checks.expect((status, modes) == (0, [0o660, 0o770]), f"the drop-in gives the socket the mode {modes[0]:04o}, "
                      f"and the folder of Git {modes[1]:04o}", errors)
        os.unlink(f"{room}/control")
        child.kill()
        child.wait()
        status, _, errors = run(words)
        checks.expect(status == 1, "it does not wait for the socket of a server that has ended", f"{status}: {errors}")


def try_folders(checks):
    """The commands of the pages make folders of Git repositories and of copies that other users of the machine cannot
    enter."""
    for page, pattern, wanted in (("install", r"`(install -d [^`]*(/srv/git/studio))`", 0o750),
                                  ("runbook", r"-- (mkdir [^\n]*(/backup/film))\n", 0o700)):
        text = (TOP / f"docs/operating/{page}.md").read_text(encoding="utf-8")
        command, folder = re.search(pattern, text).groups()
        with tempfile.TemporaryDirectory() as room:
            words = re.sub(r" -[og] custody", "", command).replace(folder, room + folder).split()
            status, _, errors = run(words)
            mode = stat.S_IMODE(os.stat(room + folder).st_mode)
            checks.expect(status == 0 and mode == wanted, f"`{command}` makes a folder with the mode {mode:04o}",
                          errors)


def anchors(text):
    """The anchors of the headings of a page."""
    heads = re.findall(r"^#+ (.*)$", text, re.M)
    plain = [re.sub(r"\[([^\]]*)\]\([^)]*\)", r"\1", it).strip().lower() for it in heads]
    return {re.sub(r"[^\w -]", "", it).replace(" ", "-") for it in plain}


def is_dead(page, target):
    """Whether a link of a page is no full address, and leads to no file or heading that is there."""
    if re.match(r"https?://[a-z]", target):
        return False
    path, _, anchor = target.partition("#")
    file = page.parent / path if path else page
    return not file.exists() or file.suffix == ".md" and anchor and anchor not in anchors(file.read_text())


def make_package(program, room, **more):
    """Makes a package in the folder, with more variables of the environment. Returns the status, and what it said."""
    built = TOP / "crates/custody/out/custody" if program == str(TOP / "bin/custody") else program
    status, output, errors = run([TOP / "deploy/package.sh", room], env={**os.environ, "CUSTODY": str(built), **more})
    return status, output + errors


def try_pandoc(checks, program):
    """If pandoc fails on the list of changes, or on the manual page, no package is made."""
    for form in ("plain", "man"):
        with tempfile.TemporaryDirectory() as room:
            stand_in = Path(room, "bin/pandoc")
            stand_in.parent.mkdir()
            stand_in.write_text(f'#!/bin/sh\ncase " $* " in *" -t {form} "*) exit 7 ;; esac\n'
                                f'exec {shutil.which("pandoc")} "$@"\n')
            stand_in.chmod(0o755)
            status, said = make_package(program, room, PATH=f"{stand_in.parent}:{os.environ['PATH']}")
            checks.expect(status == 7 and not list(Path(room).glob("*.deb")),
                          f"no package is made if pandoc fails to write the form {form}", f"status {status}: {said}")


def try_package(checks, program):
    """A package depends on what its program needs, and its pages lead to files that it installs."""
    with tempfile.TemporaryDirectory() as room:
        root = Path(room, "root")
        status, said = make_package(program, room)
        require(status == 0, f"deploy/package.sh: {said}")
        package = next(Path(room).glob("*.deb"))
        depends = run(["dpkg-deb", "-f", package, "Depends"])[1].strip()
        require(run(["dpkg-deb", "-x", package, root])[0] == 0, "the package has no files")
        needs = run(["readelf", "-dV", root / "usr/bin/custody"])[1]
        versions = {tuple(map(int, it.split("."))) for it in re.findall(r"Name: GLIBC_([\d.]+)", needs)}
        libraries, libc = set(re.findall(r"\(NEEDED\).*\[(.*)\]", needs)), ".".join(map(str, max(versions)))
        checks.expect(libraries <= {"libc.so.6", "libm.so.6"} and f"libc6 (>= {libc})" in depends.split(", "),
                      f"the program needs {', '.join(libraries)} of version {libc}, and the package {depends}")
        said = run(["lintian", "-I", "--pedantic", "--allow-root", package])[1].splitlines()
        checks.expect(all(": hardening-no-" in it for it in said),
                      f"lintian reports how the program was compiled, and nothing else: {len(said)} lines", "\n".join(said))
        pages = sorted(root.rglob("*.md"))
        links = [(it, target) for it in pages for target in re.findall(r"\]\((\S+?)\)", it.read_text())]
        dead = [f"{page.relative_to(root)}: {target}" for page, target in links if is_dead(page, target)]
        checks.expect(len(pages) > 15 and len(links) > 200 and not dead,
                      f"{len(links)} links of {len(pages)} pages lead to what is installed", "\n".join(dead))


def main():
    """Runs the suite."""
    parser = arguments(__doc__)
    parser.add_argument("--scripts", default=TOP / "deploy/debian", type=lambda it: Path(os.path.abspath(it)),
                        metavar="FOLDER", help="the scripts, if not those of this tree: older ones have to fail")
    parser.add_argument("--no-package", action="store_true", help="make no package, for which pandoc is needed")
    options, checks = parser.parse_args(), Checks()
    for name in (".", *TOUCHED):
        try_link(checks, options.scripts, CONFIGURE, name)
    for words in (REMOVE, PURGE):
        for name in (".", "db"):
            try_link(checks, options.scripts, words, name)
    try_file(checks, options.scripts)
    try_late_link(checks, options.scripts)
    try_upgrade(checks, options.scripts)
    try_keys(checks, options.scripts)
    try_unit(checks)
    try_group(checks)
    try_folders(checks)
    if not options.no_package:
        try_pandoc(checks, options.program)
        checks.part("package", lambda: try_package(checks, options.program))
    return checks.end()


if __name__ == "__main__":
    sys.exit(main())
