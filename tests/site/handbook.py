"""What the suite of the site tries of docs/operating/runbook.md: each block of commands, as it is there.

The site has its own paths, and stand-ins for what a temporary folder lacks: systemctl starts and stops the server of
the site, runuser runs the command, apt installs nothing, and editor puts the text into the file that the check has
prepared.
"""
import contextlib
import getpass
import random
import re
import shlex
import signal
from pathlib import Path

from tests.studio.checks import require
from tests.studio.clone import Clone
from tests.studio.policy import FILM, WORK, row
from tests.studio.program import CHUNK, TOP
from tests.studio.site import SiteServer, placed

PAGE = TOP / "docs/operating/runbook.md"
FORCE = row("allow", ["ann"], ["force"])
STAND_INS = ("systemctl", "runuser", "apt", "editor", "id", "ssh")
SYSTEMCTL = """#!/bin/sh
set -eu
serve() {
    nohup @serve > @room/unit.log 2>&1 &
    server=$!
}
case $1 in
stop) custody stop --via @room/control ;;
start)
    serve
    for _ in $(seq 300); do
        ! grep -qs '^listening' @room/unit.log || ! custody status --via @room/control > /dev/null 2>&1 || exit 0
        sleep 0.1
        # The unit starts it again, if it has ended.
        kill -0 "$server" 2> /dev/null || serve
    done
    exit 1
    ;;
restart) "$0" stop && "$0" start ;;
reload) custody reload --via @room/control ;;
esac
"""


def blocks_of(page):
    """The blocks of commands of the page, by heading."""
    parts = page.read_text(encoding="utf-8").split("\n## ")[1:]
    return {part.split("\n")[0]: re.findall(r"```sh\n(.*?)```", part, re.S) for part in parts}


class Handbook:
    """The commands of the page on a site. `remotes` has what they call the second server, and its name here."""

    def __init__(self, site):
        self.site, self.blocks, self.ran, self.remotes = site, blocks_of(PAGE), 0, {}

    def install(self):
        """The stand-ins. From here on systemctl runs the server."""
        site, words = self.site, shlex.join(self.site.server.words())
        site.write("bin/systemctl", SYSTEMCTL.replace("@room", site.room).replace("@serve", words), 0o755)
        site.write("bin/runuser", '#!/bin/sh\nshift 3\nexec "$@"\n', 0o755)
        site.write("bin/apt", "#!/bin/sh\n", 0o755)
        site.write("bin/editor", f'#!/bin/sh\ncp {site.room}/edited "$1"\n', 0o755)
        # The program spare runs as custody, whose work nobody else does here.
        site.write("bin/id", "#!/bin/sh\necho 1000\n", 0o755)
        site.server.end(signal.SIGTERM)
        site.run("systemctl", "start")

    def remove(self):
        """Removes the stand-ins, and has the site as it was before."""
        site = self.site
        site.run("systemctl", "stop", may_fail=True)
        for name in STAND_INS:
            Path(site.room, "bin", name).unlink(missing_ok=True)
        site.server.set_policy(site.server.policy())
        site.add_key("bob", Path(site.room, "key-bob.pub").read_text(encoding="utf-8").strip())
        site.server.start()

    def run(self, heading, number=0, stops=True):
        """Runs a block of the page. Returns what it printed."""
        text = placed(self.blocks[heading][number], self.site.room, self.site.server.port)
        for old, new in self.remotes.items():
            text = text.replace(old, new)
        self.ran += 1
        status, printed = self.site.run("sh", *(["-e"] if stops else []), "-c", text, may_fail=True)
        self.site.expect(status == 0, f"the commands of \"{heading}\" run", printed)
        return printed

    def edit(self, *rows, **more):
        """What the editor is to put into the policy."""
        self.site.write("edited", self.site.server.policy(rows, **more))

    def change_policy(self, *rows):
        """Puts these rows into the policy."""
        self.edit(*rows)
        self.site.run("editor", f"{self.site.room}/policy.toml")
        self.site.reload()

    def locks(self):
        """The locks, as a text."""
        return "".join(f"{line}\n" for line in self.site.server.locks())

    def push_all(self, what):
        """ann pushes each object that the server lacks."""
        status, text = self.site.ann.tried("lfs", "push", "--all", "origin")
        self.site.expect(status == 0, what, text)


def try_new_user(site, book):
    """A new user clones."""
    site.write("zoe.pub", site.new_key("zoe") + "\n")
    book.edit(FORCE, row("allow", ["ann", "bob", "zoe"], WORK))
    site.expect("allowed by row 2" in book.run("A new user"), "the policy lets zoe pull")
    status, text = site.clone("zoe").take(site.remote())
    site.expect(status == 0, "zoe clones", text)


def try_locks(site, book):
    """Locks of somebody who is away, or has left."""
    site.lock("bob", "art/hero.psd")
    printed = book.run("A lock whose owner is on holiday")
    site.expect("released: art/hero.psd" in printed and "art/hero.psd" not in book.locks(), "bob's lock is released",
                printed)
    site.lock("bob", "art/1.psd")
    site.lock("bob", "art/two words.psd", "refs/heads/idea")
    for path in (" lead.psd", "trail.psd ", "  both  ends  "):
        site.lock("bob", path, "refs/heads/idea")
    site.lock("ann", "art/2.psd")
    book.edit(FORCE, row("allow", ["ann", "zoe"], WORK))
    printed = book.run("A user who leaves")
    site.expect("\nbob upload " in printed, "his tokens are listed, until they expire", printed)
    site.bob.fails("bob's key opens nothing any more", "Permission denied", "fetch")
    book.run("A user who leaves", 1)
    site.expect("bob" not in book.locks() and "art/2.psd" in book.locks(),
                "his locks are released, those with spaces too, and ann's stays", book.locks())


def try_backup(site, book):
    """A copy of the database is put back, and the program is upgraded."""
    before = site.count()
    printed = book.run("Backup and restore")
    site.expect(f"checked {before} objects" in printed, "the copy is whole", printed)
    site.ann.add_files("later", 5, 10_000)
    site.ann.git("push", "-q", "origin", "main")
    site.expect(site.count() == before + 5, "five more objects are pushed")
    book.run("Backup and restore", 1)
    site.expect(site.count() == before, "the server has what the copy has")
    book.push_all("the objects that it lacks are pushed again")
    site.expect(site.count() == before + 5, "and are there")
    printed = book.run("An upgrade")
    site.expect("custody_uptime_seconds" in printed, "the server runs after an upgrade", printed)


def try_room(site, book):
    """A quota and a disk that are full, and a slow server."""
    book.edit(FORCE, row("allow", ["ann", "zoe"], WORK), quota=123_456_789_000)
    printed = book.run("A full quota")
    site.expect("studio/film" in printed and " objects, " in printed, "usage, and what no branch needs", printed)
    book.run("A full quota", 1)
    site.expect("123456789000" in site.via("usage")[1], "the quota is larger", site.via("usage")[1])
    printed = book.run("A full disk, in short")
    spare = Path(site.room, "state/spare")
    site.expect("swept 0 uploads" in printed and spare.stat().st_size >= 8 << 20, "the spare file is made again",
                printed)
    printed = book.run("A server that is slow")
    slowest = [it.split() for it in printed.splitlines() if re.match(r"\d+\.\d+ \d{3} ", it)]
    times = [float(it[0]) for it in slowest]
    site.expect("custody_busy_seconds_total" in printed and times and times == sorted(times, reverse=True),
                f"the slowest requests are listed, from {times[:1]} s on", printed)


def damage(site, seed):
    """A bit of a stored object changes on the disk."""
    files = [it for it in sorted(site.ann.path("art").glob("*.psd")) if it.stat().st_size > 50_000]
    name = random.Random(seed).choice(files)
    text = name.read_bytes()[30_000:30_100]
    site.run("systemctl", "stop")
    file = site.server.contents() if name.stat().st_size >= CHUNK else Path(site.server.database)
    stored = bytearray(file.read_bytes())
    require(stored.count(text) == 1, f"the bytes of {name.name} are not in {file.name} once")
    stored[stored.find(text)] ^= 1
    file.write_bytes(stored)
    site.run("systemctl", "start")


def try_damage(site, book):
    """A damaged object is removed, and pushed again."""
    damage(site, 1)
    printed = book.run("A damaged object", stops=False)
    site.expect(printed.count("damaged studio/film ") == 1 and "removed 1 objects" in printed,
                "it is found and removed", printed)
    book.push_all("it is pushed again")
    status, text = site.via("check")
    site.expect(status == 0, f"all are whole: {text.strip()}", text)


def try_copies(site, book):
    """Objects are copied to a folder, and from there to the server that has lost one."""
    book.change_policy(FORCE, row("allow", ["mirror"], ["pull"]), row("allow", ["ann", "zoe"], WORK))
    printed = book.run("Copies elsewhere")
    found = [it for it in Path(site.room, "backup/film/objects").rglob("*") if re.fullmatch(r"[0-9a-f]{64}", it.name)]
    site.expect(f"copied {site.count()} objects" in printed and len(found) == site.count(),
                printed.strip().splitlines()[-1], printed)
    book.change_policy(FORCE, row("allow", ["mirror"], ["pull", "push"]), row("allow", ["ann", "zoe"], WORK))
    damage(site, 2)
    status, text = site.via("repair")
    site.expect("removed 1 objects" in text and site.count() == len(found) - 1, "the server loses an object", text)
    printed = book.run("Copies elsewhere", 1)
    site.expect("copied 1 objects" in printed and site.count() == len(found), "and has it back from the folder",
                printed)


class SecondServer(SiteServer):
    """The server of lfs2.example, whose Git is in its folder too."""

    def __init__(self, site):
        room = f"{site.room}/second"
        for program in ("custody-user", "forced-command"):
            text = Path(site.room, "lib", program).read_text(encoding="utf-8")
            for name in ("control", "places", "git", "authorized_keys", "lib"):
                text = text.replace(f"{site.room}/{name}", f"{room}/{name}")
            site.write(f"second/lib/{program}", text, 0o755)
        Path(room, "places").mkdir()
        rows = (row("allow", ["mirror"], ["pull", "push"]), row("allow", ["ann"], WORK))
        super().__init__(site.server.program, room, rows)
        site.make_repository(FILM, room)
        self.add_keys(site)

    def add_keys(self, site):
        """A key of the user custody of the first machine, and one of ann."""
        for name, user in (("second-mirror", "mirror"), ("second-ann", "ann")):
            site.add_key(user, site.new_key(name), self.room)
        site.write("ssh_config", f"Host lfs2.example\n  HostName localhost\n  Port {site.ssh}\n  IdentitiesOnly yes\n"
                   f"  IdentityFile {site.room}/key-second-mirror\n  UserKnownHostsFile {site.room}/known_hosts\n"
                   "  HostKeyAlias lfs2.example\n  StrictHostKeyChecking accept-new\n")
        site.write("bin/ssh", f'#!/bin/sh\nexec /usr/bin/ssh -F {site.room}/ssh_config "$@"\n', 0o755)


def try_move(site, book, second):
    """The repository is moved to the second server."""
    # Its address here is not https, so it is asked with --also alone.
    book.remotes = {"custody@lfs2": f"{getpass.getuser()}@lfs2",
                    "mirror studio/film": f"mirror --also {second.base} studio/film"}
    heading, count = "Moving a repository to a second server", site.count()
    printed = book.run(heading)
    site.expect(f"copied {count} objects" in printed, printed.strip().splitlines()[-1], printed)
    site.ann.add_files("meanwhile", 3, 10_000)
    site.ann.git("push", "-q", "origin", "main")
    book.edit(row("deny", ["*"], ["push", "lock"]), FORCE, row("allow", ["mirror"], ["pull"]),
              row("allow", ["ann", "zoe"], WORK))
    printed = book.run(heading, 1)
    site.expect("copied 3 objects" in printed and f"{count} were there" in printed and "art/2.psd" in printed,
                "the second time only what is new, and the locks are listed", printed)
    here, there = site.server.objects(), second.objects()
    site.expect(there == here and len(here) == count + 3, f"the second server has the same {count + 3} objects",
                str(there)[:300])
    site.ann.fails("the first server takes no push", "does not let ann push to studio/film", "push", "--no-verify",
                   "origin", "main:refs/heads/late")
    moved = Clone(site, "moved", "ann", {"core.sshCommand": site.ssh_command("second-ann")})
    status, text = moved.take(site.remote())
    same = site.run("diff", "-r", "-x", ".git", site.ann.folder, moved.folder, may_fail=True)
    site.expect(status == 0 and same[0] == 0, "ann clones from the second server what she had", text)


def try_blocks(site, book):
    """Each part of the page."""
    for part in (try_new_user, try_locks, try_backup, try_room, try_damage, try_copies):
        part(site, book)
    with SecondServer(site) as second:
        try_move(site, book, second)
    count = sum(map(len, book.blocks.values()))
    site.expect(book.ran == count, f"the {count} blocks of the page were run", f"{book.ran} were")


def try_handbook(site):
    """Each block of commands of the page is run, and does what the page says of it."""
    site.ann.git("pull", "-q", "--rebase")
    book = Handbook(site)
    with contextlib.ExitStack() as held:
        held.callback(book.remove)
        book.install()
        try_blocks(site, book)
