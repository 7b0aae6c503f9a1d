"""Runs each block of commands in the pages of docs/operating, on a site of this machine, and examples/first-push.sh.

The commands are those of the pages, with the paths of the site, and stand-ins for systemctl, runuser and apt. The
blocks of the runbook are tried by the suite `site`, and one that makes a user of the machine by the suite `security`.
A check fails if a command fails, or does not do what its page says; and if a page has a block that nothing here knows.
"""
import json
import os
import re
import shutil
import sys
import tempfile
from pathlib import Path

from tests.site.handbook import Handbook
from tests.studio.checks import Checks, arguments, require
from tests.studio.policy import FILM, WORK, row
from tests.studio.program import TOP, name_of
from tests.studio.site import Site, placed

FOLDER = TOP / "docs/operating"
# The languages of blocks that are commands: a script, commands with what they print, and lines of a crontab.
COMMANDS = ("sh", "console", "cron")
ELSEWHERE = {("runbook", None): "site", ("security", 0): "security"}
# A file of more than 64 KiB, whose content is not in the rows.
HERO = b"a hero\n" * 20_000
ROWS = (row("allow", ["ann"], ["force"]), row("deny", ["ann"], ["lock"], paths=("final/",)),
        row("allow", ["ann", "bob"], WORK))


def blocks():
    """The blocks of commands of the pages: the language and the text of each, by page and number."""
    found = {}
    for page in sorted(FOLDER.glob("*.md")):
        texts = re.findall(r"^( *)```(\w*)\n(.*?)^ *```$", page.read_text(encoding="utf-8"), re.M | re.S)
        require(all(language for _, language, _ in texts), f"{page.name} has a block without a language")
        own = [(language, re.sub(rf"^{indent}", "", text, flags=re.M)) for indent, language, text in texts
               if language in COMMANDS]
        found.update({(page.stem, number): block for number, block in enumerate(own)})
    return found


def script_of(language, text):
    """The commands of a block, as a script."""
    if language == "console":
        return "".join(line[2:] + "\n" for line in text.splitlines() if line.startswith("$ "))
    if language == "cron":
        return "".join(line.split(None, 6)[6] + "\n" for line in text.splitlines())
    return text


class Pages(Handbook):
    """The blocks of the pages on a site, of which each is run once."""

    def __init__(self, site):
        super().__init__(site)
        self.all, self.tried = blocks(), set()

    def commands(self, page, number=0):
        """The commands of a block, with the paths of the site."""
        self.tried.add((page, number))
        return placed(script_of(*self.all[page, number]), self.site.room, self.site.server.port)

    def do(self, page, number=0, *, edit=str, want=0):
        """Runs a block, after an edit of its text, which has to end with this status. Returns what it printed."""
        status, printed = self.site.run("sh", "-e", "-c", edit(self.commands(page, number)), may_fail=True)
        self.site.expect(status == want, f"block {number + 1} of {page} runs", printed)
        return printed

    def untried(self):
        """The blocks that were not run, and that no other suite runs."""
        return sorted(key for key in self.all if key not in self.tried and key not in ELSEWHERE
                      and (key[0], None) not in ELSEWHERE)


def try_first_push(site, book):
    """The keys of ann, which she has already, and of bob; and what ann does on her own machine."""
    site.write("ann.pub", Path(site.room, "key-ann.pub").read_text(encoding="utf-8"))
    site.write("bob.pub", site.new_key("bob") + "\n")
    printed = book.do("install")
    site.expect(printed == "ann has 1 keys\nbob has 1 keys\n", "each has a key", printed)
    site.write("ann/hero.psd", HERO.decode())
    name = f"ssh://custody@lfs.example/{FILM}.git"
    site.environment["GIT_SSH_COMMAND"] = site.ssh_command("ann")
    settings = 'git config user.name ann && git config user.email ann@studio.example && cp ../ann/hero.psd .'
    printed = book.do("install", 1, edit=lambda text: text.replace(name, site.remote()).replace(
        "&& cd film\n", f"&& cd film\n{settings}\n").replace("git push\n", "git push origin HEAD:main\n"))
    del site.environment["GIT_SSH_COMMAND"]
    site.expect("Locked hero.psd" in printed and name_of(HERO) in site.server.objects(),
                "ann's first file is stored, and locked", printed)


def try_copies(site, book):
    """A copy of the running server, and one of the server that was stopped."""
    printed = book.do("backup")
    site.expect("checked 1 objects" in printed, "the copy of the running server is whole", printed)
    site.expect(book.do("backup", 1) == "", "each content of the copy has its name")
    book.do("backup", 2)
    copy = Path(site.room, "backup/custody.db")
    printed = site.run(site.server.program, "check", "--db", copy)[1]
    site.expect(printed == "checked 1 objects\n", "the copy of a stopped server is whole", printed)
    printed = book.do("backup", 3)
    site.expect("already version 3" in printed, "what has a file of contents stays as it is", printed)
    printed = book.do("backup", 4)
    site.expect("already version 3" in printed, "an upgrade migrates what is of version 1 alone", printed)


def try_questions(site, book):
    """Why a user was refused, and what a server has."""
    printed = book.do("troubleshooting")
    site.expect("studio/film" in printed and "hero.psd" in printed, "usage and locks by the variable", printed)
    site.expect(book.do("troubleshooting", 1) == "", "what cron runs prints nothing if all is well")
    printed = book.do("troubleshooting", 2, edit=lambda text: text.replace("art/hero.psd", "final/cut.mov"), want=1)
    site.expect(printed.startswith("denied by row 2\n"), "the row that decides", printed)
    issue, _, foresee = book.commands("troubleshooting", 3).splitlines()
    line = site.run("sh", "-e", "-c", issue)[1]
    asked = book.all["troubleshooting", 3][1].split("$ cat > message\n")[1].split("$ ")[0]
    body = '{"path":"hero.psd"}'
    asked = asked.replace("Bearer 5f0c...", json.loads(line)["header"]["Authorization"])
    asked = asked.replace("Length: 23", f"Length: {len(body)}").replace('{"path":"art/hero.psd"}\n', body)
    site.write("message", asked.replace("\n", "\r\n"))
    printed = site.run("sh", "-e", "-c", foresee)[1]
    site.expect(printed.startswith("409 L1\n"), "the reply that ann would get is foreseen", printed)


def try_removals(site, book):
    """Objects that are removed by hand, and those that no branch needs; the file without the pages that are free."""
    oid = book.all["removing-objects", 0][1].split()[-1]
    printed = book.do("removing-objects", edit=lambda text: text.replace(oid, name_of(HERO)))
    site.expect(printed == f"retired {name_of(HERO)}\n", "an object is removed for good", printed)
    site.ann.begin(site.remote())
    site.ann.git("lfs", "track", "*.psd")
    site.ann.add_files("art", 3, 10_000)
    site.ann.git("push", "-q", "origin", "main:refs/heads/idea")
    site.run("git", "-C", f"{site.room}/git/{FILM}.git", "update-ref", "-d", "refs/heads/idea")
    printed = book.do("removing-objects", 1, edit=lambda text: text.replace("--again 3600", "--again 1"))
    site.expect(printed.count("retired ") == 3, "three objects that no branch needs are removed", printed)


def try_files(site, book):
    """What is done to the files of a stopped server."""
    folder = Path(site.room, "state")
    site.run("systemctl", "stop")
    before = (folder / "custody.db").stat().st_size
    book.do("removing-objects", 2)
    site.expect((folder / "custody.db").stat().st_size < before, "the new file is smaller")
    printed = book.do("disk-and-damage", 1)
    site.expect(printed.startswith("checked 0 objects\n") and printed.endswith("\nlocks|1\nretired|4\n"),
                "all rows are in the file that was made anew", printed)
    site.run("systemctl", "start")
    printed = book.do("disk-and-damage")
    site.expect("swept 0 uploads" in printed, "the spare file is used, and made again", printed)


def try_spool(site, book):
    """A file system in a file, for what waits at nginx. Root alone can mount it."""
    if os.geteuid() != 0:
        book.tried.add(("nginx", 0))
        print("     not run: the block of nginx, which needs root")
        return
    names = {"/var/custody-spool.img": "spool.img", "/var/spool/custody": "limited", "/etc/fstab": "fstab", "60G": "64M"}
    spool, table = Path(site.room, "limited"), Path(site.room, "fstab")
    spool.mkdir()

    def edit(text):
        """The block with the paths of the site, and a smaller file."""
        for old, new in names.items():
            text = text.replace(old, new if old == "60G" else f"{site.room}/{new}")
        return text.replace("\nmount ", f"\nmount -T {table} ")

    try:
        book.do("nginx", edit=edit)
        site.expect(os.path.ismount(spool), "what waits at nginx has a file system of its own")
        status, _ = site.run("fallocate", "-l", "70M", f"{spool}/body", may_fail=True)
        site.expect(status != 0 and shutil.disk_usage(spool).total < 64 << 20, "which takes no more than its file has")
        taken = os.stat(f"{site.room}/spool.img").st_blocks * 512
        site.expect(taken >= 64 << 20, "and whose room is taken at once", f"{taken} bytes")
    finally:
        site.run("umount", spool, may_fail=True)


def try_example(site, _):
    """The command of README's first page, with this program as an installed one."""
    folder = Path(site.room, "installed")
    folder.mkdir()
    (folder / "custody").symlink_to(site.server.program)
    words = ["env", "-i", f"PATH={folder}:/usr/bin:/bin", TOP / "examples/first-push.sh", f"{site.room}/first-push"]
    status, printed = site.run(*words, may_fail=True)
    site.expect(status == 0 and "bob$ git lfs locks\n    art/hero.psd\tann" in printed,
                "examples/first-push.sh pushes, clones and locks", printed)


def main():
    """Runs the suite."""
    options, checks = arguments(__doc__).parse_args(), Checks()
    with tempfile.TemporaryDirectory() as room:
        site = Site(options.program, room, ROWS, checks)
        site.ann = site.clone("ann", "second")
        book = Pages(site)
        try:
            site.set_up(("ann",))
            book.install()
            for part in (try_first_push, try_copies, try_questions, try_removals, try_files, try_spool, try_example):
                part(site, book)
            site.expect(not book.untried(), f"{len(book.tried)} blocks of the pages were run", str(book.untried()))
        finally:
            site.run("systemctl", "stop", may_fail=True)
            site.end()
    return checks.end()


if __name__ == "__main__":
    sys.exit(main())
