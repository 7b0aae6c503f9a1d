"""The files of a release: fresh checkouts run the example with them, and prove again what is changed.

The files are those of --files, or else tools/release writes them first, which builds whatever is not built; --program
is not used. Each check has a checkout of its own, of the commit that the files name.
"""
import os
import re
import shutil
import subprocess
import sys
import tempfile
import time
from pathlib import Path

from tests.studio.checks import arguments, judge_each, require, stop, within
from tests.studio.program import TOP

# The example and a build that has nothing to do end in this many seconds.
BOUND = 60
PROGRAM_FILES = ("SHA256SUMS", "custody", "custody.made")
# The PATH without the toolchain.
PLAIN = os.pathsep.join(it for it in os.environ["PATH"].split(os.pathsep) if not Path(it, "rt").exists())


class Checkout:
    """A fresh checkout of the commit of a release."""

    def __init__(self, files, room):
        self.files, self.top = files, Path(room, "checkout")
        subprocess.run(["git", "clone", "-q", "-n", "--shared", TOP, self.top], check=True)
        subprocess.run(["git", "checkout", "-q", commit_of(files)], cwd=self.top, check=True)

    def run(self, *words, path=os.environ["PATH"], want=0):
        """What the command prints, on both streams. It ends with the status that is wanted."""
        environment = {**os.environ, "PATH": path}
        ran = subprocess.run(words, cwd=self.top, env=environment, stdin=subprocess.DEVNULL, stdout=subprocess.PIPE,
                             stderr=subprocess.STDOUT, encoding="utf-8", errors="replace", check=False)
        require(ran.returncode == want, f"{' '.join(words)} ended with status {ran.returncode}: {ran.stdout[-2000:]}")
        return ran.stdout

    def expect(self, text, *words, **more):
        """The command prints the text."""
        printed = self.run(*words, **more)
        require(text in printed, f"{' '.join(words)} printed {printed!r}")

    def take(self, files=None, **more):
        """Takes the files."""
        return self.run("tools/release", "--take", str(files or self.files), **more)

    def push(self, says, path):
        """Runs the example, which says this of the program. Returns a text with the time that it took."""
        begun = time.monotonic()
        self.expect(says, "examples/first-push.sh", str(self.top.with_name("first-push")), path=path)
        return within(time.monotonic() - begun, BOUND, "examples/first-push.sh")

    def change(self, crate):
        """Adds a comment to a source of a crate that no other checkout has."""
        with open(self.top / "crates" / crate / "src/lib.rt", "a", encoding="utf-8") as file:
            file.write(f"// changed at {time.time_ns()}\n")

    def spoil(self, crate):
        """Makes an edit of a crate that its contracts exclude."""
        edit = min((self.top / "crates" / crate / "must-fail").glob("*.edit")).read_text(encoding="utf-8")
        place, old, new = (re.search(f"(?m)^{it}: ?(.*)$", edit)[1] for it in ("file", "old", "new"))
        source = self.top / "crates" / crate / place
        text = source.read_text(encoding="utf-8")
        require(text.count(old) == 1, f"{place} has not one {old!r}")
        source.write_text(text.replace(old, new), encoding="utf-8")


def commit_of(files):
    """The commit of a release."""
    found = re.search(r"commit ([0-9a-f]{40})", (files / "VERDICT").read_text(encoding="utf-8"))
    require(found, "the verdict names no commit")
    return found[1]


def some_of(files, room):
    """A folder with the program and its sums, and not the proofs."""
    folder = Path(room, "files")
    folder.mkdir()
    for name in PROGRAM_FILES:
        shutil.copy(files / name, folder)
    return folder


def check_files(options, room):
    """The verdict has a line of each crate of the program, and the names of what it rests on."""
    checkout = Checkout(options.files, room)
    text = (options.files / "VERDICT").read_text(encoding="utf-8")
    proved = re.findall(r"(?m)^(\w+): .*logic=proved ", text)
    asked = "import sys; sys.path[0] = 'tools'; import program; print(*program.crates_below(program.PROGRAM))"
    require(proved == checkout.run("python3", "-B", "-c", asked).split(), f"the verdict has {proved}")
    for line in ((checkout.top / "HANDLES").read_text().strip(), "compiled by llvm", "rattle-kit-"):
        require(line in text.splitlines()[0], f"the verdict begins with {text.splitlines()[0]!r}, without {line!r}")
    subprocess.run(["sha256sum", "--quiet", "-c", "SHA256SUMS"], cwd=options.files, check=True)
    return f"the verdict of {len(proved)} crates, and the sums"


def check_installed(options, room):
    """The example with the package's program, in a checkout that has nothing else, without the toolchain."""
    subprocess.run(["dpkg-deb", "-x", *options.files.glob("*.deb"), Path(room, "root")], check=True)
    program = Path(room, "root/usr/bin")
    return Checkout(options.files, room).push(f"{program}/custody, which is installed", f"{program}:{PLAIN}")


def check_first_push(options, room):
    """The example with the program that was taken, without the toolchain."""
    checkout = Checkout(options.files, room)
    checkout.take(some_of(options.files, room), path=PLAIN)
    return checkout.push("bin/custody, which is built", PLAIN)


def check_changed(options, room):
    """A program that was taken does not run once a source is changed, and is not taken for it."""
    checkout, files = Checkout(options.files, room), some_of(options.files, room)
    checkout.take(files, path=PLAIN)
    checkout.change(options.crate)
    checkout.expect("the Rattle toolchain is missing", "bin/custody", "-V", path=PLAIN, want=1)
    shutil.rmtree(checkout.top / "crates/custody/out")
    require("is left out" in checkout.take(files, path=PLAIN, want=1), "it is taken for another source")
    require(not (checkout.top / "crates/custody/out/custody").exists(), "it is there")
    return "a changed source has no program"


def check_damaged(options, room):
    """Files that are damaged are refused."""
    checkout, files = Checkout(options.files, room), some_of(options.files, room)
    with open(files / "custody", "ab") as file:
        file.write(b"x")
    require("damaged: custody" in checkout.take(files, path=PLAIN, want=1), "the damage is not named")
    require(not (checkout.top / "crates/custody/out").exists(), "something was taken")
    return "a damaged program is refused"


def check_proofs(options, room):
    """Proofs that were taken are used, and a source that is changed is proved again."""
    checkout, crate = Checkout(options.files, room), options.crate
    checkout.take()
    begun = time.monotonic()
    printed = checkout.run("tools/build")
    took = within(time.monotonic() - begun, BOUND, "a build that has nothing to prove")
    require(printed.startswith("custody: 0 of ") and "the program is built" in printed, f"it printed {printed!r}")
    checkout.change(crate)
    checkout.expect(f"{crate} is proved, 1 of 1", "tools/build", crate)
    log = (checkout.top / "crates/custody/out/log" / crate).read_text(encoding="utf-8")
    require("logic=proved" in log, "the changed source was not proved again")
    checkout.spoil(crate)
    checkout.expect(f"{crate} is not proved", "tools/build", crate, want=1)
    return f"{took}; {crate} is proved again after a change, and refused after a wrong one"


CHECKS = {
    "files": check_files,
    "installed": check_installed,
    "first_push": check_first_push,
    "changed": check_changed,
    "damaged": check_damaged,
    "proofs": check_proofs,
}


def run(check, options):
    """Runs a check in a folder of its own. Returns what it found."""
    with tempfile.TemporaryDirectory() as room:
        return check(options, room)


def main():
    """Runs the checks."""
    parser = arguments(__doc__, CHECKS)
    parser.add_argument("--files", type=lambda it: Path(it).resolve(), help="the folder of the files of a release")
    parser.add_argument("--crate", default="control", help="the crate that is changed [default: control]")
    options = parser.parse_args()
    with tempfile.TemporaryDirectory() as room:
        if not options.files:
            options.files = Path(room, "release")
            if subprocess.run([TOP / "tools/release", options.files], check=False).returncode:
                stop("tools/release wrote no files")
        return judge_each(CHECKS, options, lambda name: run(CHECKS[name], options))


if __name__ == "__main__":
    sys.exit(main())
