"""Pushes and fetches large files with the real Git LFS client, on a disk that has room for each of them twice.

A server has a file of contents; a script is in the place of sshd. Files of random bytes are made one after the other:
each is added, and removed from the working copy. A number of them is pushed at a time, and then removed from the client
too. Then the repository is cloned without its files, and the objects are fetched, as many at a time, and compared with
the digests that were computed as the files were made. The last lines have what was measured.

The server is killed, and the suite ends, if the disk has less room than is to stay free.
"""
import hashlib
import os
import shutil
import signal
import subprocess
import sys
import tempfile
import time
from pathlib import Path

from tests.studio.checks import Checks, arguments, beside, require
from tests.studio.clone import Clone, Workroom
from tests.studio.policy import FILM, WORK, repo, row
from tests.studio.site import SiteServer

MIB, GIB = 1 << 20, 1 << 30
# The settings of a clone: by default the client gives up a request that waits for 30 seconds.
SETTINGS = {"lfs.activitytimeout": "1800"}


class Trial(Workroom):
    """A server, a repository and the clones of ann."""

    def __init__(self, options, room, checks):
        super().__init__(room, checks, options.show)
        self.options = options
        # A clone then has pointers in the place of files.
        self.environment["GIT_LFS_SKIP_SMUDGE"] = "1"
        self.set_up_git()
        self.write_ssh("ann", options.program)
        self.make_bare(FILM)
        rows = (repo(FILM, options.files * options.size * MIB), row("allow", ["ann"], WORK))
        self.server = SiteServer(options.program, room, rows, repos=())
        # The names of the objects of each folder, by the paths of their files.
        self.folders = {}

    def clone(self, name):
        """A clone of ann's, which is not there yet."""
        return Clone(self, name, "ann", {**self.over_ssh("ann"), **SETTINGS})

    def require_room(self, size):
        """Fails unless the disk has room for this many bytes beside those that stay free."""
        free = shutil.disk_usage(self.room).free
        require(free >= size + self.options.free * GIB, f"the disk has {free / GIB:.1f} GiB free")

    def watch(self, is_over):
        """Kills the server when the disk has less room than is to stay free."""
        while not is_over.wait(1):
            if shutil.disk_usage(self.room).free < self.options.free * GIB:
                self.server.child.kill()


def write_random(path, size):
    """Writes a file of random bytes. Returns its SHA-256."""
    digest = hashlib.sha256()
    with open(path, "wb") as file:
        for at in range(0, size, MIB):
            piece = os.urandom(min(MIB, size - at))
            digest.update(piece)
            file.write(piece)
    return digest.hexdigest()


def add_folder(trial, clone, folder, count):
    """Commits a folder of new files, without leaving them in the working copy."""
    size, names = trial.options.size * MIB, {}
    clone.path(folder).mkdir()
    for number in range(count):
        # The client copies a file as it is added.
        trial.require_room(2 * size)
        name = f"{folder}/{number:03}.bin"
        names[name] = write_random(clone.path(name), size)
        clone.git("add", name)
        clone.path(name).unlink()
    clone.git("commit", "-q", "-m", f"Adds {folder}")
    trial.folders[folder] = names


def timed(server, act):
    """How many seconds the act took, and how many of a processor the server used meanwhile."""
    begun, used = time.monotonic(), server.processor_time()
    act()
    return time.monotonic() - begun, server.processor_time() - used


def remove_objects(clone):
    """Removes the objects that the client keeps."""
    shutil.rmtree(clone.path(".git/lfs/objects"))


def push_all(trial):
    """Pushes all folders, each by itself. Returns the times of the pushes."""
    options, clone, times = trial.options, trial.clone("ann"), []
    clone.begin(trial.bare_remote(FILM))
    clone.git("lfs", "track", "*.bin")
    clone.git("add", ".gitattributes")
    for first in range(0, options.files, options.at_once):
        folder, count = f"from-{first:03}", min(options.at_once, options.files - first)
        add_folder(trial, clone, folder, count)
        trial.require_room(count * options.size * MIB)
        what = f"{folder}: {count} files of {options.size} MiB are pushed"
        times.append(timed(trial.server, lambda: clone.passes(what, "push", "-q", "origin", "HEAD:refs/heads/main")))
        remove_objects(clone)
    return times


def sums_of(clone):
    """The digests that sha256sum computes of the objects that the client keeps, by their names."""
    paths = [str(path) for path in clone.path(".git/lfs/objects").rglob("*") if path.is_file()]
    found = subprocess.run(["sha256sum", *paths], check=True, capture_output=True, text=True).stdout
    return {path.rpartition("/")[2]: digest for digest, path in map(str.split, found.splitlines())}


def fetch_all(trial):
    """Clones the repository, and fetches the objects of one folder after the other. Returns the times of that."""
    clone, times = trial.clone("again"), []
    require(clone.take(trial.bare_remote(FILM))[0] == 0, "the repository was not cloned")
    for folder, names in trial.folders.items():
        trial.require_room(len(names) * trial.options.size * MIB)
        words = ["lfs", "fetch", "origin", "main", "--include", f"{folder}/*"]
        times.append(timed(trial.server, lambda: clone.passes(f"{folder}: they are fetched", *words)))
        found = sums_of(clone)
        trial.equal(found, {it: it for it in names.values()}, f"{folder}: {len(found)} objects are as they were made")
        remove_objects(clone)
    return times


def measured(times, options):
    """The sums of the times, and how fast that is."""
    seconds, used = map(sum, zip(*times))
    speed = options.files * options.size / seconds
    return f"{seconds:.0f} s, {speed:.0f} MiB/s; {used:.0f} s of a processor at the server"


def try_all(trial):
    """Pushes, fetches, and starts the server again."""
    server, options = trial.server, trial.options
    rest = server.peak()
    pushed, fetched = push_all(trial), fetch_all(trial)
    size = server.contents().stat().st_size
    lines = [f"pushes: {measured(pushed, options)}", f"fetches: {measured(fetched, options)}",
             f"memory of the server at its highest: {server.peak() / 1024:.1f} MB, {rest / 1024:.1f} MB at its start",
             f"file of contents: {size} bytes"]
    server.end(signal.SIGTERM)
    begun = time.monotonic()
    server.start()
    lines.append(f"the next start: {time.monotonic() - begun:.2f} s, {server.peak() / 1024:.1f} MB")
    status, printed, _ = server.via("usage")
    room = f"contents: {options.files * options.size * MIB} kept, 0 free, {size} in the file"
    trial.expect(status == 0 and printed.splitlines()[-1] == room, room, printed)
    trial.expect(len(server.objects()) == options.files, f"{options.files} objects are listed")
    print("\n".join(lines), flush=True)


def main():
    """Runs the suite."""
    parser = arguments(__doc__)
    parser.add_argument("--files", type=int, default=4, help="how many files are pushed [default: %(default)s]")
    parser.add_argument("--size", type=int, default=256, help="the MiB of each [default: %(default)s]")
    parser.add_argument("--at-once", type=int, default=2, metavar="N",
                        help="how many are pushed and fetched at a time [default: %(default)s]")
    parser.add_argument("--free", type=float, default=2, metavar="GIB",
                        help="the room that stays free on the disk [default: %(default)s]")
    parser.add_argument("--folder", help="the folder in which all of it is made [default: that of temporary files]")
    parser.add_argument("--show", action="store_true", help="print each command and what the client prints")
    options = parser.parse_args()
    checks = Checks()
    with tempfile.TemporaryDirectory(dir=options.folder) as room:
        trial = Trial(options, str(Path(room).resolve()), checks)
        with trial.server, beside(trial.watch):
            checks.part("large", lambda: try_all(trial))
    return checks.end()


if __name__ == "__main__":
    sys.exit(main())
