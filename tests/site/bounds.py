"""Tries what users of Git may take of the machine: deploy/programs/forced-command and pre-receive, with the real git.

A stand-in for custody allows everything, so no program is needed; the client is this suite, which sends what no client
of Git would. A check fails if a push of some kilobytes or a clone takes memory without a bound, if a push is taken that
nothing has judged, or that a later lock is in the way of, or if one is not refused in words.
"""
import contextlib
import hashlib
import resource
import subprocess
import sys
import tempfile
import time
import zlib
from pathlib import Path

from tests.studio.checks import Checks, arguments
from tests.studio.clone import Workroom
from tests.studio.policy import FILM
from tests.studio.program import TOP
from tests.studio.site import placed

STAND_IN = """#!/bin/sh
case $1:$* in
may:*) echo yes ;;
pushcheck:*)
    # While it is asked, ann locks what is in the file.
    if [ -e @room/late ]; then sleep 1.2 && mv @room/late @room/locks; fi
    exec sed 's/^/ok: /'
    ;;
locks:*) if [ -e @room/locks ]; then cat @room/locks; fi ;;
esac
"""
# In the place of git: one of its commands is killed, as when the memory of the machine is used up.
KILLED = """#!/bin/sh
if [ "$1" = symbolic-ref ]; then
    kill -KILL $$
fi
exec @git "$@"
"""
NONE, FLUSH = "0" * 40, b"0000"
BLOB, DELTA = 3, 7
# A file of 8 MiB, and how often a second one has it.
PART, PARTS = 1 << 23, 270
MANY = 10_000
# How often a user may run a command of Git at a time.
PLACES = {"git-receive-pack": 4, "git-upload-pack": 16}
# The size of a large file, and of a piece of it.
LARGE, PIECE = 64 << 20, 1 << 20


def most_memory():
    """The most memory that a process of this suite had, in MB. Each of its parts has a bound for it."""
    return resource.getrusage(resource.RUSAGE_CHILDREN).ru_maxrss >> 10


def line_of(text):
    """A line of Git's protocol."""
    return b"%04x" % (len(text) + 4) + text


def number(value, first=7):
    """A number of a pack: its lowest bits first, which may be fewer than 7 in the first byte."""
    data, value = [value & ((1 << first) - 1)], value >> first
    while value:
        data[-1] |= 0x80 if len(data) > 1 or first == 7 else 0
        data.append(value & 0x7F)
        value >>= 7
    return data


def entry(kind, data, base=b""):
    """An object of a pack."""
    size = number(len(data), 4)
    size[0] |= kind << 4 | (0x80 if len(size) > 1 else 0)
    return bytes(size) + base + zlib.compress(data, 9)


def pack(*entries):
    """A pack of these objects."""
    data = b"PACK" + (2).to_bytes(4, "big") + len(entries).to_bytes(4, "big") + b"".join(entries)
    return data + hashlib.sha1(data).digest()


def bomb():
    """A pack of two files, of which the second one is the first one many times over."""
    file = bytes(PART)
    name = hashlib.sha1(b"blob %d\0" % PART + file).digest()
    # A piece of a delta: 8 MiB of the other file, from its beginning.
    delta = bytes(number(PART)) + bytes(number(PART * PARTS)) + b"\xc0\x80" * PARTS
    return pack(entry(BLOB, file), entry(DELTA, delta, name))


class Gate(Workroom):
    """A repository of Git with the hook, and the forced command for the key of bob."""

    def __init__(self, room, checks):
        super().__init__(room, checks)
        for name in ("forced-command", "pre-receive"):
            text = (TOP / "deploy/programs" / name).read_text(encoding="utf-8")
            self.write(f"lib/{name}", placed(text, room, 0), 0o755)
        self.write("bin/custody", STAND_IN.replace("@room", room), 0o755)
        Path(room, "places").mkdir()
        self.write_key(["bob", "ann"], f"{room}/lib/forced-command")
        self.bare = Path(room, "git", f"{FILM}.git")
        self.git("init", "-q", "-b", "main", "--bare", self.bare)
        self.git("-C", self.bare, "config", "receive.fsckObjects", "true")
        (self.bare / "hooks/pre-receive").symlink_to(f"{room}/lib/pre-receive")
        self.commit = self.commit_of({})
        self.git("-C", self.bare, "update-ref", "refs/heads/main", self.commit)

    def git(self, *words, given=None):
        """What a command of Git prints."""
        return self.run("git", *words, given=given)[1]

    def file(self, text):
        """A file with this text."""
        return self.git("-C", self.bare, "hash-object", "-w", "--stdin", given=text).strip()

    def large_file(self, first):
        """A file of the size LARGE by itself, as Git stores those of a small push. It begins with this number."""
        parts = [b"blob %d\0" % LARGE, b"%08d" % first + bytes(PIECE - 8), *[bytes(PIECE)] * (LARGE // PIECE - 1)]
        digest, packer = hashlib.sha1(b"".join(parts)).hexdigest(), zlib.compressobj(1)
        path = self.bare / "objects" / digest[:2] / digest[2:]
        path.parent.mkdir(exist_ok=True)
        path.write_bytes(b"".join([*map(packer.compress, parts), packer.flush()]))
        return digest

    def commit_of(self, files):
        """A commit with these files in a folder, by their names."""
        files = "".join(f"100644 blob {blob}\t{name}\n" for name, blob in files.items())
        folder = self.git("-C", self.bare, "mktree", given=files).strip()
        tree = self.git("-C", self.bare, "mktree", given=f"040000 tree {folder}\tart\n").strip()
        who = ("-c", "user.name=bob", "-c", "user.email=bob@studio")
        return self.git("-C", self.bare, *who, "commit-tree", "-m", "Files", tree).strip()

    def refs(self):
        """Each ref of the repository, with its commit."""
        return self.git("-C", self.bare, "--no-replace-objects", "for-each-ref")

    def start(self, command="git-receive-pack", user="bob"):
        """What receives a push of the user's, or another command of Git."""
        more = {"SSH_ORIGINAL_COMMAND": f"{command} '/{FILM}.git'", "SSH_USER_AUTH": f"{self.room}/user_auth"}
        return subprocess.Popen([f"{self.room}/lib/forced-command", user], stdin=subprocess.PIPE,
                                stdout=subprocess.PIPE, stderr=subprocess.STDOUT, env=self.environment | more)

    def push(self, names, data=pack(), old=NONE, new=None):
        """Pushes refs of these names with a pack: new ones at the commit of main, if no commits are given. Returns what
        was printed, and whether a ref moved."""
        before, lines = self.refs(), [f"{old} {new or self.commit} ".encode() + it for it in names]
        lines[0] += b"\0 report-status"
        with self.start() as child:
            output, _ = child.communicate(b"".join(map(line_of, lines)) + FLUSH + data)
        return output.decode(errors="replace"), self.refs() != before

    def refused(self, what, words, *names, **more):
        """A push is refused whole, in these words and without a list of Python's."""
        text, has_moved = self.push(names, **more)
        self.expect(words in text and "Traceback" not in text and not has_moved, f"{what} is refused: {words}",
                    text[-1000:])


def try_packs(gate):
    """The memory and the time of Git, which unpacks a push before it asks the hook."""
    for command in ("git-receive-pack", "git-upload-pack"):
        with gate.start(command) as child:
            child.stdout.read(4)
            limits = Path("/proc", str(child.pid), "limits").read_text(encoding="utf-8")
            child.communicate(FLUSH)
        found = {line[:26].strip(): line[26:].split()[1] for line in limits.splitlines()}
        found = found["Max data size"], found["Max cpu time"]
        gate.expect(found == (str(2 << 30), "3600"), f"{command} has 2 GiB of memory and an hour of a processor", found)
    data, began = bomb(), time.monotonic()
    gate.refused(f"a pack of {len(data)} bytes with a file of {PART * PARTS >> 20} MiB", "unpacker error",
                 b"refs/heads/bomb", data=data)
    taken, most = time.monotonic() - began, most_memory()
    gate.expect(taken < 10 and most < 100, f"after {taken:.1f} s, with {most} MB (at most 10 s, 100 MB)")


def try_places(gate):
    """How many commands of Git a user may run at a time."""
    for command, most in PLACES.items():
        with contextlib.ExitStack() as held:
            running = [held.enter_context(gate.start(command)) for _ in range(most)]
            begun = [child.stdout.read(4) for child in running]
            with gate.start(command) as child:
                text = child.communicate()[0].decode(errors="replace")
            gate.expect(set(begun) == {begun[0]} and f"bob runs {command} {most} times already" in text,
                        f"bob runs {command} {most} times at a time, and no more", f"{begun}\n{text}")
            running[0].kill()
            running[0].wait()
            for user, what in (("bob", "one more if one was killed"), ("ann", "ann has places of her own")):
                child = held.enter_context(gate.start(command, user))
                running.append(child)
                found = child.stdout.read(4)
                gate.expect(found == begun[0], what, found)
            for child in running[1:]:
                child.communicate(FLUSH)


def try_clone(gate):
    """The memory of Git for a clone of large files."""
    commit = gate.commit_of({f"{it}.psd": gate.large_file(it) for it in range(6)})
    gate.git("-C", gate.bare, "update-ref", "refs/heads/large", commit)
    with gate.start("git-upload-pack") as child:
        output, _ = child.communicate(line_of(f"want {commit}\n".encode()) + FLUSH + line_of(b"done\n"))
    gate.git("-C", gate.bare, "update-ref", "-d", "refs/heads/large")
    most = most_memory()
    gate.expect(b"PACK" in output and most < 100,
                f"six files of {LARGE >> 20} MiB are sent with {most} MB (at most 100)", output[-300:])


def try_refs(gate):
    """Names of refs, and how many."""
    text, has_moved = gate.push([b"refs/heads/side"])
    gate.expect("ok refs/heads/side" in text and has_moved, "a branch is pushed", text)
    for name in (b"refs/heads/a\nb", b"refs/heads/a b", b"refs/heads/\x1b[2J", b"-d", b"HEAD"):
        gate.refused(f"the name {name[:14]!r}", "a name that Git does not take", name)
    gate.refused("a ref by which Git shows another object", "no ref of refs/replace",
                 f"refs/replace/{gate.commit}".encode())
    began = time.monotonic()
    gate.refused(f"a push of {MANY + 1} branches", f"more than {MANY:,} branches and tags",
                 *(b"refs/heads/many/%d" % it for it in range(MANY + 1)))
    taken = time.monotonic() - began
    gate.expect(taken < 10, f"after {taken:.1f} s (at most 10 s)")


def try_hook(gate):
    """The hook by itself: with the limits of a machine that has less, and with a command of Git that is killed."""
    words = ["env", "CUSTODY_USER=bob", f"CUSTODY_REPO={FILM}"]
    line = f"{NONE} {gate.commit} refs/heads/new\n"
    less = ("sh", "-c", "ulimit -d 600000 && ulimit -t 200 && exec \"$0\"", f"{gate.room}/lib/pre-receive")
    status, text = gate.run(*words, *less, folder=gate.bare, given=line, may_fail=True)
    gate.expect((status, text) == (0, ""), "the hook runs where it may have less memory and time", f"{status}: {text}")
    git = gate.run("sh", "-c", "command -v git")[1].strip()
    gate.write("killed/git", KILLED.replace("@git", git), 0o755)
    words += [f"PATH={gate.room}/killed:{gate.environment['PATH']}", f"{gate.room}/lib/pre-receive"]
    status, text = gate.run(*words, folder=gate.bare, given=line, may_fail=True)
    gate.expect(status == 1 and "Git could not read it" in text,
                "if it is not known whether a ref is the name of another one, it is not pushed", f"{status}: {text}")


def try_no_hook(gate):
    """Git passes over a hook that it cannot run."""
    link, program = gate.bare / "hooks/pre-receive", Path(gate.room, "lib/pre-receive")
    says = f"The hook of {FILM} cannot be run"
    program.chmod(0o644)
    gate.refused("a push to a repository whose hook is no program", says, b"refs/heads/unjudged")
    program.chmod(0o755)
    link.unlink()
    link.symlink_to(f"{gate.room}/none/pre-receive")
    gate.refused("a push to one whose hook is a link to nothing", says, b"refs/heads/unjudged")
    link.unlink()
    text, has_moved = gate.push([b"refs/heads/no-hook"])
    gate.expect(has_moved, "a repository may have no hook", text)
    link.symlink_to(program)


def try_late(gate):
    """A lock that is made while the server is asked about a large push, which takes some time."""
    one, other = gate.file("one"), gate.file("other")
    old, new, more, less = (gate.commit_of(dict.fromkeys(names, blob))
                            for names, blob in (("abc", one), ("abc", other), ("abcd", one), ("bc", one)))
    for what, path, before, after, is_in_the_way in (
            ("a file that changes", "art/a", old, new, True), ("a file that is new", "art/d", old, more, True),
            ("a file that is removed", "art/a", old, less, True),
            ("a branch that is removed", "art/a", old, NONE, True),
            ("a file that stays", "art/a", old, more, False), ("a file that is not there", "art/x/y", old, new, False),
            ("a file of a new branch", "art/a", NONE, old, True), ("no file of a new branch", "art/x", NONE, old, False)):
        if before != NONE:
            gate.git("-C", gate.bare, "update-ref", "refs/heads/late", before)
        gate.write("late", f"7 refs/heads/late ann 2026-11-29T00:00:00Z {path}\n8 refs/heads/main ann 2026 art/b\n")
        text, has_moved = gate.push([b"refs/heads/late"], old=before, new=after)
        says = f"{path}: ann has locked it (lock 7)" in text
        gate.expect((says, has_moved) == (is_in_the_way, not is_in_the_way), f"a lock that is made meanwhile on {what} "
                    f"is {'' if is_in_the_way else 'not '}in the way of the push", text[-1000:])
        gate.git("-C", gate.bare, "update-ref", "-d", "refs/heads/late")
        Path(gate.room, "locks").unlink()


def main():
    """Runs the suite."""
    checks = Checks()
    arguments(__doc__).parse_args()
    with tempfile.TemporaryDirectory() as room:
        gate = Gate(room, checks)
        for part in (try_packs, try_places, try_clone, try_refs, try_hook, try_no_hook, try_late):
            checks.part(part.__name__.removeprefix("try_"), lambda: part(gate))
    return checks.end()


if __name__ == "__main__":
    sys.exit(main())
