"""The program and the second reading of docs/PROTOCOL.md, with the same policy and tokens."""
import random
import subprocess
import time

from tests.agree.protocol import Server
from tests.studio.checks import Checks, arguments
from tests.studio.policy import BASE, FILM, MAIN, policy, repo, row
from tests.studio.program import NOW, Files

REPOS = {FILM: {"ref": MAIN, "quota": 1_000_000}, "a/b": {"ref": "refs/x", "quota": 0}}
# How many seconds a token is valid.
VALID = 3600
# Each token's letter: user, repository, operation, when it was issued.
TOKENS = {
    "a": ("ann", FILM, "upload", NOW),
    "b": ("bob", FILM, "upload", NOW),
    "c": ("ann", FILM, "download", NOW),
    "d": ("ann", "a/b", "upload", NOW),
    "e": ("bob", "a/b", "upload", NOW - VALID),
    "f": ("bob", FILM, "upload", NOW - VALID + 1),
}
# How many objects are retired for each connection: so few that most stay for the next ones.
RETIREMENTS = 0.03


def tokens():
    """The tokens, as the second reading takes them."""
    return {it * 64: (user, place, operation, at + VALID) for it, (user, place, operation, at) in TOKENS.items()}


def policy_text(rows):
    """The policy with the rows, each with its effect, users, repositories, refs, paths and rights."""
    tables = [repo(name, it["quota"], it["ref"]) for name, it in REPOS.items()]
    tables += [row(effect, users, rights, repos, refs, paths) for effect, users, repos, refs, paths, rights in rows]
    return policy(tables, BASE, VALID, repos=())


class Both:
    """A new database with the tokens and the rows, and the second reading with the same."""

    def __init__(self, program, room, rows, name="db", reading=Server):
        self.files = Files(program, room, policy_text(rows), name)
        for letter, (user, place, operation, moment) in TOKENS.items():
            self.files.issue(letter, "--now", str(moment), user=user, repo=place, operation=operation)
        self.reading = reading(BASE, REPOS, rows, tokens(), NOW)

    def session(self, stream):
        """A session of the program, as a process that has ended."""
        return subprocess.run(self.files.session_words(), input=stream, capture_output=True, check=False)

    def retire(self, make):
        """Retires an object, in both. Returns what was printed without the name, and what differed or None."""
        place, name = make.retirement(self.reading)
        status, output, errors = self.files.over_files("retire", "--repo", place, name)
        came, want = (output, errors, status), self.reading.retire(place, name)
        differed = f"of {place} and {name} to retire\nthe program: {came}\nthe reading: {want}"
        return (want[0] or want[1]).replace(name, "").strip(), None if came == want else differed


def comparison(says, amount="seconds", usual=60.0):
    """The options of a comparison: how much is compared, and the seed."""
    parser = arguments(says)
    parser.add_argument(f"--{amount}", type=type(usual), default=usual, help=f"how many {amount} [default: {usual:g}]")
    parser.add_argument("--seed", type=int, default=random.randrange(2**32), help="for the same input again")
    return parser


def until(options):
    """The moment at which the comparison is to end."""
    return time.time() + options.seconds


def report(options, text, difference=None):
    """Prints the comparison as one check. Returns the status of the suite."""
    checks = Checks()
    checks.expect(not difference, f"seed {options.seed}: {text}", f"and then they differ, {difference}")
    return checks.end()


def counted(seen):
    """The counts with their names."""
    return ", ".join(f"{name} {count}" for name, count in sorted(seen.items()))
