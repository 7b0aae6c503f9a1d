"""Compares the fault that `custody session` reports of random policy files with a second reading of docs/POLICY.md.

The reading below is written from that document alone, over Python's own reader of TOML. The first file on which the two
differ fails the check.
"""
import random
import re
import sys
import tempfile
import time
import tomllib
from pathlib import Path

from tests.agree.both import comparison, counted, report, until
from tests.studio.policy import repo, row
from tests.studio.program import Files, run

NAME = r"[a-z0-9_-]{1,40}"
RIGHTS = ["pull", "push", "list", "lock", "force"]
PLAIN_ROW = row("allow", ["a"], ["pull"], repos=["a/"]).lstrip()
# What texts and numbers are bent to; a long text is put into the place of LONG.
TEXTS = [*('"%s"' % it for it in ("LONG", "refs/LONG", "LONG/b", "a/LONG", "", "*", "a b", "A", "é", "a//b", "../a",
                                  "refs/a..b", "a\\\\b")),
         "1", "true", "1.0", "[]", '["a"]', "{}", "1979-05-27", "'a'", '"\\u0041"', '"']
NUMBERS = ["0", "-1", "1.0", "1e3", '"1"', "0x10", "1_000", "9223372036854775807", "9223372036854775808", "+5", "05",
           "inf", "[1]"]
BYTES = [0, 9, 10, 13, 32, 34, 35, 61, 91, 93, 127, 128, 255]


class Faulty(Exception):
    """A file has a fault: its code, and its place."""


def check(holds, fault):
    """Raises the fault unless it holds."""
    if not holds:
        raise Faulty(fault)


def is_ref(text):
    """Whether the text is the name of a ref."""
    is_clean = re.fullmatch(r"refs/[A-Za-z0-9/._-]+", text) and ".." not in text
    return bool(is_clean) and len(text) <= 255 and "" not in text.split("/")


def is_path(text):
    """Whether the text is a path."""
    is_clean = not re.search(r"[\x00-\x1f\x7f\\]", text) and not {"", ".", ".."} & set(text.split("/"))
    return is_clean and 1 <= len(text.encode()) <= 1024


def is_entry(key, text):
    """Whether a list of a row may hold the text."""
    below = text[:-1] if text.endswith("/") else None
    return {
        "users": lambda: text == "*" or re.fullmatch(NAME, text),
        "repos": lambda: text == "*" or re.fullmatch(f"{NAME}/({NAME})?", text),
        "refs": lambda: text in ("*", "refs/") or is_ref(text if below is None else below),
        "paths": lambda: text == "*" or is_path(text if below is None else below),
        "rights": lambda: text in RIGHTS,
    }[key]()


def is_whole(value, least, most):
    """Whether the number is within the bounds."""
    return least <= value <= most


def has_kinds(table, kinds):
    """Whether a table has these keys and no others, each of its kind."""
    if not isinstance(table, dict) or table.keys() != kinds.keys():
        return False
    is_kind = {
        "text": lambda value: type(value) is str,
        "number": lambda value: type(value) is int,
        "texts": lambda value: type(value) is list and all(type(it) is str for it in value),
        "list": lambda value: type(value) is list,
    }
    return all(is_kind[kind](table[key]) for key, kind in kinds.items())


def fits(value):
    """Whether all whole numbers of a file have 64 bits with sign."""
    if isinstance(value, dict):
        return all(map(fits, value.values()))
    if isinstance(value, list):
        return all(map(fits, value))
    return type(value) is not int or -(2**63) <= value < 2**63


def read(source):
    """Reads a policy file; its first fault is raised."""
    check(len(source) <= 1048576, "Y5")
    try:
        file = tomllib.loads(source.decode())
    except (ValueError, RecursionError):
        raise Faulty("Y1") from None
    check(fits(file), "Y1")
    file = {"repo": [], "row": [], **file}
    kinds = {"base": "text", "token_seconds": "number", "repo": "list", "row": "list"}
    check(has_kinds(file, kinds), "Y2 at top")
    base = file["base"]
    is_base = re.fullmatch(r"https?://[A-Za-z0-9.:_/-]+", base) and not base.endswith("/")
    check(is_base and 8 <= len(base) <= 200, "Y3 at top")
    check(is_whole(file["token_seconds"], 1, 86400), "Y3 at top")
    check(len(file["repo"]) <= 256 and len(file["row"]) <= 1000, "Y5 at top")
    names = set()
    for number, repo in enumerate(file["repo"], 1):
        check(has_kinds(repo, {"name": "text", "default_ref": "text", "quota": "number"}), f"Y2 at repo {number}")
        is_good = re.fullmatch(f"{NAME}/{NAME}", repo["name"]) and is_ref(repo["default_ref"])
        check(is_good and is_whole(repo["quota"], 0, 1099511627776), f"Y3 at repo {number}")
        check(repo["name"] not in names, f"Y4 at repo {number}")
        names.add(repo["name"])
    lists = ("users", "repos", "refs", "paths", "rights")
    for number, row in enumerate(file["row"], 1):
        check(has_kinds(row, {"effect": "text", **{key: "texts" for key in lists}}), f"Y2 at row {number}")
        is_good = all(1 <= len(row[key]) <= 64 and all(is_entry(key, it) for it in row[key]) for key in lists)
        check(is_good and row["effect"] in ("allow", "deny"), f"Y3 at row {number}")


class Maker:
    """Makes random policy files: most of their parts good, some bent."""

    def __init__(self, seed):
        self.random = random.Random(seed)

    def one(self, usual, *others):
        """The usual one, or in some cases one of the others."""
        return usual if self.random.random() < 0.97 else self.random.choice(others)

    def text(self, *texts):
        """One of the texts as TOML has it, or another kind of value."""
        text = self.random.choice(texts)
        long = "a" * self.random.choice([40, 41, 250, 251, 1024, 1025])
        return self.one(f'"{text}"', *(it.replace("LONG", long) for it in TEXTS))

    def number(self, *numbers):
        """One of the numbers, or another value."""
        return self.one(str(self.random.choice(numbers)), *NUMBERS)

    def texts(self, *texts):
        """A list of some of the texts, or another value."""
        count = self.one(self.random.choice([1, 2, 3]), 0, 64, 65)
        items = [self.text(*texts) for _ in range(count)]
        return self.one("[" + ", ".join(items) + "]", *items, "[[]]", "[1]", "1", '["a",]', "[\n]")

    def table(self, pairs):
        """Its lines: a key may be missing, stand twice, or be another."""
        lines = [f"{key} = {value}" for key, value in pairs for _ in range(self.one(1, 0, 2))]
        lines += [self.random.choice(["colour = 1", "# a comment", "quota = 1", '"" = 1', "a.b = 1"])] * self.one(0, 1)
        self.random.shuffle(lines)
        return "\n".join(lines) + "\n"

    def repo(self):
        """A repository."""
        head = self.one("[[repo]]\n", "[repo]\n", "[[repos]]\n", "[[repo.a]]\n")
        names = ("studio/film", "a/b", "studio/score", "x/y", "z_-/0")
        refs = ("refs/heads/main", "refs/a", "refs/a.b/C-9_")
        name, ref = self.text(*names), self.text(*refs)
        quota = self.number(0, 5, 1099511627776, 1099511627777)
        return head + self.table([("name", name), ("default_ref", ref), ("quota", quota)])

    def row(self):
        """A row."""
        entries = [
            ("effect", self.text("allow", "deny")),
            ("users", self.texts("*", "ann", "bob", "a" * 40)),
            ("repos", self.texts("*", "studio/", "studio/film")),
            ("refs", self.texts("*", "refs/", "refs/heads/", "refs/heads/main", "refs/" + "a" * 250)),
            ("paths", self.texts("*", "art/", "art/hero.psd", "é/ü", "a b", "a" * 1024)),
            ("rights", self.texts(*RIGHTS)),
        ]
        return self.one("[[row]]\n", "[row]\n", "[[rows]]\n") + self.table(entries)

    def file(self):
        """A file."""
        bases = ("https://lfs.example", "http://a", "https://a:1/b", "http://" + "a" * 193, "http://" + "a" * 194)
        top = self.table([("base", self.text(*bases)), ("token_seconds", self.number(1, 3600, 86400, 86401))])
        more = self.one("", "repo = []\n", "row = []\n", "repo = [1]\n", "row = [{}]\n", "row = 1\n")
        tables = [self.repo() for _ in range(self.random.choice([0, 1, 1, 2, 3]))]
        tables += [self.row() for _ in range(self.random.choice([0, 1, 1, 2, 4]))]
        if self.random.random() < 0.02:
            tables += [PLAIN_ROW] * self.random.choice([996, 1000, 1001])
        if self.random.random() < 0.02:
            tables += [repo(f"q/{at}", 1, "refs/a").lstrip() for at in range(self.random.choice([250, 256, 257]))]
        self.random.shuffle(tables)
        return self.bent((top + more + "\n".join(tables)).encode())

    def bent(self, source):
        """The file, in some cases with one byte changed or put in, or filled up to a length."""
        if self.random.random() < 0.02:
            return source + b"#" * (self.random.choice([1048576, 1048577]) - len(source))
        if self.random.random() < 0.9:
            return source
        at = self.random.randrange(len(source) + 1)
        byte = bytes([self.random.choice([*BYTES, self.random.randrange(256)])])
        return self.random.choice([source[:at] + byte + source[at + 1 :], source[:at] + byte + source[at:]])


def reported_by(files, source):
    """The fault that the program reports of the file; nothing if it reports none."""
    Path(files.room, "policy.toml").write_bytes(source)
    status, output, reported = run(files.session_words())
    if output or status != (1 if reported else 0):
        return f"status {status}, {output!r}, {reported!r}"
    return reported.removeprefix("custody: policy ").removesuffix("\n")


def wanted_of(source):
    """The fault that the file has by the document."""
    try:
        read(source)
    except Faulty as fault:
        return str(fault)
    return ""


def compare(files, make, end):
    """Compares files until the end. Returns how many agreed, how often each fault was found, and what differed."""
    agreed, seen = 0, {}
    while time.time() < end:
        source = make.file()
        reported, wanted = reported_by(files, source), wanted_of(source)
        if reported != wanted:
            return agreed, seen, f"of {source!r}\nthe program: {reported!r}\nthe document: {wanted!r}"
        kind = re.sub(r" \d+$", "", wanted) or "none"
        seen[kind] = seen.get(kind, 0) + 1
        agreed += 1
    return agreed, seen, None


def main():
    """Compares for some time."""
    options = comparison(__doc__).parse_args()
    with tempfile.TemporaryDirectory() as room:
        agreed, seen, differed = compare(Files(options.program, room), Maker(options.seed), until(options))
    return report(options, f"{agreed} files agreed; faults: {counted(seen)}", differed)


if __name__ == "__main__":
    sys.exit(main())
