"""Each allocation of a work that is refused leaves what there was before, or what there is after it.

The works are those of crates/cases/data/refusals.cases: a message, or a call of a crate, over a database of each form. A
library that is loaded before the C library refuses one allocation of a work, in one run of the program `cases` for each of
them. The program compares what the store has then, and has after a restart (docs/developing/cases.md).
"""
import collections
import concurrent.futures
import os
import re
import shutil
import subprocess
import sys
import tempfile
from pathlib import Path

from tests.studio.checks import Checks, arguments, require, stop
from tests.studio.program import TOP

DATA = TOP / "crates/cases/data"
MARKS = TOP / "crates/cases/src/files.rt"
# What a run may print. All else is a failure: a difference, or a program that ended in another way.
OUTCOMES = {
    "done": (0, r"\w+: 1 cases, 0 differ\n"),
    "refused": (1, r"[^\n]*: it was refused, and nothing is lost\n\w+: 1 cases, 1 differ\n"),
}
# The forms of a database.
FORMS = ["rows", "file"]
SECONDS = 60
# At least this many allocations of a work are refused, if it has as many.
LEAST = 10


def library(room):
    """The library that refuses, compiled in the folder."""
    mark = re.search(r"const MARK: usize = ([0-9_]+);", MARKS.read_text(encoding="utf-8"))
    require(mark, f"{MARKS} has no MARK")
    path = Path(room, "refuse.so")
    source = Path(__file__).with_name("refuse.c")
    subprocess.run(["cc", "-O1", "-shared", "-fPIC", f"-DMARK={mark[1].replace('_', '')}", "-o", path, source], check=True)
    return path


def works(room):
    """The titles of the works, each with the forms of its databases, and a script of that work alone."""
    front, *cases = re.split(r"(?m)^case ", (DATA / "refusals.cases").read_text(encoding="utf-8"))
    for number, case in enumerate(cases):
        path = Path(room, f"{number}.cases")
        path.write_text(f"{front}case {case}", encoding="utf-8")
        yield case.splitlines()[0], re.findall(r"(?m)^only (\w+)$", case) or FORMS, path


class Runs:
    """Runs of the program on a work."""

    def __init__(self, program, refusing, form, script):
        self.words = [program, form, DATA / "studio.cases", script]
        self.script, self.environment = script, {**os.environ, "LD_PRELOAD": str(refusing)}

    def run(self, number):
        """Refuses the allocation of this number. Returns the outcome, or what was printed, and how many there were."""
        counted = Path(f"{self.script}.{number}")
        added = {"REFUSED": str(number), "COUNTED": str(counted)}
        ran = subprocess.run(self.words, env={**self.environment, **added}, capture_output=True, text=True,
                             errors="replace", timeout=SECONDS, check=False)
        count = int(counted.read_text(encoding="ascii")) if counted.exists() else 0
        counted.unlink(missing_ok=True)
        for outcome, (status, pattern) in OUTCOMES.items():
            if ran.returncode == status and re.fullmatch(pattern, ran.stdout) and not ran.stderr:
                return outcome, count
        return f"allocation {number}: status {ran.returncode}: {ran.stdout}{ran.stderr}".strip(), count


def judge(runs, every):
    """Refuses each allocation of the work, or one in `every`, but ten at least. Returns whether each had an outcome, and a
    text."""
    outcome, count = runs.run(0)
    if outcome != "done" or not count:
        return False, f"without a refusal: {outcome}, {count} allocations"
    step = max(min(every, count // LEAST), 1)
    with concurrent.futures.ThreadPoolExecutor(os.cpu_count()) as threads:
        found = collections.Counter(it for it, _ in threads.map(runs.run, range(1, count + 1, step)))
    others = [it for it in found if it not in OUTCOMES]
    text = ", ".join(f"{found[it]} {it}" for it in OUTCOMES)
    return found["refused"] > 0 and not others, "\n".join([f"{count} allocations: {text}", *others[:3]])


def main():
    """Tries each work."""
    parser = arguments(__doc__)
    parser.add_argument("--cases", default=str(TOP / "crates/cases/out/cases"), type=os.path.abspath,
                        help="the program of the crate cases [default: crates/cases/out/cases]")
    parser.add_argument("--every", default=1, type=int, metavar="N", help="one allocation in N, and at least ten of each work")
    options = parser.parse_args()
    if not os.access(options.cases, os.X_OK):
        stop("the program of crates/cases is not built: `cd crates/cases && rt run` builds it")
    if not shutil.which("cc"):
        stop("there is no C compiler: the command cc")
    checks = Checks()
    with tempfile.TemporaryDirectory() as room:
        refusing = library(room)
        for title, forms, script in works(room):
            for form in forms:
                is_met, text = judge(Runs(options.cases, refusing, form, script), options.every)
                first, _, rest = text.partition("\n")
                checks.expect(is_met, f"{title}, {form}: {first}", rest)
    return checks.end()


if __name__ == "__main__":
    sys.exit(main())
