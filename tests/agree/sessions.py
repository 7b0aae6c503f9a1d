"""Compares what `custody session` replies to random connections with a second reading of docs/PROTOCOL.md.

The reading is in protocol.py. A database is used for several connections, so that later ones find what earlier ones
left. Between some of them `custody retire` removes an object for good. The first connection or command on which the two
differ fails the check.
"""
import re
import sys
import tempfile
import time

from tests.agree.both import RETIREMENTS, Both, comparison, counted, report, until
from tests.agree.connections import Maker
from tests.agree.protocol import Refused, denial


def compare(program, room, make, end):
    """Serves connections until the end. Returns how many agreed, how often each code was sent, and what differed."""
    agreed, seen = 0, {}
    while time.time() < end:
        if agreed % 100 == 0:
            both = Both(program, room, make.rows(), f"{agreed}.db")
        if make.random.random() < RETIREMENTS:
            printed, differed = both.retire(make)
            if differed:
                return agreed, seen, differed
            seen[printed] = seen.get(printed, 0) + 1
        stream = make.connection()
        ran = both.session(stream)
        want, may_refuse = both.reading.serve(stream)
        is_same = ran.stdout == want or may_refuse and ran.stdout == want + denial(Refused("H1"), True)
        if ran.returncode or not is_same:
            program_said = f"the program, with status {ran.returncode}: {ran.stdout!r} {ran.stderr!r}"
            return agreed, seen, f"of {stream!r}\n{program_said}\nthe document: {want!r}"
        for refused, granted in re.findall(rb'"message":"(\w+): |HTTP/1.1 (20[01])', want):
            code = (refused or granted).decode()
            seen[code] = seen.get(code, 0) + 1
        agreed += 1
    return agreed, seen, None


def main():
    """Compares for some time."""
    options = comparison(__doc__).parse_args()
    with tempfile.TemporaryDirectory() as room:
        agreed, seen, differed = compare(options.program, room, Maker(options.seed), until(options))
    return report(options, f"{agreed} connections agreed; replies: {counted(seen)}", differed)


if __name__ == "__main__":
    sys.exit(main())
