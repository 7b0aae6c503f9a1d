"""Compares the replies that `custody foresee` prints for random messages with a second reading of docs/PROTOCOL.md.

The reading is in protocol.py, the messages and policies are those of the suite `sessions`. Between the messages,
connections change what is stored, and `custody retire` removes objects for good. The first message on which the two
differ fails the check.
"""
import sys
import tempfile

from tests.agree.both import NOW, RETIREMENTS, Both, comparison, counted, report
from tests.agree.connections import Maker

USERS = ["ann", "ann", "bob", "eve"]
PLACES = ["studio/film", "studio/film", "studio/film", "studio/film", "a/b", "no/where"]


def foresee(both, make):
    """A message and whose it is, what the program prints, and what the document says."""
    stream = make.message()
    if make.random.random() < 0.1:
        stream = make.bent(stream)
    user, place = make.random.choice(USERS), make.random.choice(PLACES)
    words = ["--now", str(NOW), "--user", user, "--repo", place]
    came = both.files.over_files("foresee", *words, given=stream, with_policy=True)
    lines, fault = both.reading.foresee(stream, user, place)
    return (stream, user, place), came, (0, lines, "") if lines else (1, "", fault + "\n")


def compare(program, room, make, messages):
    """Foresees the replies to the messages. Returns how many agreed, how often each was printed, and what differed."""
    seen = {}
    for number in range(messages):
        if number % 200 == 0:
            both = Both(program, room, make.rows(), f"{number}.db")
        if number % 4 == 0:
            # What a connection is answered is compared by the suite `sessions`.
            stream = make.connection()
            both.session(stream)
            both.reading.serve(stream)
        if make.random.random() < RETIREMENTS:
            printed, differed = both.retire(make)
            if differed:
                return number, seen, differed
            seen[printed] = seen.get(printed, 0) + 1
        asked, came, want = foresee(both, make)
        if came != want:
            return number, seen, f"of {asked!r}\nthe program: {came!r}\nthe document: {want!r}"
        first = (want[1] or want[2]).partition("\n")[0]
        seen[first] = seen.get(first, 0) + 1
    return messages, seen, None


def main():
    """Compares a number of messages."""
    options = comparison(__doc__, "messages", 1000).parse_args()
    with tempfile.TemporaryDirectory() as room:
        agreed, seen, differed = compare(options.program, room, Maker(options.seed), options.messages)
    return report(options, f"{agreed} messages agreed: {counted(seen)}", differed)


if __name__ == "__main__":
    sys.exit(main())
