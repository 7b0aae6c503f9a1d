"""How a check fails, and how checks are counted and printed; the arguments that each suite has."""
import argparse
import contextlib
import os
import subprocess
import sys
import tempfile
import threading
import time

from tests.studio.program import FORMS, TOP


class Failed(Exception):
    """A check failed; the text says why."""


def require(is_met, text):
    """Fails the check with the text unless the condition is met."""
    if not is_met:
        raise Failed(text)


def within(seconds, bound, what):
    """Fails the check if it took longer than the bound, in seconds. Returns a text with both."""
    text = f"{what} took {seconds:.2f} s (at most {bound} s)"
    require(seconds <= bound, text)
    return text


def comes_true(holds, seconds=20, pause=0.1):
    """Whether the condition comes to hold in this many seconds."""
    end = time.monotonic() + seconds
    while not holds():
        if time.monotonic() > end:
            return False
        time.sleep(pause)
    return True


class Checks:
    """Counts checks, and prints a line for each."""

    def __init__(self):
        self.passed = self.failed = 0

    def expect(self, is_met, what, text=""):
        """One check. If it failed, the text, or what else was found, is printed below its line. Returns whether it
        passed."""
        self.passed, self.failed = self.passed + bool(is_met), self.failed + (not is_met)
        print(f"{'ok  ' if is_met else 'FAIL'} {what}", flush=True)
        if not is_met and str(text):
            print("     " + str(text).strip().replace("\n", "\n     "), flush=True)
        return bool(is_met)

    def judge(self, name, act):
        """One check that is a call: it returns what it measured, or raises Failed."""
        try:
            return self.expect(True, f"{name}: {act()}")
        except (Failed, OSError, subprocess.SubprocessError) as fault:
            return self.expect(False, f"{name}: {fault}")

    def part(self, name, act):
        """Calls what makes checks of its own. If it cannot go on, that is one more check, which failed."""
        try:
            act()
        except (Failed, OSError, subprocess.SubprocessError) as fault:
            self.expect(False, f"{name} ends: {fault}")

    def end(self):
        """Prints how many checks passed. Returns the status of the suite."""
        print(f"{self.passed} passed, {self.failed} failed", flush=True)
        return 1 if self.failed or not self.passed else 0


def judge_each(names, options, act):
    """Judges `act` of each of the names, or of those that the options name. Returns the status of the suite."""
    checks = Checks()
    for name in options.only or names:
        checks.judge(name, lambda: act(name))
    return checks.end()


def measured_on(check, options, server):
    """What the check measured on the server, which runs at its end."""
    with server:
        result = check(server, options)
        require(server.child.poll() is None, "the server has ended")
        return result


def judge_on_server(checks, options, start):
    """Judges each of the checks on a server that is started for it in a folder. Returns the status of the suite."""

    def act(name):
        """What the check measured."""
        with tempfile.TemporaryDirectory() as room:
            return measured_on(checks[name], options, start(options.program, room))

    return judge_each(checks, options, act)


def judge_forms(names, options, act, of_a_file=()):
    """Judges `act` of each of the names with each form of a database, or of those that the options name; of some with a
    file alone. Returns the status of the suite."""
    checks = Checks()
    for name in options.only or names:
        for form in options.form or FORMS:
            if form == "file" or name not in of_a_file:
                checks.judge(f"{name}, {form}", lambda: act(name, form))
    return checks.end()


def judge_on_forms(checks, options, start, of_a_file=()):
    """Judges each of the checks on servers with a database of each form, and some with a file alone. `start` takes the
    form too."""

    def act(name, form):
        """What the check measured."""
        with tempfile.TemporaryDirectory() as room:
            return measured_on(checks[name], options, start(options.program, room, form))

    return judge_forms(checks, options, act, of_a_file)


@contextlib.contextmanager
def beside(*acts):
    """Calls the acts beside the block, each in a thread and with an event, which is set when the block has ended."""
    is_over = threading.Event()
    threads = [threading.Thread(target=act, args=(is_over,)) for act in acts]
    for thread in threads:
        thread.start()
    try:
        yield threads
    finally:
        is_over.set()
        for thread in threads:
            thread.join()


def arguments(says, names=None, forms=False):
    """A parser with the arguments that each suite has. `names` are those of its checks, if each can be tried alone, and
    `forms` says whether it tries both forms of a database."""
    parser = argparse.ArgumentParser(description=says.strip().splitlines()[0])
    parser.add_argument("--program", default=str(TOP / "bin/custody"), type=os.path.abspath,
                        help="the program [default: bin/custody]")
    if forms:
        parser.add_argument("--form", action="append", choices=FORMS,
                            help=f"only databases of this form: {', '.join(FORMS)}")
    if names:
        parser.add_argument("--only", action="append", choices=list(names), metavar="CHECK",
                            help=f"only this check: {', '.join(names)}")
    return parser


def stop(text):
    """Ends the suite with status 2: something that it needs is missing."""
    print(f"{sys.argv[0].rpartition('/')[2]}: {text}", file=sys.stderr)
    sys.exit(2)
