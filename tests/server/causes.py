"""Tries the causes that `custody` names of failures which need another user, a mount, a second process or a terminal.

Each case is a command that fails, run by root or by the user nobody, who has to be able to run the program. It is run
with --explain, on a terminal, and with neither. Its status is 1, its output is empty, and its error stream has the line
of the fault, and after it the line about the cause, which the last of the three does not print (docs/COMMANDS.md, Why a
command failed).
"""
import contextlib
import os
import re
import shutil
import signal
import socket
import subprocess
import sys
import tempfile
import threading
from dataclasses import dataclass
from pathlib import Path

from tests.studio.checks import arguments, judge_each, require, stop
from tests.studio.control import ControlledServer
from tests.studio.policy import open_policy
from tests.studio.program import run as run_in_pipes
from tests.studio.terminal import run_on_terminal

LONGEST = 20
# After how many seconds the server closes a connection that answers nothing.
SILENCE = 2
USERS = {"root": [], "nobody": ["setpriv", "--reuid=nobody", "--regid=nogroup", "--clear-groups"]}
# What `serve` prints at its start, except with neither.
START = re.compile(r"\Apolicy ok: 1 repositories, 1 rows\n(reading own/db \(\d+ KB\)\n)?")
# By how a command is run: its further words, and whether its error stream is a terminal.
MANNERS = {"with --explain": (["--explain"], False), "on a terminal": ([], True), "with neither": ([], False)}
LOCKS = "locks --repo studio/film --db"
FILES = "--db own/db --policy policy.toml"
MAY_NOT_CREATE = "this user may not create files in its folder, where the log is: run the command as its owner"
MAY_NOT_READ = "this user may not read it: give it a mode or an owner that lets the user read"
NOT_CREATED = "this user may not create files in its folder, or the path with .new added exists: remove that"
MAY_NOT_USE = "this user may not use it: run the command as the user of the server, or as root"
IN_USE = "another program has it open: if that is the server, ask it with --via SOCKET, else end that program"
UNANSWERED = "the server closed the connection or did not answer in time: see what it printed"
READ_ONLY = "the file system is read-only: use another one, or see dmesg for the cause"


@dataclass
class Case:
    """A command in the folder that `scene` makes, and what it prints after `custody: `, and about the cause."""

    user: str
    words: str
    fault: str
    cause: str


CASES = {
    "read-only": Case("root", f"{LOCKS} fixed/db", "store G2", f"fixed/db: {READ_ONLY}"),
    "read-only-new": Case("root", f"{LOCKS} fixed/new", "store G2", f"fixed/new: {READ_ONLY}"),
    "folder": Case("nobody", f"{LOCKS} closed/db", "store G2", f"closed/db: {MAY_NOT_CREATE}"),
    "folder-new": Case("nobody", f"{LOCKS} closed/new", "store G2", f"closed/new: {MAY_NOT_CREATE}"),
    "mode-database": Case("nobody", f"{LOCKS} own/sealed", "store G2",
                          "own/sealed: this user may not read and write the file: run the command as its owner"),
    "mode-policy": Case("nobody", "policy --policy own/sealed", "policy not read", f"own/sealed: {MAY_NOT_READ}"),
    "mode-random": Case("nobody", f"authenticate {FILES} --user ann --random own/sealed studio/film upload",
                        "random bytes not read", f"own/sealed: {MAY_NOT_READ}"),
    "port": Case("nobody", f"serve {FILES} --listen 127.0.0.1:80", "network",
                 "127.0.0.1:80: this user may not use the port: use one from 1024 on"),
    "control-folder": Case("nobody", f"serve {FILES} --listen 127.0.0.1:0 --control control", "control socket",
                           f"control: {NOT_CREATED}"),
    "other-user": Case("nobody", "status --via served/control", "control socket", f"served/control: {MAY_NOT_USE}"),
    "killed": Case("root", "status --via killed/control", "control socket",
                   "killed/control: the server does not run: start it"),
    "in-use": Case("root", f"{LOCKS} served/custody.db", "store G2", f"served/custody.db: {IN_USE}"),
    "silent": Case("root", "status --via silent", "control socket", f"silent: {UNANSWERED}"),
}


@contextlib.contextmanager
def read_only_disk(folder, file):
    """A file system in memory that has the file, and is read-only."""
    os.mkdir(folder)
    subprocess.run(["mount", "-t", "tmpfs", "tmpfs", folder], check=True)
    try:
        shutil.copy(file, f"{folder}/db")
        subprocess.run(["mount", "-o", "remount,ro", folder], check=True)
        yield
    finally:
        subprocess.run(["umount", folder], check=True)


@contextlib.contextmanager
def silent_socket(path):
    """A socket whose server accepts each connection, and closes it SILENCE seconds later."""
    def accept():
        """Accepts connections until the socket is closed."""
        with contextlib.suppress(OSError):
            while True:
                threading.Timer(SILENCE, listener.accept()[0].close).start()

    with socket.socket(socket.AF_UNIX) as listener:
        listener.bind(path)
        listener.listen()
        thread = threading.Thread(target=accept)
        thread.start()
        try:
            yield
        finally:
            listener.shutdown(socket.SHUT_RDWR)
            thread.join()


def make_files(room):
    """A policy, a folder of nobody's with a file that nobody may read, and one of root's with nobody's database."""
    os.chmod(room, 0o755)
    Path(room, "policy.toml").write_text(open_policy(), encoding="utf-8")
    for name in ("own", "closed", "served", "killed"):
        os.mkdir(f"{room}/{name}")
    for name in ("own/db", "own/sealed", "closed/db"):
        Path(room, name).touch(0o600)
    for name in ("own", "own/db", "own/sealed", "closed/db"):
        shutil.chown(f"{room}/{name}", "nobody")
    os.chmod(f"{room}/own/sealed", 0)


@contextlib.contextmanager
def scene(program):
    """The folder in which the cases are run."""
    with contextlib.ExitStack() as stack:
        room = stack.enter_context(tempfile.TemporaryDirectory())
        make_files(room)
        names = ("killed", "served")
        killed, _ = [stack.enter_context(ControlledServer(program, f"{room}/{name}")) for name in names]
        killed.end(signal.SIGKILL)
        stack.enter_context(read_only_disk(f"{room}/fixed", f"{room}/killed/custody.db"))
        stack.enter_context(silent_socket(f"{room}/silent"))
        yield room


def run(words, room, has_terminal):
    """Runs the words. Returns the status, the output and the error stream."""
    if not has_terminal:
        return run_in_pipes(words, cwd=room, timeout=LONGEST)
    status, errors, output = run_on_terminal(words, "stderr", room, LONGEST)
    return status, output, errors


def check(case, room, program):
    """Runs the command in each manner. Returns what it says of the cause."""
    for manner, (more, has_terminal) in MANNERS.items():
        is_explained = bool(more) or has_terminal
        status, output, errors = run([*USERS[case.user], program, *case.words.split(), *more], room, has_terminal)
        came = (status, output, START.sub("", errors) if is_explained else errors)
        want = (1, "", f"custody: {case.fault}\n" + (f"{case.cause}\n" if is_explained else ""))
        require(came == want, f"{manner}, the command {case.words} gave {came}, and not {want}")
    return f"{case.user}: {case.fault}; {case.cause}"


def main():
    """Runs the cases."""
    options = arguments(__doc__, CASES).parse_args()
    if subprocess.run([*USERS["nobody"], options.program, "-V"], cwd="/", capture_output=True).returncode != 0:
        stop(f"the user nobody cannot run {options.program}: copy it to another folder, and name it after --program")
    with scene(options.program) as room:
        return judge_each(CASES, options, lambda name: check(CASES[name], room, options.program))


if __name__ == "__main__":
    sys.exit(main())
