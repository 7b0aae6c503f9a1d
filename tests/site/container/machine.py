"""The machine: its commands, its server, and the checks that are counted."""
import os
import pwd
import re
import stat
import subprocess
from pathlib import Path

from tests.studio.checks import Checks, comes_true, require
from tests.studio.control import issue_words, token_of
from tests.studio.program import listening

HOME = Path("/var/lib/custody")
CONTROL, PORT = "/run/custody/control", 8080
EXAMPLES = Path("/usr/share/doc/custody/examples")
UNIT = Path("/lib/systemd/system/custody.service")
AS_SERVER = ("setpriv", "--reuid", "custody", "--regid", "custody", "--clear-groups")
# How much is shown of what a failed check found.
SHOWN = 1500
CHECKS = Checks()


def check(is_met, what, found=""):
    """One check, and what it found if that is not what it has to be. Returns whether it passed."""
    return CHECKS.expect(is_met, what, str(found).strip()[:SHOWN])


def measured(text):
    """Prints what was measured."""
    print(f"     {text}", flush=True)


def run(*words, given=None, user=None):
    """Runs a command, as the user. Returns its status and what it printed."""
    words = ["runuser", "-u", user, "--", *words] if user else list(words)
    ran = subprocess.run([str(it) for it in words], input=given, stdout=subprocess.PIPE, stderr=subprocess.STDOUT,
                         text=True, errors="replace", timeout=120, check=False)
    return ran.returncode, ran.stdout


def must(*words, **more):
    """Runs a command that has to succeed. Returns what it printed."""
    status, text = run(*words, **more)
    require(status == 0, f"{' '.join(map(str, words))} ended with {status}\n{text}")
    return text


def mode_of(path):
    """Owner and mode of a file, as `custody 0600`."""
    found = os.lstat(path)
    return f"{pwd.getpwuid(found.st_uid).pw_name} {stat.S_IMODE(found.st_mode):04o}"


def write(path, text):
    """Writes a file, and the folders above it."""
    path = Path(path)
    path.parent.mkdir(parents=True, exist_ok=True)
    path.write_text(text)
    path.chmod(0o644)


def serving():
    """The address is bound before the database is open, and the control socket is made after it."""
    return (listening(PORT) and os.path.exists(CONTROL)
            and run("systemctl", "is-active", "custody")[1].strip() == "active")


def start():
    """Starts the server. Whether it serves."""
    run("systemctl", "reset-failed", "custody")
    run("systemctl", "start", "custody")
    return comes_true(serving)


def start_at_once():
    """Starts the server. Whether it serves, and systemd did not have to start it again."""
    return start() and must("systemctl", "show", "-P", "NRestarts", "custody").strip() == "0"


def journal():
    """The last lines of the server."""
    return run("journalctl", "-u", "custody", "--no-pager", "-n", "8", "-o", "cat")[1]


def stop():
    """Stops the server."""
    run("systemctl", "stop", "custody")


def process():
    """The number of the server's process."""
    return int(must("systemctl", "show", "-P", "MainPID", "custody"))


def database():
    """The database that the unit names."""
    return Path(re.search(r"--db (\S+)", UNIT.read_text())[1])


def run_as_server(*words, **more):
    """Runs a command as the server's user, with the server's view of the files."""
    return run("nsenter", "-t", process(), "-m", "--", *AS_SERVER, *words, **more)


def via(name, *words, **more):
    """Runs a command of the program by the control socket. Returns its status and what it printed."""
    return run("custody", name, "--via", CONTROL, *words, **more)


def token(user="ann"):
    """A new token of the user."""
    status, text = via(*issue_words(user))
    require(status == 0, f"no token was issued: {text}")
    return token_of(text)
