"""The package and its unit: what is installed, how the server starts, and what it may do."""
import glob
import re
import shutil
import subprocess
import sys
from pathlib import Path

from tests.site.container.machine import (AS_SERVER, CONTROL, HOME, PORT, UNIT, check, database, journal, mode_of,
                                          must, process, run, run_as_server, serving, start, start_at_once, stop, via,
                                          write)
from tests.studio.checks import comes_true
from tests.studio.policy import WORK, policy, row
from tests.studio.program import listening

POLICY = policy([row("allow", ["ann", "bob"], WORK)], seconds=3600, quota=50_000_000_000)


def listing(mask):
    """The modes, owners and names of what is in the package that was made with this umask."""
    found = glob.glob(f"/try/{mask}/*.deb")
    if not found:
        return [Path(f"/try/{mask}/log").read_text().strip()]
    lines = must("dpkg-deb", "--contents", found[0]).splitlines()
    return [(it.split()[0], it.split()[1], it.split()[-1]) for it in lines]


def try_package():
    """Modes and owners in the package, and its installation."""
    plain = listing("022")
    for mask in ("007", "077"):
        check(listing(mask) == plain, f"deploy/package.sh makes the same package with the umask {mask}",
              "\n".join(map(str, [it for it in listing(mask) if it not in plain])))
    status, text = run("dpkg", "-i", glob.glob("/try/022/*.deb")[0])
    check(status == 0, "the package installs", text)
    write("/etc/custody/policy.toml", POLICY)


def try_unit():
    """First start, restart, stop, and a start without the log."""
    check(start_at_once(), "the unit's first start, with no database", journal())
    if not serving():
        sys.exit("the server does not start")
    before = process()
    run("systemctl", "restart", "custody")
    check(comes_true(serving) and process() != before, "the unit restarts")
    stop()
    check(run("systemctl", "is-failed", "custody")[0] != 0 and not listening(PORT), "and stops, without a failure")
    log = Path(f"{database()}-wal")
    log.unlink(missing_ok=True)
    check(start_at_once() and log.exists(), "it starts from a database that was restored without its log", journal())
    status, text = via("check")
    check(status == 0, f"and its objects are whole: {text.strip()}", text)


def try_earlier():
    """A database where earlier packages had it is moved, with its log, by the installation."""
    stop()
    files = [database(), Path(f"{database()}-wal")]
    before = [it.read_bytes() for it in files]
    for file in files:
        file.rename(HOME / file.name)
    must("dpkg", "-i", glob.glob("/try/022/*.deb")[0])
    after = [it.read_bytes() if it.exists() else b"" for it in files]
    started = start()
    check(after == before and started and database().parent != HOME,
          "the package moves the database of an earlier one, and its log", [str(it) for it in HOME.rglob("*")])


def try_confinement():
    """What the unit withholds from the server."""
    number = process()
    limits = Path(f"/proc/{number}/limits").read_text()
    check(re.search(r"Max core file size +0 +0 ", limits), "the server leaves no core dump")
    # A container may not make a process end late; systemd then goes on without.
    adjusted = must("systemctl", "show", "-P", "OOMScoreAdjust", "custody").strip()
    check(re.search(r"Max open files +4096 +4096 ", limits) and adjusted == "-500",
          "it has 4096 descriptors, and is to end late if memory is used up", f"{adjusted}, {limits}")
    state = dict(re.findall(r"^(\w+):\t(.*)$", Path(f"/proc/{number}/status").read_text(), re.M))
    check(state["Seccomp"] == "2" and state["NoNewPrivs"] == "1" and int(state["CapEff"], 16) == 0,
          "it has a filter of system calls, and no capabilities", state)
    allowed = []
    for folder in (HOME, HOME / ".ssh", "/etc/custody", "/etc/ssh", "/srv/git", "/var/spool", "/usr/lib/custody",
                   "/home"):
        if run_as_server("touch", f"{folder}/try")[0] == 0:
            allowed.append(str(folder))
            Path(folder, "try").unlink()
    check(not allowed, "it can write neither its home, nor the keys, the policy, the Git repositories or the programs",
          allowed)
    status, text = run_as_server("ls", "/srv")
    check(status != 0, "nor read the Git repositories", text)


NEIGHBOUR = """import ctypes, sys
text = ctypes.create_string_buffer(b"before")
print(ctypes.addressof(text), flush=True)
sys.stdin.readline()
print(text.value.decode(), flush=True)
"""


INTRUDER = """import ctypes, os, sys
libc = ctypes.CDLL(None, use_errno=True)
class Piece(ctypes.Structure):
    _fields_ = [("start", ctypes.c_void_p), ("size", ctypes.c_size_t)]
text = ctypes.create_string_buffer(b"after!")
mine, other = Piece(ctypes.addressof(text), 6), Piece(int(sys.argv[2]), 6)
for call in (libc.process_vm_writev, libc.process_vm_readv):
    print(call(int(sys.argv[1]), ctypes.byref(mine), 1, ctypes.byref(other), 1, 0), os.strerror(ctypes.get_errno()))
"""


def try_neighbours():
    """A program with all that the unit allows, and a process of the same user outside of it, as a session of SSH is."""
    for name, text in (("neighbour", NEIGHBOUR), ("intruder", INTRUDER)):
        write(f"/usr/local/lib/{name}.py", text)
    words = [*AS_SERVER, "python3", "/usr/local/lib/neighbour.py"]
    with subprocess.Popen(words, stdin=subprocess.PIPE, stdout=subprocess.PIPE, text=True) as child:
        words = f"/usr/bin/python3 /usr/local/lib/intruder.py {child.pid} {child.stdout.readline().strip()}"
        others = "Exec|Restart|RuntimeDir|StateDir|WorkingDir|MemoryDeny|WantedBy|\\[Install|After|Doc"
        lines = [it for it in UNIT.read_text().splitlines() if not re.match(others, it)]
        lines += ["[Service]", "Type=oneshot", f"ExecStart={words}", "StandardOutput=truncate:/try/intruder"]
        write("/etc/systemd/system/intruder.service", "\n".join(lines) + "\n")
        must("systemctl", "daemon-reload")
        run("systemctl", "start", "intruder")
        seen = child.communicate("now\n")[0].strip()
    log = Path("/try/intruder").read_text()
    check(seen == "before" and log.splitlines() == 2 * ["-1 Operation not permitted"],
          "nor can it read or write the memory of another process of its user", f"{seen}: {log}")


def try_modes():
    """Files of the server, their owners and modes."""
    folder = database().parent
    check(folder != HOME and mode_of(folder) == "custody 0700", "the database has a folder of its own, 0700", folder)
    check(mode_of(HOME).startswith("root "), "the home of custody is root's", mode_of(HOME))
    modes = {str(it): mode_of(it) for it in (database(), f"{database()}-wal", CONTROL)}
    check(set(modes.values()) == {"custody 0600"}, "the database, its log and the control socket are 0600", modes)
    modes = {it: mode_of(it) for it in ("/run/custody", "/run/custody/git")}
    check(set(modes.values()) == {"custody 0700"}, "the folders of the control socket and of Git are 0700", modes)
    outside = Path("/var/tmp/outside")
    shutil.rmtree(outside, ignore_errors=True)
    outside.mkdir(mode=0o755)
    shutil.chown(outside, "custody", "custody")
    for mask in ("000", "022"):
        must("sh", "-c", f"umask {mask} && custody prune --db {outside}/{mask}.db", user="custody")
    modes = {it.name: mode_of(it) for it in outside.iterdir()}
    check(set(modes.values()) == {"custody 0600"},
          "a database that is made outside the unit is 0600, whatever the umask", modes)
