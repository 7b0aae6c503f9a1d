"""Tries the control socket of `custody serve`, with the program's own `--via`.

Each check starts a server on a new database and a free port of this machine. Its line has what was measured, with the
bound, and it fails if the bound is not kept. The check `killed` kills servers while three users send all eight kinds of
requests and run ten commands. After each start exactly what was acknowledged is listed; after each 100, and at the end,
every object is also served as it was sent, and what was removed or released is not there.
"""
import collections
import contextlib
import os
import random
import resource
import shutil
import signal
import socket
import sqlite3
import stat
import subprocess
import sys
import tempfile
import time
from pathlib import Path

from tests.studio.checks import Failed, arguments, beside, judge_on_server, require
from tests.studio.control import ControlledServer
from tests.studio.policy import ART, FILM, GAME, MAIN, open_policy
from tests.studio.program import LOCKS, content, lock, message, name_of, put, run
from tests.studio.tables import copied
from tests.studio.terminal import run_on_terminal
from tests.studio.work import COMMANDS, REQUESTS, Killed, Work, compare, compare_all

# The repositories of the check `killed`, how large its objects are, and after how many kills it takes a new database.
REPOS = [FILM, GAME, ART]
SMALL = [0, 5_000, 65_537, 200_000]
ROUNDS = 100
# A server is killed after fewer acts than these.
ACTS = 40
PATHS = b"a.txt\nart/hero.psd\n"
# Commands, what they are given, and whether they read the policy.
SAME = [
    (("locks", "--repo", FILM), b"", False),
    (("locks", "--repo", GAME), b"", False),
    (("objects", "--repo", FILM), b"", False),
    (("check",), b"", False),
    (("sweep",), b"", False),
    (("retire", "--repo", FILM, "0" * 64), b"", False),
    (("retire", "--repo", FILM, "0"), b"", False),
    (("may", "--user", "ann", "--repo", FILM, "push"), b"", True),
    (("may", "--user", "ann", "--repo", "studio/none", "pull"), b"", True),
    (("may", "--user", "ann", "--repo", FILM, "lock"), b"", True),
    (("pushcheck", "--user", "bob", "--repo", FILM, "--ref", MAIN), PATHS, True),
    (("pushcheck", "--user", "ann", "--repo", FILM, "--ref", MAIN), PATHS, True),
    (("pushcheck", "--user", "ann", "--repo", FILM, "--ref", MAIN), b"a//b\n", True),
    (("pushcheck", "--user", "Ann", "--repo", FILM, "--ref", MAIN), PATHS, True),
    (("authenticate", "--user", "ann", GAME, "upload"), b"", True),
    (("authenticate", "--user", "ann", "--now", "253402300799", FILM, "upload"), b"", True),
    (("prune", "--now", "0"), b"", False),
    (("tokens", "--repo", FILM, "--now", "0"), b"", False),
    (("tokens", "--repo", "film"), b"", False),
    (("usage", "--now", "0"), b"", True),
]


def check_same_words(server, _):
    """Each command prints the same by the socket and over the files, and ends with the same status."""
    for path in ("art/hero.psd", "art/tree.psd"):
        require(server.ask(lock(path))[0] == 201, "no lock")
    require(server.ask(put(b"hello"))[0] == 200, "no object")
    by_socket = [server.via(*words, given=given) for words, given, _ in SAME]
    server.end(signal.SIGTERM)
    by_files = [server.over_files(*words, given=given, with_policy=policy) for words, given, policy in SAME]
    server.start()
    for (words, _, _), one, other in zip(SAME, by_socket, by_files):
        require(one == other, f"{' '.join(words)}: {one} by the socket, {other} over the files")
    require({0, 2} <= {status for status, _, _ in by_socket}, "no cases")
    return f"{len(SAME)} commands print the same"


def check_only_the_user(server, _):
    """The socket has the mode 0600, and is removed by a server that ends by itself."""
    found = os.stat(server.control())
    require(stat.S_ISSOCK(found.st_mode) and stat.S_IMODE(found.st_mode) == 0o600, f"the mode is {found.st_mode:o}")
    return "mode 0600"


# What the calls of a start do to the socket, in their order.
MAKING = ["mkdir 0700", "bind", "chmod 0600", "link", "unlink", "rmdir"]


def making_calls(trace, name):
    """The calls of a trace that are about files with this name, without a path."""
    for line in trace.splitlines():
        if name in line and " = 0" in line:
            call = line.split("(")[0].split()[-1].removesuffix("at")
            mode = [word.rstrip(")") for word in line.split(" = ")[0].split(", ") if call in ("mkdir", "chmod")][-1:]
            yield " ".join(["rmdir" if "AT_REMOVEDIR" in line else call.replace("fchmod", "chmod"), *mode])


def check_never_open(server, _):
    """With a umask of 0, the socket has its mode before it has its name: the calls of a start, as strace lists them."""
    require(shutil.which("strace"), "strace is not installed")
    server.end(signal.SIGKILL)
    os.unlink(server.control())
    trace = f"{server.control()}.trace"
    words = [server.program, "serve", *server.files(), "--listen", "127.0.0.1:0", "--control", server.control()]
    calls = "trace=mkdir,mkdirat,bind,chmod,fchmodat,link,linkat,unlink,unlinkat,rmdir"
    with subprocess.Popen(["strace", "-f", "-e", calls, "-o", trace, *words], stdout=subprocess.PIPE, umask=0) as ran:
        require(ran.stdout.readline().startswith(b"listening on "), "it did not start")
        mode = stat.S_IMODE(os.stat(server.control()).st_mode)
        subprocess.run(["pkill", "-KILL", "-P", str(ran.pid)], check=False)
    made = list(making_calls(Path(trace).read_text(), Path(server.control()).name))
    require((made, mode) == (MAKING, 0o600), f"{made}, {mode:o}")
    os.unlink(trace)
    server.start()
    return f"with a umask of 0: {', '.join(made)}"


def check_stale(server, _):
    """A socket that a killed server left is replaced; a file of another kind is left, and the server does not start."""
    server.end(signal.SIGKILL)
    require(os.path.exists(server.control()), "a killed server removed its socket")
    server.start()
    server.token()
    server.end(signal.SIGKILL)
    os.unlink(server.control())
    Path(server.control()).write_text("kept")
    words = [server.program, "serve", *server.files(), "--listen", "127.0.0.1:0", "--control", server.control()]
    ran = subprocess.run(words, capture_output=True, timeout=10)
    require((ran.returncode, ran.stderr) == (1, b"custody: control socket\n"), f"{ran}")
    require(Path(server.control()).read_text() == "kept", "the file was not left")
    os.unlink(server.control())
    server.start()
    return "a stale socket is replaced, a file is left"


def check_no_server(server, _):
    """Without a server the command ends with one line."""
    server.end(signal.SIGKILL)
    require(server.via("check") == (1, "", "custody: control socket\n"), "another line")
    server.start()
    return "custody: control socket"


def check_silent(server, _):
    """An operator who sends nothing holds up nobody for longer than 2 seconds."""
    with socket.socket(socket.AF_UNIX) as silent:
        silent.connect(server.control())
        time.sleep(0.1)
        taken = server.time_of_lock("art/after-silence")
        require(taken <= 3, f"a client waited for {taken:.2f} s")
    require("custody: operator not answered" in server.errors(), "the server did not report it")
    return f"a client waited for {taken:.2f} s (at most 3 s)"


def check_turns(server, _):
    """Ten operators who send nothing hold up a client for as long as two of them, and not as all."""
    with contextlib.ExitStack() as held:
        for _ in range(10):
            held.enter_context(socket.socket(socket.AF_UNIX)).connect(server.control())
        time.sleep(0.1)
        taken = server.time_of_lock("art/after-ten")
    require(taken <= 5, f"a client waited for {taken:.2f} s")
    return f"a client beside ten silent operators waited for {taken:.2f} s (at most 5 s)"


def printed_on_terminal(words, stream):
    """What a command prints, if this stream is a terminal."""
    status, printed, _ = run_on_terminal(words, stream)
    require(status == 0, "the command failed")
    return printed


def check_terminal(server, _):
    """On a terminal the control characters of a path are escapes, by the socket and over the files."""
    path = "art/\u009b31m\u0085\u00a0.psd"
    shown = "art/\\u{9b}31m\\u{85}\u00a0.psd"
    require(server.ask(lock(path))[0] == 201, "no lock")
    words = ["locks", "--repo", FILM]
    by_socket = printed_on_terminal(server.command(*words), "stdout")
    require(by_socket.endswith(f" {shown}\n"), f"by the socket: {by_socket!r}")
    require(server.via(*words)[1].endswith(f" {path}\n"), "the path was changed in a pipe")
    server.end(signal.SIGTERM)
    by_files = printed_on_terminal([server.program, *words, *server.files()[:2]], "stdout")
    require(by_files == by_socket, f"over the files: {by_files!r}")
    server.start()
    return "escapes on a terminal, bytes in a pipe"


def check_idle_client(server, _):
    """An operator beside a client that idles."""
    with server.client() as client:
        require(client.ask(lock("art/idle"))[0] == 201, "no lock")
        begun = time.monotonic()
        server.token()
        taken = time.monotonic() - begun
    require(taken <= 1, f"a token took {taken:.2f} s beside an idle client")
    return f"a token took {taken:.2f} s (at most 1 s)"


def work(server, number, is_over, faults, counts):
    """A client that uploads and downloads, until it is over."""
    random_bytes = random.Random(number)
    while not is_over.is_set():
        try:
            data = random_bytes.randbytes(random_bytes.choice([10, 5_000, 300_000]))
            require(server.ask(put(data))[0] == 200, "an upload was refused")
            status, body = server.ask(message("GET", content(name_of(data))))
            require(status == 200 and body == data, "a download differs")
            counts[number] += 1
        except (Failed, OSError) as fault:
            faults.append(str(fault))
            return


def check_under_load(server, options):
    """Tokens are issued while 8 clients push and pull."""
    faults, counts, times, tokens = [], [0] * 8, [], set()
    with beside(*(lambda is_over, number=number: work(server, number, is_over, faults, counts) for number in range(8))):
        for _ in range(options.tokens):
            begun = time.monotonic()
            tokens.add(server.token())
            times.append(time.monotonic() - begun)
    require(not faults, "; ".join(faults[:3]))
    require(len(tokens) == options.tokens, "a token was issued twice")
    require(max(times) <= 2, f"a token took {max(times):.2f} s")
    with server.client() as client:
        for token in tokens:
            status, _ = client.ask(message("GET", LOCKS, token=token))
            require(status == 200, f"a token that was issued got {status}")
    times.sort()
    return (f"{options.tokens} tokens beside {sum(counts)} uploads and downloads of 8 clients: "
            f"median {times[len(times) // 2]:.3f} s, slowest {times[-1]:.3f} s (at most 2 s)")


@contextlib.contextmanager
def holding(server, *words):
    """The server is held within the block. The result is the process of the command, which has printed `held`."""
    streams = {it: subprocess.PIPE for it in ("stdin", "stdout", "stderr")}
    with subprocess.Popen(server.command("hold", *words), **streams) as held:
        line = held.stdout.readline()
        require(line == b"held\n", f"hold printed {line!r}")
        yield held


def locks_in_copy(server):
    """The paths of the locks in a copy of both files, which is also checked."""
    with tempfile.TemporaryDirectory() as folder:
        copy = copied(server.database, folder)
        for name, *more in (["check"], ["locks", "--repo", FILM]):
            status, output, errors = run([server.program, name, "--db", copy, *more])
            require(status == 0, f"{name} of the copy: {errors}")
    return {line.split()[-1] for line in output.splitlines()}


def check_hold(server, _):
    """A copy of both files that is made while the server is held, under load, has all that was acknowledged before."""
    made, faults = [], []

    def lock_on(number, is_over):
        """Locks paths, until it is over or a lock is refused."""
        for count in range(10_000):
            path = f"art/{number}/{count}"
            if is_over.is_set() or faults:
                return
            (made if server.ask(lock(path))[0] == 201 else faults).append(path)

    workers = [lambda is_over, number=number: lock_on(number, is_over) for number in range(4)]
    with beside(*workers):
        time.sleep(0.5)
        with holding(server) as held:
            before = set(made)
            found = locks_in_copy(server)
            time.sleep(0.5)
            during = set(made) - before
            held.stdin.close()
            require(held.wait(timeout=5) == 0, f"hold ended with {held.returncode}: {held.stderr.read()}")
        time.sleep(0.5)
    require(not faults, f"a lock was refused: {faults}")
    # A client that read its reply just after the hold began had its lock before.
    require(len(during) <= len(workers), f"{len(during)} locks were made while the server was held")
    require(before <= found, f"{len(before - found)} locks are not in the copy")
    require(len(made) > len(before) + len(during), "no lock was made after the hold")
    return f"{len(before)} locks before, all in the copy; {len(made) - len(before)} after"


def check_hold_over(server, _):
    """A hold ends after its time, and says so; the operator who goes away ends it at once."""
    begun = time.monotonic()
    with holding(server, "--seconds", "1") as held:
        server.time_of_lock("art/one")
        waited = time.monotonic() - begun
        held.stdin.close()
        status, errors = held.wait(timeout=5), held.stderr.read()
    require(0.9 <= waited <= 1.5, f"a client waited {waited:.2f} s (about 1 s)")
    require(status == 1 and errors == b"custody: the time of the hold is over\n", f"{status} {errors}")
    with holding(server, "--seconds", "600") as held:
        held.kill()
        gone = server.time_of_lock("art/two")
    require(gone <= 0.5, f"a client waited {gone:.2f} s for an operator who is gone")
    return f"a client waited {waited:.2f} s (about 1 s), and {gone:.2f} s for an operator who is gone (at most 0.5 s)"


def check_descriptors(server, _):
    """Operators who come while the system has no file for them, and no client can give way, wait for one."""
    count, files = 60, Path(f"/proc/{server.child.pid}/fd")
    with contextlib.ExitStack() as opened:
        with holding(server) as held:
            clients = [opened.enter_context(server.client()) for _ in range(count)]
            for number, client in enumerate(clients):
                client.send(lock(f"art/{number}"))
            resource.prlimit(server.child.pid, resource.RLIMIT_NOFILE, (len(list(files.iterdir())) + 20,) * 2)
            operators = [subprocess.Popen(server.command("status"), stdout=subprocess.PIPE, stderr=subprocess.PIPE)
                         for _ in range(3)]
            time.sleep(0.5)
            held.stdin.close()
        replies = collections.Counter(client.reply()[0] for client in clients)
        ended = [(it.communicate(timeout=20)[1], it.returncode) for it in operators]
    require(replies == {201: count}, f"of {count} clients: {dict(replies)}")
    require(ended == [(b"", 0)] * 3, f"the operators: {ended}")
    return f"{count} clients and 3 operators, with room for 20"


def store(client, data):
    """Stores an object."""
    status, _ = client.ask(put(data))
    require(status == 200, f"an upload got {status}")


def check_gives_way(server, _):
    """While all objects are hashed, others are served: a lock waits for no more than a part, and a token is issued. A
    second check is refused. An object that is removed meanwhile is passed over, and the check shows on a terminal how
    far it is."""
    large, small = [os.urandom(150_000_000) for _ in range(2)], 300
    with server.client() as client:
        for data in (*large, *(os.urandom(5_000) for _ in range(small))):
            store(client, data)
    first, last = sorted(name_of(data) for data in large)
    begun = time.monotonic()
    alone = server.via("check")
    whole = time.monotonic() - begun
    require(alone == (0, f"checked {small + 2} objects\n", ""), f"alone: {alone}")
    command = server.command("check")
    with subprocess.Popen(command, stdout=subprocess.PIPE, stderr=subprocess.PIPE) as check:
        waits, refused, tokens = [], 0, 0
        while check.poll() is None:
            waits.append(server.time_of_lock(f"art/{len(waits)}"))
            if len(waits) == 5:
                refused = server.via("repair")
                require(refused == (1, "", "custody: another check or repair runs\n"), f"a repair meanwhile: {refused}")
                require(server.via("retire", "--repo", FILM, last)[0] == 0, "an object was not removed")
            if len(waits) % 10 == 0:
                server.token()
                tokens += 1
        ended = (check.returncode, check.stdout.read().decode(), check.stderr.read().decode())
    require(ended == (0, f"checked {small + 2} objects\n", ""), f"beside others: {ended}")
    require(len(waits) > 20 and tokens > 0, f"{len(waits)} locks and {tokens} tokens meanwhile")
    require(max(waits) <= 0.3, f"a lock took {max(waits):.2f} s")
    shown = printed_on_terminal(command, "stderr")
    require(shown.count("\rchecked ") > 5, f"shown: {shown[:200]!r}")
    require(shown.endswith("\r\x1b[K"), f"shown at last: {shown[-50:]!r}")
    return (f"{whole:.1f} s alone; beside it {len(waits)} locks, the slowest in {max(waits) * 1000:.0f} ms "
            f"(at most 300), and {tokens} tokens")


def check_damaged(server, _):
    """A bit of an object that is read in parts is flipped: a check by the socket names it, a repair removes it, and it
    can be stored again."""
    objects = [os.urandom(5_000_000), os.urandom(3_000_000), b"x" * 1_048_577]
    with server.client() as client:
        for data in objects:
            store(client, data)
    oid = name_of(objects[0])
    server.end(signal.SIGKILL)
    with contextlib.closing(sqlite3.connect(f"{server.room}/custody.db")) as db:
        chunk = "upload = (SELECT id FROM uploads WHERE oid = ?) AND n = 30"
        (first, *rest), = db.execute(f"SELECT bytes FROM chunks WHERE {chunk}", (oid,)).fetchone()
        db.execute(f"UPDATE chunks SET bytes = ? WHERE {chunk}", (bytes([first ^ 1, *rest]), oid))
        db.commit()
        db.execute("PRAGMA wal_checkpoint(TRUNCATE)")
    server.start()
    steps = [("check", (1, f"damaged studio/film {oid}\nchecked 3 objects\n", "")),
             ("repair", (0, f"removed studio/film {oid}\nremoved 1 objects\n", "")),
             ("check", (0, "checked 2 objects\n", ""))]
    for command, wanted in steps:
        ran = server.via(command)
        require(ran == wanted, f"{command}: {ran}")
    with server.client() as client:
        store(client, objects[0])
    ran = server.via("check")
    require(ran == (0, "checked 3 objects\n", ""), f"at last: {ran}")
    return "an object of 5 MB is named, removed and stored again"


def check_stop(server, _):
    """A server that is stopped ends the upload that it reads, and leaves no socket. Its file needs no log then."""
    data = os.urandom(20_000_000)
    oid = name_of(data)
    with server.client() as client:
        client.send(put(data)[:-19_000_000])
        time.sleep(0.3)
        with subprocess.Popen(server.command("stop"), stdout=subprocess.PIPE, stderr=subprocess.PIPE) as stop:
            time.sleep(0.3)
            require(stop.poll() is None, "stop ended before the upload did")
            client.send(data[-19_000_000:])
            status, _ = client.reply()
            require(status == 200, f"the upload got {status}")
            require(stop.wait(timeout=10) == 0, f"stop ended with {stop.returncode}: {stop.stderr.read()}")
    # The command ends when the database is closed: so the file alone is a copy.
    shutil.copyfile(server.database, f"{server.room}/alone.db")
    require(server.child.wait(timeout=5) == 0, f"the server ended with {server.child.returncode}")
    require(server.child.stdout.read() == b"served 1 connections\n", "the server has not printed its count")
    require(not os.path.exists(server.control()), "the socket is there")
    _, listed, _ = run([server.program, "objects", "--db", f"{server.room}/alone.db", "--repo", FILM])
    require(listed == f"{oid} {len(data)}\n", f"the file alone has {listed!r}")
    ran = server.via("stop")
    require(ran == (1, "", "custody: control socket\n"), f"without a server: {ran}")
    server.start()
    return "an upload of 20 MB was ended first; the file alone has it"


def check_reload(server, _):
    """A policy that is read again is that of the next request of the same connection; one with a fault is not taken."""
    policy = Path(f"{server.room}/policy.toml")
    whole = policy.read_text()
    with server.client() as client:
        require(client.ask(lock("art/one"))[0] == 201, "no lock")
        policy.write_text(whole.replace("lock", "list"))
        ran = server.via("reload")
        require(ran[0] == 0 and ran[1].startswith("policy ok: "), f"reload: {ran}")
        status, _ = client.ask(lock("art/two"))
        require(status == 403, f"a lock got {status} without the right")
        for bad in ("base = 1\n", "", whole.replace("allow", "alow", 1)):
            policy.write_text(bad)
            ran = server.via("reload")
            _, _, errors = run([server.program, "policy", "--policy", str(policy)])
            require(ran == (1, "", errors) and errors, f"reload of a bad policy: {ran}, policy: {errors}")
            require(client.ask(lock("art/two"))[0] == 403, "the old policy has not stayed")
        policy.unlink()
        ran = server.via("reload")
        require(ran == (1, "", "custody: policy not read\n"), f"reload of no policy: {ran}")
        policy.write_text(whole)
        require(server.via("reload")[0] == 0, "the policy is not read")
        require(client.ask(lock("art/two"))[0] == 201, "no lock under the first policy")
    return "a right was taken away and given back between two requests of a connection; 4 policies were refused"


# How an operator reads slowly: this many bytes, after a pause of this many seconds.
SIP, PAUSE = 4_096, 0.3


def read_slowly(output, is_over):
    """Reads 4 KB every 0.3 s until it is over, and then the rest. Returns all."""
    pieces = []
    while not is_over.wait(PAUSE):
        pieces.append(os.read(output.fileno(), SIP))
    return b"".join((*pieces, output.read()))


def list_slowly(server, count, act):
    """Calls `act` while this many operators read a list of locks slowly. Returns what each got: its output, the status,
    and the error stream."""
    words = server.command("locks", "--repo", FILM)
    lists = [subprocess.Popen(words, stdout=subprocess.PIPE, stderr=subprocess.PIPE) for _ in range(count)]
    printed = {}
    with beside(*(lambda is_over, it=it: printed.update({it: read_slowly(it.stdout, is_over)}) for it in lists)):
        time.sleep(1)
        act()
    return [(printed[it], it.wait(timeout=10), it.stderr.read()) for it in lists]


def check_slow_operators(server, _):
    """Operators who read 4 KB every 0.3 s of a list of 3,000 locks hold nobody up, and get the list of the moment at which
    they asked: one, two at once, and eight of nine. A server that is stopped gives such an operator 2 seconds."""
    count, waits, whole, cut = 3_000, [], {}, (1, b"custody: control socket\n")
    with server.client() as client:
        for number in range(count):
            require(client.ask(lock(f"{number:04}/{'x' * 990}"))[0] == 201, "no lock")
    for slow in (1, 2, 9):
        whole = (server.via("locks", "--repo", FILM)[1].encode(), 0, b"")
        require(len(whole[0]) > count * 990, "the list is short")
        ended = list_slowly(server, slow, lambda: waits.extend(server.time_of_lock(f"{slow}/{n}") for n in range(10)))
        others = [it[1:] for it in ended if it != whole]
        require(others == [cut] * (slow > 8), f"beside {slow - len(others)} whole lists of {slow}: {others}")
    require(max(waits) <= 1, f"a lock took {max(waits):.2f} s")
    begun = time.monotonic()
    (printed, *ended), = list_slowly(server, 1, lambda: require(server.via("stop")[0] == 0, "the server has not stopped"))
    taken = time.monotonic() - begun
    require((*ended,) == cut and whole[0].startswith(printed), f"after a stop: {len(printed)} bytes, {ended}")
    server.child.wait(timeout=5)
    server.start()
    return (f"{len(waits)} locks beside up to nine lists of {len(whole[0])} bytes, the slowest in "
            f"{max(waits) * 1000:.0f} ms (at most 1000); a stop took {taken:.1f} s")


def check_status(server, _):
    """The status counts what was done, and promtool finds nothing to say of it."""
    with server.client() as client:
        for path in ("art/one", "art/two"):
            require(client.ask(lock(path))[0] == 201, "no lock")
    server.via("hold", "--seconds", "0x")
    status, text, errors = server.via("status")
    require(status == 0 and not errors, f"status: {status} {errors}")
    values = dict(line.rsplit(" ", 1) for line in text.splitlines() if not line.startswith("#"))
    wanted = {
        "custody_replies_total": "2",
        'custody_connections_total{end="input_ended"}': "1",
        'custody_repository_locks_made_total{repository="studio/film"}': "2",
        'custody_repository_stored_bytes{repository="studio/film"}': "0",
        'custody_repository_quota_bytes{repository="studio/film"}': "4000000000",
        'custody_database_bytes{file="database"}': str(os.path.getsize(f"{server.room}/custody.db")),
        'custody_database_bytes{file="log"}': str(os.path.getsize(f"{server.room}/custody.db-wal")),
    }
    for name, value in wanted.items():
        require(values.get(name) == value, f"{name} is {values.get(name)}, and should be {value}")
    memory, resident = int(values["process_resident_memory_bytes"]) // 1024, server.memory()
    require(abs(memory - resident) <= resident // 4, f"{memory} KiB of memory, where the system says {resident}")
    if shutil.which("promtool"):
        ran = subprocess.run(["promtool", "check", "metrics"], input=text, capture_output=True, text=True, check=False)
        require(ran.returncode == 0 and not ran.stderr, f"promtool: {ran.stderr}")
        return f"{len(values)} values; promtool finds nothing"
    return f"{len(values)} values; there is no promtool here"


def worked(work, faults):
    """Acts until the server is killed, or a reply is wrong."""
    try:
        while True:
            work.act(REQUESTS if work.random.random() < 0.8 else COMMANDS)
    except Killed:
        pass
    except Exception as fault:  # Whatever is wrong with a reply is a failure of the check.
        faults.append(f"{work.repo}: {type(fault).__name__} {fault}")


def kill_in_mid_work(server, works):
    """Kills the server while the works go on, starts it again, and requires that what was acknowledged is listed."""
    faults = []
    goal = sum(work.done.total() for work in works) + random.randrange(ACTS)
    with beside(*(lambda _, work=work: worked(work, faults) for work in works)):
        while sum(work.done.total() for work in works) < goal and not faults:
            time.sleep(0.005)
        time.sleep(random.uniform(0, 0.01))
        for work in works:
            work.is_killed = True
        server.end(signal.SIGKILL)
    require(not faults, f"{faults}")
    server.start()
    for work in works:
        work.settle()
        compare(work, "after a kill")


def kill_often(program, rounds):
    """Kills a new server this many times. Returns what was done, and how much is stored at the end."""
    with tempfile.TemporaryDirectory() as room, ControlledServer(program, room, open_policy(repos=REPOS)) as server:
        works = [Work(server, random.random(), repo, server.token(repo), SMALL) for repo in REPOS]
        for _ in range(rounds):
            kill_in_mid_work(server, works)
        for work in works:
            compare_all(work, "at the end")
        states = [work.stored for work in works]
        kept = [map(len, (it.objects, it.locks, it.tokens, it.retired, it.released)) for it in states]
        return sum((it.done for it in works), collections.Counter()), [sum(counts) for counts in zip(*kept)]


def check_killed(_, options):
    """Servers are killed at random moments: what was acknowledged is there, and what was removed is not."""
    done, kept = collections.Counter(), [0] * 5
    for left in range(options.rounds, 0, -ROUNDS):
        more, counts = kill_often(options.program, min(left, ROUNDS))
        done, kept = done + more, [sum(pair) for pair in zip(kept, counts)]
    names = ("objects", "locks", "tokens", "removed objects", "released locks")
    return (f"killed {options.rounds} times, {-(-options.rounds // ROUNDS)} databases; at their end "
            f"{', '.join(f'{count} {name}' for count, name in zip(kept, names))}; done: "
            f"{', '.join(f'{done[name]} {name}' for name in sorted(done))}")


CHECKS = {
    "same-words": check_same_words,
    "only-the-user": check_only_the_user,
    "never-open": check_never_open,
    "stale": check_stale,
    "no-server": check_no_server,
    "silent": check_silent,
    "turns": check_turns,
    "terminal": check_terminal,
    "idle-client": check_idle_client,
    "under-load": check_under_load,
    "gives-way": check_gives_way,
    "damaged": check_damaged,
    "hold": check_hold,
    "hold-over": check_hold_over,
    "descriptors": check_descriptors,
    "slow-operators": check_slow_operators,
    "stop": check_stop,
    "reload": check_reload,
    "status": check_status,
    "killed": check_killed,
}


def main():
    """Runs the checks."""
    parser = arguments(__doc__, CHECKS)
    parser.add_argument("--tokens", type=int, default=200, help="how many tokens are issued beside 8 clients")
    parser.add_argument("--rounds", type=int, default=200, help="how often a server is killed")
    options = parser.parse_args()
    policy = open_policy(["ann"])
    return judge_on_server(CHECKS, options, lambda program, room: ControlledServer(program, room, policy))


if __name__ == "__main__":
    sys.exit(main())
