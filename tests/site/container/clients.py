"""The real client, Git LFS: through all of the limits, with the hook, and with the user git."""
import json
import os
import re
import time
from pathlib import Path

from tests.site.container.keys import over_ssh, ssh_words
from tests.site.container.machine import (CHECKS, CONTROL, EXAMPLES, check, database, mode_of, must, run, serving,
                                          start, stop, token, via, write)
from tests.site.container.proxy import UNREACHABLE
from tests.site.container.web import CERTIFICATE
from tests.studio.checks import comes_true
from tests.studio.clone import Clone, Workroom, same_files
from tests.studio.control import issue_words
from tests.studio.program import listening, target


def clone_of(user):
    """The user's clone, which is not there yet, with the settings that the pages ask of a client."""
    place = Workroom("/try", CHECKS)
    place.environment["GIT_SSL_CAINFO"] = CERTIFICATE
    return Clone(place, f"film-{user}", user, {"core.sshCommand": " ".join(ssh_words(user)), "lfs.locksverify": "true",
                                               "lfs.concurrenttransfers": "8"})


ANN, BOB = clone_of("ann"), clone_of("bob")
# A push past the client's own checks.
PUSH = ("push", "--no-verify", "origin", "main")
LOCKED = "art/1.psd: ann has locked it"


def try_client():
    """A push and a clone of 300 files through all of the limits; and what is printed if the server is away."""
    remote = "ssh://custody@lfs.example/studio/film.git"
    ANN.place.set_up_git()
    ANN.begin(remote)
    ANN.git("lfs", "track", "*.psd", "--lockable")
    ANN.path("art").mkdir()
    for number in range(300):
        size = 1000 + 700 * number if number > 3 else 8_000_000 << number
        ANN.path(f"art/{number}.psd").write_bytes(os.urandom(size))
    ANN.commit("art")
    log = Path("/var/log/nginx/custody.access.log")
    log.write_text("")
    must("systemctl", "reload", "nginx")
    began = time.monotonic()
    status, text = ANN.tried("push", "-q", "-u", "origin", "main")
    taken = time.monotonic() - began
    check(status == 0, f"300 files of 4 kB to 64 MB are pushed with 8 transfers at a time, in {taken:.1f} s", text)
    began = time.monotonic()
    status, text = BOB.take(remote)
    same = same_files(ANN, BOB, "art")
    check(status == 0 and same, f"and cloned, in {time.monotonic() - began:.1f} s", text)
    ANN.passes("and a path is locked", "lfs", "lock", "art/1.psd")
    lines = [it for it in log.read_text().splitlines() if "git-lfs" in it]
    wrong = [it for it in lines if re.search('" (429|401|5..) ', it)]
    check(len(lines) > 600 and not wrong, f"of the client's {len(lines)} requests none was refused", wrong[:3])
    secret = token()
    stop()
    status, text = ANN.tried("-c", "lfs.url=https://lfs.example" + target("").rstrip("/"), "-c",
                             f"http.extraHeader=Authorization: Bearer {secret}", "lfs", "push", "--all", "origin")
    lines = [it for it in text.splitlines() if json.loads(UNREACHABLE)["message"] in it]
    check(status != 0 and lines, f"git lfs prints that the server is down: {'; '.join(lines)}", text)
    start()


def try_hook():
    """Locks hold at a push of Git, whatever the client does."""
    must("ln", "-s", "/usr/lib/custody/pre-receive", "/srv/git/studio/film.git/hooks/pre-receive")
    must("git", "-C", "/srv/git/studio/film.git", "config", "receive.fsckObjects", "true", user="custody")
    BOB.change("art/1.psd", b"a hero of bob")
    BOB.fails("with the hook a push of a locked path is refused", LOCKED, *PUSH)
    ANN.git("lfs", "unlock", "art/1.psd")
    BOB.change("art/1.psd", b"another hero of bob")
    BOB.passes("and passes when the lock is released", *PUSH)


def try_group():
    """SSH and Git as another user, with the group of the control socket."""
    if not check((EXAMPLES / "custody-group.conf").exists(),
                 "the package says how SSH and Git have a user of their own"):
        return
    write("/etc/systemd/system/custody.service.d/group.conf", (EXAMPLES / "custody-group.conf").read_text())
    must("useradd", "--system", "--user-group", "--groups", "custody", "--home-dir", "/srv/git", "--no-create-home",
         "--shell", "/bin/sh", "git")
    must("useradd", "--system", "other")
    must("systemctl", "daemon-reload")
    run("systemctl", "restart", "custody")
    comes_true(serving)
    check(via(*issue_words(), user="git")[0] == 0 and via(*issue_words(), user="other")[0] == 1,
          "with the group, the user git may use the control socket, and another may not", mode_of(CONTROL))
    check(run("ls", database().parent, user="git")[0] != 0, "and git may not enter the folder of the database")
    check(mode_of("/run/custody/git") == "custody 0770", "but the folder in which its commands are counted",
          mode_of("/run/custody/git"))
    must("chown", "-R", "git:git", "/srv/git/studio")
    configuration = Path("/etc/ssh/sshd_config.d/custody.conf")
    configuration.write_text(configuration.read_text().replace("Match User custody", "Match User git"))
    must("systemctl", "restart", "ssh")
    comes_true(lambda: listening(22))
    status, text = run(*ssh_words("ann"), "git@lfs.example", "git-lfs-authenticate studio/film.git upload")
    refs = ANN.tried("ls-remote", "ssh://git@lfs.example/studio/film.git")
    check(status == 0 and "Bearer" in text and refs[0] == 0 and "refs/heads/main" in refs[1],
          "users get tokens, and reach their repositories, as git", f"{text}\n{refs[1]}")
    BOB.git("remote", "set-url", "origin", "ssh://git@lfs.example/studio/film.git")
    ANN.git("-c", "lfs.url=ssh://git@lfs.example/studio/film.git", "lfs", "lock", "art/1.psd")
    BOB.change("art/1.psd", b"a third hero of bob")
    BOB.fails("and the hook asks the server as git", LOCKED, *PUSH)
    check(over_ssh("ann", "git-lfs-authenticate studio/film.git upload")[0] == 255, "and not as custody any more")
