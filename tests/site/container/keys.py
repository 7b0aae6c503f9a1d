"""Users over SSH: what they may ask, and where their keys are."""
import re
import shutil
from pathlib import Path

from tests.site.container.machine import EXAMPLES, HOME, check, mode_of, must, run, run_as_server, write
from tests.studio.checks import comes_true
from tests.studio.program import listening


def sshd_setting(user, name):
    """What sshd uses for a user, by its own test mode."""
    text = must("sshd", "-T", "-C", f"user={user},host=localhost,addr=127.0.0.1,laddr=127.0.0.1,lport=22")
    return re.search(rf"^{name} (.*)$", text, re.M)[1]


def keys_file():
    """The file in which sshd looks for the keys of custody, the first one; or the one that a command reads for it."""
    name = sshd_setting("custody", "authorizedkeysfile").split()[0]
    if name == "none":
        name = sshd_setting("custody", "authorizedkeyscommand").split()[-1]
    return Path(name.replace("%u", "custody").replace("%h", str(HOME))) if name[0] in "/%" else HOME / name


def ssh_words(user):
    """The words with which a user connects."""
    return ["ssh", "-i", f"/try/key-{user}", "-o", "IdentitiesOnly=yes", "-o", "BatchMode=yes", "-o",
            "StrictHostKeyChecking=accept-new", "-o", "LogLevel=ERROR"]


def over_ssh(user, command):
    """Runs a command over SSH."""
    return run(*ssh_words(user), "custody@lfs.example", command)


def set_up_ssh():
    """sshd with the package's configuration, keys of two users, and the repository."""
    for user in ("ann", "bob", "stranger", "thief", "second"):
        must("ssh-keygen", "-q", "-t", "ed25519", "-N", "", "-f", f"/try/key-{user}")
    if check((EXAMPLES / "sshd-custody.conf").exists(), "the package has a configuration for sshd"):
        shutil.copy(EXAMPLES / "sshd-custody.conf", "/etc/ssh/sshd_config.d/custody.conf")
    must("systemctl", "restart", "ssh")
    comes_true(lambda: listening(22))
    if not keys_file().is_relative_to("/etc"):
        (HOME / ".ssh").mkdir(mode=0o700, exist_ok=True)
        shutil.chown(HOME / ".ssh", "custody", "custody")
    lines = [f'restrict,command="/usr/lib/custody/forced-command {user}" {Path(f"/try/key-{user}.pub").read_text()}'
             for user in ("ann", "bob")]
    write(keys_file(), "".join(lines))
    must("install", "-d", "-o", "custody", "-g", "custody", "-m", "750", "/srv/git/studio")
    must("git", "init", "-q", "--bare", "-b", "main", "/srv/git/studio/film.git", user="custody")


def try_ssh():
    """Keys, and what somebody over SSH can ask and learn."""
    status, text = over_ssh("ann", "git-lfs-authenticate studio/film.git upload")
    check(status == 0 and "Bearer" in text, "a user gets a token over SSH", text)
    status, text = over_ssh("stranger", "git-lfs-authenticate studio/film.git upload")
    check(status == 255 and "Permission denied" in text, "a stranger gets nothing over SSH", text)
    status, text = over_ssh("bob", "cat /etc/passwd")
    check(status == 1 and "only git-lfs-authenticate" in text, "no other command runs", text)
    with open(keys_file(), "a", encoding="utf-8") as keys:
        keys.write(Path("/try/key-second.pub").read_text())
    status, text = over_ssh("second", "id -un")
    check(status == 255 and "Permission denied" in text, "a key in a line without the forced command opens nothing",
          text)
    status, text = over_ssh("ann", "git-lfs-authenticate studio/none.git upload")
    check(status == 1 and text.startswith("custody: R1: no such repository\n"),
          "a repository that the policy lacks is R1", text)
    check(sshd_setting("custody", "disableforwarding") == "yes" and sshd_setting("custody", "permittty") == "no",
          "sshd forwards nothing for custody, and gives no terminal, whatever a key's line says")
    seconds = int(sshd_setting("custody", "clientaliveinterval")) * int(sshd_setting("custody", "clientalivecountmax"))
    check(seconds == 120, f"it gives up a client that has not answered for {seconds} s")
    check(".ssh/authorized_keys" in sshd_setting("root", "authorizedkeysfile"),
          "and reads the keys of others where it did")
    check(mode_of(keys_file()).startswith("root "), "the keys are root's", f"{keys_file()}: {mode_of(keys_file())}")
    # The server was taken over: it writes a key wherever it can, as its own user and in its own view of the files.
    line = f'command="/usr/lib/custody/forced-command ann" {Path("/try/key-thief.pub").read_text()}'
    for place in {keys_file(), HOME / ".ssh/authorized_keys", HOME / ".ssh/authorized_keys2"}:
        run_as_server("sh", "-c", f"umask 077; mkdir -p {place.parent} && cat >> {place}", given=line)
    status, text = over_ssh("thief", "git-lfs-authenticate studio/film.git upload")
    check(status == 255, "a server that was taken over cannot add itself a key", text)
