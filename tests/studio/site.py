"""A site on this machine: nginx with deploy/nginx/site, sshd with deploy/programs/forced-command, and the server."""
import getpass
import http.client
import os
import re
import shutil
import signal
import ssl
import subprocess
from pathlib import Path

from tests.studio.checks import comes_true, require
from tests.studio.clone import Clone, Workroom
from tests.studio.control import ControlledServer
from tests.studio.policy import FILM, MAIN, policy
from tests.studio.program import TOP, free_port, listening, lock, message, target

PROGRAMS = ("custody-user", "forced-command", "pre-receive", "backup", "restore", "spare", "unreferenced", "unlock",
            "mirror")
NGINX = """
daemon off;
pid @room/nginx.pid;
error_log @room/nginx.log;
@user
events {}
http {
    client_body_temp_path @room/body;
    proxy_temp_path @room/proxy;
    fastcgi_temp_path @room/fastcgi;
    uwsgi_temp_path @room/uwsgi;
    scgi_temp_path @room/scgi;
    include @room/site;
}
"""
SSHD = """
Port @port
ListenAddress 127.0.0.1
HostKey @room/host_key
TrustedUserCAKeys @room/authority.pub
PidFile @room/sshd.pid
StrictModes no
UsePAM no
PasswordAuthentication no
PermitRootLogin prohibit-password
SetEnv PATH=@room/bin:/usr/local/bin:/usr/bin:/bin
# More than a site accepts: what a client sets must not reach the hook.
AcceptEnv CUSTODY_* GIT_*
"""
SECONDS = 3600
QUOTA = 100_000_000_000


def wait_for(port):
    """Waits until somebody listens on the port."""
    require(comes_true(lambda: listening(port), 10), f"nobody listens on port {port}")


def connection_to(port, certificate=None, source=None, timeout=120):
    """A connection of http.client: over TLS if there is a certificate, and from the source if one is given."""
    address = source and (source, 0)
    if not certificate:
        return http.client.HTTPConnection("127.0.0.1", port, timeout=timeout, source_address=address)
    context = ssl.create_default_context(cafile=certificate)
    return http.client.HTTPSConnection("localhost", port, timeout=timeout, context=context, source_address=address)


def placed(text, room, port):
    """A text of the documents or of deploy/ with the paths of a folder, and the server's port."""
    paths = {"/run/custody/control": f"{room}/control", "/run/custody/git": f"{room}/places",
             "/run/custody-user.lock": f"{room}/custody-user.lock", "/var/lib/custody/db": f"{room}/state",
             "/etc/custody": room, "/srv/git": f"{room}/git",
             "/usr/lib/custody": f"{room}/lib", "/var/log/nginx": room,
             "/backup": f"{room}/backup", "127.0.0.1:8080": f"127.0.0.1:{port}"}
    for old, new in paths.items():
        text = re.sub(rf"(?<![\w.]){re.escape(old)}(?!\w)", new, text)
    return text


class SiteServer(ControlledServer):
    """A server whose policy has these rows, and this address for its clients. Nobody has a token at first. Its database
    has a file of contents, as one that the unit makes."""

    letter = None

    def __init__(self, program, room, rows, base=None, repos=(FILM,), database="custody.db", form="file"):
        port = free_port()
        self.rows, self.base, self.repos = rows, base or f"http://127.0.0.1:{port}", repos
        super().__init__(program, room, self.policy(), database=database, port=port, form=form)

    def policy(self, rows=None, seconds=SECONDS, quota=QUOTA):
        """The text of its policy."""
        return policy(rows or self.rows, self.base, seconds, quota, self.repos)

    def line(self, user, operation="upload"):
        """The line of a new token, as a client gets it."""
        return self.via("authenticate", "--user", user, FILM, operation)[1].strip()

    def lock(self, path, token, ref=MAIN):
        """The status of a request to lock a path."""
        return self.ask(lock(path, token, ref=ref))[0]

    def locks(self):
        """The lines of the locks."""
        return self.via("locks", "--repo", FILM)[1].splitlines()

    def objects(self, repo=FILM):
        """The sizes of the objects, by name."""
        return {oid: int(size) for oid, size in map(str.split, self.via("objects", "--repo", repo)[1].splitlines())}


class Site(Workroom):
    """The server in a folder; with nginx and sshd before it once they are started, and users with keys and clones."""

    def __init__(self, program, room, rows, checks, shows=False, form="file"):
        super().__init__(room, checks, shows)
        self.children = []
        self.https, self.ssh = free_port(), free_port()
        self.certificate = f"{room}/tls.pem"
        # Git LFS 3.3 does not read http.sslCAInfo.
        self.environment |= {"GIT_SSL_CAINFO": self.certificate, "SSL_CERT_FILE": self.certificate}
        Path(room, "state").mkdir()
        self.server = SiteServer(program, room, rows, f"https://localhost:{self.https}", database="state/custody.db",
                                 form=form)

    # nginx and sshd.

    def start_nginx(self):
        """Starts nginx with the site of deploy/."""
        key = f"{self.room}/tls.key"
        self.run("openssl", "req", "-x509", "-newkey", "rsa:2048", "-nodes", "-days", "2", "-subj", "/CN=localhost",
                 "-addext", "subjectAltName=DNS:localhost", "-keyout", key, "-out", self.certificate)
        site = (TOP / "deploy/nginx/site").read_text(encoding="utf-8")
        for old, new in [("127.0.0.1:8080", f"127.0.0.1:{self.server.port}"),
                         ("listen 443", f"listen 127.0.0.1:{self.https}"), ("lfs.example;", "localhost;"),
                         ("/etc/ssl/certs/lfs.example.pem", self.certificate), ("/etc/ssl/private/lfs.example.key",
                                                                                key),
                         # The log has which connection a request came by.
                         ("'$remote_addr [", "'$remote_addr $connection ["),
                         ("/var/log/nginx", self.room), ("/var/spool/custody", f"{self.room}/spool"),
                         ("/usr/share/custody", str(TOP / "deploy/web"))]:
            require(old in site, f"deploy/nginx/site has no {old}")
            site = site.replace(old, new)
        self.write("site", site)
        Path(self.room, "spool").mkdir()
        user = "user root;" if os.getuid() == 0 else ""
        config = self.write("nginx.conf", NGINX.replace("@room", self.room).replace("@user", user))
        self.children.append(subprocess.Popen(["nginx", "-c", config, "-e", f"{self.room}/nginx.log"]))
        wait_for(self.https)

    def connect(self, source=None, timeout=120):
        """A connection to nginx."""
        return connection_to(self.https, self.certificate, source, timeout)

    def install(self):
        """Installs the programs of deploy/ as the package does, with the folder that the unit makes for Git."""
        Path(self.room, "places").mkdir()
        for name in PROGRAMS:
            text = (TOP / "deploy/programs" / name).read_text(encoding="utf-8")
            self.write(f"lib/{name}", placed(text, self.room, self.server.port), 0o755)

    def new_key(self, name):
        """The public part of a new key."""
        self.run("ssh-keygen", "-q", "-t", "ed25519", "-N", "", "-f", f"{self.room}/key-{name}")
        return Path(self.room, f"key-{name}.pub").read_text(encoding="utf-8").strip()

    def add_key(self, user, public, room=None):
        """Adds a key of the user to the file of the keys, of this site or of one in another folder."""
        self.run(f"{room or self.room}/lib/custody-user", "add", user, given=f"{public}\n")

    def match_block(self):
        """What deploy/ sets for the user custody, set for whoever runs the suite. A second site on this machine has a
        forced command, and so a file of keys, of its own."""
        text = placed((TOP / "deploy/sshd/custody.conf").read_text(encoding="utf-8"), self.room, self.server.port)
        user = getpass.getuser()
        for old, new in [("Match User custody", f"Match User {user}"), ("User nobody", f"User {user}"),
                         ("KeysFile none", f"KeysFile {self.room}/second/authorized_keys")]:
            text = text.replace(old, new)
        return text

    def start_sshd(self, users):
        """Starts sshd, which knows a key of each of the users."""
        self.run("ssh-keygen", "-q", "-t", "ed25519", "-N", "", "-f", f"{self.room}/host_key")
        for user in users:
            self.add_key(user, self.new_key(user))
        text = SSHD.replace("@room", self.room).replace("@port", str(self.ssh)) + self.match_block()
        config = self.write("sshd_config", text)
        if os.getuid() == 0:
            Path("/run/sshd").mkdir(exist_ok=True)
        with open(f"{self.room}/sshd.log", "w", encoding="utf-8") as log:
            self.children.append(subprocess.Popen([shutil.which("sshd"), "-D", "-e", "-f", config], stderr=log))
        wait_for(self.ssh)

    def set_up(self, users):
        """Starts nginx and sshd, and makes the repository with the hook."""
        for name in ("bin", "backup"):
            Path(self.room, name).mkdir()
        Path(self.room, "bin/custody").symlink_to(self.server.program)
        self.install()
        self.start_nginx()
        self.start_sshd(users)
        self.set_up_git()
        self.make_repository(FILM)

    def make_repository(self, name, room=None):
        """A repository of Git with the hook and what it asks for, in the folder or in another one."""
        bare = f"{room or self.room}/git/{name}.git"
        self.run("git", "init", "-q", "--bare", bare)
        self.run("git", "-C", bare, "config", "receive.fsckObjects", "true")
        Path(bare, "hooks/pre-receive").symlink_to(f"{self.room}/lib/pre-receive")

    # Users and clones.

    def remote(self, repo=FILM):
        """The address of the repository."""
        return f"ssh://{getpass.getuser()}@localhost:{self.ssh}/{repo}.git"

    def ssh_command(self, user):
        """The words with which Git connects as the user."""
        hosts = f"-o UserKnownHostsFile={self.room}/known_hosts -o StrictHostKeyChecking=accept-new"
        return f"ssh -i {self.room}/key-{user} -o IdentitiesOnly=yes {hosts}"

    def clone(self, user, name=None):
        """The folder of a clone of the user, which is not there yet."""
        return Clone(self, name or user, user, {"core.sshCommand": self.ssh_command(user),
                                                "lfs.concurrenttransfers": "8", "lfs.activitytimeout": "1800",
                                                "lfs.locksverify": "true"})

    # The server.

    def via(self, *words):
        """Runs a command by the control socket. Returns its status and what it printed."""
        status, output, errors = self.server.via(*words)
        return status, output + errors

    def change_policy(self, **more):
        """Writes the policy, and has the server read it."""
        self.server.set_policy(self.server.policy(**more))
        self.reload()

    def reload(self):
        """Has the server read its policy again."""
        status, text = self.via("reload")
        self.expect(status == 0 and text.startswith("policy ok: "), "the policy is read again", text)

    def lock(self, user, path, ref=MAIN):
        """Locks a path for the user, as a client does."""
        status = self.server.lock(path, self.server.token(user=user), ref)
        self.expect(status == 201, f"{user} locks {path} on {ref}", str(status))

    def release_all(self):
        """Releases each lock, by ann's right to force."""
        token = self.server.token()
        for line in self.server.locks():
            self.server.ask(message("POST", target(f"locks/{line.split()[0]}/unlock"), {"force": True}, token))

    def __enter__(self):
        return self

    def __exit__(self, *_):
        self.end()

    def end(self):
        """Ends nginx, sshd and the server."""
        for child in self.children:
            child.terminate()
            child.wait()
        if self.server.child.poll() is None:
            self.server.end(signal.SIGTERM)
