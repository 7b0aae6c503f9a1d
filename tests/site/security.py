"""Tries what the pages say of security on a whole machine: a container with Debian 12, which has the package.

The container has systemd, nginx, sshd, Git and Git LFS, shares the kernel, and has a network of its own; it runs
tests/site/container. A check fails if somebody can read, write or ask more than the pages say, if one client can take
what others need, or if the package is another one when it is made with another umask.
"""
import contextlib
import os
import shutil
import subprocess
import sys
import tempfile
import time
from pathlib import Path

from tests.studio.checks import arguments, stop
from tests.studio.program import TOP

BASE = "/var/cache/custody-bookworm"
# What Debian has in the container.
INSIDE = ("systemd,systemd-sysv,dbus,nginx-light,openssh-server,git,git-lfs,curl,openssl,python3,procps,iproute2,"
          "ca-certificates")
MASKS = ("022", "007", "077")
UNIT = """[Unit]
After=multi-user.target
[Service]
Type=oneshot
WorkingDirectory=/try
Environment=PYTHONDONTWRITEBYTECODE=1
ExecStart=/usr/bin/python3 -u -m tests.site.container
ExecStopPost=/bin/sh -c 'echo $EXIT_STATUS > /try/status; systemctl --no-block poweroff'
StandardOutput=file:/try/output
StandardError=inherit
TimeoutStartSec=3600
"""


def install_debian(base):
    """Debian in a folder, if it is not there yet."""
    if base.is_dir():
        return
    print(f"Debian is being installed into {base}", flush=True)
    new, log = Path(f"{base}.new"), f"{base}.log"
    shutil.rmtree(new, ignore_errors=True)
    words = ["debootstrap", "--variant=minbase", f"--include={INSIDE}", "bookworm", str(new)]
    with open(log, "wb") as output:
        if subprocess.run(words, stdout=output, stderr=output, check=False).returncode:
            stop(f"debootstrap failed: {log}")
    new.rename(base)


@contextlib.contextmanager
def root_over(base):
    """A root whose changes are in a folder of its own."""
    with tempfile.TemporaryDirectory(prefix="custody-security.", dir="/var/tmp") as work:
        root, upper, layer = (Path(work, name) for name in ("root", "upper", "layer"))
        for folder in (root, upper, layer):
            folder.mkdir()
        words = ["mount", "-t", "overlay", "overlay", "-o", f"lowerdir={base},upperdir={upper},workdir={layer}", root]
        if subprocess.run(words, check=False).returncode:
            stop("no overlay file system can be mounted")
        try:
            yield root
        finally:
            subprocess.run(["umount", root], check=False)


def make_packages(tree, program, folder):
    """The package of the tree, made with three umasks."""
    built = tree / "crates/custody/out/custody"
    environment = {**os.environ, "CUSTODY": str(built) if program == str(TOP / "bin/custody") else program}
    script = next(it for it in (tree / "deploy/package.sh", tree / "tools" / "package.sh") if it.exists())
    for mask in MASKS:
        place = folder / mask
        place.mkdir()
        with open(place / "log", "wb") as log:
            subprocess.run(["sh", "-c", f'umask {mask} && "$0" "$1"', script, place], stdout=log, stderr=log,
                           env=environment, check=False)


def prepare(root, options):
    """What the container needs: the packages, the checks, and a unit that runs them when it has booted."""
    folder = root / "try"
    folder.mkdir()
    make_packages(options.tree, options.program, folder)
    for name in ("studio", "site/container"):
        shutil.copytree(TOP / "tests" / name, folder / "tests" / name, ignore=shutil.ignore_patterns("__pycache__"))
    for name in ("tests", "tests/site"):
        shutil.copy(TOP / name / "__init__.py", folder / name)
    (folder / "output").touch()
    system = root / "etc/systemd/system"
    (system / "try.service").write_text(UNIT, encoding="utf-8")
    wanted = system / "graphical.target.wants"
    wanted.mkdir(parents=True, exist_ok=True)
    (wanted / "try.service").symlink_to("../try.service")


def boot(root, log):
    """Boots the container. Prints what the checks print, until it is off."""
    words = ["systemd-nspawn", "--quiet", "-D", root, "-M", "custody-security", "--register=no", "--keep-unit",
             "--private-network", "--console=pipe", "-b"]
    with open(log, "wb") as output:
        container = subprocess.Popen(words, stdin=subprocess.DEVNULL, stdout=output, stderr=output)
    try:
        with open(root / "try/output", encoding="utf-8", errors="replace") as printed:
            is_over = False
            while not is_over:
                is_over = container.poll() is not None
                print(printed.read(), end="", flush=True)
                time.sleep(0.2)
    finally:
        if container.poll() is None:
            container.terminate()
            container.wait()


def main():
    """Runs the suite."""
    parser = arguments(__doc__)
    parser.add_argument("--tree", default=TOP, type=lambda it: Path(it).resolve(), metavar="FOLDER",
                        help="the tree whose package is tried, if not this one: an older state has to fail")
    parser.add_argument("--base", default=BASE, type=Path, metavar="FOLDER",
                        help=f"the folder with Debian, made if it does not exist [default: {BASE}]")
    options = parser.parse_args()
    install_debian(options.base)
    with root_over(options.base) as root:
        prepare(root, options)
        log = root.parent / "boot"
        boot(root, log)
        status = root / "try/status"
        if not status.exists() or not status.read_text().strip():
            print("\n".join(log.read_text(errors="replace").splitlines()[-20:]), file=sys.stderr)
            stop("the container did not run the checks")
        return int(status.read_text().strip() != "0")


if __name__ == "__main__":
    sys.exit(main())
