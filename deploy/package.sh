#!/bin/sh
# Makes a Debian package of the program, its manual page, the unit for systemd, the programs of the site and the
# documents. It needs dpkg-deb, pandoc, gzip, strip and objdump (of binutils), awk, git and python3; what is missing is
# named, and no package is made. The program is one that LLVM compiled: tools/build makes it, if the one of this checkout
# is none. `lintian` then has nothing to report but how the program was compiled.
# usage: deploy/package.sh [FOLDER]      the package is written to the folder, or to this one
# CUSTODY has the path of another program, if one is to be packaged.
set -eu
unset CDPATH
# The modes of a package's folders and files are those that it installs, whoever makes it.
umask 022
for command in dpkg-deb pandoc gzip strip objdump awk git python3; do
    if ! command -v "$command" > /dev/null; then
        echo "package.sh: $command is missing: install it first" >&2
        exit 2
    fi
done
folder=$(cd -- "${1:-.}" && pwd)
top=$(cd -- "$(dirname -- "$0")/.." && pwd)
if [ -z "${CUSTODY:-}" ] && ! python3 -I -S "$top/tools/program.py" llvm; then
    "$top/tools/build" --backend llvm
fi
program=${CUSTODY:-$top/crates/custody/out/custody}
if ! [ -x "$program" ]; then
    echo "package.sh: there is no program $program" >&2
    exit 2
fi
version=$("$program" -V | cut -d ' ' -f 2)
architecture=$(dpkg --print-architecture)
maintainer=$(git -C "$top" log -1 --format='%an <%ae>')
commit=$(git -C "$top" log -1 --format=%h)
if [ "$(sed -n 's/^## \([^ ]*\) .*/\1/p' "$top/CHANGELOG.md" | head -n 1)" != "$version" ]; then
    echo "package.sh: CHANGELOG.md does not begin with version $version, which the program has" >&2
    exit 2
fi
# The package's files are in a folder of their own. What pandoc reads and writes is beside it, since sh does not see that
# a command within a pipe fails.
work=$(mktemp -d)
trap 'rm -rf "$work"' EXIT
root=$work/root
mkdir "$root"

documents=$root/usr/share/doc/custody
mkdir -p "$documents/examples" "$root/usr/share/man/man1"
install -D -m 755 "$program" "$root/usr/bin/custody"
strip --remove-section=.comment --remove-section=.note "$root/usr/bin/custody"
for name in custody-user forced-command pre-receive backup restore spare unlock unreferenced mirror; do
    install -D -m 755 -t "$root/usr/lib/custody" "$top/deploy/programs/$name"
done
install -D -m 644 "$top/deploy/web/locks.html" "$root/usr/share/custody/locks.html"
install -D -m 644 "$top/deploy/systemd/custody.service" "$root/lib/systemd/system/custody.service"
install -D -m 644 "$top/deploy/policy.toml" "$root/etc/custody/policy.toml"
install -m 644 "$top/deploy/nginx/site" "$documents/examples/nginx-site"
install -m 644 "$top/deploy/sshd/custody.conf" "$documents/examples/sshd-custody.conf"
install -m 644 "$top/deploy/systemd/custody-group.conf" "$top/examples/policy.toml" "$documents/examples"
# The home of the user, which is root's; and what nginx keeps of requests and replies, for which a disk may be mounted there.
install -d -m 755 "$root/var/lib/custody" "$root/var/spool/custody"
install -m 755 -t "$documents/examples" "$top/examples/custody-check-size"
install -m 644 "$top/docs/locks.png" "$documents"

# The licence, in Debian's form: the text is a field, so its empty lines have a dot.
{
    cat << END
Format: https://www.debian.org/doc/packaging-manuals/copyright-format/1.0/
Upstream-Name: custody
Comment: Made from commit $commit of its Git repository. The program contains
 libraries of the Rattle toolchain, with the licences that they have there.

Files: *
END
    sed -n 's/^Copyright (c) /Copyright: /p' "$top/LICENSE"
    echo 'License: Expat'
    sed -e '1,/^Copyright/d' "$top/LICENSE" | sed -e 1d -e 's/^$/./' -e 's/^/ /'
} > "$documents/copyright"

# The pages, whose links lead to files of the package.
"$top/deploy/package_pages.py" "$root"

# CHANGELOG.md in Debian's form. A version has the date on which it was released after its number, in parentheses; one that
# is unreleased has that of the commit.
changes() {
    sed -n 's/^## //p' "$top/CHANGELOG.md" | while read -r number date; do
        date=${date#\(}
        date=${date%\)}
        if [ "$date" = unreleased ]; then
            date=$(git -C "$top" log -1 --format=%aI)
        fi
        printf 'custody (%s) unstable; urgency=medium\n\n' "$number"
        awk -v number="$number" '/^## / { inside = $2 == number; next } inside' "$top/CHANGELOG.md" > "$work/changes.md"
        pandoc -f gfm -t plain --columns=76 "$work/changes.md" > "$work/changes.txt"
        sed -e 's/^-   /  * /' -e 's/^\([^ ].*\)$/  [ \1 ]/' "$work/changes.txt"
        printf '\n -- %s  %s\n' "$maintainer" "$(date -R -d "$date")"
    done
}
changes > "$work/changelog"
gzip -9 -n < "$work/changelog" > "$documents/changelog.gz"
# What an administrator has to do at an upgrade; apt-listchanges shows it.
{
    printf 'custody (%s) unstable; urgency=medium\n\n' "$version"
    cat << 'END'
  The database has a new version, 2. A database of an earlier package has to be
  migrated once. Stop the server, copy the database and its log, and run, as the
  user custody,

      custody migrate --db /var/lib/custody/db/custody.db

  Until then the server and all other commands say "custody: store G1", and
  leave the database as it is. There is no way back but the copy: an earlier
  package cannot read a database of version 2. Upgrading, in
  /usr/share/doc/custody/operating/backup.md, has the commands.

  The unit starts the server with --contents: a database that does not exist yet
  is made with a file beside it, custody.db-contents, which has the contents of
  objects of 64 KiB and more. A start then reads only the rows, and takes the
  memory of those, however much is stored. An installed database stays as it is.
  To move it, stop the server, run, as the user custody,

      custody migrate --contents --db /var/lib/custody/db/custody.db

  and start the server. The disk needs room for both forms meanwhile. The command
  may be killed at any moment, and goes on when it is run again; it compares all
  before the new files take the names of the old ones. "custody migrate --chunks"
  moves the database back. The file of contents is a part of the database: copy
  and move it with the others. /usr/lib/custody/backup does, and
  /usr/lib/custody/restore puts a copy back. Both need python3.

  The policy that the package installs is empty. If you changed
  /etc/custody/policy.toml, dpkg asks which one to take: keep yours, which is the
  default. If you never changed it, it has no repository any more; the example
  that it had is in /usr/share/doc/custody/examples/policy.toml.

  The forced command asks the running server before it serves Git: without a row
  that allows a user pull, or for a push pull and push, in a repository, Git is
  refused there too. Look at the rows before the upgrade, and restart the server
  after it: until then nobody is served by Git over SSH. Pushes of Git, in
  /usr/share/doc/custody/operating/ssh-and-git.md, has a hook by which locks and
  rows hold at a push.

  Copy /usr/share/doc/custody/examples/nginx-site again, with your name and your
  certificate: the site for nginx has a new page, and reads no body before the
  server knows its token. If SSH and Git have a user of their own, copy
  custody-group.conf from there too.

  The forced command serves a key only as long as it is in
  /etc/custody/authorized_keys, for which sshd has to say which key it was. Copy
  /usr/share/doc/custody/examples/sshd-custody.conf to
  /etc/ssh/sshd_config.d/custody.conf again, and run "systemctl reload ssh":
  until then nobody is served over SSH. sshd then takes only lines that begin
  with restrict,command="/usr/lib/custody/forced-command NAME", and
  "/usr/lib/custody/custody-user list" names the others.

  The package follows no link below /var/lib/custody, nor one in its place: the
  installation ends in words if there is one. If the folder is on another disk,
  mount it there (mount --bind, and a line in /etc/fstab) before the upgrade.

END
    printf ' -- %s  %s\n' "$maintainer" "$(git -C "$top" log -1 --format=%aD)"
} | gzip -9 -n > "$documents/NEWS.Debian.gz"

# The manual page has the text of docs/COMMANDS.md, after the forms of the commands, which are those of its tables.
{
    printf '# NAME\n\ncustody - a Git LFS object and lock server\n\n# SYNOPSIS\n\n'
    awk -f "$top/deploy/synopsis.awk" "$top/docs/COMMANDS.md"
    printf '\n# DESCRIPTION\n\n'
    sed -e 1d -e '/^.bin\/custody. runs/d' -e 's/^## /# /' "$top/docs/COMMANDS.md"
} > "$work/manual.md"
pandoc -s -f gfm -t man -M hyphenate=false -V adjusting=l -V title=custody -V section=1 -V footer="custody $version" \
    "$work/manual.md" > "$work/manual"
gzip -9 -n < "$work/manual" > "$root/usr/share/man/man1/custody.1.gz"

# The oldest library of C that has all that the program uses.
libc=$(objdump -T "$root/usr/bin/custody" | sed -n 's/.*GLIBC_\([0-9][0-9.]*\).*/\1/p' | sort -V | tail -n 1)
if [ -z "$libc" ]; then
    echo "package.sh: objdump names no version of the library of C: is $program a program of this architecture?" >&2
    exit 2
fi

mkdir "$root/DEBIAN"
cat > "$root/DEBIAN/control" << END
Package: custody
Version: $version
Architecture: $architecture
Maintainer: $maintainer
Installed-Size: $(du -sk "$root" | cut -f 1)
Depends: libc6 (>= $libc), passwd
Recommends: nginx, openssh-server, git, python3, curl
Suggests: sqlite3
Section: vcs
Priority: optional
Description: Git LFS object and lock server
 It keeps each file under its SHA-256 name in its repository, and lets one user
 at a time lock a path. Every reply and every stored change is proved to be what
 a short, readable definition allows.
END
# The keys, in /etc/custody/authorized_keys, are no conffile: an upgrade could replace them.
echo /etc/custody/policy.toml > "$root/DEBIAN/conffiles"
install -m 755 -t "$root/DEBIAN" "$top/deploy/debian/postinst" "$top/deploy/debian/prerm" "$top/deploy/debian/postrm"
# What lintian is to pass over: the server is started by the unit alone, which confines it; in the program texts and
# code are next to each other, so that it sees words which nobody wrote; nginx serves the page with the locks; dash, too,
# has the limits of the forced command; and a terminal has no end of a page, where a row of the manual would be too long.
mkdir -p "$root/usr/share/lintian/overrides"
cat > "$root/usr/share/lintian/overrides/custody" << 'END'
custody: package-supports-alternative-init-but-no-init.d-script [lib/systemd/system/custody.service]
custody: spelling-error-in-binary * [usr/bin/custody]
custody: package-contains-documentation-outside-usr-share-doc [usr/share/custody/locks.html]
custody: bash-term-in-posix-shell 'ulimit' [usr/lib/custody/forced-command:*]
custody: groff-message * table text block will not fit on one page *
END
# Each file that is not a conffile, with its digest.
(cd "$root" && find usr lib -type f | sort | xargs md5sum) > "$root/DEBIAN/md5sums"
dpkg-deb --build --root-owner-group "$root" "$folder/custody_${version}_$architecture.deb"
