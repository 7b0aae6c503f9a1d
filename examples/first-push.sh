#!/bin/sh
# From nothing to a push: a server on this machine, a Git repository, and two users who push, clone and lock files. A
# script takes the place of ssh, and runs deploy/programs/forced-command as sshd would; nothing is installed or changed outside
# the folder. It needs git and git-lfs, and a program (examples/program.sh).
# usage: examples/first-push.sh [FOLDER]      the folder is made; without it, one in the folder for temporary files
set -eu
unset CDPATH GIT_DIR GIT_WORK_TREE
top=$(cd -- "$(dirname -- "$0")/.." && pwd)

fail() {
    echo "first-push: $*" >&2
    exit 1
}

command -v git > /dev/null || fail 'git is missing: install it, as by "apt install git"'
git lfs version > /dev/null 2>&1 || fail 'git-lfs is missing: install it, as by "apt install git-lfs"'
program=$("$top/examples/program.sh")

if [ $# -gt 0 ]; then
    mkdir -- "$1" || fail "the folder is to be a new one"
    work=$(cd -- "$1" && pwd)
else
    work=$(mktemp -d "${TMPDIR:-/tmp}/custody-first-push.XXXXXX")
fi
mkdir "$work/bin" "$work/run" "$work/run/git"
ln -s "$program" "$work/bin/custody"

server=
stop() {
    [ -z "$server" ] || kill "$server" 2> /dev/null || :
    server=
}
trap stop EXIT
trap 'exit 129' HUP
trap 'exit 130' INT
trap 'exit 141' PIPE
trap 'exit 143' TERM

# Starts the server at a port; fails if the port is in use.
serve_at() {
    sed "s|https://lfs.example|http://127.0.0.1:$1|" "$top/examples/policy.toml" > "$work/policy.toml"
    : > "$work/server.log"
    "$work/bin/custody" serve --db "$work/custody.db" --contents --policy "$work/policy.toml" \
        --listen "127.0.0.1:$1" --control "$work/run/control" > "$work/server.log" 2>&1 &
    server=$!
    while kill -0 "$server" 2> /dev/null; do
        ! grep -q '^listening' "$work/server.log" || return 0
        sleep 0.05
    done
    grep -q '^custody: network' "$work/server.log" || fail "the server did not start: $(cat "$work/server.log")"
    server=
    return 1
}

port=18080
until serve_at "$port"; do
    port=$((port + 1))
    [ "$port" -lt 18180 ] || fail 'no port from 18080 to 18179 is free'
done

# What sshd would do for the key of a user: the words of the client are passed to the forced command as one text, and a
# file says which key it was.
for user in ann bob; do
    echo "restrict,command=\"/usr/lib/custody/forced-command $user\" ssh-ed25519 AAAA-$user"
    echo "publickey ssh-ed25519 AAAA-$user" > "$work/key-$user"
done > "$work/authorized_keys"
sed -e "s|/run/custody|$work/run|" -e "s|/etc/custody/authorized_keys|$work/authorized_keys|" \
    -e "s|/srv/git|$work/git|" "$top/deploy/programs/forced-command" > "$work/bin/forced-command"
cat > "$work/bin/ssh" << END
#!/bin/sh
for words in "\$@"; do :; done
export SSH_ORIGINAL_COMMAND="\$words" SSH_USER_AUTH="$work/key-\$SSH_USER"
PATH="$work/bin:\$PATH" exec sh "$work/bin/forced-command" "\$SSH_USER"
END
chmod +x "$work/bin/ssh"

# Git reads no configuration but that of the folder.
export HOME="$work" XDG_CONFIG_HOME="$work" GIT_CONFIG_NOSYSTEM=1 GIT_TERMINAL_PROMPT=0
export GIT_SSH_COMMAND="'$work/bin/ssh'" GIT_SSH_VARIANT=simple SSH_USER
cat > "$work/.gitconfig" << END
[init]
	defaultBranch = main
[lfs]
	locksverify = true
END
git lfs install --skip-repo > /dev/null
git init -q --bare "$work/git/studio/film.git"
remote=ssh://custody@lfs.example/studio/film.git

# Makes a user the one who runs the commands that follow.
become() {
    SSH_USER=$1
    export GIT_AUTHOR_NAME="$1" GIT_AUTHOR_EMAIL="$1@studio" GIT_COMMITTER_NAME="$1" GIT_COMMITTER_EMAIL="$1@studio"
    [ ! -d "$work/$1" ] || cd "$work/$1"
}

# Prints a command of the user and what it prints, of a line that changes only how it ends.
tell() {
    echo "$SSH_USER\$ $*"
    status=0
    "$@" > "$work/printed" 2>&1 || status=$?
    sed -e 's/.*\r//' -e 's/^/    /' "$work/printed"
    return "$status"
}

# The same for a command that is to be refused.
tell_refused() {
    ! tell "$@" || fail 'this was to be refused'
}

echo "The server listens on 127.0.0.1:$port. ann makes three files and pushes them:"
cd "$work"
become ann
git clone -q "$remote" ann 2> /dev/null
become ann
tell git lfs track --lockable '*.psd'
mkdir art
for name in hero tree ship; do
    head -c 100000 /dev/urandom > "art/$name.psd"
done
git add .gitattributes art
git commit -q -m 'Three pictures'
tell git push -q origin main
cd "$work"
become bob
echo
echo 'bob clones the repository, and has them:'
tell git clone -q "$remote" bob
become bob
tell git lfs ls-files --size
cmp -s "$work/ann/art/hero.psd" art/hero.psd || fail 'the clone has other bytes'

echo
echo 'ann locks a file. Now bob can neither lock it nor push a change to it:'
become ann
tell git lfs lock art/hero.psd
become bob
tell_refused git lfs lock art/hero.psd
chmod u+w art/hero.psd
echo 'a stroke' >> art/hero.psd
git commit -q -a -m 'A stroke'
tell_refused git push -q origin main
tell git lfs locks

stop
echo
echo "All of it is in $work: the policy, the database, the repository and the clones."
echo "To remove it: rm -rf '$work'"
