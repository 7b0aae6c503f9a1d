#!/bin/sh
# From nothing to a lock: issues a token to ann by examples/policy.toml, asks for a path with it, and asks again.
# usage: examples/first-lock.sh DATABASE
set -eu
unset CDPATH
top=$(cd -- "$(dirname -- "$0")/.." && pwd)
if [ $# -ne 1 ]; then
    echo 'usage: examples/first-lock.sh DATABASE      a file; if it does not exist it is made' >&2
    exit 2
fi
database=$1
now=1463500146
program=$("$top/examples/program.sh")

custody() {
    command=$1
    shift
    "$program" "$command" --db "$database" --policy "$top/examples/policy.toml" --now "$now" "$@"
}

answer=$(custody authenticate --user ann /studio/film.git upload)
token=$(printf '%s' "$answer" | sed 's/.*Bearer \([0-9a-f]*\).*/\1/')
for _ in first second; do
    {
        printf 'POST /studio/film.git/info/lfs/locks HTTP/1.1\r\n'
        printf 'Authorization: Bearer %s\r\n' "$token"
        printf 'Content-Length: 23\r\n\r\n{"path":"art/hero.psd"}'
    } | custody session
    echo
done
