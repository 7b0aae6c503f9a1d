#!/bin/sh
# Times one question to a policy of 1,000 rows, each of which lists 64 users and 64 folders, where the first row decides,
# and where none does after every user and every folder was compared. Then the questions of a list of 20,000 locks, each
# asked of the whole policy, and of the rows that were chosen once. It wants rt.
set -eu
here=$(cd "$(dirname "$0")" && pwd)
top=$(cd "$here/../.." && pwd)
work=$(mktemp -d)
trap 'rm -rf "$work"' EXIT
mkdir -p "$work/repo/crates/bench/src" "$work/repo/crates/bench/specs" "$work/repo/crates/bench/proofs"
for crate in names model policy; do cp -r "$top/crates/$crate" "$work/repo/crates/"; done
grep -E '^(names|model|policy):' "$top/crates.txt" > "$work/repo/crates.txt"
echo 'bench: names model policy anyhow' >> "$work/repo/crates.txt"
cp "$here/main.rt.txt" "$work/repo/crates/bench/src/main.rt"
touch "$work/repo/crates/bench/specs/Lib.antt" "$work/repo/crates/bench/proofs/Lib.antt"
cd "$work/repo"
git init -q .
cd crates/bench
RT_SECONDS=900 rt run --jobs 1 > build.log 2>&1 || { tail -30 build.log; exit 1; }
grep -E '^(list_of_locks|policy_bytes|first_row|no_row)' build.log
