#!/bin/sh
# Times the calls of crates/tables on locks beside the C library's, in one run, and holds them to two bars:
# a look-up, a window and a new lock at 100,000 locks cost at most 4 times what they cost at 100,
# and a new lock costs at most 2 times the C library's. It wants rt, and for the peer cc and sqlite3.h (libsqlite3-dev).
# Where the C shell sqlite3 is there, it also reads the file that was made: its integrity check has to say ok, and its schema to be schema.sql.
set -eu
here=$(cd "$(dirname "$0")" && pwd)
top=$(cd "$here/../.." && pwd)
work=$(mktemp -d)
trap 'rm -rf "$work"' EXIT
mkdir -p "$work/repo/crates/bench/src" "$work/repo/crates/bench/specs" "$work/repo/crates/bench/proofs"
for crate in names schema_compare typed_rows tables; do cp -r "$top/crates/$crate" "$work/repo/crates/"; done
grep -E '^(names|schema_compare|typed_rows|tables):' "$top/crates.txt" > "$work/repo/crates.txt"
echo 'bench: names tables sqlite anyhow' >> "$work/repo/crates.txt"
cp "$here/main.rt.txt" "$work/repo/crates/bench/src/main.rt"
touch "$work/repo/crates/bench/specs/Lib.antt" "$work/repo/crates/bench/proofs/Lib.antt"
cd "$work/repo"
git init -q .
cd crates/bench
RT_SECONDS=900 rt run --jobs 1 > build.log 2>&1 || { tail -5 build.log; exit 1; }
grep '^rattle ' build.log | grep filled | tee times
if cc -O2 -o peer "$here/peer.c" -lsqlite3 2> /dev/null; then
    ./peer | tee -a times
else
    echo "the peer did not run: no C compiler, or no sqlite3.h"
fi
if command -v sqlite3 > /dev/null; then
    check=$(sqlite3 bench.db 'PRAGMA integrity_check')
    echo "integrity_check by sqlite3 $(sqlite3 --version | cut -d' ' -f1): $check"
    [ "$check" = ok ]
    sqlite3 bench.db .schema | diff - "$here/schema.sql" && echo "the schema is schema.sql"
    sqlite3 bench.db 'SELECT one, version FROM meta; SELECT count(*), max(id) FROM locks; SELECT made FROM repos'
else
    echo "sqlite3 did not run: it is not installed"
fi
awk '
    { for (i = 3; i < NF; i += 2) t[$1, $2, $i] = $(i + 1) }
    END {
        bad = 0
        n = split("found_ns window_ns new_ns", names, " ")
        for (i = 1; i <= n; i++) {
            r = t["rattle", 100000, names[i]] / t["rattle", 100, names[i]]
            printf "%s at 100,000 locks over 100: %.2f\n", names[i], r
            if (r > 4) bad = 1
        }
        if (("c", 100000, "new_ns") in t) {
            r = t["rattle", 100000, "new_ns"] / t["c", 100000, "new_ns"]
            printf "a new lock over the C library: %.2f\n", r
            if (r > 2) bad = 1
        }
        exit bad
    }' times
