#!/bin/sh
# Prints the path of the program that the examples run, and says on the error stream which it is: that of this checkout,
# if it is built; or else an installed one, if it says that it is of this version and proved with this toolchain; or else
# that of this checkout, which bin/custody builds now.
# usage: examples/program.sh
set -eu
unset CDPATH
top=$(cd -- "$(dirname -- "$0")/.." && pwd)

# What --version prints of a program of this checkout, by its source.
version_here() {
    printf 'custody '
    sed -n '/^const LONG_VERSION/,/;$/{ /^const/d; s/";$//; p; }' "$top/crates/command_line/src/commands.rt"
}

# The installed program, if it is one of this version. A checkout's bin/custody is not installed: it might build first.
installed() {
    found=$(command -v custody) || return 1
    [ ! -e "$(dirname -- "$(readlink -f -- "$found")")/../tools/build" ] || return 1
    [ "$("$found" --version 2> /dev/null)" = "$(version_here)" ] || return 1
    echo "$found"
}

program=$top/bin/custody
if python3 -I -S "$top/tools/program.py"; then
    said='is built'
elif found=$(installed); then
    program=$found
    said='is installed and of this version'
else
    said='is built first: no other one of this version is installed'
fi
echo "The program is $program, which $said." >&2
if ! "$program" -V > /dev/null; then
    echo 'The program is not built: install its package, or put the command rt of the toolchain on the PATH.' >&2
    exit 1
fi
echo "$program"
