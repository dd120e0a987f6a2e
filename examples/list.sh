#!/bin/sh
# Prints the formula of the last node of an expression file. If the listing program is missing, or
# older than a source file, it is proved and built first, and standard error shows what is proved.
set -eu
if [ $# -ne 1 ]; then
    echo "usage: sh examples/list.sh FILE" >&2
    exit 2
fi
exec 3<"$1"
cd "$(dirname "$0")/.."
program=target/bin/list_formula
if [ ! -x $program ] || [ -n "$(find crates crates.txt -name out -prune -o -type f -newer $program -print)" ]; then
    (cd crates/list_formula && rt run </dev/null >/dev/null)
    mkdir -p target/bin
    cp crates/list_formula/out/list_formula $program
fi
exec $program <&3
