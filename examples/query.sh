#!/bin/sh
# Prints the formula of a query typed as text, over so many relations. If the program is missing, or
# older than a source file, it is proved and built first, and standard error shows what is proved.
set -eu
if [ $# -ne 2 ]; then
    echo "usage: sh examples/query.sh RELATIONS TEXT" >&2
    exit 2
fi
cd "$(dirname "$0")/.."
program=target/bin/list_query
if [ ! -x $program ] || [ -n "$(find crates crates.txt -name out -prune -o -type f -newer $program -print)" ]; then
    (cd crates/list_query && rt run </dev/null >/dev/null)
    mkdir -p target/bin
    cp crates/list_query/out/list_query $program
fi
exec $program "$1" "$2"
