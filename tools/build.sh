#!/bin/sh
# Proves and builds the archive of the C functions and the programs, and puts them where the tests and callers look for
# them: target/staticlib/libtype_formula.a, and target/bin/NAME. With names, these alone.
set -eu
cd "$(dirname "$0")/.."
[ $# -gt 0 ] || set -- type_formula list_formula list_query print_agreement print_round_trip
for name; do
    case $name in
    type_formula)
        (cd "crates/$name" && rt lib)
        mkdir -p target/staticlib
        cp "crates/$name/out/lib$name.a" target/staticlib/
        ;;
    *)
        (cd "crates/$name" && rt run </dev/null >/dev/null)
        mkdir -p target/bin
        cp "crates/$name/out/$name" target/bin/
        ;;
    esac
done
