#!/bin/sh
# Prints the instructions of one call of each operation and its alternatives as a markdown table,
# and those of the engine and of the hand-written code as nodes double and as the text of a query
# doubles. Edit and Preview exchange the node in the middle of the file for itself; the copy beside
# Edit is one of the file, so that Preview can be compared with Verdict and that copy. Sizes are
# those of the benchmark: a number of nodes, so many with an untypable last node, relations that the
# fewest subsets fill (fewest) or that others must be sought for (coverofthree, coverofeight,
# coverofdense), 64 nodes of which most are unions (64unionsofeight, 64unionsofone), or 64 nodes
# with 255 ordinary attributes in three lists (64x255) or with one in each list (64x255each); of a
# query a number of bytes, E1 (24), 63 prefixes (191deep), or lists of 15 attributes (512lists).
# Each is counted by callgrind for two numbers of calls; the difference divided by that of the calls
# leaves out what comes before them. A copy by one repeated instruction counts as an instruction for
# each byte.
set -eu
cd "$(dirname "$0")"
few=5 many=25
cargo build --release --offline --quiet --bin benchmark
program=${CARGO_TARGET_DIR:-target}/release/benchmark

# The instructions of a run, given operation, size, number of calls and implementation.
instructions() {
    valgrind --tool=callgrind --callgrind-out-file=/dev/null \
        "$program" once "$1" "$2" "$3" "$4" 2>&1 | awk '/Collected/ { print $NF }'
}

# The instructions of one call, or - where there is no such call.
per_call() {
    "$program" once "$1" "$2" 1 "$3" 2>/dev/null || { echo -; return; }
    of_many=$(instructions "$1" "$2" $many "$3") of_few=$(instructions "$1" "$2" $few "$3")
    echo $(((of_many - of_few) / (many - few)))
}

# The sizes at which an operation is counted.
sizes() {
    case $1 in
        formula) echo 7 64 64unionsofeight 64unionsofone ;;
        verdict | edit | preview)
            echo 7 7untypable 64 64untypable fewest coverofthree coverofeight coverofdense ;;
        parsequery) echo 24 191deep 512lists 512 ;;
        *) echo 7 64 64x255 64x255each ;;
    esac
}

echo "| Operation | size | engine | other implementation | hand-written | copy |" \
    "copy by a 64-bit loop |"
echo "|---|---|---|---|---|---|---|"
for operation in formula verdict edit preview typing apply recover parsequery; do
    for size in $(sizes $operation); do
        row="| $operation | $size |"
        for by in engine reference words copy copyloop; do
            row="$row $(per_call $operation "$size" $by) |"
        done
        echo "$row"
    done
done

# A table of the engine and of the hand-written code, given what doubles, the sizes and the
# operations.
doubling() {
    head="| $1 |" line="|---|"
    for operation in $3; do
        head="$head $operation, engine | $operation, hand-written |" line="$line---|---|"
    done
    echo
    echo "$head"
    echo "$line"
    for size in $2; do
        row="| $size |"
        for operation in $3; do
            for by in engine words; do
                row="$row $(per_call "$operation" "$size" $by) |"
            done
        done
        echo "$row"
    done
}

doubling n "8 16 32 64" "formula verdict edit preview typing apply recover"
doubling "bytes of text" "32 64 128 256 512" parsequery
