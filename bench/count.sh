#!/bin/sh
# Counts the instructions of one call on each sheet file of a folder, by callgrind, the proved call's and the plain one's.
# A count is the same in every run, where a time is not. Usage: bench/count.sh BENCH FOLDER, where BENCH is the program
# that bench/run.sh builds. It needs valgrind.
set -eu
bench=$1
work=$(mktemp -d)
trap 'rm -rf "$work"' EXIT

# What is collected is what runs inside the function of that name, and what it calls.
count() {
    valgrind --tool=callgrind --callgrind-out-file=/dev/null --collect-atstart=no --toggle-collect="$1" "$bench" "$2" "$3" 2>"$work/log" ||
        { cat "$work/log" >&2; exit 1; }
    sed -n 's/.*Collected : //p' "$work/log"
}

printf '%12s %12s\n' 'proved instr' 'plain instr'
for sheet in "$2"/*.sheet; do
    proved=$(count torwhisk_pair proved "$sheet")
    plain=$(count 'bench::plain::pair' plain "$sheet")
    printf '%12s %12s\n' "$proved" "$plain"
done
