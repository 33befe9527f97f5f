#!/bin/sh
# Builds the benchmark and prints its table as README.md has it. It needs rustc, and is no part of the gate. Where valgrind
# is installed the table has instructions beside the times, and where scipy is, LAPJV's times.
set -eu
root=$(cd "$(dirname "$0")/.." && pwd)
work=$(mktemp -d)
trap 'rm -rf "$work"' EXIT
"$root/bench/build.sh" "$work"
"$work/bench" compare
"$work/bench" table >"$work/times"
set -- "$work/times"
if command -v valgrind >/dev/null; then
    "$root/bench/count.sh" "$work/bench" "$work/sheets" >"$work/counts"
    set -- "$@" "$work/counts"
fi
if /usr/bin/python3 -c 'import scipy' 2>/dev/null; then
    /usr/bin/python3 "$root/bench/lapjv.py" "$work/bench" "$work/sheets" >"$work/lapjv"
    set -- "$@" "$work/lapjv"
fi
paste -d ' ' "$@"
