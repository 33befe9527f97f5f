#!/bin/sh
# Measures the stack: of the call for C hosts how far below itself it writes, on the sheets of the benchmark and the sample
# sheets; of the programs `pair` and `replay` the least limit of the whole stack, in KiB, with which they run. It needs
# gcc and rustc, and is no part of the gate.
set -eu
root=$(cd "$(dirname "$0")/.." && pwd)
work=$(mktemp -d)
trap 'rm -rf "$work"' EXIT
"$root/bench/build.sh" "$work"
gcc -std=gnu11 -Wall -Wextra -Werror -O2 -pthread -I"$root/include" -o "$work/stack" "$root/bench/stack.c" "$work/libpairing.a"
"$work/stack" "$root"/samples/*.sheet "$work"/sheets/*.sheet

# The least limit with which a program ends well, in steps of 4 KiB: its input, and the command.
least() {
    input=$1 low=16 high=8192
    shift
    "$@" <"$input" >/dev/null
    while [ $((high - low)) -gt 4 ]; do
        middle=$(((low + high) / 2))
        if (ulimit -s "$middle" && exec "$@" <"$input") >/dev/null 2>&1; then high=$middle; else low=$middle; fi
    done
    echo "$high"
}

# Builds a program of the repository, which runs as it is built: with these arguments.
build() {
    name=$1
    shift
    (cd "$root/crates/$name" && rt run -- "$@" <stdin >"$work/log" 2>&1) || { tail -n 20 "$work/log"; exit 1; }
}

# What the shell says of a run that meets its limit is not shown.
large=$work/sheets/18-easy-128x256-4096.sheet
build pair
echo "pair: $(least "$large" "$root/crates/pair/out/pair" 2>/dev/null) KiB"
build replay "$root/samples/three_by_three.sheet"
echo "replay: $(least "$root/crates/replay/stdin" "$root/crates/replay/out/replay" "$large" 2>/dev/null) KiB"
