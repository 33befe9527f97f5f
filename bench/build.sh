#!/bin/sh
# Builds the library for C hosts and the benchmark's program into a folder, and writes the sheets of the table to its
# subfolder `sheets`. It needs rustc.
set -eu
root=$(cd "$(dirname "$0")/.." && pwd)
"$root/tools/staticlib.sh" "$1"
rustc -O --edition 2024 -o "$1/bench" "$root/bench/bench.rs" -C link-arg="$1/libpairing.a"
mkdir "$1/sheets"
"$1/bench" sheets "$1/sheets"
