#!/bin/sh
# Builds the library for C hosts, and checks that it calls nothing but memcpy and memset, and has no instruction that x86-64-v2
# or AVX adds to x86-64. Builds the host of examples/host.c, runs it, and compares what it prints with examples/host.txt.
set -eu
root=$(cd "$(dirname "$0")/.." && pwd)
work=$(mktemp -d)
trap 'rm -rf "$work"' EXIT
"$root/tools/staticlib.sh" "$work"
nm -u -P "$work/libpairing.a" >"$work/undefined"
others=$(awk '!/:$/ && $1 != "memcpy" && $1 != "memset" { print $1 }' "$work/undefined")
[ -z "$others" ] || { echo "c_host: the library calls more than memcpy and memset:" $others; exit 1; }
# What x86-64-v2 adds (SSE3 to SSE4.2, popcnt, cmpxchg16b, lahf and sahf), and AVX, whose instructions begin with v.
later='addsubp[sd]|hadd|hsub|lddqu|mov(ddup|s[hl]dup)|pshufb|palignr|pabs[bwd]|phadd|phsub|phminposuw|pmaddubsw|pmulhrsw|psign'
later="$later|p?blend|dpp[sd]|extractps|insertps|mpsadbw|packusdw|pcmp(eq|gt)q|pcmp[ei]str|pextr[bdq]|pinsr[bdq]"
later="$later|p(max|min)(s[bd]|u[wd])|pmov[sz]x|pmuldq|pmulld|ptest|round[ps][sd]|crc32|popcnt"
later="$later|movntdqa|fisttp|cmpxchg16b|[ls]ahf|v[a-z]"
objdump -d "$work/libpairing.a" >"$work/code"
grep -q '<torwhisk_pair>:' "$work/code" || { echo "c_host: objdump shows no code of the call"; exit 1; }
if grep -E "[[:space:]]($later)" "$work/code"; then echo "c_host: the library needs a later processor"; exit 1; fi
gcc -std=c11 -Wall -Wextra -Werror -O2 -I"$root/include" -o "$work/host" "$root/examples/host.c" "$work/libpairing.a"
"$work/host" >"$work/out"
cmp "$work/out" "$root/examples/host.txt" || { cat "$work/out"; echo "c_host: the host printed something else"; exit 1; }
echo "c_host: the host printed what it should"
