#!/bin/sh
# Builds the library for C hosts and puts it into a folder, as libpairing.a. include/torwhisk.h declares its call.
# It is built for every x86-64 processor: rt's default is x86-64-v2, and its first instruction that a processor lacks would end
# the host.
set -eu
to=$(cd "$1" && pwd)
cd "$(dirname "$0")/../crates/pairing_c"
rt lib --cpu x86-64 >"$to/staticlib.log" 2>&1 || { tail -n 20 "$to/staticlib.log"; echo "staticlib: the library was not built"; exit 1; }
cp out/libpairing_c.a "$to/libpairing.a"
