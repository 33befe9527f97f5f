#!/bin/sh
# Runs `inspect` and `pair` on each sample sheet, and `replay` on each sample log. They must print what stands beside the
# sample: in the .txt (`inspect`), the .pair.txt (`pair`), the .log.txt (`replay`). Each ends with status 1 if that is a
# refusal or a line that is not understood, else with 0. A log is replayed over the sheet of its name, or over
# three_by_three.sheet if there is none. What `rt ci` gives the three programs to read must be that sheet too.
# The first run of each program builds it. With --built, as the gate calls it once `rt ci` has passed, a program that `rt ci`
# built is taken as it is, unless a file that it may be made of was touched since.
set -eu
root=$(cd "$(dirname "$0")/.." && pwd)
samples=$root/samples
good=$samples/three_by_three.sheet
work=$(mktemp -d)
trap 'rm -rf "$work"' EXIT
count=0 failed=0
built=${1-}

# Whether the program is built, and no file that it may be made of was touched since. -cnewer sees one that kept its time too.
stands() {
    [ -x "$run" ] && [ -z "$(find "$root/crates" "$root/crates.txt" -name out -prune -o -type f -cnewer "$run" -print -quit)" ]
}

# build PROGRAM [ARGUMENT]: has the program built. Unless it is taken as rt ci left it, rt run builds it and runs it once: on a
# good sheet, or on an empty log with the sheet as its argument.
build() {
    program=$1
    run=$root/crates/$program/out/$program
    if [ "$built" = --built ] && stands; then return; fi
    if [ $# = 1 ]; then input=$good; else input=/dev/null; fi
    shift
    (cd "$root/crates/$program" && rt run -- "$@" <"$input") >"$work/built" 2>&1 && [ -x "$run" ] || {
        tail -n 20 "$work/built"
        echo "samples: $program was not built"
        exit 1
    }
}

# try SAMPLE TOLD [ARGUMENT]: the program that was built last, on this sample.
try() {
    sample=$1 told=$2
    shift 2
    case $(head -n 1 "$told") in refused* | calls\ refused* | *not\ understood) wanted=1 ;; *) wanted=0 ;; esac
    status=0
    "$run" "$@" <"$sample" >"$work/out" 2>"$work/errors" || status=$?
    count=$((count + 1))
    if [ "$status" != "$wanted" ] || ! cmp -s "$work/out" "$told"; then
        echo "samples: $program on $(basename "$sample"): status $status, and it printed"
        cat "$work/out"
        failed=$((failed + 1))
    fi
}

for copy in inspect/stdin pair/stdin replay/data/three_by_three.sheet; do
    cmp "$root/crates/$copy" "$good" || { echo "samples: crates/$copy is another sheet"; exit 1; }
done
build inspect
for sheet in "$samples"/*.sheet; do try "$sheet" "${sheet%.sheet}.txt"; done
build pair
for sheet in "$samples"/*.sheet; do try "$sheet" "${sheet%.sheet}.pair.txt"; done
build replay "$good"
for log in "$samples"/*.log; do
    sheet=${log%.log}.sheet
    [ -e "$sheet" ] || sheet=$good
    try "$log" "$log.txt" "$sheet"
done
echo "samples: $count tried, $failed failed"
[ "$count" -gt 0 ] && [ "$failed" = 0 ]
