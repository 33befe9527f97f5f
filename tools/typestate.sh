#!/bin/sh
# Each edit of tools/typestate/ misuses the states of the loader in a copy of the repository. The types must turn it
# away, with the error that its last line names, before anything is proved of the crate or run. `rt must-fail` calls such
# an edit a bad one, since it does not reach the prover: so it is tried here.
set -eu
root=$(cd "$(dirname "$0")/.." && pwd)
work=$(mktemp -d)
trap 'rm -rf "$work"' EXIT
tar -C "$root" --exclude=out -cf - crates crates.txt | tar -C "$work" -xf -
cd "$work"
status=0
for edit in "$root"/tools/typestate/*.edit; do
    name=$(basename "$edit" .edit)
    file=$(sed -n 's/^file: //p' "$edit")
    error=$(sed -n 's/^error: //p' "$edit")
    OLD=$(sed -n 's/^old: //p' "$edit") NEW=$(sed -n 's/^new: //p' "$edit") awk '
        { text = text $0 "\n" }
        END {
            at = index(text, ENVIRON["OLD"])
            if (!at) exit 3
            rest = substr(text, at + length(ENVIRON["OLD"]))
            if (index(rest, ENVIRON["OLD"])) exit 4
            printf "%s%s%s", substr(text, 1, at - 1), ENVIRON["NEW"], rest
        }' "$root/$file" >edited || { echo "$name: its old text does not stand once in $file"; status=1; continue; }
    cp edited "$file"
    if (cd crates/sheetfile && rt check --only=) >out 2>&1; then
        echo "$name: NOT REFUSED"
        status=1
    elif [ "$(grep -c ': error' out)" = 1 ] && grep -qF "$error" out; then
        echo "$name: refused, $error"
    else
        echo "$name: refused for another reason"
        tail -n 20 out
        status=1
    fi
    cp "$root/$file" "$file"
done
exit $status
