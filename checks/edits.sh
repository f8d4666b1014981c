#!/bin/sh
# checks/edits.sh [CRATE..]
#
# Tries the wrong bodies of checks/edits/CRATE, of these crates or of all, in a copy of the repository, without what checks
# have kept in out/: `rt` finds that where it is. The prover has to refuse each. They have the form of those in
# crates/CRATE/must-fail, which `rt ci` tries. Prints a line for each edit and how many were refused, and ends with 1 where
# one wasn't.
set -u

top=$(CDPATH='' cd -- "$(dirname -- "$0")/.." && pwd) || exit 1
folder=$(mktemp -d) || exit 1
trap 'rm -rf "$folder"' EXIT

tar -C "$top" -cf - --exclude=out --exclude=must-fail crates crates.txt HANDLES | tar -C "$folder" -xf - || exit 1
[ $# -gt 0 ] || set -- $(ls "$top/checks/edits")
for crate in "$@"; do
    cp -R "$top/checks/edits/$crate" "$folder/crates/$crate/must-fail" || exit 1
done

cd "$folder" || exit 1
refused=0
others=0
for crate in "$@"; do
    wanted=$(ls "crates/$crate/must-fail" | wc -l)
    rt must-fail "$crate" >"$folder/log" 2>&1
    sed -n "s/^rt: must-fail //p" "$folder/log"
    found=$(grep -c '^rt: must-fail .*: refused, as it must be' "$folder/log")
    if [ "$found" -ne "$wanted" ]; then
        grep -v '^rt: must-fail .*: refused' "$folder/log" | tail -n 5 >&2
    fi
    refused=$((refused + found))
    others=$((others + wanted - found))
done
echo "$refused refused, $others not"
[ "$others" -eq 0 ]
