#!/usr/bin/env bash
# checks/cost.sh [CRATE..]
#
# Measures what the proof of each crate costs, of these and those below them or of all, in processor seconds: each is
# checked from nothing at one job, in a copy of the repository, lowest first. Times rise while the machine is busy. A
# crate of tests is checked with its tests. That takes about an hour; docs/PERFORMANCE.md has the table, and says what the
# gate costs besides.
set -eu

top=$(CDPATH='' cd -- "$(dirname -- "$0")/.." && pwd)
folder=$(mktemp -d)
trap 'rm -rf "$folder"' EXIT

cp -R "$top/crates" "$top/crates.txt" "$top/HANDLES" "$folder"
rm -rf "$folder"/crates/*/out

# The crates, each behind those that it stands on.
order=$(awk -F: '
    { name = $1; sub(/ .*/, "", name); below[name] = $2; names[NR] = name }
    function visit(name,   parts, count, i) {
        if (!(name in below) || name in seen) return
        seen[name] = 1
        count = split(below[name], parts, " ")
        for (i = 1; i <= count; i++) visit(parts[i])
        print name
    }
    END {
        if (wanted == "") for (i = 1; i <= NR; i++) visit(names[i])
        count = split(wanted, given, " ")
        for (i = 1; i <= count; i++) visit(given[i])
    }
' wanted="$*" "$folder/crates.txt")

TIMEFORMAT='%U %S'
total=0
for crate in $order; do
    cd "$folder/crates/$crate"
    flags=$(grep -q '#\[test\]' src/*.rt && echo --test || true)
    if ! took=$({ time rt check --jobs 1 $flags >"$folder/log" 2>&1; } 2>&1); then
        tail -n 5 "$folder/log" >&2
        exit 1
    fi
    seconds=$(echo "$took" | awk '{ printf "%.0f", $1 + $2 }')
    functions=$(sed -n 's/^logic=proved.* functions=\([0-9]*\).*/\1/p' "$folder/log" | tail -n 1)
    total=$((total + seconds))
    printf '%-26s %4s functions %5s s\n' "$crate" "$functions" "$seconds"
done
printf '%-26s %14s %5s s\n' together '' "$total"
