#!/bin/sh
# bench/package.sh [COUNTS..]
#
# Times what a package is resolved to, `wit_package::resolved_files`, beside the reading of its text, on packages that
# bench/package.py makes: so many interfaces in a chain, types in one interface, cases of one enum, uses of one type and
# more, 1,000 to 16,000 where no counts are given. Prints a table of seconds and MB/s, with the ratio of each row to the one
# before it, and, where there is valgrind, one of the instructions of the same. The program, bench/package/main.rt.txt, is no
# crate of this repository: it is built in a folder of its own, with copies of wit_package and the crates below it and of what
# their checks have kept in out/ (several GB; without them they are proved from nothing first). It needs python3 and the kit's
# command `rt`.
set -eu

top=$(CDPATH='' cd -- "$(dirname -- "$0")/.." && pwd)
folder=$(mktemp -d)
trap 'rm -rf "$folder"' EXIT

mkdir -p "$folder/texts"
python3 "$top/bench/build.py" package "$folder" wit_package wit_rules wit_types wit_syntax
python3 "$top/bench/package.py" make "$folder/texts" "$@"
program="$folder/crates/package_bench/out/package_bench"
"$program" "$folder"/texts/*.wit | python3 "$top/bench/package.py" table
if command -v valgrind >/dev/null; then
    echo
    python3 "$top/bench/package.py" count "$program" "$folder"/texts/*.wit
fi
