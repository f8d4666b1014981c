#!/bin/sh
# bench/syntax.sh [MEBIBYTES..]
#
# Times the proved reading of texts, `wit_syntax::parse_file`, on texts of so many MiB, 1, 2, 4 and 8 where no numbers
# are given, and prints a table of seconds and MB/s, with the ratio of each row to the one before it. The texts are the
# packages of crates/wit_syntax_rows/data, over and over. The program, bench/syntax/main.rt.txt, is no crate of this
# repository: it is proved and built in a folder of its own, with copies of wit_syntax and the crates below it and of what
# their checks have kept in out/ (1 to 2 GB; without them they are proved from nothing first). It needs python3 and the
# kit's command `rt`.
set -eu

top=$(CDPATH='' cd -- "$(dirname -- "$0")/.." && pwd)
folder=$(mktemp -d)
trap 'rm -rf "$folder"' EXIT

mkdir -p "$folder/texts"
python3 "$top/bench/build.py" syntax "$folder" wit_syntax
python3 "$top/bench/syntax.py" make "$top/crates/wit_syntax_rows/data" "$folder/texts" "$@"
"$folder/crates/syntax_bench/out/syntax_bench" "$folder"/texts/*.wit | python3 "$top/bench/syntax.py" table
