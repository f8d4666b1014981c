#!/bin/sh
# bench/formats.sh [MEBIBYTES..]
#
# Times the proved reading of core modules, `wasm_format::read_module`, on modules of so many MiB, 1, 2, 4, 8 and 16 where
# no numbers are given, each of types, functions, globals, exports or data, and prints for each kind a table: the seconds
# that reading the file takes, those that reading the module in its bytes takes, MB/s, and the ratio of each row to the one
# before it. The program, bench/formats/main.rt.txt, is no crate of this repository: it is proved and built in a folder of
# its own, with copies of wasm_format and the crates below it and of what their checks have kept in out/. It needs python3
# and the kit's command `rt`.
set -eu

top=$(CDPATH='' cd -- "$(dirname -- "$0")/.." && pwd)
folder=$(mktemp -d)
trap 'rm -rf "$folder"' EXIT

mkdir -p "$folder/modules"
python3 "$top/bench/build.py" formats "$folder" wasm_format
python3 "$top/bench/formats.py" make "$folder/modules" "$@"
"$folder/crates/formats_bench/out/formats_bench" "$folder"/modules/*.wasm | python3 "$top/bench/formats.py" table
