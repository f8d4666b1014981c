#!/bin/sh
# bench/program.sh NAME [WORD..]
#
# Runs bench/NAME.py, which times the proved program, with the program's path, a folder of its own for inputs and
# outputs, which is removed at the end, and the words.
set -eu

script=$1
shift
top=$(CDPATH='' cd -- "$(dirname -- "$0")/.." && pwd)
program=$top/crates/component_linker_program/out/component_linker_program

# Without words the program runs its own example, so this only builds it where it is missing or old.
"$top/component_linker" >/dev/null
folder=$(mktemp -d)
trap 'rm -rf "$folder"' EXIT
python3 "$top/bench/$script.py" "$program" "$folder" "$@"
