#!/bin/sh
# bench/components.sh [DEFINITIONS..]
#
# Times the proved reading and writing of components, `component_sections::read_definitions` and
# `component_builder::ComponentBuilder`, on components of so many definitions, 1,000 doubled up to 128,000 where no numbers
# are given, and on components of one core module of 1, 4 and 16 MiB. It prints for each kind a table: the seconds of reading
# the bytes, of adding the definitions to a builder and finishing them, and of writing them to a file and to /dev/null, MB/s,
# and the ratio of each row to the one before it; core modules beside a copy of the same file, in one process and as processes
# of their own. The program, bench/components/main.rt.txt, is no crate of this repository: it is proved and built in a folder
# of its own, with copies of component_builder and the crates below it and of what their checks have kept in out/ (1 to 2 GB;
# without them they are proved from nothing first). It needs python3 and the kit's command `rt`.
set -eu

top=$(CDPATH='' cd -- "$(dirname -- "$0")/.." && pwd)
folder=$(mktemp -d)
trap 'rm -rf "$folder"' EXIT

mkdir -p "$folder/components"
python3 "$top/bench/build.py" components "$folder" component_builder component_sections anyhow
python3 "$top/bench/components.py" make "$folder/components" "$@"
python3 "$top/bench/components.py" tables "$folder/crates/components_bench/out/components_bench" "$folder"
