#!/bin/sh
# bench/graph.sh [COUNTS..]
#
# Times what comes into a graph, `wit_resolution::Resolve::push_source`, beside the resolving of its text, on packages that
# bench/graph.py makes: so many interfaces in a chain of uses, in one package and over a hundred, with worlds that need all of
# them; so many worlds that one includes; so many functions that a world imports; and more, 1,000 to 16,000 where no counts are
# given. Times also what the names take by which core modules import functions of the last world, the standard's and the older
# ones: making what core modules may import of it, `wit_resolution::Resolve::core_imports`, reading each name by one look-up, and
# letting that go. Prints a table of seconds, with the ratio of each row to the one before it. The program,
# bench/graph/main.rt.txt, is no crate of this repository: it is built in a folder of its own, with copies of wit_resolution and
# the crates below it and of what their checks have kept in out/ (several GB; without them they are proved from nothing first).
# It needs python3 and the kit's command `rt`.
set -eu

top=$(CDPATH='' cd -- "$(dirname -- "$0")/.." && pwd)
folder=$(mktemp -d)
trap 'rm -rf "$folder"' EXIT

mkdir -p "$folder/texts"
python3 "$top/bench/build.py" graph "$folder" wit_resolution wit_package wit_types
python3 "$top/bench/graph.py" make "$folder/texts" "$@"
"$folder/crates/graph_bench/out/graph_bench" "$folder"/texts/*.wit | python3 "$top/bench/graph.py" table
