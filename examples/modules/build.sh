#!/bin/sh
# Makes the modules of this folder again; they are kept, so that nothing here needs a C compiler.
set -e
cd "$(dirname "$0")"
flags="--target=wasm32 -O1 -nostdlib -Wl,--no-entry"
clang $flags -o counter.wasm counter.c
clang $flags -o choose.wasm choose.c
clang $flags -o drawing.wasm drawing.c
clang $flags -Wl,--import-memory -o counter_of_outer_memory.wasm counter.c
clang $flags -Wl,--import-table -o choose_of_outer_table.wasm choose.c
