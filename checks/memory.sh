#!/bin/sh
# checks/memory.sh
#
# Refuses each request for memory in turn, from the first on, until a run meets no refusal: in a block of rows of `linking_rows`,
# whose session is asked once more where memory was refused, so that they are to be answered as ever each time, or not at all
# where the refused request isn't one of a session; and in the program, which is to give its whole answer, or
# `error: out of memory`, status 1 and no answer. It needs a C compiler, cc, for the library that refuses, and the kit's
# command `rt` where the program isn't built yet.
set -u

top=$(CDPATH='' cd -- "$(dirname -- "$0")/.." && pwd) || exit 2
crates=$top/crates
program=$crates/component_linker_program/out/component_linker_program
rows=$crates/linking_rows/out/linking_rows
example=$top/examples/first
folder=$(mktemp -d) || exit 2
trap 'rm -rf "$folder"' EXIT

fail() {
    printf 'checks/memory.sh: %s\n' "$1" >&2
    exit 1
}

# refused N WORD..: runs the words with the Nth request refused, and says whether one was
refused() {
    rm -f "$folder/note"
    at=$1
    shift
    REFUSE_AT=$at REFUSE_NOTE=$folder/note LD_PRELOAD=$folder/refuse.so "$@" >"$folder/out" 2>"$folder/err"
    status=$?
    [ -e "$folder/note" ]
}

# check_rows HEADING: the first block of rows under this heading
check_rows() {
    for file in stdin stdout; do
        awk -v RS= -v heading="## $1" 'index($0, heading "\n") == 1 { print; exit }' "$crates/linking_rows/$file" >"$folder/$file"
    done
    [ -s "$folder/stdin" ] || fail "there are no rows under $1"
    at=1
    answered=0
    while refused "$at" "$rows" <"$folder/stdin"; do
        if [ "$status" -eq 0 ]; then
            cmp -s "$folder/stdout" "$folder/out" || fail "$1, where request $at is refused: $(cat "$folder/out")"
            answered=$((answered + 1))
        else
            [ "$status" -eq 1 ] || fail "$1: status $status where request $at is refused"
            [ ! -s "$folder/out" ] || fail "$1: a part of the answer where request $at is refused"
        fi
        at=$((at + 1))
    done
    [ "$status" -eq 0 ] || fail "$1: status $status where nothing is refused"
    cmp -s "$folder/stdout" "$folder/out" || fail "$1, where nothing is refused: $(cat "$folder/out")"
    [ "$answered" -gt 0 ] || fail "$1: no request of a session was refused"
    echo "$1: $((at - 1)) requests, $answered of them a session's, ok"
}

# check_program ANSWER WORD..: the answer is a file
check_program() {
    answer=$1
    shift
    at=1
    while refused "$at" "$program" "$@"; do
        if [ "$status" -eq 0 ]; then
            cmp -s "$answer" "$folder/out" || fail "$1: another answer where request $at is refused"
        else
            [ "$status" -eq 1 ] || fail "$1: status $status where request $at is refused"
            [ ! -s "$folder/out" ] || fail "$1: a part of the answer where request $at is refused"
            [ "$(cat "$folder/err")" = 'error: out of memory' ] || fail "$1: request $at: $(cat "$folder/err")"
        fi
        at=$((at + 1))
    done
    [ "$status" -eq 0 ] || fail "$1: status $status where nothing is refused"
    cmp -s "$answer" "$folder/out" || fail "$1: another answer where nothing is refused"
    [ "$at" -gt 1 ] || fail "$1: no request was refused"
    echo "$1: $((at - 1)) requests, ok"
}

cc -O1 -shared -fPIC -o "$folder/refuse.so" "$top/checks/refuse.c" -ldl || exit 2
"$top/component_linker" >"$folder/log" || exit 2
(cd "$crates/linking_rows" && rt run </dev/null) >"$folder/log" 2>&1 || fail "$(tail -n 20 "$folder/log")"

check_rows 'An imported function'
check_rows 'An exported function'

printf 'import main $root f lower $root f - - - - -\n' >"$folder/links"
printf 'yes\n' >"$folder/audit"
{
    printf '\0asm\015\0\001\0\007\005\001\100\0\001\0\012\006\001\0\001f\001\0\001\033'
    cat "$example/m.wasm"
    printf '\010\005\001\001\0\0\0\002\022\002\001\001\001f\0\0\0\0\001\005$root\022\0'
} >"$folder/build"
for action in links build audit; do
    component=
    [ "$action" != audit ] || component=component=$folder/build
    # An absent component is no word.
    check_program "$folder/$action" "$action" --world w "text=$example/a.wit" "main==$example/m.wasm" \
        ${component:+"$component"}
done

# A world over two packages, with a feature.
two=$top/examples/two_packages
for name in show tint toggle; do
    printf 'import main $root %s lower $root %s - - - - -\n' "$name" "$name"
done >"$folder/two"
printf 'export main $root tick core main tick - - - - -\n' >>"$folder/two"
check_program "$folder/two" links --world lamp --features colours "text=$two/lamp.wit" "dep=$two/house.wit" \
    "main==$two/lamp.wasm"
