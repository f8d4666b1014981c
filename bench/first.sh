#!/bin/sh
# bench/first.sh [NUMBER..]
#
# Times the proved program on worlds of so many functions, 100 to 3,200 where no numbers are given, and on large
# modules, and prints tables of seconds, with the ratio of each row to the one before it. It needs python3, and the
# kit's command `rt` where the program isn't built yet. Inputs and outputs stand in a folder of its own, which is
# removed at the end.
set -eu

exec "$(dirname -- "$0")/program.sh" first "$@"
