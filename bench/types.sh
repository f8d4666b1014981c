#!/bin/sh
# bench/types.sh [NUMBER..]
#
# Times the proved program where functions are those of interfaces, over types with names: interfaces of so many functions,
# 10 to 10,000 where no numbers are given, worlds of so many interfaces of which each uses a type of the one before it, up to
# 5,000, and records of so many fields. Prints tables of seconds, with the ratio of each row to the one before it. It needs
# python3, and the kit's command `rt` where the program isn't built yet. Inputs and outputs stand in a folder of its own, which
# is removed at the end.
set -eu

exec "$(dirname -- "$0")/program.sh" types "$@"
