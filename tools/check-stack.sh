#!/bin/sh
# The deepest stack of each call that calmbaize.h declares is within what it states.
#
# usage: check-stack.sh [FOLDER]
#
# FOLDER holds libcalmbaize.a, dist/ if it is not given.
set -eu

root=$(cd "$(dirname "$0")/.." && pwd)
folder=${1:-$root/dist}
# shellcheck source=tools/lib.sh
. "$root/tools/lib.sh"
work_folder

files "$folder/libcalmbaize.a"
names=$(calls "$root/include/calmbaize.h") || exit 2
# C's memory functions are bound when the program starts: binding in a call would take of its stack.
build stack "$folder/libcalmbaize.a" -Wl,-z,now
# Names are words.
# shellcheck disable=SC2046
"$work/stack" $(echo "$names" | sed 's/^calmbaize_//; s/(.*//')
