#!/bin/sh
# The archive has the calls that calmbaize.h declares and no other global name, calls nothing but C's
# memory functions, keeps no state, and has the permutation inlined.
#
# usage: check-archive.sh [FOLDER]
#
# FOLDER holds libcalmbaize.a, dist/ if it is not given.
set -eu

root=$(cd "$(dirname "$0")/.." && pwd)
archive=${1:-$root/dist}/libcalmbaize.a
# shellcheck source=tools/lib.sh
. "$root/tools/lib.sh"

files "$archive"
nm "$archive" > /dev/null || cant_run "nm can't read $archive"
calls=$(calls "$root/include/calmbaize.h") || exit 2
calls=$(echo "$calls" | sed 's/(.*//')

# result WHAT NAMES: passes where no name is given.
result() {
    if [ -z "$2" ]; then
        passed=$((passed + 1))
    else
        failed=$((failed + 1))
        echo "  failed: $1: $(echo "$2" | tr '\n' ' ')"
    fi
}

# Lines of nm: an address for what is defined, then a type, then a name.
symbols() {
    nm "$@" "$archive" | awk 'NF >= 2 && $(NF - 1) ~ /^[A-Za-z]$/ { print $(NF - 1), $NF }' | sort -u
}

names() {
    cut -d ' ' -f 2
}

all=$(symbols)
for call in $calls; do
    result "missing call" "$(echo "$all" | grep -qx "T $call" || echo "$call")"
done
# The compiler keeps the crates' own functions local to the archive, so every other global name is one
# too many: a program could call it, or have one of its own.
result "global beside the calls" "$(symbols --extern-only --defined-only | names |
    grep -vxF "$calls" || true)"
result "calls outside" "$(symbols --undefined-only | names |
    grep -vxE 'mem(cpy|set|move|cmp)|_GLOBAL_OFFSET_TABLE_' || true)"
# Data that can be written would be state kept between calls.
result "neither code nor constant" "$(symbols --defined-only | grep -v '^[TtRr] ' | names)"
# tools/compile.sh has it inlined, for one block and for four; a call for each block costs OPP a good part
# of its time.
result "left as a call" "$(symbols --defined-only | names | grep -E '^(permutation|lanes)' || true)"

counted
