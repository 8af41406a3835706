#!/bin/sh
# Each constant of calmbaize.h says what the archive does, and each has a check.
#
# usage: check-constants.sh [FOLDER [INCLUDE]]
#
# FOLDER holds the archive, dist/ if it is not given, and INCLUDE the header, FOLDER if it is not given.
set -u

root=$(cd "$(dirname "$0")/.." && pwd)
folder=${1:-$root/dist}
include=${2:-$folder}
# shellcheck source=tools/lib.sh
. "$root/tools/lib.sh"
work_folder
# What these state is no answer of a call: the checks of the header, of the stack and of what is
# installed hold them.
elsewhere='CALMBAIZE_(H|VERSION(_[A-Z]+)?|NODISCARD|[A-Z_]+_STACK_BYTES|FORMAT)'

files "$folder/libcalmbaize.a" "$include/calmbaize.h"
build constants "$folder/libcalmbaize.a" -I "$include"
"$work/constants" > "$work/log" || exit 2

sed -nE 's/^[[:space:]]*#[[:space:]]*define[[:space:]]+(CALMBAIZE_[A-Za-z0-9_]+).*/\1/p' \
    "$include/calmbaize.h" | grep -vxE "$elsewhere" | sort -u > "$work/names"
sed 's/^[a-z]* //' "$work/log" | sort -u > "$work/tried"
{
    sed -n 's/^failed /not what the archive does: /p' "$work/log"
    comm -23 "$work/names" "$work/tried" | sed 's/^/no check: /'
} > "$work/failed"
sed 's/^/  failed: /' "$work/failed"

passed=$(grep -c '^held ' "$work/log")
failed=$(($(wc -l < "$work/failed")))
counted
