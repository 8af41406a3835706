#!/bin/sh
# No branch and no address depends on a secret: valgrind's memcheck on the archive's machine code.
#
# usage: check-secrets.sh [FOLDER] [VERDICT]
#
# FOLDER holds libcalmbaize.a, dist/ if it is not given. VERDICT is explained in secrets.c.
set -eu

root=$(cd "$(dirname "$0")/.." && pwd)
folder=${1:-$root/dist}
# shellcheck source=tools/lib.sh
. "$root/tools/lib.sh"
work_folder

if ! command -v valgrind > /dev/null ||
    ! echo '#include <valgrind/memcheck.h>' | "${CC:-cc}" -E - > /dev/null 2>&1; then
    cant_run "valgrind is missing: install Debian's package valgrind"
fi
files "$folder/libcalmbaize.a"
build secrets "$folder/libcalmbaize.a" -g
status=0
valgrind --quiet --error-limit=no --log-file="$work/log" "$work/secrets" ${2:+"$2"} > "$work/counts" ||
    status=$?
cat "$work/counts"
[ "$status" -eq 0 ] || sed -n 1,40p "$work/log" >&2
# Where valgrind itself can't run, it ends with 1 too.
grep -q ' failed$' "$work/counts" || exit 2
exit "$status"
