#!/bin/sh
# Runs the prover and shows each crate and edit as it ends, with the time so far. Where it fails, all
# that it said follows.
#
# usage: prove.sh COMMAND...
#
# COMMAND is a call of rt or of rattle, in the folder where it is to run: prove.sh rt ci
set -u

# shellcheck source=tools/lib.sh
. "$(dirname "$0")/lib.sh"
need rt '' || exit 2
work_folder

{
    echo "${1##*/} $2"
    "$@" 2>&1
    echo $? > "$work/status"
} | tee "$work/log" |
    sed -uE '/^(== |library |statements |logic[ =]|crate |axioms |empty contracts: |checked |so far: |(\/[^ ]*: )?note: |fn |enum |struct |rt: rt check --fix-imports )/d' |
    with_time
status=$(cat "$work/status")
if [ "$status" -ne 0 ]; then
    echo "all that '${1##*/} $2' said:"
    # Set in, so that no count in it is taken for a result.
    sed 's/^/    /' "$work/log"
fi
exit "$status"
