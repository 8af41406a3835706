#!/bin/sh
# Tries the must-fail edits of one crate, or some of them, and shows the first error of each: it must be
# a fact that failed. It begins with what `rt check` kept in the crate's folder.
#
# usage: try-edits.sh CRATE [EDIT...]
set -eu

root=$(cd "$(dirname "$0")/.." && pwd)
crate=$1
shift
cd "$root"
[ $# -gt 0 ] || exec rt must-fail "$crate"
for name in "$@"; do
    [ -f "crates/$crate/must-fail/$name.edit" ] || {
        echo "try-edits: $crate has no edit $name" >&2
        exit 2
    }
done

work=$(mktemp -d)
trap 'rm -rf "$work"' EXIT
tar -cf - --exclude=out crates.txt crates | tar -xf - -C "$work"
cd "$work"
for edit in "crates/$crate"/must-fail/*.edit; do
    name=${edit##*/}
    case " $* " in
    *" ${name%.edit} "*) ;;
    *) rm "$edit" ;;
    esac
done
rt must-fail "$crate"
