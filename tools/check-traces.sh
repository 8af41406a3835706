#!/bin/sh
# Where an answer tells whether a sale opens, or under which start a parcel does, the machine code may branch
# on that, and on nothing else that is secret: under every set of secrets with the same answers, such a call
# uses the same instructions and addresses, as valgrind's lackey writes them down.
#
# usage: check-traces.sh [FOLDER]
#
# FOLDER holds libcalmbaize.a, dist/ if it is not given.
set -u

root=$(cd "$(dirname "$0")/.." && pwd)
folder=${1:-$root/dist}
# shellcheck source=tools/lib.sh
. "$root/tools/lib.sh"
work_folder

command -v valgrind > /dev/null || cant_run "valgrind is missing: install Debian's package valgrind"
files "$folder/libcalmbaize.a"
# With -no-pie the trace has the file's addresses.
build traces "$folder/libcalmbaize.a" -g -no-pie
begin=$(nm "$work/traces" | sed -n 's/^0*\([0-9a-f]*\) T begin$/\1/p')
[ -n "$begin" ] || exit 2

# trace SET: the trace of each state goes to a file of the folder new, 1 and so on, and the answers to said.
# What the loader does before the first depends on random bytes behind the environment. Behind the last there is more.
trace() {
    rm -rf "$work/new"
    mkdir "$work/new"
    valgrind --tool=lackey --trace-mem=yes --log-fd=3 "$work/traces" "$1" 3>&1 > "$work/said" |
        awk -v folder="$work/new/" '/^I  0*'"$begin"',/ { close(file); n++; file = folder n } n && !/^==/ { print > file }'
    states=$(wc -l < "$work/said")
    [ "$states" -gt 0 ] && [ -s "$work/new/$((states + 1))" ] || cant_run "valgrind writes no trace"
}

# say_where SET STATE: in which function the trace leaves the first one.
say_where() {
    address=$(awk 'NR == FNR { first[NR] = $0; next }
        $0 != first[FNR] { print address; exit }
        /^I/ { address = $2; sub(/,.*/, "", address) }' "$work/first/$2" "$work/new/$2")
    echo "  under set $1 the trace is another one from $(addr2line -f -e "$work/traces" "$address" | head -n 1) on"
}

# same_traces SET: leaves a file for each state in which an answer is wrong or the trace not that of set 0.
same_traces() {
    state=0
    while read -r answers name; do
        state=$((state + 1))
        if [ "$answers" = wrong ]; then
            echo "  under set $1 a wrong answer: $name"
        elif ! cmp -s "$work/first/$state" "$work/new/$state"; then
            say_where "$1" "$state"
        else
            continue
        fi
        : > "$work/differs.$state"
    done < "$work/said"
}

trace 0
mv "$work/new" "$work/first"
ln -s first "$work/new"
same_traces 0
for set in 1 2 3 4; do
    trace "$set"
    same_traces "$set"
done
state=0
while read -r answers name; do
    state=$((state + 1))
    count "traces: $name" [ ! -e "$work/differs.$state" ]
done < "$work/said"
counted
