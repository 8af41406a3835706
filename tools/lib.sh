#!/bin/sh
# What the scripts and the Makefile share, for them to read in.
#
# usage: . tools/lib.sh
#
# $root is the repository, this folder if it is not set.

# need PROGRAM PACKAGE: sees that a program is there, and installs its Debian package where it is not and
# that is allowed. PROGRAM may be pkg:NAME, for a package that has no program. An empty PACKAGE is one that
# Debian does not have.
need() {
    there "$1" && return
    if [ -n "$2" ] && [ "$(id -u)" = 0 ] && command -v apt-get > /dev/null 2>&1; then
        echo "installing Debian's package $2"
        { apt-get update && apt-get install -y --no-install-recommends "$2"; } > /dev/null 2>&1
        there "$1" && return
    fi
    if [ -n "$2" ]; then
        echo "$1 is missing: install Debian's package $2" >&2
    else
        echo "$1 is missing: it comes with the Rattle toolchain" >&2
    fi
    return 1
}

there() {
    case $1 in
    pkg:*) dpkg -s "${1#pkg:}" > /dev/null 2>&1 ;;
    *) command -v "$1" > /dev/null 2>&1 ;;
    esac
}

# Prints the folder of the prover's kit.
kit() {
    dirname "$(dirname "$(readlink -f "$(command -v rt)")")"
}

# Prints the version, which stands in rust/Cargo.toml.
version() {
    sed -n 's/^version = "\(.*\)"$/\1/p' "${root:-.}/rust/Cargo.toml"
}

# Whether this machine's processor can run the archive for x86-64-v3: what that asks for beside what older
# processors have; abm has lzcnt.
avx2() {
    for flag in avx avx2 bmi1 bmi2 f16c fma abm movbe; do
        grep -qw "$flag" /proc/cpuinfo 2> /dev/null || return
    done
}

# with_time [SINCE]: shows each line that it reads with the time so far, since a time in seconds since 1970:
# now if it is not given. Where STAMPED is set, a caller does so already, and they go on as they are.
with_time() {
    if [ -n "${STAMPED:-}" ]; then
        cat
        return
    fi
    since=${1:-$(date +%s)}
    while IFS= read -r line; do
        printf '[%4d s] %s\n' $(($(date +%s) - since)) "$line"
    done
}

# calls HEADER: prints the calls that calmbaize.h declares, one to a line with all its parameters. Fails where
# there is none.
calls() {
    awk '
        /^uint64_t calmbaize_[a-z0-9_]+\(/ { call = ""; inside = 1 }
        inside { call = call " " $0 }
        inside && /;/ {
            inside = 0
            gsub(/ +/, " ", call)
            sub(/^ uint64_t /, "", call)
            sub(/;.*/, "", call)
            print call
            found = 1
        }
        END { exit !found }
    ' "$1"
}

# Makes a folder for what a check writes, $work, which goes when the check ends.
work_folder() {
    work=$(mktemp -d) || exit 2
    trap 'rm -rf "$work"' EXIT
}

passed=0
failed=0

# count WHAT COMMAND...: counts what passed and what failed; WHAT is said where the command fails.
count() {
    what=$1
    shift
    if "$@"; then
        passed=$((passed + 1))
    else
        failed=$((failed + 1))
        echo "  failed: $what"
    fi
}

# A check ends with this: it says the counts, and fails where something did.
counted() {
    echo "$passed passed, $failed failed"
    [ "$failed" -eq 0 ]
}

# cant_run WHY: ends a check that could not run.
cant_run() {
    echo "$(basename "$0" .sh): $1" >&2
    exit 2
}

# files FILE...: what a check reads is there.
files() {
    for file in "$@"; do
        [ -f "$file" ] || cant_run "$file is missing: run make"
    done
}

# build PROGRAM ARCHIVE OPTIONS...: tools/PROGRAM.c with the calls of calls.c, over the archive, as
# $work/PROGRAM. Where OPTIONS do not lead to another header, it is the repository's.
build() {
    program=$1
    archive=$2
    shift 2
    "${CC:-cc}" -std=c99 -O1 -Wall -Wextra "$@" -I "$root/include" -I "$root/c" "$root/tools/$program.c" \
        "$root/tools/calls.c" "$root/c/baseline.c" "$archive" -o "$work/$program" || exit 2
}
