#!/bin/sh
# The files are laid out as the formatters lay them out, and the linters find nothing. Each runs where
# it is installed, and those that are not are named.
#
# usage: check-layout.sh [FOLDER]
#
# FOLDER is a copy of the repository, this one if it is not given.
set -u

root=$(cd "$(dirname "$0")/.." && pwd)
folder=${1:-$root}
build=$root/rust/target/layout
log=$(mktemp) || exit 2
trap 'rm -f "$log"' EXIT
# shellcheck source=tools/lib.sh
. "$root/tools/lib.sh"

# run NAME PROBE COMMAND...: PROBE is a command that shows that it is installed.
run() {
    name=$1
    probe=$2
    shift 2
    if ! $probe > /dev/null 2>&1; then
        echo "  not installed: $name"
    elif "$@" > "$log" 2>&1; then
        passed=$((passed + 1))
    else
        failed=$((failed + 1))
        echo "  failed: $name"
        cat "$log"
    fi
}

# What rt fmt lays out; it has no check of its own.
rattle_files() {
    find crates/*/src crates/*/specs crates/*/proofs \( -name '*.rt' -o -name '*.antt' \) -exec rattle fmt --check {} +
}

clippy() {
    CALMBAIZE_LIB_DIR=$build/stand-in CARGO_TARGET_DIR=$build cargo clippy --offline --quiet \
        --workspace --all-targets -- -D warnings
}

# The wrapper's build asks for an archive, though nothing is linked.
"$root/tools/stand-in.sh" "$build/stand-in" || exit 2
cd "$folder" || exit 2
run "rattle fmt --check" "rattle --version" rattle_files
run "shellcheck" "shellcheck --version" shellcheck --severity=warning .ci/run tools/*.sh
cd rust || exit 2
run "cargo fmt --check" "cargo fmt --version" cargo fmt --all --check
run "cargo clippy" "cargo clippy --version" clippy

[ $((passed + failed)) -gt 0 ] || cant_run "none of them is installed"
counted
