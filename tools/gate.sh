#!/usr/bin/env bash
# Runs each part of the gate, shows its lines with the time so far, and adds up what passed.
#
# usage: gate.sh
set -u
cd "$(dirname "$0")/.." || exit 2
. tools/lib.sh

began=$(date +%s)
work=$(mktemp -d) || exit 2
log=$work/log
beside=
# What still runs beside is a process group of its own, and ends with the gate.
trap '[ -z "$beside" ] || kill -- "-$beside" 2> /dev/null; rm -rf "$work"' EXIT
# The lines of a part get their time here, and not once more in a script that it runs.
export STAMPED=yes

stamped() {
    STAMPED='' with_time "$began"
}

# part NAME COMMAND...: runs it and keeps the counts that it prints, in the prover's form and cargo's.
part() {
    local name=$1 status counts
    shift
    echo "== $name" | stamped
    "$@" 2>&1 | stamped | tee "$log"
    status=${PIPESTATUS[0]}
    counts=$(said | sed -nE 's/^([0-9]+) passed, ([0-9]+) failed$/\1 \2/p; s/^test result: .* ([0-9]+) passed; ([0-9]+) failed;.*/\1 \2/p' |
        awk '{ p += $1; f += $2 } END { print p + 0, f + 0 }')
    echo "$counts" >>"$work/counts"
    # A part that fails, or counts nothing, without saying so is one failure.
    if { [ "$status" -ne 0 ] && [ "${counts#* }" -eq 0 ]; } || [ "$counts" = "0 0" ]; then
        fail "$name FAILED (status $status)"
    fi
}

# What the last part printed, without the times.
said() {
    sed -E 's/^\[ *[0-9]+ s\] //' "$log"
}

# fail TEXT: one failure more.
fail() {
    echo "0 1" >>"$work/counts"
    echo "== $1" | stamped
}

# begin_beside COMMAND...: parts that run beside those that follow, on another core, till end_beside.
begin_beside() {
    set -m
    (
        log=$work/log-beside
        "$@"
    ) >"$work/beside" 2>&1 </dev/null &
    beside=$!
    set +m
}

# Shows what ran beside. Its lines have the times at which they came.
end_beside() {
    wait "$beside" || fail "the parts beside ended before the last of them (status $?)"
    beside=
    cat "$work/beside"
}

# The proofs, the must-fail edits, the tests and the program: plain rt ci over the whole checkout. A bad edit, which can't
# be applied, compiled or read, shows nothing of a promise: rt passes it, and the gate does not.
proofs() {
    local ok bad
    part "proofs, must-fail edits and programs" tools/prove.sh rt ci
    ok=$(said | grep '^rt: ok') || fail "rt ci did not say 'rt: ok'"
    bad=$(sed -nE 's/.*, ([0-9]+) bad.*/\1/p' <<<"$ok")
    [ -z "$bad" ] || fail "must-fail edits that are bad: $bad"
    # The page of benchmarks tells the time from nothing alone.
    case $ok in *"every proof and must-fail edit was done in this run"*) write_times ;; esac
}

# When each crate was proved, and when all was done, in seconds from the gate's start, for the page of benchmarks.
write_times() {
    mkdir -p target
    sed -nE 's/^\[ *([0-9]+) s\] rt: ([a-z0-9_]+) proved$/\2 \1/p; s/^\[ *([0-9]+) s\] rt: ok;.*/whole \1/p' "$log" >target/gate.times
}

# The checks that read files alone.
texts() {
    part "layout" tools/check-layout.sh
    part "the round as printed" tools/check-printed.sh
}

archives() {
    make --no-print-directory dist && echo "1 passed, 0 failed"
}

# cargo_over FOLDER COMMAND...: cargo in rust/, over the archive in that folder. Each has a build of its own.
cargo_over() {
    local settings=()
    [ "$1" = dist ] || settings=("CALMBAIZE_LIB_DIR=$PWD/$1" "CARGO_TARGET_DIR=$PWD/rust/target/${1##*/}")
    (cd rust && env "${settings[@]}" cargo "$2" --offline --release --quiet "${@:3}")
}

# compare FOLDER WORDS...: the comparing program over the archive in that folder.
compare() {
    cargo_over "$1" run --package compare -- "${@:2}"
}

# machine_code NAME FOLDER: the checks that run the archive in that folder.
machine_code() {
    part "$1: header's constants" tools/check-constants.sh "$2" dist
    part "$1: Rust tests" cargo_over "$2" test --workspace
    part "$1: comparison with the second implementation" compare "$2" all
    part "$1: cases" compare "$2" vectors "$PWD"/rust/compare/cases/*.txt
    part "$1: stack" tools/check-stack.sh "$2"
    part "$1: secrets" tools/check-secrets.sh "$2"
    part "$1: traces" tools/check-traces.sh "$2"
}

# The archive for x86-64-v3 and the other one, side by side.
both_archives() {
    if avx2; then
        begin_beside machine_code x86-64-v3 dist/x86-64-v3
    else
        echo "x86-64-v3: not run, since this processor has no AVX2" | stamped
    fi
    machine_code baseline dist
    part "comparison of the scalar C" compare dist --library baseline --calls 3000 all permute
    part "cases in the second implementation" compare dist --library reference vectors "$PWD"/rust/compare/cases/*.txt
    part "maskwalk" compare dist --maskwalk ../crates/maskwalk/out/maskwalk maskwalk
    [ -z "$beside" ] || end_beside
}

need rt '' && make --no-print-directory tools || exit 2
# A crate waits for those that it stands on, so the proofs leave a core free now and then.
begin_beside texts
proofs
end_beside
part "archives" archives
if [ -f dist/libcalmbaize.a ] && [ -f dist/x86-64-v3/libcalmbaize.a ]; then
    part "header" tools/check-header.sh dist
    part "install" tools/check-install.sh
    part "baseline: symbols" tools/check-archive.sh dist
    part "baseline: vector loops" tools/check-vectors.sh dist xmm
    part "x86-64-v3: symbols" tools/check-archive.sh dist/x86-64-v3
    part "x86-64-v3: vector loops" tools/check-vectors.sh dist/x86-64-v3 ymm
    both_archives
fi
awk '{ passed += $1; failed += $2 }
    END { printf "%d passed, %d failed\n", passed, failed; exit failed > 0 || passed == 0 }' "$work/counts"
