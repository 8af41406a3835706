#!/bin/sh
# The run calls work on four blocks side by side in vector registers: their machine code has the loops over
# rounds that do so.
#
# usage: check-vectors.sh [FOLDER [REGISTERS]]
#
# FOLDER holds libcalmbaize.a, dist/ if it is not given. REGISTERS are xmm if they are not given, or ymm, in
# the archive for x86-64-v3.
set -eu

root=$(cd "$(dirname "$0")/.." && pwd)
archive=${1:-$root/dist}/libcalmbaize.a
registers=${2:-xmm}
# shellcheck source=tools/lib.sh
. "$root/tools/lib.sh"
work_folder

files "$archive"
# A round of four blocks has 128 additions; an xmm register holds two words, a ymm register four.
case $registers in
xmm) least=64 prefix= ;;
ymm) least=32 prefix=v ;;
*) cant_run "the registers are xmm or ymm, and not: $registers" ;;
esac
objdump -dr --no-show-raw-insn "$archive" > "$work/code" || cant_run "objdump can't read $archive"

# loops CALL INSTRUCTION: how many stretches without a jump have a round's worth of that instruction, in
# the call and in the local functions that it reaches.
loops() {
    awk -v call="$1" -v instruction="$2" -v least="$least" -v registers="$registers" '
        function reached(name, callees, i, n, sum) {
            if (seen[name]++) return 0
            sum = found[name]
            n = split(called[name], callees)
            for (i = 1; i <= n; i++) sum += reached(callees[i])
            return sum
        }
        /^[0-9a-f]+ <.*>:$/ { name = substr($2, 2, length($2) - 3); count = 0 }
        $2 ~ /^R_X86_64_P/ && sub(/^\.text\./, "", $3) { sub(/[-+]0x[0-9a-f]+$/, "", $3); called[name] = called[name] " " $3 }
        $2 == instruction && index($0, "%" registers) { count++ }
        $2 ~ /^(j|call|ret)/ { found[name] += count >= least; count = 0 }
        END { print reached(call) + 0 }
    ' "$work/code"
}

# has CALL INSTRUCTION LOOPS: at least so many.
has() {
    seen=$(loops "$1" "$prefix$2")
    if [ "$seen" -ge "$3" ]; then
        passed=$((passed + 1))
    else
        failed=$((failed + 1))
        echo "  failed: $1: $seen loops with $least $prefix$2 on $registers registers, and not $3"
    fi
}

# Loops over the header, over OPP's message, and over MRO's for its tag and for its stream. Those over the
# header and for the tag may be one, and OPP's message is opened by subtractions.
has calmbaize_seal_run paddq 3
has calmbaize_open_run paddq 2
has calmbaize_open_run psubq 1

counted
