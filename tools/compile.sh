#!/usr/bin/env bash
# Stands for the compiler in the folder that kit.sh makes: the call that compiles the proved program gets
# options for which the prover has none, and leaves a second archive; every other call goes on as it is.
#
# usage: compile.sh BIN WIDE WORDS...
#
# BIN is the folder of the kit's own compiler, WIDE the archive for x86-64-v3 that is to be written, WORDS
# what the prover tells the compiler. The program comes as LLVM's intermediate code, `-x ir FILE`, and its
# object, for every x86-64, goes to `-o FILE`.
set -eu

bin=$1
wide=$2
shift 2
case " $* " in
*" -x ir "*" -O3 "*) ;;
*) exec "$bin/clang" "$@" ;;
esac

# The permutation has several callers, so that by itself the compiler leaves a call for each block.
inlining=(-mllvm -inline-threshold=3000)
# Where a pass over a message is left as a call, its buffers come through memory, which costs a tenth. By
# itself the vectoriser goes less deep than a round is, and counts a rotation as too dear.
vectorising=(-mllvm -inline-threshold=30000 -mllvm -slp-recursion-max-depth=100
    -mllvm -slp-threshold=-3000 -mllvm -slp-vectorize-hor=false)
# Whether a tag's four words differ is one test. By itself the compiler makes a branch for each of them where a total
# is summed up, which tells how much of the tag is right.
testing=(-mllvm -jump-is-expensive)
# A short loop takes up to a third longer on some processors where a branch of it lies across a boundary of 32 bytes.
# By itself the compiler aligns functions to 16, so that the place where a program's linker puts one decides.
placing=(-mbranches-within-32B-boundaries)
# Each function says for which processor it is, which -march alone leaves as it is. By itself the compiler
# keeps the stack aligned to 16 bytes, and with vectors of 32 OPP was a third slower at some places of it.
# With bundles of more words than a vector has, the compiler shuffles the sum's words in each turn.
processor='s/"target-cpu"="x86-64"/"target-cpu"="x86-64-v3" "stackrealign"/'
for_processor=(-march=x86-64-v3 -mllvm -slp-max-vf=4)
# The calls that work on four blocks in a turn.
run='@calmbaize_(seal|open)_run\('

words=()
while [ $# -gt 0 ]; do
    case $1 in
    -x) program=$3 && shift 3 ;;
    -o) object=$2 && shift 2 ;;
    --target=*) target=$1 && words+=("$1") && shift ;;
    *) words+=("$1") && shift ;;
    esac
done
work=$(mktemp -d)
trap 'rm -rf "$work"' EXIT
"$bin/clang" "$target" -O0 -S -emit-llvm -x ir "$program" -o "$work/program.ll"

# Where opening is left as a call, its answer comes through memory, and the caller branches on whether the
# tag differs to look its number up. Inlined, it leaves those beneath it as calls, which costs a tenth.
opening='/^define .*@"(sealing::open_from|modes::open|opp::open)"\(/s/ \{$/ alwaysinline {/'

# compile SED-SCRIPT OBJECT OPTIONS...: the program as the script changes it.
compile() {
    sed -E "$opening; $1" "$work/program.ll" >"$2.ll"
    "$bin/clang" "${words[@]}" "${testing[@]}" "${placing[@]}" -x ir "$2.ll" -o "$2" "${@:3}"
}

# inside LINES: the script by which the exported functions that are defined on such lines are no longer
# exported. The compiler leaves out what nothing uses then.
inside() {
    echo "/^define (internal|private) /b; $1s/^define /&internal /"
}

# Vectorising helps where four blocks are side by side, and elsewhere it spoils the code: one block takes
# twice the time, and a branch on a secret comes up. So the run calls are compiled by themselves, for each
# archive, and all others once for both.
compile "$(inside "/$run/")" "$work/steps.o" "${inlining[@]}" &
steps=$!
compile "$(inside "/$run/!")" "$work/run.o" "${vectorising[@]}" &
baseline=$!
compile "$processor; $(inside "/$run/!")" "$work/wide.o" "${vectorising[@]}" "${for_processor[@]}"
wait $steps
wait $baseline
"$bin/ld.lld" -r "$work/steps.o" "$work/run.o" -o "$object"
mkdir "$work/archive"
"$bin/ld.lld" -r "$work/steps.o" "$work/wide.o" -o "$work/archive/calmbaize.o"
rm -f "$wide"
"$bin/llvm-ar" rcsD "$wide" "$work/archive/calmbaize.o"
