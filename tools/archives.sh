#!/bin/sh
# Proves calmbaize and all that it stands on, and compiles it into both archives.
#
# usage: archives.sh ARCHIVE WIDE
#
# ARCHIVE is the one for every x86-64, WIDE the one for x86-64-v3, processors with AVX2. `rt lib` takes no other
# compiler than the kit's, so the library that it makes, out/libcalmbaize.a, is not the one that is shipped: rattle,
# by which rt proves and builds, compiles once more what was proved for it, by the compiler that kit.sh makes.
set -eu

root=$(cd "$(dirname "$0")/.." && pwd)
# shellcheck source=tools/lib.sh
. "$root/tools/lib.sh"
need rt '' || exit 2
kit=$(kit)
work_folder

# whole PATH: the path from the root of all, and its folder made.
whole() {
    mkdir -p "$(dirname "$1")"
    echo "$(cd "$(dirname "$1")" && pwd)/${1##*/}"
}

archive=$(whole "$1")
wide=$(whole "$2")
"$root/tools/kit.sh" "$work/toolchain" "$wide"

cd "$root/crates/calmbaize"
"$root/tools/prove.sh" rt lib

# rt's own words, but for the processor and the compilers: each library by its name, and where those beneath it are.
set -- --extern "std=$kit/rlibs/std.rlib" -L "dependency=$kit/rlibs"
for name in $(sed -n 's/^calmbaize staticlib: *//p' "$root/crates.txt"); do
    set -- "$@" --extern "$name=$root/crates/$name/out/rlib/$name.rlib"
done
for folder in "$root"/crates/*/out/rlib; do
    set -- "$@" -L "dependency=$folder"
done
"$root/tools/prove.sh" "$kit/bin/rattle" build --crate-name calmbaize src/lib.rt "$@" \
    --antt-project "$kit/rattle/logic/antt-project.json" --logic-built "$kit/logic_built" \
    --incremental out/incremental --links calmbaize= --crate-type staticlib --cpu x86-64 --backend llvm \
    --toolchain "$work/toolchain" -o "$archive"
