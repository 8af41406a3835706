#!/bin/sh
# Makes a folder that stands for the compilers of the prover's kit and differs from them in one thing: its
# clang is compile.sh, which gives the kit's own one more options. For `rattle build --toolchain FOLDER`.
#
# usage: kit.sh FOLDER WIDE
#
# FOLDER lies outside the checkout, in which `rt ci` refuses every link. WIDE is where the compiler leaves the
# archive for x86-64-v3, processors with AVX2, beside the one for every x86-64 that it is asked for.
set -eu

tools=$(cd "$(dirname "$0")" && pwd)
# shellcheck source=tools/lib.sh
. "$tools/lib.sh"
toolchain=$(kit)/toolchain
if [ ! -x "$toolchain/bin/clang" ]; then
    echo "kit.sh: no compiler at $toolchain/bin/clang" >&2
    exit 2
fi
wide=$(cd "$(dirname "$2")" && pwd)/${2##*/}

# linked FROM TO BUT: links in TO what stands in FROM, but for one name.
linked() {
    mkdir -p "$2"
    for path in "$1"/*; do
        [ "${path##*/}" = "$3" ] || ln -s "$path" "$2/"
    done
}

linked "$toolchain" "$1" bin
linked "$toolchain/bin" "$1/bin" clang
cat >"$1/bin/clang" <<CLANG
#!/bin/sh
exec '$tools/compile.sh' '$toolchain/bin' '$wide' "\$@"
CLANG
chmod +x "$1/bin/clang"
