#!/bin/sh
# Builds a stand-in for dist/ from the scalar C version, to try the outside checks on.
#
# usage: stand-in.sh FOLDER [SED-SCRIPT [alike]]
#
# FOLDER receives what make puts into dist/. A sed script plants a fault in the sources first. By alike the
# archive for x86-64-v3 is the other one once more, which takes half the time.
set -eu

root=$(cd "$(dirname "$0")/.." && pwd)
folder=$1
fault=${2:-}
sources=$folder/stand-in

rm -rf "$sources"
mkdir -p "$sources"
for file in "$root"/c/*; do
    sed "$fault" "$file" > "$sources/${file##*/}"
done
if [ -n "$fault" ] && diff -r "$root/c" "$sources" > /dev/null; then
    echo "stand-in: the fault '$fault' changes nothing" >&2
    exit 1
fi
# Each call of the library goes under the library's name.
names=$(sed -n 's/^uint64_t calmbaize\(_[a-z_]*\)(.*/-Dbaseline\1=calmbaize\1/p' "$root/include/calmbaize.h")

# archive NAME OPTIONS...: the sources, compiled with the options, as NAME.a beside them.
archive() {
    objects=$sources/$1
    shift
    mkdir "$objects"
    for source in "$sources"/*.c; do
        object=${source##*/}
        # Names are words.
        # shellcheck disable=SC2086
        ${CC:-cc} -std=c99 -O3 -fPIC "$@" $names -c "$source" -o "$objects/${object%.c}.o"
    done
    # One object, so that what one source has of another is no name from outside.
    ${CC:-cc} -r -o "$objects.o" "$objects"/*.o
    # The library exports nothing else.
    objcopy --wildcard --localize-symbol='baseline_*' --localize-symbol='avx2_*' "$objects.o"
    ar crs "$objects.a" "$objects.o"
}

# A compiler that does not know that processor makes both archives alike, too.
processor=-march=x86-64-v3
wide=baseline
if [ $# -lt 3 ] && ${CC:-cc} "$processor" -E -x c /dev/null > /dev/null 2>&1; then
    wide=wide
    archive wide "$processor" &
fi
archive baseline
wait
"$root/tools/make-dist.sh" "$sources/baseline.a" "$sources/$wide.a" "$folder"
