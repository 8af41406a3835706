#!/bin/sh
# What make install puts somewhere is enough: pkg-config finds each archive, a C program is built over it
# and runs, and make uninstall leaves nothing behind. So it is with LIBDIR as it comes, in another folder
# below PREFIX, and elsewhere. And dist/ is enough without an install.
#
# usage: check-install.sh [FOLDER]
#
# FOLDER holds what make puts into dist/, dist/ if it is not given.
set -u

root=$(cd "$(dirname "$0")/.." && pwd)
folder=${1:-$root/dist}
# shellcheck source=tools/lib.sh
. "$root/tools/lib.sh"
work_folder
prefix=/opt/calmbaize
# Else make would take it from the environment.
unset LIBDIR

for program in pkg-config make "${CC:-cc}"; do
    command -v "$program" > /dev/null ||
        cant_run "$program is missing: install Debian's package pkg-config, make or gcc"
done
files "$folder/libcalmbaize.a" "$folder/x86-64-v3/libcalmbaize.a"
# Parcels of the old start are made by it.
"${CC:-cc}" -std=c99 -c "$root/c/baseline.c" -o "$work/baseline.o" || exit 2

make_to() {
    make --no-print-directory -C "$root" "$@" DIST="$folder" TOOL="$work/tool" PREFIX="$prefix" \
        DESTDIR="$work/root" > "$work/log" 2>&1 || { cat "$work/log"; false; }
}

# Flags as they are where the files stand below the sysroot.
flags() {
    PKG_CONFIG_SYSROOT_DIR=$sysroot PKG_CONFIG_PATH=$sysroot$for_pkg_config pkg-config "$@" calmbaize
}

# program_runs FROM: where that is the archive for x86-64-v3, it is run by a processor that can.
program_runs() {
    # Flags are words.
    # shellcheck disable=SC2046
    "${CC:-cc}" -std=c99 -Wall -Wextra -Werror $(flags --cflags) -I "$root/c" "$root/tools/installed.c" \
        "$root/tools/calls.c" "$work/baseline.o" $(flags --libs) -o "$work/installed" || return
    if [ "$1" = "$folder" ] || avx2; then
        "$work/installed"
    else
        echo "  built and not run, since this processor has no AVX2: a C program over $1"
    fi
}

version_is_right() {
    [ "$(flags --modversion)" = "$(version)" ]
}

# archive_is_right FROM: both archives have one name, and pkg-config leads to the right one.
archive_is_right() {
    found=$(flags --libs-only-L | tr -d ' ')
    cmp "$1/libcalmbaize.a" "${found#-L}/libcalmbaize.a"
}

# check_archive WHERE FROM: FROM is the folder of dist/ whose archive pkg-config is to find by $for_pkg_config.
check_archive() {
    count "$1: the archive" archive_is_right "$2"
    count "$1: a C program over it" program_runs "$2"
    count "$1: the version that pkg-config says" version_is_right
}

tool_runs() {
    [ "$("$work/root$prefix/bin/calmbaize")" = "the tool" ]
}

nothing_left() {
    [ -z "$(find "$work/root" -type f -o -name x86-64-v3)" ]
}

# check_install LIBDIR [SETTING]: SETTING is what make is told of it.
check_install() {
    libdir=$1
    shift
    where="install, libraries in $libdir"
    sysroot=$work/root
    count "$where: make install" make_to install "$@"
    for_pkg_config=$libdir/pkgconfig
    check_archive "$where" "$folder"
    for_pkg_config=$libdir/x86-64-v3/pkgconfig
    check_archive "$where, x86-64-v3" "$folder/x86-64-v3"
    count "$where: the tool" tool_runs
    count "$where: make uninstall" make_to uninstall "$@"
    count "$where: files left behind" nothing_left
}

printf '#!/bin/sh\necho the tool\n' > "$work/tool"
check_install "$prefix/lib"
for other in "$prefix/lib/multiarch" /opt/lib64; do
    check_install "$other" "LIBDIR=$other"
done

sysroot=
for from in "$folder" "$folder/x86-64-v3"; do
    for_pkg_config=$from
    check_archive "no install, $from" "$from"
done

counted
