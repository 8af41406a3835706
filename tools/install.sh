#!/bin/sh
# Copies what make built to where compilers and people look for it, or takes it away again.
#
# usage: install.sh install|uninstall DIST TOOL
#
# DIST holds the archive, the header and the pkg-config file, and in x86-64-v3 the archive for such
# processors with its own pkg-config file. TOOL is the command line tool, left out where it is not built.
# They go below PREFIX, /usr/local if it is not set; the archives and the pkg-config files go below LIBDIR,
# PREFIX/lib if it is not set. DESTDIR is put before both where what is installed will stand in another
# place than it is used from.
set -eu
umask 022

job=$1
dist=$2
tool=$3
prefix=${PREFIX-/usr/local}
libdir=${LIBDIR-$prefix/lib}
wide=$libdir/x86-64-v3
header=$prefix/include/calmbaize.h
program=$prefix/bin/calmbaize

for path in "$prefix" "$libdir"; do
    case $path in
    /*) ;;
    *)
        echo "install: PREFIX and LIBDIR must be whole paths, and not: $path" >&2
        exit 2
        ;;
    esac
done

# put MODE PATH FILE: FILE is copied to PATH.
put() {
    mkdir -p "$(dirname "${DESTDIR:-}$2")"
    install -m "$1" "$3" "${DESTDIR:-}$2"
    echo "installed ${DESTDIR:-}$2"
}

# Prints a folder of libraries as pkg-config takes it, so that what stands below the prefix moves with it.
by_prefix() {
    case $1 in
    "$prefix"/*) echo "\${prefix}${1#"$prefix"}" ;;
    *) echo "$1" ;;
    esac
}

# put_archive FOLDER FROM: the archive in FROM is copied to FOLDER, with its pkg-config file.
put_archive() {
    put 644 "$1/libcalmbaize.a" "$2/libcalmbaize.a"
    # In dist/ the folder itself is the prefix.
    sed -e "s|^prefix=.*|prefix=$prefix|" -e "s|^libdir=.*|libdir=$(by_prefix "$1")|" \
        -e "s|^includedir=.*|includedir=\${prefix}/include|" "$2/calmbaize.pc" > "$work/calmbaize.pc"
    put 644 "$1/pkgconfig/calmbaize.pc" "$work/calmbaize.pc"
}

install_all() {
    for archive in "$dist/libcalmbaize.a" "$dist/x86-64-v3/libcalmbaize.a"; do
        if [ ! -f "$archive" ]; then
            echo "install: $archive is missing: run make" >&2
            exit 2
        fi
    done
    work=$(mktemp -d)
    trap 'rm -rf "$work"' EXIT
    put 644 "$header" "$dist/calmbaize.h"
    put_archive "$libdir" "$dist"
    put_archive "$wide" "$dist/x86-64-v3"
    # A tool that is older than the archive was built over another one.
    if [ -n "$(find "$tool" -newer "$dist/libcalmbaize.a" 2> /dev/null)" ]; then
        put 755 "$program" "$tool"
    else
        echo "left out: the command line tool, which 'make tool' builds"
    fi
}

uninstall_all() {
    rm -f "${DESTDIR:-}$header" "${DESTDIR:-}$program"
    for folder in "$libdir" "$wide"; do
        rm -f "${DESTDIR:-}$folder/libcalmbaize.a" "${DESTDIR:-}$folder/pkgconfig/calmbaize.pc"
    done
    # Where something else stands in them they stay.
    rmdir "${DESTDIR:-}$wide/pkgconfig" "${DESTDIR:-}$wide" 2> /dev/null || true
}

case $job in
install) install_all ;;
uninstall) uninstall_all ;;
*)
    echo "usage: install.sh install|uninstall DIST TOOL" >&2
    exit 2
    ;;
esac
