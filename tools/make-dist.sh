#!/bin/sh
# Puts what a user links into one folder: the archive, the header and a pkg-config file, and in a folder of
# its own the archive for x86-64-v3 with its pkg-config file. A file that is already as it should be is not
# touched, so that nothing built on it is built again.
#
# usage: make-dist.sh ARCHIVE WIDE [FOLDER]
#
# WIDE is the archive for x86-64-v3. FOLDER is dist/ if it is not given.
set -eu

root=$(cd "$(dirname "$0")/.." && pwd)
archive=$1
wide=$2
folder=${3:-$root/dist}
# shellcheck source=tools/lib.sh
. "$root/tools/lib.sh"
work=$(mktemp -d)
trap 'rm -rf "$work"' EXIT

# put FILE NAME: the folder's NAME becomes as FILE is.
put() {
    cmp -s "$1" "$folder/$2" && return
    cp "$1" "$folder/.new"
    mv "$folder/.new" "$folder/$2"
}

# for_pkg_config INCLUDEDIR: the file for an archive that lies beside it.
for_pkg_config() {
    cat <<END
prefix=\${pcfiledir}
libdir=\${prefix}
includedir=$1

Name: calmbaize
Description: Authenticated encryption with OPP and MRO over a masked BLAKE2b permutation
Version: $(version)
Libs: -L\${libdir} -lcalmbaize
Cflags: -I\${includedir}
END
}

# shellcheck disable=SC2016 # for pkg-config to expand
{
    for_pkg_config '${prefix}' > "$work/calmbaize.pc"
    for_pkg_config '${prefix}/..' > "$work/wide.pc"
}
mkdir -p "$folder/x86-64-v3"
put "$archive" libcalmbaize.a
put "$root/include/calmbaize.h" calmbaize.h
put "$work/calmbaize.pc" calmbaize.pc
put "$wide" x86-64-v3/libcalmbaize.a
put "$work/wide.pc" x86-64-v3/calmbaize.pc
