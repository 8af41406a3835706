#!/bin/sh
# Every outside check passes on a sound library and fails on one with a fault in it. One that can't run
# says so by its status.
#
# usage: planted.sh [WORD...]
#
# The library is the scalar C version built as an archive. The faults, in it and elsewhere, stand in
# planted.txt. With words, only what is shown with one of them in its name is tried.
set -u

root=$(cd "$(dirname "$0")/.." && pwd)
# shellcheck source=tools/lib.sh
. "$root/tools/lib.sh"
work_folder
sound=$work/sound
faulty=$work/faulty
# The empty word is in every name.
printf '%s\n' "$@" > "$work/words"

chosen() {
    printf '%s\n' "$1" | grep -qF -f "$work/words"
}

# expect STATUS NAME COMMAND...: 0 where the command must pass, 1 where it must fail, 2 where it can't run.
expect() {
    wanted=$1
    name=$2
    shift 2
    chosen "$name" || return
    "$@" > "$work/log" 2>&1
    status=$?
    if [ "$status" -eq "$wanted" ]; then
        passed=$((passed + 1))
        case $wanted in
        0) echo "  $name: passes" ;;
        1) echo "  $name: seen" ;;
        *) echo "  $name: could not run" ;;
        esac
    else
        failed=$((failed + 1))
        echo "  failed: $name: status $status"
        tail -n 5 "$work/log"
    fi
}

# compare WORDS...: the comparing program, linked with the archive in $folder.
compare() {
    CALMBAIZE_LIB_DIR=$folder cargo run --quiet --offline --manifest-path "$root/rust/Cargo.toml" \
        --package compare -- --calls 3000 "$@"
}

# The calls that the benchmarks time, linked with the archive in $folder. Nothing is measured, so that a
# busy machine fails nothing.
bench() {
    CALMBAIZE_LIB_DIR=$folder cargo run --release --quiet --offline --manifest-path "$root/rust/Cargo.toml" \
        --package bench -- --batches 0
}

# check NAME WORDS...: over the archive and the header in $folder, in the repository at $copy.
check() {
    script=check-$1.sh
    case $1 in
    compare | bench) "$@" ;;
    cases) compare vectors "$root"/rust/compare/cases/${2:-*}.txt ;;
    # What these build in a copy would be built from nothing.
    layout | printed) "$root/tools/$script" "$copy" ;;
    *) shift && "$copy/tools/$script" "$folder" "$@" ;;
    esac
}

# The repository without what was built, in the folder copy.
copy_root() {
    rm -rf "$work/copy"
    mkdir "$work/copy"
    (cd "$root" && tar -cf - --exclude=target --exclude=out .ci Makefile c crates crates.txt docs include rust tools) |
        tar -xf - -C "$work/copy"
    copy=$work/copy
}

# change FILE TO: puts the file there as the fault's script makes it.
change() {
    sed "$fault" "$1" > "$work/file"
    if cmp -s "$1" "$work/file"; then
        echo "planted: the fault '$fault' changes nothing" >&2
        exit 2
    fi
    cat "$work/file" > "$2"
}

# assemble FILE: an archive of it.
assemble() {
    mkdir -p "$faulty"
    rm -f "$faulty/libcalmbaize.a"
    "${CC:-cc}" -c "$1" -o "$work/vectors.o" && ar crs "$faulty/libcalmbaize.a" "$work/vectors.o" || exit 2
}

# plant FILE: the fault that was read.
plant() {
    copy=$root
    folder=$faulty
    case $1 in
    c) "$root/tools/stand-in.sh" "$faulty" "$fault" ${alike:+"$alike"} || exit 2 ;;
    dist/*) rm -rf "$faulty" && cp -R "$sound" "$faulty" && change "$sound/${1#dist/}" "$faulty/${1#dist/}" ;;
    tools/vectors.s) change "$root/$1" "$work/vectors.s" && assemble "$work/vectors.s" ;;
    *) folder=$sound && copy_root && change "$root/$1" "$copy/$1" ;;
    esac
}

# try_check CHECK: must fail on the fault that was read, or pass where it begins with "not".
try_check() {
    wanted=1
    [ "$1" = "${1#not }" ] || wanted=0
    named="${1#not }: $what"
    chosen "$named" || return
    if ! $needed > /dev/null 2>&1; then
        echo "  $named: not tried: '$needed' fails"
        return
    fi
    [ -n "$planted" ] || plant "$file"
    planted=yes
    # Words are words.
    # shellcheck disable=SC2086
    expect "$wanted" "$named" check ${1#not }
}

# The fault that was read, by each of its checks.
try_fault() {
    [ -n "$what" ] || return 0
    planted=
    rest=$checks
    while [ -n "$rest" ]; do
        first=${rest%% and *}
        rest=${rest#"$first"}
        rest=${rest# and }
        try_check "$first"
    done
    what=
}

# read_group LINE: CHECKS in FILE [where COMMAND]
read_group() {
    checks=${1%% in *}
    file=${1#* in }
    # The others look at one archive only.
    case $checks in install* | bench*) alike= ;; *) alike=alike ;; esac
    needed=true
    case $file in *" where "*) needed=${file#* where } ;; esac
    file=${file%% where *}
}

all_faults() {
    what=
    while IFS= read -r line <&3; do
        case $line in
        '#'* | '') ;;
        '    '*) fault="$fault${line#    }
" ;;
        '== '*) try_fault && read_group "${line#== }" ;;
        *) try_fault && what=$line fault= ;;
        esac
    done 3< "$root/tools/planted.txt"
    try_fault
}

# Archives, compilers and a valgrind that are none.
all_that_cant_run() {
    mkdir "$work/none" "$work/bare"
    cp "$sound/calmbaize.h" "$work/none"
    echo none > "$work/none/libcalmbaize.a"
    for one in archive constants secrets stack traces vectors; do
        expect 2 "$one: an archive that is none" "$root/tools/check-$one.sh" "$work/none"
    done
    for one in constants header install traces; do
        expect 2 "$one: no compiler" env CC="$work/no-compiler" "$root/tools/check-$one.sh" "$sound"
    done
    # Drops valgrind's options and runs the program bare.
    printf '#!/bin/sh\nwhile [ "${1#--}" != "$1" ]; do shift; done\nexec "$@"\n' > "$work/bare/valgrind"
    chmod +x "$work/bare/valgrind"
    for one in secrets traces; do
        expect 2 "$one: a program that is not under valgrind" \
            env PATH="$work/bare:$PATH" "$root/tools/check-$one.sh" "$sound"
    done
    printf '#!/bin/sh\nexit 1\n' > "$work/bare/valgrind"
    for one in secrets traces; do
        expect 2 "$one: a valgrind that can't run" \
            env PATH="$work/bare:$PATH" "$root/tools/check-$one.sh" "$sound"
    done
    copy_root
    rm "$copy/docs/PAPER.md"
    expect 2 "printed: no page" "$root/tools/check-printed.sh" "$copy"
}

# One of the second implementation, sound and with a word changed.
all_maskwalks() {
    chosen "maskwalk: sound" || chosen "maskwalk: a wrong word" || return
    cargo build --quiet --offline --manifest-path "$root/rust/Cargo.toml" --package reference \
        --example maskwalk || exit 2
    maskwalk=$root/rust/target/debug/examples/maskwalk
    printf '#!/bin/sh\n"%s" | sed s/^long/lang/\n' "$maskwalk" > "$work/maskwalk"
    chmod +x "$work/maskwalk"
    folder=$sound
    expect 0 "maskwalk: sound" compare --maskwalk "$maskwalk" maskwalk
    expect 1 "maskwalk: a wrong word" compare --maskwalk "$work/maskwalk" maskwalk
}

"$root/tools/stand-in.sh" "$sound" || exit 2
copy=$root
folder=$sound
for one in "compare all" cases "secrets 1" traces stack archive header constants install bench layout printed; do
    # shellcheck disable=SC2086
    expect 0 "$one: sound" check $one
done
expect 1 "vectors: one block in a turn" check vectors
assemble "$root/tools/vectors.s"
expect 0 "vectors: sound" "$root/tools/check-vectors.sh" "$faulty"
all_faults
all_that_cant_run
all_maskwalks
[ $((passed + failed)) -gt 0 ] || cant_run "nothing has such a name"
counted
