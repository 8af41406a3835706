#!/bin/sh
# Compiles calmbaize.h by itself as C and C++, every warning an error, and checks the constants, the
# version, the way an answer and a diagnosis are taken apart, the length of a run, and that a dropped answer is warned of.
# The wrapper in Rust declares the same calls: rust/calmbaize/src/ffi.rs.
#
# usage: check-header.sh [FOLDER]
#
# FOLDER holds the header, include/ if it is not given.
set -u

root=$(cd "$(dirname "$0")/.." && pwd)
folder=${1:-$root/include}
# shellcheck source=tools/lib.sh
. "$root/tools/lib.sh"
work_folder
version=$(version)
ffi=$root/rust/calmbaize/src/ffi.rs

calls "$folder/calmbaize.h" > "$work/calls" ||
    cant_run "$folder/calmbaize.h is missing or declares no call"
for compiler in "${CC:-cc}" "${CXX:-c++}"; do
    command -v "$compiler" > /dev/null ||
        cant_run "$compiler is missing: install gcc and g++, or set CC and CXX"
done

cat > "$work/answer.c" <<'END'
#include "calmbaize.h"
#include "calmbaize.h"
#include <string.h>

#if CALMBAIZE_VERSION_MAJOR != MAJOR || CALMBAIZE_VERSION_MINOR != MINOR || \
    CALMBAIZE_VERSION_PATCH != PATCH ||                                    \
    CALMBAIZE_VERSION_NUMBER != MAJOR * 1000000 + MINOR * 1000 + PATCH || CALMBAIZE_FORMAT < 1
#error "the version is not that of rust/Cargo.toml, or there is no format"
#endif

/* Whether an answer made of these is taken apart into them. Rounds have their place among the four. */
static bool diagnosed(uint32_t old_start, uint32_t mode, uint32_t place, uint32_t differs)
{
    static const uint32_t rounds[] = {4U, 6U, 8U, 12U};
    uint32_t n = 8U * old_start + 4U * (mode - 1U) + place;
    uint64_t answer = 1U + n + 32U * differs;

    return calmbaize_diagnosed_other(answer) && calmbaize_diagnosed_setting(answer) == n &&
           calmbaize_diagnosed_old_start(answer) == (old_start == 1U) &&
           calmbaize_diagnosed_mode(answer) == mode &&
           calmbaize_diagnosed_rounds(answer) == rounds[place] &&
           calmbaize_diagnosed_start_differs(answer) == ((differs & 1U) != 0U) &&
           calmbaize_diagnosed_mode_differs(answer) == ((differs & 2U) != 0U) &&
           calmbaize_diagnosed_rounds_differ(answer) == ((differs & 4U) != 0U);
}

static bool all_diagnosed(void)
{
    uint64_t refused = (uint64_t)CALMBAIZE_REFUSED_MODE << 32;
    bool right = !calmbaize_diagnosed_other(0U) && !calmbaize_diagnosed_other(255U) &&
                 !calmbaize_diagnosed_other(refused) && !calmbaize_diagnosed_other(refused | 1U);

    for (uint32_t old_start = 0U; old_start < 2U; old_start++)
        for (uint32_t mode = 1U; mode <= 2U; mode++)
            for (uint32_t place = 0U; place < 4U; place++)
                for (uint32_t differs = 1U; differs < 8U; differs++)
                    right = right && diagnosed(old_start, mode, place, differs);
    return right;
}

int main(void)
{
    uint64_t step = (uint64_t)CALMBAIZE_REFUSED_STEP << 32 | 4095U;
    uint64_t parcel = CALMBAIZE_SEALED_BYTES_MAX, amount = UINT32_MAX;

    return !(calmbaize_refusal(step) == 12U && calmbaize_place(step) == 4095U &&
             calmbaize_written(step) == 0U && calmbaize_value(step) == 0U &&
             calmbaize_value(amount) == UINT32_MAX && calmbaize_refusal(parcel) == CALMBAIZE_OK &&
             calmbaize_place(parcel) == 0U && calmbaize_written(parcel) == 65568U &&
             calmbaize_run_words(127U, 0U) == 21U && calmbaize_run_words(128U, 1000U) == 28U &&
             calmbaize_run_words(CALMBAIZE_HEADER_BYTES_MAX, 0U) == 53U &&
             calmbaize_run_words(0U, CALMBAIZE_MESSAGE_BYTES_MAX) == CALMBAIZE_RUN_WORDS_MAX &&
             all_diagnosed() && strcmp(CALMBAIZE_VERSION, VERSION) == 0);
}
END
cp "$work/answer.c" "$work/answer.cpp"

# Each call in a line of its own, below the first: its answer is returned, or dropped where ANSWER is nothing.
{
    echo '#include "calmbaize.h"'
    sed -E 's/[^(,)]+([,)])/0\1/g; s/.*/uint64_t take_LINE(void); uint64_t take_LINE(void) { ANSWER &; return 0; }/' \
        "$work/calls" | awk '{ gsub(/LINE/, NR); print }'
} > "$work/drop.c"
cp "$work/drop.c" "$work/drop.cpp"

# strictly COMPILER WORDS...: every warning is an error.
strictly() {
    "$@" -Wall -Wextra -Wpedantic -Wundef -Wconversion -Wno-long-long -Werror -I "$folder"
}

# Splits the version into the three numbers.
runs() {
    rest=${version#*.}
    strictly "$@" "-DVERSION=\"$version\"" "-DMAJOR=${version%%.*}" "-DMINOR=${rest%%.*}" \
        "-DPATCH=${rest#*.}" -o "$work/answer" && "$work/answer"
}

# answers COMPILER FILE WORDS...: of each call. Where it is dropped the compiler must say so on its line, and
# where it is used nothing.
answers() {
    file=$2
    rm -f "$work/drop.o"
    strictly "$@" -DANSWER= -c -o "$work/dropped.o" 2> "$work/dropped"
    strictly "$@" -DANSWER=return -c -o "$work/drop.o" 2> "$work/used"
    line=1
    while IFS= read -r call; do
        line=$((line + 1))
        count "header: dropped without a warning: $*: $call" grep -q "^$file:$line:.*unused-result" "$work/dropped"
        count "header: not taken with its answer used: $*: $call" says_nothing "^$file:$line:"
    done < "$work/calls"
}

says_nothing() {
    [ -e "$work/drop.o" ] && ! grep "$1" "$work/used"
}

# The header's calls as Rust writes them: pointers are *const or *mut, and arrays are pointers.
in_rust() {
    awk -F '[(,)]' '{
        call = $1 "("
        for (i = 2; i < NF; i++) {
            parameter = $i
            pointer = sub(/\[.*/, "", parameter) + gsub(/\*/, "", parameter)
            constant = sub(/const /, "", parameter)
            split(parameter, word, " ")
            sub(/_t$/, "", word[1])
            sub(/^uint/, "u", word[1])
            sub(/^int/, "i", word[1])
            sub(/^size/, "usize", word[1])
            call = call (i > 2 ? ", " : "") word[2] ": " (pointer ? (constant ? "*const " : "*mut ") : "") word[1]
        }
        print call ") -> u64;"
    }' "$work/calls"
}

# The functions that the wrapper declares, one to a line.
of_wrapper() {
    awk '
        /^extern "C"/, /^}/ {
            if (sub(/^ *pub fn /, "")) { call = ""; inside = 1 }
            if (inside) call = call " " $0
            if (inside && /;$/) {
                inside = 0
                gsub(/ +/, " ", call)
                sub(/^ /, "", call)
                sub(/\( /, "(", call)
                sub(/, \)/, ")", call)
                print call
            }
        }
    ' "$ffi"
}

for standard in c99 c11 c17; do
    count "header: $standard" runs "${CC:-cc}" "-std=$standard" -Wstrict-prototypes "$work/answer.c"
done
for standard in c++98 c++11 c++17; do
    # The types of 64 bits are long long on some machines, which C++98 does not have.
    count "header: $standard" runs "${CXX:-c++}" "-std=$standard" "$work/answer.cpp"
done
answers "${CC:-cc}" "$work/drop.c" -std=c99
answers "${CXX:-c++}" "$work/drop.cpp" -std=c++98
answers "${CXX:-c++}" "$work/drop.cpp" -std=c++17

in_rust > "$work/in-rust"
of_wrapper > "$work/wrapper"
while IFS= read -r call; do
    count "header: not so in ${ffi##*/}: $call" grep -qxF "$call" "$work/wrapper"
done < "$work/in-rust"
count "header: other calls in ${ffi##*/}" [ "$(wc -l < "$work/wrapper")" -eq "$(wc -l < "$work/calls")" ]

counted
