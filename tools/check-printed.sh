#!/bin/sh
# The round and G stand as the paper's section 8 prints them, step for step and in its order: in the
# definitions, in the code, and on the page that puts the three beside each other. So does the round on
# four blocks side by side, which takes its steps by the same table and the same G. The proofs can't see
# the order of the columns, or of the diagonals: it changes no result.
#
# usage: check-printed.sh [FOLDER]
#
# FOLDER is a copy of the repository, this one if it is not given.
set -u

root=$(cd "$(dirname "$0")/.." && pwd)
cd "${1:-$root}" || exit 2
definitions=crates/permutation/specs/Permutation.antt
groups=crates/permutation/src/round.rt
places=crates/permutation/src/g.rt
lines=crates/permutation/src/way.rt
groups4=crates/lanes/src/round.rt
lines4=crates/lanes/src/g.rt
page=docs/PAPER.md
for file in "$definitions" "$groups" "$places" "$lines" "$groups4" "$lines4" "$page"; do
    if [ ! -f "$file" ]; then
        echo "check-printed: $file is missing" >&2
        exit 2
    fi
done

awk -v definitions="$definitions" -v groups="$groups" -v places="$places" -v lines="$lines" -v page="$page" \
    -v groups4="$groups4" -v lines4="$lines4" '
# The lines stand in the file one below the other, in a paragraph with a line that begins so; where an item is
# named, in that item, from the line that begins with its name to the brace that closes it. Blanks before a line,
# and the sign that joins it to a list, do not count.
function check(file, beginning, wanted, item,    part, found, inside, at) {
    found = 0
    inside = item == ""
    while ((getline part < file) > 0) {
        part = "\n" part "\n"
        if (item != "" && (at = index(part, "\n" item))) {
            part = substr(part, at)
            inside = 1
        }
        if (!inside) continue
        if (item != "" && (at = index(part, "\n}"))) {
            part = substr(part, 1, at)
            inside = 0
        }
        if (index(part, "\n" beginning)) {
            gsub(/\n +/, "\n", part)
            gsub(/\n∷ /, "\n", part)
            if (index(part, wanted "\n")) found = 1
        }
    }
    close(file)
    if (found) passed++
    else { failed++; print "  failed: " file ": " beginning }
}

function row(printed, definition, code, more) {
    return "\n| " printed " | `" definition "` | `" code "` |" (more == "" ? "" : " `" more "` |")
}

BEGIN {
    RS = ""
    # Section 8: the words that each G of a round takes.
    n = split("0 4 8 12,1 5 9 13,2 6 10 14,3 7 11 15,0 5 10 15,1 6 11 12,2 7 8 13,3 4 9 14", step, ",")
    before = "s"
    for (k = 1; k <= n; k++) {
        split(step[k], w, " ")
        printed = "G(s" w[1] ", s" w[2] ", s" w[3] ", s" w[4] ");"
        definition = "(" w[1] " ∷ " w[2] " ∷ " w[3] " ∷ " w[4] " ∷ [])"
        entry = "[" w[1] ", " w[2] ", " w[3] ", " w[4] "],"
        call = "step::<W>(" before ", " k - 1 ")"
        if (k < n) call = "let r" k " = " call ";"
        before = "r" k
        if (k <= 4) columns = columns "\n" definition
        else diagonals = diagonals "\n" definition
        table = table "\n" entry
        round = round "\n" call
        round4 = round4 "\nstep4::<W>(w, " k - 1 ");"
        rows = rows row(printed, definition, entry, call)
    }
    check(definitions, "columns =", columns)
    check(definitions, "diagonals =", diagonals)
    check(groups, "pub const GROUPS", table)
    check(groups, "pub fn round<W: Way>(", round)
    check(groups4, "pub fn round4<W: Way>(", round4)
    check(page, "| Section 8 |", rows)

    # Step k of either round is the one G, at the words that row k of the one table names, forward.
    check(lines, "impl Way for Forward {", "\nghost group = { λ k. k };")
    check(groups, "fn step<W: Way>(", "\ng_at::<W>(s, GROUPS[W::group(k)])")
    check(groups4, "fn step4<W: Way>(", "\ng4::<W>(w, GROUPS[W::group(k)]);")
    check(groups4, "use ", "\nuse permutation::round::GROUPS;\nuse permutation::way::Way;")
    check(lines4, "use ", "\nuse permutation::g::Quad;\nuse permutation::way::Way;")
    for (m = 0; m < 4; m++) lanes = lanes "\ng_lane::<W>(w, row, " m ");"
    check(lines4, "pub fn g4<W: Way>(", lanes)
    split("a b c d", letter, " ")
    for (n = 1; n <= 4; n++) {
        taken = taken "\n" letter[n] ": s[row[" n - 1 "]],"
        taken4 = taken4 "\n" letter[n] ": w[4 * row[" n - 1 "] + m],"
    }
    check(places, "pub fn g_at<W: Way>(", "\nlet made = W::g(Quad {" taken)
    check(lines4, "fn g_lane<W: Way>(", "\nlet made = W::g(Quad {" taken4)

    # Section 8: the assignments of G, a sum of two words, or a word xor another rotated right by a number.
    n = split("a b,d a 32,c d,b c 24,a b,d a 16,c d,b c 63", step, ",")
    rows = ""
    for (k = 1; k <= n; k++) {
        if (split(step[k], w, " ") == 2) {
            printed = w[1] " = " w[1] " + " w[2] ";"
            definition = "let " w[1] " = add_w " w[1] " " w[2] " in"
            code = w[1] " = add(" w[1] ", " w[2] ");"
        } else {
            printed = w[1] " = (" w[1] " ⊕ " w[2] ") ⋙ " w[3] ";"
            definition = "let " w[1] " = rot_r " w[3] " (bit_xor " w[1] " " w[2] ") in"
            code = w[1] " = rotate_right(" w[1] " ^ " w[2] ", " w[3] ");"
        }
        defined = defined "\n" definition
        coded = coded "\n" code
        rows = rows row(printed, definition, code, "")
    }
    check(definitions, "g_of q =", defined)
    check(lines, "    fn g(", coded, "impl Way for Forward {")
    check(page, "| Section 8 |", rows)

    print passed + 0 " passed, " failed + 0 " failed"
    exit failed > 0
}'
