#!/bin/sh
# The main job with the command line tool: seals a sale by both engines, opens it, shows that a
# damaged parcel is refused, opens a parcel of an earlier version, says why it won't open otherwise
# and converts it, alone and in a folder, steps a mask on and back in two orders, keeps sales in a
# store, tells the amount and the price of one, and says what is broken in a damaged copy of the store.
#
# usage: demo.sh CALMBAIZE
#
# CALMBAIZE is the tool.
set -eu

tool=$(cd "$(dirname "$1")" && pwd)/$(basename "$1")
work=$(mktemp -d)
trap 'rm -rf "$work"' EXIT
cd "$work"

hex() {
    od -An -v -tx1 "$1" | tr -d ' \n'
}

# 13 bytes: amount in cents (4), column (2), means (1), price in cents (4), day (2), low byte first.
printf '\226\0\0\0\004\0\001\225\0\0\0\100\001' > sale
head -c 32 /dev/urandom > key
head -c 16 /dev/urandom > nonce
settings="--key-file key --nonce-file nonce --mode mro --rounds 6"

echo "a sale of 13 bytes:   $(hex sale)"
"$tool" seal $settings --input sale --output parcel
echo "sealed, 45 bytes:     $(hex parcel | cut -c 1-40)..."
"$tool" seal $settings --engine run --input sale --output run
echo "by --engine run:      $(hex run | cut -c 1-40)..."
cmp parcel run
"$tool" open $settings --input parcel --output opened
echo "opened:               $(hex opened)"
cmp sale opened

# One bit of the first byte.
first=$(od -An -tu1 -N1 parcel | tr -d ' ')
{ printf "\\$(printf %o $((first ^ 1)))"; tail -c +2 parcel; } > damaged
status=0
"$tool" open $settings --input damaged --output refused 2> error || status=$?
echo "one bit changed:      $(cat error) (status $status)"
grep -q 'refused with 9' error
[ "$status" -eq 1 ]
[ ! -e refused ]

# "sale" with the header "post", as version 0.3.0 sealed it under the start of section 4.
printf '%b' '\0034\0300\0325\0112\0006\0113\0310\0313\0324\0204\0264\0374\0250\0207\0056\0274\0065\0204' \
    '\0064\0073\0066\0115\0305\0202\0043\0204\0143\0075\0142\0337\0226\0046\0256\0171\0051\0372' > old
old_settings="--key 000102030405060708090a0b0c0d0e0f101112131415161718191a1b1c1d1e1f \
    --nonce 000102030405060708090a0b0c0d0e0f --header 706f7374 --mode mro --rounds 6"
"$tool" open $old_settings --old-start --input old --output old-sale
echo "of version 0.3.0:     $(cat old-sale), by --old-start"
[ "$(cat old-sale)" = sale ]
status=0
"$tool" open $old_settings --input old --output refused 2> error || status=$?
echo "and without that:     $(cat error) (status $status)"
grep -q 'refused with 9' error
[ "$status" -eq 1 ]
[ ! -e refused ]

"$tool" why $old_settings --input old > reason
echo "why it won't open:    $(cat reason)"
grep -qx 'opens with old start, MRO, 6 rounds: start differs' reason
status=0
"$tool" why $settings --input damaged > reason || status=$?
echo "and the damaged one:  $(cat reason) (status $status)"
grep -qx 'none of the sixteen' reason
[ "$status" -eq 1 ]

"$tool" convert $old_settings --input old --output new
echo "converted:            $(hex new | cut -c 1-40)..."
"$tool" open $old_settings --input new --output new-sale
echo "and opened:           $(cat new-sale), without --old-start"
[ "$(cat new-sale)" = sale ]
status=0
"$tool" convert $old_settings --input new --output refused 2> error || status=$?
echo "converted again:      $(cat error) (status $status)"
grep -q 'refused with 17' error
[ "$status" -eq 1 ]
[ ! -e refused ]

# A card with an old parcel, a new one, and one that is neither.
mkdir card
cp old card/1
cp new card/2
cp damaged card/3
status=0
"$tool" convert $old_settings --input card > counts 2> error || status=$?
echo "a folder:             $(cat counts) (status $status)"
echo "the refused one:      $(cat error)"
grep -qx 'converted 1, done already 1, refused 1' counts
grep -q '^3: refused with 9' error
[ "$status" -eq 1 ]
cmp new card/1
cmp new card/2
cmp damaged card/3

head -c 128 /dev/urandom > start
"$tool" walk --steps aabgBa --input start --output one
"$tool" walk --steps gaaBab --input start --output two
"$tool" jump --alpha 3 --gamma 1 --input start --output three
echo "mask after aabgBa:    $(hex one | cut -c 1-40)..."
echo "mask after gaaBab:    $(hex two | cut -c 1-40)..."
echo "jump of 3, 0, 1:      $(hex three | cut -c 1-40)..."
cmp one two
cmp one three
"$tool" walk --steps GAAA --input one --output back
cmp start back
echo "and back with GAAA:   the start again"

# Number, amount and price in cents.
take() {
    "$tool" store take till --key-file key --machine 11 --sale "$1" --amount "$2" --column 4 \
        --means coin --price "$3" --day 320
}

"$tool" store format till --cells 8
[ "$(hex till | cut -c 1-8)" = 00000100 ]
echo "a store of 8 cells:   $(hex till | cut -c 1-40)..."
take 1 150 149 > one
take 2 320 320 > two
echo "two sales in coins:   150 in cell $(cat one), 320 in cell $(cat two)"
grep -qx 1 one
grep -qx 2 two
"$tool" store read till --machine 11 --sale 2 --output part
tail -c +132 till | head -c 61 | cmp - part
echo "the second, sealed:   $(hex part | cut -c 1-40)..."
"$tool" store total till --key-file key > total
echo "cash total:           $(cat total)"
grep -qx 470 total
"$tool" store price till --key-file key --machine 11 --sale 1 > price
echo "rounded for coins:    $(cat price)"
grep -qx 'amount 150 price 149' price
# Cell 1 now has the kind of the sales that versions before 0.8.0 took.
{ head -c 66 till; printf '\001'; tail -c +68 till; } > earlier
"$tool" store price earlier --key-file key --machine 11 --sale 1 > price
echo "as an older sale:     $(cat price)"
grep -qx 'amount 150 no price' price
"$tool" store cancel till --key-file key --machine 11 --sale 1 > amount
"$tool" store total till --key-file key > total
echo "the first cancelled:  $(cat amount) back, cash total $(cat total)"
grep -qx 150 amount
grep -qx 320 total

cp till before
status=0
"$tool" store cancel till --key-file key --machine 11 --sale 1 2> error || status=$?
echo "and once more:        $(cat error) (status $status)"
grep -q 'refused with 16' error
[ "$status" -eq 1 ]
cmp till before

# Cell 2, the sale left, now leads to cell 255.
{ head -c 128 till; printf '\377'; tail -c +130 till; } > damaged
status=0
"$tool" store check damaged > report || status=$?
echo "the store checked:    $("$tool" store check till)"
echo "its damaged copy:     $(head -n 1 report) (status $status)"
grep -q '^refused with 19: the next index in cell 2 ' report
[ "$status" -eq 1 ]
