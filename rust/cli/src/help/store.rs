//! The texts of `--help` for the commands of a store.

use super::key;
use calmbaize::{CELL_LEN, MAX_STORE_LEN, MIN_STORE_LEN};

pub const GENERAL: &str = "\
Keeps sealed sales in a file. It has cells of 64 bytes, each but the first for
one sale. Machine and sale numbers stand there in the clear, and so does whether
a sale has a price; the rest is sealed.

usage: calmbaize store COMMAND FILE [OPTIONS]

commands:
  format  make a store with no sale
  take    seal a sale into the store and print its cell
  cancel  take a sale out and print its amount
  price   print the amount and the listed price of a sale
  total   print the cash total
  read    print a sale as it is sealed, and opened
  list    print all sales, the last one taken first
  check   say whether the store is broken, where, and what to do

'calmbaize store COMMAND --help' has the options of each. FILE is a path; '-' is
not standard input here.

format, take and cancel leave FILE as it was or write it whole, with the
permissions that it had, before they print. While one of them runs there is a
FILE.lock, which keeps others from changing FILE. One that was killed may leave
it behind: see that none is running, and remove it.
";

const HELP: &str = "  -h, --help               this text
";

const NUMBERS: &str = "      --machine NUMBER     machine number, up to 4,294,967,295
      --sale NUMBER        sale number, up to 4,294,967,295
";

const FIELDS: &str = "\
The fields are printed as words and values, such as
machine 11 sale 1 amount 150 column 4 means coin price 149 day 320
A sale of a version before 0.8.0 has a clock instead of price and day, such as
machine 11 sale 1 amount 150 column 4 means coin clock e80701020304
Which of the two it has is told by its kind, 2 with a price and 1 with a clock:
the byte of FILE before the 61 that read prints. It is not sealed: see price.
";

pub fn format() -> String {
    let (least, most) = (MIN_STORE_LEN / CELL_LEN, MAX_STORE_LEN / CELL_LEN);
    format!(
        "\
Makes a store with no sale. What a file holds is lost only where that is asked
for.

usage: calmbaize store format FILE OPTIONS

options:
      --cells COUNT        make a new FILE of so many cells, {least} to {most}, each
                           but the first for one sale
      --force              format a FILE that is there in its own length; all
                           that it holds is lost
{HELP}"
    )
}

pub fn take() -> String {
    let key = key();
    format!(
        "\
Seals a sale into the first free cell of a store and prints the cell. A sale
with the same machine and sale number must not be there.

usage: calmbaize store take FILE OPTIONS

options:
{key}{NUMBERS}      --amount CENTS       amount taken, in cents, up to 4,294,967,295
      --column NUMBER      column, up to 65,535
      --means MEANS        coin, card or 0 to 255; coin is 1 and card 2
      --price CENTS        listed price in cents, up to 4,294,967,295
      --day NUMBER         day as the machine counts them, up to 65,535; it is
                           carried and not read [0]
      --nonce-tail HEX     the last eight bytes of the sale's nonce [random]
{HELP}"
    )
}

pub fn cancel() -> String {
    let key = key();
    format!(
        "\
Takes a sale out of a store and prints its amount in cents, never its price.

usage: calmbaize store cancel FILE OPTIONS

options:
{key}{NUMBERS}{HELP}"
    )
}

pub fn price() -> String {
    let key = key();
    format!(
        "\
Prints what was taken for a sale and its listed price, in cents, such as
amount 150 price 149

A sale of a version before 0.8.0 has no price, which is not a price of 0:
amount 150 no price

The byte that tells the two apart is not sealed. Where it was changed in FILE, a
clock is printed as a price, or a price not at all; the amount is as it was.

usage: calmbaize store price FILE OPTIONS

options:
{key}{NUMBERS}{HELP}"
    )
}

pub fn total() -> String {
    let key = key();
    format!(
        "\
Prints the cash total of a store in cents: the sum over the sales whose means is
coin. Every sale must open, whatever its means.

usage: calmbaize store total FILE OPTIONS

options:
{key}{HELP}"
    )
}

pub fn read() -> String {
    let key = key();
    format!(
        "\
Prints the 61 bytes of a sale in hexadecimal: nonce, sealed record and tag. With
a key the sale must open, and its fields are printed too. The sale's kind is not
among the 61 bytes; list shows it, without a key.

usage: calmbaize store read FILE OPTIONS

options:
{key}{NUMBERS}  -o, --output FILE        write the 61 raw bytes there instead
{HELP}
{FIELDS}"
    )
}

pub fn check() -> String {
    format!(
        "\
Checks the form of a store, without a key. Of one that is right it prints the
cells, cell 0 among them, such as
cells 8 sales 2 free 5

Of a broken one it prints the first thing that is wrong, the 64 bytes of the
cell, where it is one, and what to do, and ends with 1. It checks in this order:
the length (18); the indices, from cell 0 along the sales and then along the
free cells (19); each cell's kind, and whether it is in a chain (20). No sale is
opened: see list.

usage: calmbaize store check FILE

options:
{HELP}"
    )
}

pub fn list() -> String {
    let key = key();
    format!(
        "\
Prints a line for each sale of a store, the last one taken first: cell, machine
and sale number. Without a key the kind follows, such as
cell 1 machine 11 sale 1 kind 2
With a key the other fields follow, or \"won't open\"; after such a list the
command is refused with 9.

usage: calmbaize store list FILE [OPTIONS]

options:
{key}{HELP}
{FIELDS}"
    )
}
