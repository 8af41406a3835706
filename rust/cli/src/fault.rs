//! What is broken in a store, in words. The library tells the ground and the cell; the rest is read off
//! the bytes there, whatever they are.

use calmbaize::{Ground, Refusal, CELL_LEN, MAX_STORE_LEN};
use std::iter::successors;

/// Where a cell has its next index, and cell 0 that of the first sale.
const NEXT: usize = 0;
/// Where cell 0 has the index of the first free cell.
const FIRST_FREE: usize = 2;
/// Where a cell has its kind.
const KIND: usize = 2;

/// What to do about a wrong length.
const COPY_AGAIN: &str = "\
Copy the store from the machine once more and check that copy: this one is cut
short, has too much behind it, is of a later version or is no store. Keep this
file until then. Where the length stays wrong, the memory that the store is in
has to be changed, not the whole unit.
";

/// What to do about a wrong cell. A copy that was cut short has most often a whole number of cells.
const KEEP: &str = "\
Copy the store from the machine once more and check that copy too. Keep this
file as it is for the route office, and don't format it: sales that are in it
may still be read. Where the new copy is broken too, the memory that the store
is in has to be changed, not the whole unit.
";

/// What a store is refused for, its wrong cell, and what to do. None where the ground is no fault of
/// the store.
pub fn report(bytes: &[u8], refusal: Refusal) -> Option<String> {
    let number = refusal.place as usize;
    let (what, shown, to_do) = match refusal.ground {
        // There may be no cell to show.
        Ground::StoreLength => (wrong_length(bytes, refusal), String::new(), COPY_AGAIN),
        Ground::StoreIndex => (wrong_index(bytes, number)?, dump(bytes, number)?, KEEP),
        Ground::StoreKind => (wrong_kind(bytes, number)?, dump(bytes, number)?, KEEP),
        _ => return None,
    };
    let refused = refusal.number();
    Some(format!("refused with {refused}: {what}\n\n{shown}{to_do}"))
}

/// Of a longer file no more was read than is enough to be refused.
fn wrong_length(bytes: &[u8], refusal: Refusal) -> String {
    match bytes.len() {
        len if len > MAX_STORE_LEN => format!("{refusal}; the file has more"),
        len => format!("{refusal}; the file has {len} bytes"),
    }
}

fn wrong_index(bytes: &[u8], number: usize) -> Option<String> {
    let (holder, cells) = (cell(bytes, number)?, bytes.len() / CELL_LEN);
    let next = index(holder, NEXT);
    // Before the first sale no cell is reached, so that its index can only be past the last one.
    let (name, at, to) = match number {
        0 if next < cells => (
            "first free cell's index",
            FIRST_FREE,
            index(holder, FIRST_FREE),
        ),
        0 => ("first sale's index", NEXT, next),
        _ => ("next index", NEXT, next),
    };
    let why = match to {
        _ if to < cells => format!("cell {to} was reached before"),
        _ => format!("the last cell is {}", cells - 1),
    };
    let last = at + 1;
    Some(format!(
        "the {name} in cell {number} (bytes {at} and {last}) is {to}, and {why}"
    ))
}

fn wrong_kind(bytes: &[u8], number: usize) -> Option<String> {
    let kind = cell(bytes, number)?[KIND];
    let among = |head| chain(bytes, head).any(|cell| cell == number);
    let (place, why) = match (among(NEXT), among(FIRST_FREE)) {
        (true, _) => ("among the sales", ", which is not a sale's"),
        (_, true) => ("among the free cells", ", which is not a free cell's"),
        _ => ("in neither chain", ""),
    };
    Some(format!(
        "cell {number} is {place}; its kind (byte {KIND}) is {kind}{why}"
    ))
}

/// The cells of a chain, no more of them than the store has.
fn chain(bytes: &[u8], head: usize) -> impl Iterator<Item = usize> + '_ {
    let first = cell(bytes, 0).map(|cell| index(cell, head));
    successors(first, |&number| Some(index(cell(bytes, number)?, NEXT)))
        .take_while(|&number| number != 0)
        .take(bytes.len() / CELL_LEN)
}

fn cell(bytes: &[u8], number: usize) -> Option<&[u8]> {
    bytes.chunks_exact(CELL_LEN).nth(number)
}

fn index(cell: &[u8], at: usize) -> usize {
    u16::from_le_bytes([cell[at], cell[at + 1]]).into()
}

/// A cell in hexadecimal, sixteen bytes to a line behind the place of the first.
fn dump(bytes: &[u8], number: usize) -> Option<String> {
    const WIDTH: usize = 16;
    let line = |(n, part): (usize, &[u8])| {
        let digits: String = part.iter().map(|byte| format!(" {byte:02x}")).collect();
        format!("{:4} {digits}\n", WIDTH * n)
    };
    let lines = cell(bytes, number)?.chunks(WIDTH).enumerate().map(line);
    Some(format!("cell {number}:\n{}\n", lines.collect::<String>()))
}
