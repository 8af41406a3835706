//! Every shape of a small store: all heads, next indices and kinds.

use crate::calls::{of_store, on_store, FORMAT, TOTAL};
use crate::entry::Arg;
use crate::prng::Prng;
use crate::report::Check;
use crate::stores::sound::{random_sale, sealed, set_index, HEADS, KIND_AT};
use reference::store::{Sale, BODY_AT, CELL_LEN};

/// How many kinds are tried, from 0 on: those that there are, and one that there is not.
const KINDS_TRIED: usize = 4;
/// Numbers of cells, and of shapes that are sound: as many as ways to put the cells behind cell 0 in
/// order, to cut the order in two and to give each sale one of two kinds.
const SIZES: [(usize, usize); 3] = [(2, 1 + 2), (3, 2 * (1 + 2 + 4)), (4, 6 * (1 + 2 + 4 + 8))];

/// Compares every call but format on every shape, and counts the sound ones.
pub fn run(prng: &mut Prng, check: &mut Check) {
    for (cells, sound) in SIZES {
        let shapes = Shapes::new(prng, cells);
        let found = (0..shapes.count())
            .filter(|&shape| shapes.compare(check, &shapes.store(shape)))
            .count();
        check.record(found == sound, || {
            format!("{found} sound stores of {cells} cells, to be {sound}")
        });
    }
}

struct Shapes {
    cells: usize,
    key: Vec<u8>,
    /// What each cell holds, sale or not.
    sold: Vec<Sale>,
    bytes: Vec<u8>,
}

impl Shapes {
    fn new(prng: &mut Prng, cells: usize) -> Self {
        let key = prng.bytes(32);
        let sold: Vec<Sale> = (0..cells as u32).map(|n| random_sale(prng, 1, n)).collect();
        let cell = |sold| [vec![0; BODY_AT], sealed(&key, sold)].concat();
        let bytes = sold.iter().flat_map(cell).collect();
        Self {
            cells,
            key,
            sold,
            bytes,
        }
    }

    /// Each index is one of the cells, 0, or the first past the last cell.
    fn count(&self) -> usize {
        let indices = (self.cells + 1).pow(self.cells as u32 + 1);
        indices * KINDS_TRIED.pow(self.cells as u32 - 1)
    }

    /// The store of a shape by its number.
    fn store(&self, mut shape: usize) -> Vec<u8> {
        let mut digit = |base: usize| {
            let digit = shape % base;
            shape /= base;
            digit
        };
        let mut store = self.bytes.clone();
        for head in HEADS {
            set_index(&mut store, head, digit(self.cells + 1));
        }
        for cell in store.chunks_exact_mut(CELL_LEN).skip(1) {
            set_index(cell, 0, digit(self.cells + 1));
            cell[KIND_AT] = digit(KINDS_TRIED) as u8;
        }
        store
    }

    /// Compares the calls on a store, take on a sale that it has not. Returns whether total accepts it.
    fn compare(&self, check: &mut Check, store: &[u8]) -> bool {
        let mut sound = false;
        for entry in of_store().filter(|entry| entry.name != FORMAT.name) {
            let sold = &self.sold[if entry.takes(Arg::Tail) { 0 } else { 1 }];
            let (answer, _) = check.compare(&on_store(entry, &self.key, store, sold));
            sound |= entry.name == TOTAL.name && answer == 0;
        }
        sound
    }
}
