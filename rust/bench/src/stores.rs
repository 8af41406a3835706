//! The calls of the sale store that are measured, on sound stores and on damaged ones. A further call is a
//! line of `CALLS`, and a function that makes it; a further damage is a line with a function that does it.

use crate::buffer::Buffer;
use crate::cases::Size::{self, Cells, Shuffled};
use crate::cases::{Implementation, Key, KEY};
use crate::measure::Case;
use baseline::{stores_by_clang, Store, BY_MARKS, STORE};
use reference::store::{FREE, PRICED, UNPRICED};

/// How large the stores are. Half of the cells of a sound one are sales.
pub const SIZES: [Size; 6] = [
    Cells(16),
    Cells(128),
    Cells(1024),
    Shuffled(16),
    Shuffled(128),
    Shuffled(1024),
];

/// Bytes of a cell.
pub const CELL: usize = 64;
const MACHINE: u32 = 7;
const TAIL: [u8; 8] = [0x24; 8];
const DAY: u16 = 0x5a5a;
/// Where the first free index stands, and a cell's kind.
const FIRST_FREE: usize = 2;
const KIND: usize = 2;
/// The numbers of refusals: an index, and a kind or missing cell.
const INDEX: u64 = 19;
const MISFIT: u64 = 20;

pub const TAKE: &str = "store take";
/// Of the sale that is last in its chain.
pub const CANCEL: &str = "store cancel";
/// Of the same.
pub const READ: &str = "store read";
/// Of the same, in a chain with sales of both kinds.
pub const MIXED: &str = "store read of both kinds";
/// Of the same, among sales with a price, as the others are.
pub const LOOK_UP: &str = "store look-up";
pub const TOTAL: &str = "store total";

// The read of a damaged store is the check and little else.

/// The end of the free chain leads back to its head.
pub const RING: &str = "read of a ring";
/// All cells are sales, and the last leads to itself.
pub const LONG_RING: &str = "read of a long tail into a ring";
/// The end of the free chain leads to the first sale.
pub const CROSSED: &str = "read of crossed chains";
/// All cells but one are free, and the last leads to the sale.
pub const LONG_CROSSED: &str = "read of a long tail into the other chain";
/// All cells are sales, and the last index is past the last cell.
pub const LONG_PAST: &str = "read of a long chain past the end";
/// The free chain ends a cell too early.
pub const MISSING: &str = "read with a missing cell";
/// The last free cell is of no kind.
pub const NO_KIND: &str = "read with a wrong kind";

/// The first sale leads to itself: marks see that at once, a walk without only when it has gone too far.
pub const SHORT_RING: &str = "read of a short ring";

/// A call that is timed.
pub struct Call {
    pub name: &'static str,
    /// Makes it on a store with so many sales, numbered from 1.
    make: fn(&Store, &mut [u8], u32) -> u64,
    /// Damages the sound store, or leaves it, and says what the call has to answer.
    prepare: fn(&mut Filled) -> u64,
}

/// Every call.
#[rustfmt::skip]
pub const CALLS: [Call; 14] = [
    Call { name: TAKE, make: take, prepare: |store| store.free[0] as u64 },
    Call { name: CANCEL, make: cancel, prepare: |_| amount(1).into() },
    Call { name: READ, make: read, prepare: |store| store.found() },
    Call { name: MIXED, make: read, prepare: |store| store.mix().found() },
    Call { name: LOOK_UP, make: look_up, prepare: |_| figures(amount(1), price(1)) },
    Call { name: TOTAL, make: total, prepare: |store| coins(store.sales.len() as u32) },
    Call { name: RING, make: read, prepare: |store| store.lead_to(|store| store.free[0]) },
    Call { name: LONG_RING, make: read, prepare: |store| store.all_sales().lead_to(|store| end(&store.sales)) },
    Call { name: CROSSED, make: read, prepare: |store| store.lead_to(|store| store.sales[0]) },
    Call { name: LONG_CROSSED, make: read, prepare: |store| store.one_sale().lead_to(|store| store.sales[0]) },
    Call { name: LONG_PAST, make: read, prepare: |store| store.all_sales().lead_to(Filled::cells) },
    Call { name: MISSING, make: read, prepare: Filled::lose },
    Call { name: NO_KIND, make: read, prepare: Filled::spoil },
    Call { name: SHORT_RING, make: read, prepare: Filled::turn },
];

/// Who has the calls.
fn all_who() -> Vec<(Implementation, Store)> {
    let mut all = vec![
        #[cfg(feature = "archive")]
        (Implementation::Library, LIBRARY),
        (Implementation::ScalarC, STORE),
        (Implementation::MarksC, BY_MARKS),
    ];
    if let Some([store, by_marks]) = stores_by_clang() {
        all.push((Implementation::ScalarClang, store));
        all.push((Implementation::MarksClang, by_marks));
    }
    all
}

#[cfg(feature = "archive")]
const LIBRARY: Store = Store {
    take: calmbaize::ffi::calmbaize_store_take,
    cancel: calmbaize::ffi::calmbaize_store_cancel,
    total: calmbaize::ffi::calmbaize_store_total,
    read: calmbaize::ffi::calmbaize_store_read,
    look_up: calmbaize::ffi::calmbaize_store_look_up,
};

/// Takes one sale more.
fn take(by: &Store, store: &mut [u8], sales: u32) -> u64 {
    let sale = sales + 1;
    // SAFETY: each pointer is valid for its length, and the store overlaps nothing.
    unsafe {
        (by.take)(
            KEY.as_ptr(),
            KEY.len(),
            store.as_mut_ptr(),
            store.len(),
            MACHINE,
            sale,
            TAIL.as_ptr(),
            amount(sale),
            3,
            means(sale),
            price(sale),
            DAY,
        )
    }
}

fn cancel(by: &Store, store: &mut [u8], _: u32) -> u64 {
    let (bytes, len) = (store.as_mut_ptr(), store.len());
    // SAFETY: each pointer is valid for its length, and the store overlaps nothing.
    unsafe { (by.cancel)(KEY.as_ptr(), KEY.len(), bytes, len, MACHINE, 1) }
}

fn read(by: &Store, store: &mut [u8], _: u32) -> u64 {
    // SAFETY: the pointer is valid for its length.
    unsafe { (by.read)(store.as_ptr(), store.len(), MACHINE, 1) }
}

/// Answers amount and price, or what they are not where it is refused or the sale has no price.
fn look_up(by: &Store, store: &mut [u8], _: u32) -> u64 {
    match looked_up(by, store) {
        (kind, amount, price) if kind == u64::from(PRICED) => figures(amount, price),
        _ => u64::MAX,
    }
}

/// The look-up's own answer, and amount and price as it leaves them.
fn looked_up(by: &Store, store: &[u8]) -> (u64, u32, u32) {
    let (bytes, len) = (store.as_ptr(), store.len());
    let (mut amount, mut price) = (u32::MAX, u32::MAX);
    // SAFETY: each pointer is valid for its length, and amount and price overlap nothing.
    let answer = unsafe {
        (by.look_up)(
            KEY.as_ptr(),
            KEY.len(),
            bytes,
            len,
            MACHINE,
            1,
            &mut amount,
            &mut price,
        )
    };
    (answer, amount, price)
}

/// Answers the total itself, or what no total is where it is refused.
fn total(by: &Store, store: &mut [u8], _: u32) -> u64 {
    let (bytes, len) = (store.as_ptr(), store.len());
    let mut total = u64::MAX;
    // SAFETY: each pointer is valid for its length, and the total overlaps nothing.
    match unsafe { (by.total)(KEY.as_ptr(), KEY.len(), bytes, len, &mut total) } {
        0 => total,
        _ => u64::MAX,
    }
}

fn amount(sale: u32) -> u32 {
    100 + sale
}

/// What the amount was rounded from.
fn price(sale: u32) -> u32 {
    amount(sale) + 2
}

/// Both in one number.
fn figures(amount: u32, price: u32) -> u64 {
    u64::from(price) << 32 | u64::from(amount)
}

/// Coin and card in turn.
fn means(sale: u32) -> u8 {
    (sale % 2 + 1) as u8
}

/// The amounts of all sales by coin.
fn coins(sales: u32) -> u64 {
    let coins = (1..=sales).filter(|&sale| means(sale) == 1);
    coins.map(|sale| u64::from(amount(sale))).sum()
}

/// All cases that are wanted. Those that are compared stand side by side.
pub fn all(wanted: &dyn Fn(Key) -> bool) -> Vec<Case> {
    let mut cases = Vec::new();
    for call in &CALLS {
        for size in SIZES {
            for (implementation, by) in all_who() {
                let key = Key::new(implementation, None, call.name, size);
                if wanted(key) {
                    cases.push(call.case(key, by));
                }
            }
        }
    }
    cases
}

impl Call {
    /// The case of `key`. What the call changes in the store is put back each time.
    fn case(&self, key: Key, by: Store) -> Case {
        let mut filled = Filled::new(key.size);
        let sales = filled.sales.len() as u32;
        let (make, wanted, kept) = (self.make, (self.prepare)(&mut filled), filled.bytes);
        let mut store = Buffer::filled(0, kept.len());
        store.copy_from_slice(&kept);
        make(&by, &mut store, sales);
        let changed: Vec<usize> = (0..kept.len())
            .step_by(CELL)
            .filter(|&at| store[at..at + CELL] != kept[at..at + CELL])
            .collect();
        Case::new(key, wanted, move || {
            for &at in &changed {
                store[at..at + CELL].copy_from_slice(&kept[at..at + CELL]);
            }
            make(&by, &mut store, sales)
        })
    }
}

/// A store, and the cells of its chains from their heads on.
#[derive(Clone)]
struct Filled {
    bytes: Vec<u8>,
    sales: Vec<usize>,
    free: Vec<usize>,
}

impl Filled {
    /// A sound store, half of its cells sales, taken one after the other.
    fn new(size: Size) -> Self {
        let (bytes, sales, free) = (vec![0; size.bytes()], Vec::new(), order(size));
        let mut store = Self { bytes, sales, free };
        store.link();
        for sales in 0..store.cells() / 2 {
            let cell = store.free.remove(0);
            let taken = take(&STORE, &mut store.bytes, sales as u32);
            assert_eq!(taken, cell as u64);
            store.sales.insert(0, cell);
        }
        store
    }

    fn cells(&self) -> usize {
        self.bytes.len() / CELL
    }

    /// Writes heads, next indices and kinds.
    fn link(&mut self) {
        for (head, chain, kind) in [(0, &self.sales, PRICED), (FIRST_FREE, &self.free, FREE)] {
            let mut holder = head;
            for cell in chain {
                put(&mut self.bytes, holder, *cell);
                holder = CELL * cell;
                self.bytes[holder + KIND] = kind;
            }
            put(&mut self.bytes, holder, 0);
        }
    }

    /// What read answers of the sale that is last in its chain.
    fn found(&self) -> u64 {
        (CELL * end(&self.sales) + 3) as u64
    }

    /// Makes sales of an older unit of those in every other cell; a shuffled chain has them in no order.
    fn mix(&mut self) -> &mut Self {
        for cell in self.sales.iter().filter(|&cell| cell % 2 == 0) {
            self.bytes[CELL * cell + KIND] = UNPRICED;
        }
        self
    }

    /// Makes one long chain of both.
    fn all_sales(&mut self) -> &mut Self {
        self.sales.append(&mut self.free);
        self.link();
        self
    }

    /// Makes one long chain of all but the first sale.
    fn one_sale(&mut self) -> &mut Self {
        let mut rest = self.sales.split_off(1);
        rest.append(&mut self.free);
        self.free = rest;
        self.link();
        self
    }

    /// Puts an index into the last cell that is walked, which is then refused.
    fn lead_to(&mut self, index: fn(&Self) -> usize) -> u64 {
        let chains = [&self.free, &self.sales];
        let last = chains.iter().find_map(|chain| chain.last().copied());
        self.refused(last.expect("a cell"), index(self))
    }

    /// Has the first sale lead to itself.
    fn turn(&mut self) -> u64 {
        self.refused(self.sales[0], self.sales[0])
    }

    /// Puts an index into a cell, which is then refused.
    fn refused(&mut self, holder: usize, index: usize) -> u64 {
        put(&mut self.bytes, CELL * holder, index);
        INDEX << 32 | holder as u64
    }

    /// Leaves the last free cell out of its chain.
    fn lose(&mut self) -> u64 {
        let missing = self.free.pop().expect("a free cell");
        self.link();
        MISFIT << 32 | missing as u64
    }

    /// Gives the last free cell no kind.
    fn spoil(&mut self) -> u64 {
        let cell = end(&self.free);
        self.bytes[CELL * cell + KIND] = 255;
        MISFIT << 32 | cell as u64
    }
}

/// The last cell of a chain.
fn end(chain: &[usize]) -> usize {
    *chain.last().expect("a chain with cells")
}

fn put(store: &mut [u8], at: usize, index: usize) {
    store[at..at + 2].copy_from_slice(&(index as u16).to_le_bytes());
}

/// All cells but cell 0 in the order in which they are taken; a shuffled one is the same each time.
fn order(size: Size) -> Vec<usize> {
    let mut cells: Vec<usize> = (1..size.bytes() / CELL).collect();
    if let Shuffled(_) = size {
        let mut random = random(1);
        for i in (1..cells.len()).rev() {
            cells.swap(i, random() as usize % (i + 1));
        }
    }
    cells
}

/// Numbers that are the same each time (xorshift).
fn random(mut seed: u64) -> impl FnMut() -> u64 {
    move || {
        seed ^= seed << 13;
        seed ^= seed >> 7;
        seed ^= seed << 17;
        seed >> 16
    }
}

#[cfg(test)]
mod tests {
    use super::*;

    /// Damages a store at a few places, of both kinds or not.
    fn damaged(size: Size, random: &mut impl FnMut() -> u64) -> Filled {
        let mut store = Filled::new(size);
        if random() % 2 == 0 {
            store.mix();
        }
        for _ in 0..random() % 3 {
            let cells = store.cells();
            let at = CELL * (random() as usize % cells);
            match random() % 4 {
                0 => put(
                    &mut store.bytes,
                    FIRST_FREE,
                    random() as usize % (cells + 1),
                ),
                1 => store.bytes[at + KIND] = (random() % 4) as u8,
                _ => put(&mut store.bytes, at, random() as usize % (cells + 1)),
            }
        }
        store
    }

    /// 0 where a look-up is refused, 1 where the sale has no price, 2 where it has one.
    fn outcome(answer: u64) -> usize {
        match u8::try_from(answer) {
            Err(_) => 0,
            Ok(UNPRICED) => 1,
            Ok(PRICED) => 2,
            Ok(other) => panic!("a sale of kind {other}"),
        }
    }

    #[test]
    fn every_version_answers_alike() {
        let mut random = random(2);
        let (mut refused, mut outcomes) = ([0; 32], [0; 3]);
        for round in 0..6000 {
            let cells = if round % 100 == 0 {
                1024
            } else {
                2 + round % 80
            };
            let store = damaged(Shuffled(cells), &mut random);
            let answers = all_who().into_iter().map(|(who, by)| {
                let mut bytes = store.bytes.clone();
                let found = (read(&by, &mut bytes, 0), looked_up(&by, &bytes));
                (who, found, bytes)
            });
            let answers: Vec<_> = answers.collect();
            let (offset, (answer, ..)) = answers[0].1;
            refused[(offset >> 32) as usize] += 1;
            outcomes[outcome(answer)] += 1;
            for (who, found, bytes) in &answers {
                assert_eq!(*found, answers[0].1, "{who}, {cells} cells");
                assert!(*bytes == store.bytes, "{who} changed the store");
            }
        }
        for number in [0, INDEX, MISFIT] {
            assert!(refused[number as usize] > 100, "{refused:?}");
        }
        assert!(outcomes.iter().all(|&met| met > 100), "{outcomes:?}");
    }
}
