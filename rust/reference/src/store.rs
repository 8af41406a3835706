//! The sale store. Its bytes are taken apart into two lists of cells, a call works on these lists,
//! and the bytes are made from them again.

use crate::{check, key_ground, Refusal, MRO, NONCE_LEN, TAG_LEN};
use std::iter::{once, successors};
use std::ops::RangeInclusive;

/// Bytes of a cell.
pub const CELL_LEN: usize = 64;
/// The lengths of a store, of which every multiple of a cell is allowed.
pub const STORE_LENS: RangeInclusive<usize> = 128..=65_536;
/// Where in a cell its body begins, behind its next index and its kind.
pub const BODY_AT: usize = 3;
/// Bytes of a body: nonce, sealed record and tag.
pub const BODY_LEN: usize = CELL_LEN - BODY_AT;
/// The kind of a free cell.
pub const FREE: u8 = 0;
/// The kind of a sale with a clock, as earlier units took it.
pub const UNPRICED: u8 = 1;
/// The kind of a sale with a price and a day.
pub const PRICED: u8 = 2;
/// The rounds under which records are sealed.
pub const ROUNDS: u32 = 6;
/// Bytes of a nonce behind the two numbers.
pub const NONCE_TAIL_LEN: usize = 8;
/// The means that the cash total counts.
pub const COIN: u8 = 1;

/// Bytes of the two heads, with which cell 0 begins.
const HEADS_LEN: usize = 4;
/// Bytes of a record.
const RECORD_LEN: usize = BODY_LEN - NONCE_LEN - TAG_LEN;

/// No free cell.
const FULL: u32 = 15;
/// A sale that is there already, or is not there.
const NUMBERS: u32 = 16;
/// A length that no store has.
const LENGTH: u32 = 18;
/// An index past the last cell, or of a cell reached before. The place is the cell that holds it.
const INDEX: u32 = 19;
/// A cell whose kind does not fit its chain, or that is in neither. The place is the cell.
const KIND: u32 = 20;

/// A sale as it is handed in.
#[derive(Clone, Copy, Debug, Default, PartialEq, Eq)]
pub struct Sale {
    /// The machine's number.
    pub machine: u32,
    /// The sale's number.
    pub sale: u32,
    /// The nonce behind the two numbers.
    pub nonce_tail: [u8; NONCE_TAIL_LEN],
    /// In cents.
    pub amount: u32,
    /// The column sold from.
    pub column: u16,
    /// [`COIN`], or another.
    pub means: u8,
    /// The listed price, in cents.
    pub price: u32,
    /// The day's number, carried unread.
    pub day: u16,
}

impl Sale {
    /// Nonce, sealed record and tag.
    fn seal(&self, key: &[u8]) -> Result<Vec<u8>, Refusal> {
        let nonce = [name(self.machine, self.sale), self.nonce_tail.to_vec()].concat();
        let record = [
            &self.amount.to_le_bytes()[..],
            &self.column.to_le_bytes(),
            &[self.means],
            &self.price.to_le_bytes(),
            &self.day.to_le_bytes(),
        ]
        .concat();
        let mut parcel = vec![0; RECORD_LEN + TAG_LEN];
        crate::seal(MRO, ROUNDS, key, &nonce, &[], &record, &mut parcel)?;
        Ok([nonce, parcel].concat())
    }
}

/// What [`look_up`] finds.
#[derive(Clone, Copy, Debug, PartialEq, Eq)]
pub struct Figures {
    /// The amount taken, in cents.
    pub amount: u32,
    /// The listed price, in cents, where the sale has one.
    pub price: Option<u32>,
}

/// What the nonce of a sale begins with.
fn name(machine: u32, sale: u32) -> Vec<u8> {
    [machine.to_le_bytes(), sale.to_le_bytes()].concat()
}

/// Makes every cell free. Returns 0.
pub fn format(store: &mut [u8]) -> Result<usize, Refusal> {
    check_length(store)?;
    let zeros = |number| Cell {
        number,
        kind: FREE,
        body: vec![0; BODY_LEN],
    };
    let formatted = Store {
        rest: vec![0; CELL_LEN - HEADS_LEN],
        sales: Vec::new(),
        free: (1..store.len() / CELL_LEN).map(zeros).collect(),
    };
    formatted.write(store);
    Ok(0)
}

/// Puts a sale into the first free cell. Returns the cell.
pub fn take(key: &[u8], store: &mut [u8], sale: &Sale) -> Result<usize, Refusal> {
    check(&[key_ground(key)])?;
    let mut taken = Store::parse(store)?;
    check(&[
        (taken.find(sale.machine, sale.sale).is_some(), NUMBERS),
        (taken.free.is_empty(), FULL),
    ])?;
    let number = taken.free.remove(0).number;
    let (kind, body) = (PRICED, sale.seal(key)?);
    taken.sales.insert(0, Cell { number, kind, body });
    taken.write(store);
    Ok(number)
}

/// Frees the cell of a sale. Returns the amount.
pub fn cancel(key: &[u8], store: &mut [u8], machine: u32, sale: u32) -> Result<u32, Refusal> {
    let (mut cancelled, found, record) = Store::open(key, store, machine, sale)?;
    let Cell { number, .. } = cancelled.sales.remove(found);
    let (kind, body) = (FREE, vec![0; BODY_LEN]);
    cancelled.free.insert(0, Cell { number, kind, body });
    cancelled.write(store);
    Ok(record.amount)
}

/// The amount of a sale and its price, if it has one. Checked as [`cancel`].
pub fn look_up(key: &[u8], store: &[u8], machine: u32, sale: u32) -> Result<Figures, Refusal> {
    let (sound, found, record) = Store::open(key, store, machine, sale)?;
    let [a, b, c, d, ..] = record.rest;
    let price = u32::from_le_bytes([a, b, c, d]);
    Ok(Figures {
        amount: record.amount,
        price: (sound.sales[found].kind == PRICED).then_some(price),
    })
}

/// The sum of the amounts of all sales whose means is coin.
pub fn total(key: &[u8], store: &[u8]) -> Result<u64, Refusal> {
    check(&[key_ground(key)])?;
    let sales = Store::parse(store)?.sales;
    let records: Result<Vec<Record>, Refusal> = sales.iter().map(|cell| cell.open(key)).collect();
    let coins = records?.into_iter().filter(|record| record.means == COIN);
    Ok(coins.map(|record| u64::from(record.amount)).sum())
}

/// The offset in the store at which the body of a sale begins.
pub fn read(store: &[u8], machine: u32, sale: u32) -> Result<usize, Refusal> {
    let sound = Store::parse(store)?;
    let found = sound.find(machine, sale).ok_or((NUMBERS, 0))?;
    Ok(CELL_LEN * sound.sales[found].number + BODY_AT)
}

/// A sound store: each chain is a list, its first cell first.
struct Store {
    /// Cell 0 behind the two heads.
    rest: Vec<u8>,
    sales: Vec<Cell>,
    free: Vec<Cell>,
}

/// A cell of a list. Nothing is asked of the body of a free one.
struct Cell {
    number: usize,
    kind: u8,
    body: Vec<u8>,
}

/// An opened record, but for its column.
struct Record {
    amount: u32,
    means: u8,
    /// By the cell's kind a clock, or a price and a day.
    rest: [u8; 6],
}

impl Cell {
    /// Refused with this cell where the tag differs.
    fn open(&self, key: &[u8]) -> Result<Record, Refusal> {
        let (nonce, parcel) = self.body.split_at(NONCE_LEN);
        let mut record = [0; RECORD_LEN];
        crate::open(MRO, ROUNDS, key, nonce, &[], parcel, &mut record)
            .map_err(|(refused, _)| (refused, self.number as u32))?;
        let [a, b, c, d, _, _, means, rest @ ..] = record;
        let amount = u32::from_le_bytes([a, b, c, d]);
        Ok(Record {
            amount,
            means,
            rest,
        })
    }
}

impl Store {
    fn parse(bytes: &[u8]) -> Result<Self, Refusal> {
        check_length(bytes)?;
        let cells = Cells::parse(bytes);
        let [sales, free] = [0, 2].map(|head| cells.walk(index(&bytes[head..])));
        check_cell(INDEX, cells.first_stray(&[&sales[..], &free].concat()))?;
        let walks = [(&[UNPRICED, PRICED][..], &sales[..]), (&[FREE], &free)];
        check_cell(KIND, cells.first_unfit(walks))?;
        Ok(Self {
            rest: bytes[HEADS_LEN..CELL_LEN].to_vec(),
            sales: cells.list(sales),
            free: cells.list(free),
        })
    }

    /// The store, where in its list of sales the first one of these numbers is, and its record.
    fn open(
        key: &[u8],
        bytes: &[u8],
        machine: u32,
        sale: u32,
    ) -> Result<(Self, usize, Record), Refusal> {
        check(&[key_ground(key)])?;
        let store = Self::parse(bytes)?;
        let found = store.find(machine, sale).ok_or((NUMBERS, 0))?;
        let record = store.sales[found].open(key)?;
        Ok((store, found, record))
    }

    /// Where in the list of sales the first one of these numbers is.
    fn find(&self, machine: u32, sale: u32) -> Option<usize> {
        let name = name(machine, sale);
        self.sales
            .iter()
            .position(|cell| cell.body.starts_with(&name))
    }

    fn write(&self, bytes: &mut [u8]) {
        let head = |list: &[Cell]| two_bytes(list.first().map_or(0, |cell| cell.number));
        let heads = [head(&self.sales), head(&self.free)].concat();
        let mut cells = vec![[heads, self.rest.clone()].concat()];
        cells.resize(bytes.len() / CELL_LEN, Vec::new());
        for list in [&self.sales, &self.free] {
            let nexts = list.iter().skip(1).map(|cell| cell.number).chain(once(0));
            for (cell, next) in list.iter().zip(nexts) {
                cells[cell.number] = [&two_bytes(next)[..], &[cell.kind], &cell.body].concat();
            }
        }
        bytes.copy_from_slice(&cells.concat());
    }
}

/// A step of a walk: the cell that holds an index, and the index.
type Step = (usize, usize);

/// Every cell by its number, sound or not.
struct Cells<'a>(Vec<Raw<'a>>);

/// What stands in a cell.
struct Raw<'a> {
    next: usize,
    kind: u8,
    body: &'a [u8],
}

impl<'a> Cells<'a> {
    fn parse(bytes: &'a [u8]) -> Self {
        let raw = |cell: &'a [u8]| Raw {
            next: index(cell),
            kind: cell[2],
            body: &cell[BODY_AT..],
        };
        Self(bytes.chunks_exact(CELL_LEN).map(raw).collect())
    }

    /// The steps from `head` on. One past the last cell is the last step, and a walk that never ends is
    /// cut where it must have come to some cell twice.
    fn walk(&self, head: usize) -> Vec<Step> {
        let next = |&(_, index): &Step| Some((index, self.0.get(index)?.next));
        successors(Some((0, head)), next)
            .take_while(|&(_, index)| index != 0)
            .take(self.0.len())
            .collect()
    }

    /// The holder of the first index past the last cell or of a cell that an earlier step came to.
    fn first_stray(&self, steps: &[Step]) -> Option<usize> {
        let mut places: Vec<usize> = (0..steps.len()).collect();
        // Steps to one cell come together, the earliest first.
        places.sort_by_key(|&place| steps[place].1);
        let alike = |pair: &&[usize]| steps[pair[0]].1 == steps[pair[1]].1;
        let again = places.windows(2).filter(alike).map(|pair| pair[1]);
        let past = (0..steps.len()).filter(|&place| steps[place].1 >= self.0.len());
        again.chain(past).min().map(|place| steps[place].0)
    }

    /// The first cell that neither walk came to, or whose kind is none of those of the walk that did.
    fn first_unfit(&self, walks: [(&[u8], &[Step]); 2]) -> Option<usize> {
        let mut fitting: Vec<(usize, u8)> = Vec::new();
        for (kinds, steps) in walks {
            let pairs = |&(_, index): &Step| kinds.iter().map(move |&kind| (index, kind));
            fitting.extend(steps.iter().flat_map(pairs));
        }
        fitting.sort_unstable();
        let fits = |number: usize| {
            fitting
                .binary_search(&(number, self.0[number].kind))
                .is_ok()
        };
        (1..self.0.len()).find(|&number| !fits(number))
    }

    fn list(&self, walk: Vec<Step>) -> Vec<Cell> {
        let cell = |(_, number): Step| Cell {
            number,
            kind: self.0[number].kind,
            body: self.0[number].body.to_vec(),
        };
        walk.into_iter().map(cell).collect()
    }
}

fn check_length(store: &[u8]) -> Result<(), Refusal> {
    let allowed = STORE_LENS.contains(&store.len()) && store.len() % CELL_LEN == 0;
    check(&[(!allowed, LENGTH)])
}

/// Refused with the cell where there is one.
fn check_cell(number: u32, cell: Option<usize>) -> Result<(), Refusal> {
    cell.map_or(Ok(()), |cell| Err((number, cell as u32)))
}

/// The index with which `bytes` begin.
fn index(bytes: &[u8]) -> usize {
    usize::from(u16::from_le_bytes([bytes[0], bytes[1]]))
}

fn two_bytes(index: usize) -> Vec<u8> {
    (index as u16).to_le_bytes().to_vec()
}
