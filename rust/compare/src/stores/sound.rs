//! Sound stores in any layout, and all calls on them.

use crate::call::Call;
use crate::calls::{of_store, on_store};
use crate::entry::Arg;
use crate::prng::Prng;
use reference::store::{self, Sale, BODY_AT, BODY_LEN, CELL_LEN, COIN, PRICED, ROUNDS, UNPRICED};
use reference::{seal_under, Start, MRO, NONCE_LEN};

/// Where in a cell its kind is.
pub const KIND_AT: usize = 2;
/// Where in cell 0 the first sale's index is, and the first free index.
pub const HEADS: [usize; 2] = [0, 2];
/// The numbers of the two chains.
pub const SALES: usize = 0;
pub const FREE: usize = 1;
/// The kinds of sales.
pub const KINDS: [u8; 2] = [UNPRICED, PRICED];

/// Where an index stands: the chain, and the place in it of the cell whose index it is. The 0 behind the
/// last cell has a place too.
pub type Spot = (usize, usize);

/// A store that is as it has to be, and what it was made of.
#[derive(Clone)]
pub struct Sound {
    pub key: Vec<u8>,
    pub bytes: Vec<u8>,
    /// The cells of the two chains in their order, sales first.
    pub chains: [Vec<usize>; 2],
    /// The sales in the order of their chain, none like another. Of an unpriced one, price and day are the
    /// clock of the same bytes.
    pub sold: Vec<Sale>,
}

impl Sound {
    /// A store of `cells` cells, `sales` of which are sales, of both kinds or of one alone, the chains in a
    /// random order. All that is no ground of refusal is random.
    pub fn random(prng: &mut Prng, cells: usize, sales: usize) -> Self {
        let mut order: Vec<usize> = (1..cells).collect();
        prng.shuffle(&mut order);
        let free = order.split_off(sales);
        let mut store = Self {
            key: prng.bytes(32),
            bytes: prng.bytes(CELL_LEN * cells),
            chains: [order, free],
            sold: (0..sales as u32).map(|n| random_sale(prng, 7, n)).collect(),
        };
        let kinds = prng.pick(&[&KINDS[..], &KINDS, &[UNPRICED], &[PRICED]]);
        store.link(SALES, || prng.pick(kinds));
        store.link(FREE, || store::FREE);
        for n in 0..sales {
            let body = sealed(&store.key, &store.sold[n]);
            store
                .body_mut(store.chains[SALES][n])
                .copy_from_slice(&body);
        }
        store
    }

    /// Writes the indices and the kinds of a chain.
    fn link(&mut self, chain: usize, mut kind: impl FnMut() -> u8) {
        let cells = self.chains[chain].clone();
        for (place, &cell) in cells.iter().chain([&0]).enumerate() {
            let offset = self.offset((chain, place));
            set_index(&mut self.bytes, offset, cell);
        }
        for cell in cells {
            *self.kind_mut(cell) = kind();
        }
    }

    /// The cell that holds an index.
    pub fn holder(&self, (chain, place): Spot) -> usize {
        match place {
            0 => 0,
            _ => self.chains[chain][place - 1],
        }
    }

    /// Where in the store an index stands.
    pub fn offset(&self, spot: Spot) -> usize {
        match spot {
            (chain, 0) => HEADS[chain],
            _ => CELL_LEN * self.holder(spot),
        }
    }

    /// The number of cells.
    pub fn cells(&self) -> usize {
        self.bytes.len() / CELL_LEN
    }

    /// The kind of a cell.
    pub fn kind_mut(&mut self, cell: usize) -> &mut u8 {
        &mut self.bytes[CELL_LEN * cell + KIND_AT]
    }

    /// The 61 bytes of a cell.
    pub fn body_mut(&mut self, cell: usize) -> &mut [u8] {
        &mut self.bytes[CELL_LEN * cell..][BODY_AT..CELL_LEN]
    }

    /// The cell of a sale.
    pub fn cell_of(&self, machine: u32, sale: u32) -> Option<usize> {
        let same = |sold: &Sale| (sold.machine, sold.sale) == (machine, sale);
        let place = self.sold.iter().position(same)?;
        Some(self.chains[SALES][place])
    }

    /// Every call on this store: those on a sale for its first, its last and one that it has not, those
    /// with a key under another and under one that is too short besides.
    pub fn calls(&self, prng: &mut Prng) -> Vec<Call> {
        let absent = random_sale(prng, 7, u32::MAX);
        let ends = self.sold.first().into_iter().chain(self.sold.last());
        let named = self.sold.last().unwrap_or(&absent);
        let other = prng.bytes(32);
        let mut calls = Vec::new();
        for entry in of_store() {
            let mut push = |key, sold| calls.push(on_store(entry, key, &self.bytes, sold));
            push(&self.key, &absent);
            if entry.takes(Arg::Machine) {
                ends.clone().for_each(|sold| push(&self.key, sold));
            }
            if entry.takes(Arg::Key) {
                let takes = entry.takes(Arg::Tail);
                let sold = if takes { &absent } else { named };
                push(&other, sold);
                push(&self.key[1..], sold);
            }
        }
        calls
    }
}

/// A sale of these numbers.
pub fn random_sale(prng: &mut Prng, machine: u32, sale: u32) -> Sale {
    Sale {
        machine,
        sale,
        nonce_tail: prng.next().to_le_bytes(),
        amount: cents(prng),
        column: prng.next() as u16,
        means: prng.pick(&[1, 1, 1, 2, 2, 0, 3, 255]),
        price: cents(prng),
        day: prng.next() as u16,
    }
}

fn cents(prng: &mut Prng) -> u32 {
    let any = prng.next() as u32;
    prng.pick(&[any, any % 1000, 0, 1, u32::MAX])
}

/// The amounts of these sales by coin, added up.
pub fn coins<'a>(sales: impl IntoIterator<Item = &'a Sale>) -> u64 {
    let coins = sales.into_iter().filter(|sold| sold.means == COIN);
    coins.map(|sold| u64::from(sold.amount)).sum()
}

/// A sale's nonce, sealed record and tag.
pub fn sealed(key: &[u8], sold: &Sale) -> Vec<u8> {
    sealed_by(Start::New, (MRO, ROUNDS), &[], key, sold)
}

/// The same under another start, another mode and round count, or another header.
pub fn sealed_by(
    start: Start,
    (mode, rounds): (u32, u32),
    header: &[u8],
    key: &[u8],
    sold: &Sale,
) -> Vec<u8> {
    let mut body = [sold.machine, sold.sale].map(u32::to_le_bytes).concat();
    body.extend(sold.nonce_tail);
    let mut record = sold.amount.to_le_bytes().to_vec();
    record.extend(sold.column.to_le_bytes());
    record.push(sold.means);
    record.extend(sold.price.to_le_bytes());
    record.extend(sold.day.to_le_bytes());
    body.resize(BODY_LEN, 0);
    let (nonce, parcel) = body.split_at_mut(NONCE_LEN);
    let inputs = [key, nonce, header, &record];
    seal_under(start, mode, rounds, inputs, parcel).expect("a sealed record");
    body
}

/// The index at `offset`.
pub fn index(bytes: &[u8], offset: usize) -> usize {
    usize::from(bytes[offset]) | usize::from(bytes[offset + 1]) << 8
}

/// Writes an index to `offset`.
pub fn set_index(bytes: &mut [u8], offset: usize, index: usize) {
    bytes[offset..offset + 2].copy_from_slice(&(index as u16).to_le_bytes());
}
