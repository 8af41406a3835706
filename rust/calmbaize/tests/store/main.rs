//! The store of sales: every ground through the calls with slices, and the wrapper over them.

mod kinds;

use calmbaize::slices::store::{cancel, format, look_up, read, take, total};
use calmbaize::{Aead, Header, Key, Mode, Nonce, Rounds};
use calmbaize::{Ground, Occupancy, Refusal, Sale, SealedSale, Store};
use calmbaize::{CELL_LEN, KIND_PRICED, MAX_STORE_LEN, MIN_STORE_LEN, SALE_LEN};
use calmbaize::{MEANS_CARD, MEANS_COIN};

const KEY: [u8; 32] = [3; 32];
const TAIL: [u8; 8] = [0xc1; 8];
const SALE: Sale = Sale {
    machine: 0x0403_0201,
    sale: 0x0807_0605,
    amount: 0x0c0b_0a09,
    column: 0x0e0d,
    means: MEANS_COIN,
    price: 0x2423_2221,
    day: 0x2625,
};

fn key() -> Key {
    Key::new(KEY)
}

fn numbered(sale: u32) -> Sale {
    Sale { sale, ..SALE }
}

/// A store with so many cells, of which the first ones behind cell 0 were taken for sales 1, 2...
fn stored(cells: usize, sales: u32) -> Vec<u8> {
    let mut bytes = vec![0xaa; cells * CELL_LEN];
    format(&mut bytes).unwrap();
    for sale in 1..=sales {
        assert_eq!(take(&KEY, &mut bytes, &TAIL, &numbered(sale)), Ok(sale));
    }
    bytes
}

/// A refusal with its place.
fn at(ground: Ground, place: u32) -> Refusal {
    let mut refusal = Refusal::from(ground);
    refusal.place = place;
    refusal
}

/// Makes a call that is refused and leaves the bytes as they are.
fn refused<T: std::fmt::Debug>(
    bytes: &[u8],
    refusal: impl Into<Refusal>,
    call: impl FnOnce(&mut [u8]) -> Result<T, Refusal>,
) {
    let mut lent = bytes.to_vec();
    assert_eq!(call(&mut lent).unwrap_err(), refusal.into());
    assert_eq!(lent, bytes);
}

/// All calls that look at the store's form refuse it alike.
fn no_store(bytes: &[u8], form: impl Into<Refusal>) {
    let form = form.into();
    refused(bytes, form, |lent| take(&KEY, lent, &TAIL, &SALE));
    refused(bytes, form, |lent| cancel(&KEY, lent, SALE.machine, 1));
    refused(bytes, form, |lent| total(&KEY, lent));
    refused(bytes, form, |lent| read(lent, SALE.machine, 1));
    refused(bytes, form, |lent| look_up(&KEY, lent, SALE.machine, 1));
    refused(bytes, form, |lent| Store::new(lent).sales().map(|_| ()));
    refused(bytes, form, |lent| Store::new(lent).check());
    // The key is looked at first.
    let short = Ground::KeyLength;
    refused(bytes, short, |lent| take(&KEY[1..], lent, &TAIL, &SALE));
    refused(bytes, short, |lent| cancel(&[], lent, SALE.machine, 1));
    refused(bytes, short, |lent| total(&[3; 33], lent));
    refused(bytes, short, |lent| {
        look_up(&[3; 33], lent, SALE.machine, 1)
    });
}

#[test]
fn a_formatted_store() {
    let bytes = stored(3, 0);
    let mut expected = [0; 3 * CELL_LEN];
    expected[2] = 1;
    expected[CELL_LEN] = 2;
    assert_eq!(bytes, expected);
    assert_eq!(total(&KEY, &bytes), Ok(0));
    assert_eq!(Store::new(&mut expected).sales().unwrap().count(), 0);
}

#[test]
fn lengths() {
    let right = |len: usize| (MIN_STORE_LEN..=MAX_STORE_LEN).contains(&len) && len % CELL_LEN == 0;
    for len in (0..400).chain(65_400..65_700) {
        let mut bytes = vec![0; len];
        if right(len) {
            assert_eq!(format(&mut bytes), Ok(()), "{len}");
            assert_eq!(total(&KEY, &bytes), Ok(0), "{len}");
        } else {
            refused(&bytes, Ground::StoreLength, format);
            no_store(&bytes, Ground::StoreLength);
        }
    }
}

#[test]
fn a_sale_in_its_cell() {
    let mut bytes = stored(4, 1);
    let before = bytes.clone();
    assert_eq!(take(&KEY, &mut bytes, &TAIL, &SALE), Ok(2));
    assert_eq!(bytes[..4], [2, 0, 3, 0]);
    assert_eq!(bytes[4..2 * CELL_LEN], before[4..2 * CELL_LEN]);
    assert_eq!(bytes[3 * CELL_LEN..], before[3 * CELL_LEN..]);

    let (front, part) = bytes[2 * CELL_LEN..3 * CELL_LEN].split_at(3);
    assert_eq!(front, [1, 0, KIND_PRICED]);
    let nonce = [1, 2, 3, 4, 5, 6, 7, 8].into_iter().chain(TAIL);
    assert_eq!(part[..16], nonce.collect::<Vec<u8>>());
    let aead = Aead::new(Mode::Mro, Rounds::Six, key());
    let nonce = Nonce::try_from(&part[..16]).unwrap();
    let mut record = [0; 13];
    let opened = aead.open(&nonce, Header::default(), &part[16..], &mut record);
    assert_eq!(opened, Ok(13));
    let expected = [9, 10, 11, 12, 13, 14, 1, 0x21, 0x22, 0x23, 0x24, 0x25, 0x26];
    assert_eq!(record, expected);
}

#[test]
fn take_refusals() {
    let full = stored(3, 2);
    let present = numbered(1);
    let other = Sale {
        machine: 9,
        ..present
    };
    refused(&full, Ground::KeyLength, |lent| {
        take(&KEY[1..], lent, &TAIL, &present)
    });
    // Present counts before full.
    refused(&full, Ground::SaleNumbers, |lent| {
        take(&KEY, lent, &TAIL, &present)
    });
    refused(&full, Ground::StoreFull, |lent| {
        take(&KEY, lent, &TAIL, &other)
    });
    // Nothing has to open.
    refused(&full, Ground::SaleNumbers, |lent| {
        take(&[4; 32], lent, &TAIL, &present)
    });
    let mut room = stored(4, 2);
    assert_eq!(take(&[4; 32], &mut room, &TAIL, &other), Ok(3));
}

#[test]
fn cancel_refusals() {
    let mut bytes = stored(4, 3);
    let machine = SALE.machine;
    refused(&bytes, Ground::SaleNumbers, |lent| {
        cancel(&KEY, lent, machine, 4)
    });
    refused(&bytes, Ground::SaleNumbers, |lent| {
        cancel(&KEY, lent, machine + 1, 2)
    });
    refused(&bytes, at(Ground::Tag, 2), |lent| {
        cancel(&[4; 32], lent, machine, 2)
    });
    // Absent counts before a sale that won't open, and only the sale named has to.
    bytes[2 * CELL_LEN + 40] ^= 1;
    refused(&bytes, Ground::SaleNumbers, |lent| {
        cancel(&KEY, lent, machine, 4)
    });
    refused(&bytes, at(Ground::Tag, 2), |lent| {
        cancel(&KEY, lent, machine, 2)
    });
    assert_eq!(cancel(&KEY, &mut bytes, machine, 3), Ok(SALE.amount));
}

#[test]
fn total_refusals() {
    let mut bytes = stored(5, 2);
    let card = Sale {
        means: MEANS_CARD,
        ..numbered(3)
    };
    take(&KEY, &mut bytes, &TAIL, &card).unwrap();
    take(&KEY, &mut bytes, &TAIL, &numbered(4)).unwrap();
    // The chain is 4, 3, 2, 1. A card's sale has to open too.
    bytes[CELL_LEN + 3 + 8] ^= 1;
    refused(&bytes, at(Ground::Tag, 1), |lent| total(&KEY, lent));
    bytes[4 * CELL_LEN - 1] ^= 1;
    refused(&bytes, at(Ground::Tag, 3), |lent| total(&KEY, lent));
    refused(&bytes, Ground::KeyLength, |lent| total(&KEY[1..], lent));
}

/// A store with one byte changed, and what is not looked at.
#[test]
fn chains() {
    use Ground::{StoreIndex, StoreKind};
    // Cell 0, sales 3, 2, 1, free cells 4, 5.
    let right = stored(6, 3);
    let cell = CELL_LEN;
    let wrong = [
        ("sales past the last cell", 0, 6, at(StoreIndex, 0)),
        ("sales far past it", 1, 1, at(StoreIndex, 0)),
        ("free past the last cell", 2, 6, at(StoreIndex, 0)),
        ("next past the last cell", cell, 6, at(StoreIndex, 1)),
        ("next far past it", 5 * cell + 1, 0xff, at(StoreIndex, 5)),
        ("sales that go round", cell, 3, at(StoreIndex, 1)),
        ("a cell behind itself", 5 * cell, 5, at(StoreIndex, 5)),
        ("both heads alike", 2, 3, at(StoreIndex, 0)),
        ("sales into the first free", cell, 4, at(StoreIndex, 0)),
        ("sales into the free cells", cell, 5, at(StoreIndex, 4)),
        ("free cells into the sales", 5 * cell, 2, at(StoreIndex, 5)),
        ("free among the sales", 2 * cell + 2, 0, at(StoreKind, 2)),
        ("kind 3 among the sales", cell + 2, 3, at(StoreKind, 1)),
        ("a sale among the free", 4 * cell + 2, 1, at(StoreKind, 4)),
        ("kind 2 among the free", 5 * cell + 2, 2, at(StoreKind, 5)),
        ("a cell in neither chain", 4 * cell, 0, at(StoreKind, 5)),
        ("all sales in neither chain", 0, 0, at(StoreKind, 1)),
    ];
    for (what, at, byte, refusal) in wrong {
        let mut bytes = right.clone();
        assert_ne!(bytes[at], byte, "{what}");
        bytes[at] = byte;
        println!("{what}");
        no_store(&bytes, refusal);
    }
    let mut bytes = right;
    bytes[4..cell].fill(0xaa);
    bytes[4 * cell + 3..5 * cell].fill(0xaa);
    assert_eq!(total(&KEY, &bytes), Ok(3 * u64::from(SALE.amount)));
}

/// Where the memory goes on behind the store, a chain through it covers no cell of the store.
#[test]
fn a_chain_past_the_end() {
    let mut bytes = stored(7, 3);
    bytes[4 * CELL_LEN] = 6;
    no_store(&bytes, at(Ground::StoreKind, 5));
    let answer = read(&bytes[..6 * CELL_LEN], SALE.machine, 1);
    assert_eq!(answer, Err(at(Ground::StoreIndex, 4)));
}

#[test]
fn cells_are_counted() {
    for (cells, sales) in [(2, 0), (2, 1), (5, 0), (5, 3), (5, 4)] {
        let mut bytes = stored(cells, sales as u32);
        let free = cells - 1 - sales;
        let occupancy = Occupancy { cells, sales, free };
        assert_eq!(Store::new(&mut bytes).check(), Ok(occupancy));
    }
    // With a sale of the numbers that are asked for.
    let mut bytes = stored(3, 0);
    let zero = Sale {
        machine: 0,
        ..numbered(0)
    };
    take(&KEY, &mut bytes, &TAIL, &zero).unwrap();
    let counted = Store::new(&mut bytes).check().unwrap();
    assert_eq!((counted.sales, counted.free), (1, 1));
}

#[test]
fn a_total_past_32_bits() {
    let mut bytes = stored(8, 0);
    let most = u32::MAX;
    for sale in 1..=5 {
        let sale = Sale {
            amount: most,
            ..numbered(sale)
        };
        take(&KEY, &mut bytes, &TAIL, &sale).unwrap();
    }
    for means in [0, MEANS_CARD] {
        let other = Sale {
            means,
            ..numbered(100 + u32::from(means))
        };
        take(&KEY, &mut bytes, &TAIL, &other).unwrap();
    }
    assert_eq!(total(&KEY, &bytes), Ok(5 * u64::from(most)));
    assert_eq!(cancel(&KEY, &mut bytes, SALE.machine, 3), Ok(most));
    assert_eq!(cancel(&KEY, &mut bytes, SALE.machine, 100), Ok(SALE.amount));
    assert_eq!(total(&KEY, &bytes), Ok(4 * u64::from(most)));
}

/// A sale taken twice, which the calls never do: the first in the chain counts.
#[test]
fn two_alike() {
    let mut bytes = stored(4, 2);
    let other = Sale {
        amount: 7,
        ..numbered(1)
    };
    let mut elsewhere = stored(2, 0);
    take(&KEY, &mut elsewhere, &TAIL, &other).unwrap();
    bytes[2 * CELL_LEN + 3..3 * CELL_LEN].copy_from_slice(&elsewhere[CELL_LEN + 3..]);
    let machine = SALE.machine;
    assert_eq!(total(&KEY, &bytes), Ok(7 + u64::from(SALE.amount)));
    assert_eq!(read(&bytes, machine, 1), Ok(2 * CELL_LEN + 3));
    refused(&bytes, at(Ground::Tag, 2), |lent| {
        cancel(&[4; 32], lent, machine, 1)
    });
    assert_eq!(cancel(&KEY, &mut bytes, machine, 1), Ok(7));
    assert_eq!(read(&bytes, machine, 1), Ok(CELL_LEN + 3));
    assert_eq!(cancel(&KEY, &mut bytes, machine, 1), Ok(SALE.amount));
    refused(&bytes, Ground::SaleNumbers, |lent| read(lent, machine, 1));
}

#[test]
fn cancelled_cells_are_zero_and_used_again() {
    let mut bytes = stored(4, 3);
    let machine = SALE.machine;
    cancel(&KEY, &mut bytes, machine, 2).unwrap();
    cancel(&KEY, &mut bytes, machine, 3).unwrap();
    assert_eq!(bytes[..4], [1, 0, 3, 0]);
    let cell = |at: usize| &bytes[at * CELL_LEN..(at + 1) * CELL_LEN];
    assert_eq!((cell(3)[0], cell(2)[0]), (2, 0));
    assert!(cell(2)[1..]
        .iter()
        .chain(&cell(3)[1..])
        .all(|&byte| byte == 0));
    assert_eq!(take(&KEY, &mut bytes, &TAIL, &numbered(2)), Ok(3));
}

#[test]
fn the_wrapper_makes_the_same_calls() {
    let (mut bytes, mut by_slices) = (vec![0xaa; 256], vec![0xaa; 256]);
    let mut store = Store::new(&mut bytes);
    assert_eq!(store.format(), format(&mut by_slices));
    for sale in [1, 2, 2, 3, 4] {
        let sale = numbered(sale);
        let taken = take(&KEY, &mut by_slices, &TAIL, &sale);
        assert_eq!(store.take(&key(), &TAIL, &sale), taken);
    }
    let machine = SALE.machine;
    for sale in [1, 4] {
        let looked_up = look_up(&KEY, &by_slices, machine, sale);
        assert_eq!(store.look_up(&key(), machine, sale), looked_up);
    }
    for sale in [2, 2] {
        let cancelled = cancel(&KEY, &mut by_slices, machine, sale);
        assert_eq!(store.cancel(&key(), machine, sale), cancelled);
    }
    assert_eq!(store.total(&key()), total(&KEY, &by_slices));
    let wrong = Key::new([4; 32]);
    assert_eq!(store.total(&wrong), Err(at(Ground::Tag, 3)));
    assert_eq!(store.cancel(&wrong, machine, 1), Err(at(Ground::Tag, 1)));
    assert_eq!(store.look_up(&wrong, machine, 1), Err(at(Ground::Tag, 1)));
    assert_eq!(bytes, by_slices);
}

#[test]
fn a_part_of_the_store_itself() {
    let mut bytes = stored(4, 3);
    let range = bytes.as_ptr_range();
    let store = Store::new(&mut bytes);
    let sealed = store.read(SALE.machine, 2).unwrap();
    assert_eq!(sealed.open(&key()), Ok(numbered(2).into()));
    let part = sealed.part;
    let offset = part.as_ptr() as usize - range.start as usize;
    assert_eq!(offset, 2 * CELL_LEN + 3);
    assert_eq!(
        part.as_ptr_range().end,
        range.start.wrapping_add(3 * CELL_LEN)
    );
    let absent = store.read(SALE.machine, 4);
    assert_eq!(absent, Err(Ground::SaleNumbers.into()));
}

#[test]
fn a_part_that_was_changed_does_not_open() {
    let mut bytes = stored(2, 1);
    let store = Store::new(&mut bytes);
    let sealed = store.read(SALE.machine, 1).unwrap();
    assert_eq!(sealed.numbers(), (SALE.machine, 1));
    for at in 0..SALE_LEN {
        let mut part = *sealed.part;
        part[at] ^= 0x80;
        let changed = SealedSale {
            part: &part,
            ..sealed
        };
        assert_eq!(changed.open(&key()), Err(Ground::Tag.into()));
    }
    let wrong = Key::new([4; 32]);
    assert_eq!(sealed.open(&wrong), Err(Ground::Tag.into()));
}

#[test]
fn sales_come_in_the_order_of_their_chain() {
    let mut bytes = stored(5, 3);
    let mut store = Store::new(&mut bytes);
    let listed = |store: &Store<'_>| -> Vec<(u32, u32)> {
        let sales = store.sales().unwrap();
        sales
            .map(|(cell, sealed)| {
                let numbers = sealed.numbers();
                let read = store.read(numbers.0, numbers.1).unwrap();
                assert!(std::ptr::eq(read.part, sealed.part));
                assert_eq!(read.kind, sealed.kind);
                (cell, numbers.1)
            })
            .collect()
    };
    assert_eq!(listed(&store), [(3, 3), (2, 2), (1, 1)]);
    store.cancel(&key(), SALE.machine, 2).unwrap();
    // With these numbers the form is asked for.
    let zero = Sale {
        machine: 0,
        ..numbered(0)
    };
    store.take(&key(), &TAIL, &zero).unwrap();
    assert_eq!(listed(&store), [(2, 0), (3, 3), (1, 1)]);
}

#[test]
fn the_largest_store() {
    let cells = MAX_STORE_LEN / CELL_LEN;
    let sales = cells as u32 - 1;
    let mut bytes = stored(cells, sales);
    refused(&bytes, Ground::StoreFull, |lent| {
        take(&KEY, lent, &TAIL, &numbered(0))
    });
    let sum = u64::from(SALE.amount) * u64::from(sales);
    assert_eq!(total(&KEY, &bytes), Ok(sum));
    let store = Store::new(&mut bytes);
    let cells: Vec<u32> = store.sales().unwrap().map(|(cell, _)| cell).collect();
    assert!(cells.into_iter().eq((1..=sales).rev()));
}
