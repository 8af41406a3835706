//! Sales with a price and without one, in one store.

use crate::{at, key, numbered, refused, stored, KEY, SALE, TAIL};
use calmbaize::slices::store::{cancel, look_up, take, total};
use calmbaize::{ffi, Detail, Ground, LookUp, Refusal, Sale, SealedSale, Store, StoredSale};
use calmbaize::{CELL_LEN, KIND_PRICED, KIND_UNPRICED, MEANS_CARD};

/// Where the kind stands in a cell.
const KIND: usize = 2;
/// The clock that a version before 0.8.0 has sealed to the bytes of the sale's price and day.
const CLOCK: [u8; 6] = [0x21, 0x22, 0x23, 0x24, 0x25, 0x26];
/// What a look-up leaves unwritten.
const UNTOUCHED: u32 = 0xaaaa_aaaa;

const PRICED: LookUp = LookUp::Priced {
    amount: SALE.amount,
    price: SALE.price,
};
const UNPRICED: LookUp = LookUp::Unpriced {
    amount: SALE.amount,
};

/// Makes a cell one that a version before 0.8.0 wrote.
fn unprice(bytes: &mut [u8], cell: usize) {
    assert_eq!(bytes[cell * CELL_LEN + KIND], KIND_PRICED);
    bytes[cell * CELL_LEN + KIND] = KIND_UNPRICED;
}

/// What such a cell holds.
fn unpriced(sale: Sale) -> StoredSale {
    StoredSale {
        detail: Detail::Unpriced { clock: CLOCK },
        ..sale.into()
    }
}

/// The C call's answer, and what stands then where it writes amount and price.
fn as_c_has_it(key: &[u8], bytes: &[u8], sale: u32) -> (u64, u32, u32) {
    let (mut amount, mut price) = (UNTOUCHED, UNTOUCHED);
    // SAFETY: the pointers are valid for their lengths, or for a number, and nothing overlaps.
    let answer = unsafe {
        ffi::calmbaize_store_look_up(
            key.as_ptr(),
            key.len(),
            bytes.as_ptr(),
            bytes.len(),
            SALE.machine,
            sale,
            &raw mut amount,
            &raw mut price,
        )
    };
    (answer, amount, price)
}

#[test]
fn amount_and_price_are_told() {
    let most = Sale {
        amount: u32::MAX,
        price: u32::MAX,
        day: u16::MAX,
        ..numbered(3)
    };
    let mut bytes = stored(5, 2);
    take(&KEY, &mut bytes, &TAIL, &most).unwrap();
    let before = bytes.clone();
    assert_eq!(look_up(&KEY, &bytes, SALE.machine, 1), Ok(PRICED));
    let both = LookUp::Priced {
        amount: u32::MAX,
        price: u32::MAX,
    };
    assert_eq!(look_up(&KEY, &bytes, SALE.machine, 3), Ok(both));
    assert_eq!(bytes, before);
    unprice(&mut bytes, 1);
    assert_eq!(look_up(&KEY, &bytes, SALE.machine, 1), Ok(UNPRICED));
    assert_eq!(look_up(&KEY, &bytes, SALE.machine, 2), Ok(PRICED));
    assert_eq!(PRICED.amount(), UNPRICED.amount());
}

#[test]
fn a_price_of_zero_is_a_price() {
    let mut bytes = stored(3, 0);
    let free = Sale {
        price: 0,
        ..numbered(1)
    };
    take(&KEY, &mut bytes, &TAIL, &free).unwrap();
    let both = LookUp::Priced {
        amount: SALE.amount,
        price: 0,
    };
    assert_eq!(look_up(&KEY, &bytes, SALE.machine, 1), Ok(both));
    unprice(&mut bytes, 1);
    assert_eq!(look_up(&KEY, &bytes, SALE.machine, 1), Ok(UNPRICED));
}

/// The price of a sale that has none is not written, and where refused nothing is.
#[test]
fn what_a_look_up_writes() {
    let mut bytes = stored(4, 2);
    unprice(&mut bytes, 1);
    let (amount, price) = (SALE.amount, SALE.price);
    let priced = as_c_has_it(&KEY, &bytes, 2);
    assert_eq!(priced, (KIND_PRICED.into(), amount, price));
    let unpriced = as_c_has_it(&KEY, &bytes, 1);
    assert_eq!(unpriced, (KIND_UNPRICED.into(), amount, UNTOUCHED));

    let nothing = |number: u64, place| (number << 32 | place, UNTOUCHED, UNTOUCHED);
    assert_eq!(as_c_has_it(&KEY[1..], &bytes, 2), nothing(3, 0));
    assert_eq!(as_c_has_it(&KEY, &bytes[1..], 2), nothing(18, 0));
    assert_eq!(as_c_has_it(&KEY, &bytes, 3), nothing(16, 0));
    assert_eq!(as_c_has_it(&[4; 32], &bytes, 1), nothing(9, 1));
    assert_eq!(as_c_has_it(&[4; 32], &bytes, 2), nothing(9, 2));
}

#[test]
fn look_up_refusals() {
    let mut bytes = stored(4, 3);
    unprice(&mut bytes, 2);
    let machine = SALE.machine;
    refused(&bytes, Ground::SaleNumbers, |lent| {
        look_up(&KEY, lent, machine, 4)
    });
    refused(&bytes, Ground::SaleNumbers, |lent| {
        look_up(&KEY, lent, machine + 1, 2)
    });
    for sale in 1..=3 {
        refused(&bytes, at(Ground::Tag, sale), |lent| {
            look_up(&[4; 32], lent, machine, sale)
        });
    }
    // Absent counts before a sale that won't open, and only the sale named has to.
    bytes[2 * CELL_LEN + 40] ^= 1;
    refused(&bytes, Ground::SaleNumbers, |lent| {
        look_up(&KEY, lent, machine, 4)
    });
    refused(&bytes, at(Ground::Tag, 2), |lent| {
        look_up(&KEY, lent, machine, 2)
    });
    assert_eq!(look_up(&KEY, &bytes, machine, 3), Ok(PRICED));
}

#[test]
fn of_two_alike_the_first_is_looked_up() {
    let mut bytes = stored(4, 2);
    let (first, second) = (CELL_LEN..2 * CELL_LEN, 2 * CELL_LEN + KIND);
    bytes.copy_within(first.start + KIND..first.end, second);
    let machine = SALE.machine;
    bytes[second] = KIND_UNPRICED;
    assert_eq!(look_up(&KEY, &bytes, machine, 1), Ok(UNPRICED));
    assert_eq!(cancel(&KEY, &mut bytes, machine, 1), Ok(SALE.amount));
    assert_eq!(look_up(&KEY, &bytes, machine, 1), Ok(PRICED));
}

#[test]
fn a_cancellation_gives_the_amount_of_either_kind() {
    let mut bytes = stored(4, 3);
    unprice(&mut bytes, 2);
    for sale in [1, 2] {
        let cancelled = cancel(&KEY, &mut bytes, SALE.machine, sale);
        assert_eq!(cancelled, Ok(SALE.amount));
    }
    assert_eq!(total(&KEY, &bytes), Ok(SALE.amount.into()));
}

/// The total starts from a store that has sales of both kinds already.
#[test]
fn the_total_counts_both_kinds() {
    let mut bytes = stored(8, 4);
    unprice(&mut bytes, 1);
    unprice(&mut bytes, 3);
    let amount = u64::from(SALE.amount);
    assert_eq!(total(&KEY, &bytes), Ok(4 * amount));
    for (sale, means) in [(5, SALE.means), (6, MEANS_CARD)] {
        let next = Sale {
            amount: 7,
            means,
            ..numbered(sale)
        };
        take(&KEY, &mut bytes, &TAIL, &next).unwrap();
    }
    assert_eq!(total(&KEY, &bytes), Ok(4 * amount + 7));
    for (sale, left) in [(3, 3), (6, 3), (2, 2)] {
        cancel(&KEY, &mut bytes, SALE.machine, sale).unwrap();
        assert_eq!(total(&KEY, &bytes), Ok(left * amount + 7), "{sale}");
    }
}

#[test]
fn a_store_of_both_kinds_is_listed() {
    let mut bytes = stored(5, 3);
    unprice(&mut bytes, 2);
    let store = Store::new(&mut bytes);
    let opened = |(cell, sealed): (u32, SealedSale<'_>)| (cell, sealed.open(&key()));
    let sales: Vec<(u32, Result<StoredSale, Refusal>)> =
        store.sales().unwrap().map(opened).collect();
    let expected = [
        (3, Ok(numbered(3).into())),
        (2, Ok(unpriced(numbered(2)))),
        (1, Ok(numbered(1).into())),
    ];
    assert_eq!(sales, expected);
    let read = |sale| store.read(SALE.machine, sale).unwrap().kind;
    assert_eq!(
        [1, 2, 3].map(read),
        [KIND_PRICED, KIND_UNPRICED, KIND_PRICED]
    );
}

/// The kind is not sealed: changed, it makes a clock a price, and no tag tells.
#[test]
fn a_changed_kind_shows_a_clock_as_a_price() {
    let mut bytes = stored(3, 1);
    unprice(&mut bytes, 1);
    let before = total(&KEY, &bytes);
    assert_eq!(look_up(&KEY, &bytes, SALE.machine, 1), Ok(UNPRICED));
    bytes[CELL_LEN + KIND] = KIND_PRICED;
    let [a, b, c, d, ..] = CLOCK;
    let both = LookUp::Priced {
        amount: SALE.amount,
        price: u32::from_le_bytes([a, b, c, d]),
    };
    assert_eq!(look_up(&KEY, &bytes, SALE.machine, 1), Ok(both));
    assert_eq!(total(&KEY, &bytes), before);
    let opened = Store::new(&mut bytes)
        .read(SALE.machine, 1)
        .and_then(|sealed| sealed.open(&key()));
    assert_eq!(opened, Ok(numbered(1).into()));
    assert_eq!(cancel(&KEY, &mut bytes, SALE.machine, 1), Ok(SALE.amount));
}

#[test]
fn other_kinds_do_not_open() {
    let mut bytes = stored(2, 1);
    let store = Store::new(&mut bytes);
    let sealed = store.read(SALE.machine, 1).unwrap();
    for kind in 0..=u8::MAX {
        let opened = SealedSale { kind, ..sealed }.open(&key());
        match kind {
            KIND_UNPRICED => assert_eq!(opened, Ok(unpriced(numbered(1)))),
            KIND_PRICED => assert_eq!(opened, Ok(numbered(1).into())),
            _ => {
                let refusal = opened.unwrap_err();
                assert_eq!((refusal.number(), refusal.place), (0, kind.into()));
            }
        }
    }
}

/// Every byte as the kind of a sale, and of a free cell.
#[test]
fn kinds_that_fit_their_chain() {
    let right = stored(4, 2);
    for kind in 0..=u8::MAX {
        for (cell, fits) in [
            (1, [KIND_UNPRICED, KIND_PRICED].contains(&kind)),
            (3, kind == 0),
        ] {
            let mut bytes = right.clone();
            bytes[cell * CELL_LEN + KIND] = kind;
            let checked = Store::new(&mut bytes).check().map(|_| ());
            let broken = at(Ground::StoreKind, cell as u32);
            assert_eq!(checked, if fits { Ok(()) } else { Err(broken) }, "{kind}");
        }
    }
}
