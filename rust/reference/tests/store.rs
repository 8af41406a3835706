//! The six calls of the store on small stores written by hand.

use reference::store::{cancel, format, look_up, read, take, total};
use reference::store::{Figures, Sale, BODY_LEN, CELL_LEN};
use reference::{seal, Refusal, MRO};

const KEY: [u8; 32] = [0x42; 32];
const OTHER_KEY: [u8; 32] = [0x43; 32];
/// Where in a cell its kind is.
const KIND_AT: usize = 2;

/// A store by the four bytes each cell begins with, which 60 bytes of `fill` follow.
fn store(cells: &[[u8; 4]], fill: u8) -> Vec<u8> {
    let cell = |first: &[u8; 4]| [&first[..], &[fill; 60]].concat();
    cells.iter().flat_map(cell).collect()
}

fn formatted(cells: usize) -> Vec<u8> {
    let mut store = vec![0xee; CELL_LEN * cells];
    assert_eq!(format(&mut store), Ok(0));
    store
}

fn sale(number: u32, amount: u32, means: u8) -> Sale {
    Sale {
        machine: 7,
        sale: number,
        nonce_tail: *b"8 bytes.",
        amount,
        column: 0x0102,
        means,
        price: 0x0403_0201,
        day: 0x0605,
    }
}

/// What an older unit has written behind a cell's next index for a sale: its kind, nonce, sealed record
/// and tag.
fn older(number: u8, amount: u8, means: u8, clock: [u8; 6]) -> Vec<u8> {
    let numbers = [7, 0, 0, 0, number, 0, 0, 0];
    let nonce = [&numbers[..], b"8 bytes."].concat();
    let record = [&[amount, 0, 0, 0, 2, 1, means][..], &clock].concat();
    let mut parcel = [0; 45];
    seal(MRO, 6, &KEY, &nonce, &[], &record, &mut parcel).expect("a parcel");
    [&[1][..], &nonce, &parcel].concat()
}

/// The sales 1 to 4 in cells 1 to 4, the first and the third of an older unit, the fourth with price 0. One
/// of each kind is by coin. Cell 5 is free.
fn mixed() -> Vec<u8> {
    let price_0 = Sale {
        price: 0,
        ..sale(4, 40, 2)
    };
    let taken = [sale(1, 1, 1), sale(2, 20, 1), sale(3, 3, 1), price_0];
    let mut store = with(6, &taken);
    for (cell, old) in [
        (1, older(1, 10, 1, [0; 6])),
        (3, older(3, 30, 2, *b"6 byte")),
    ] {
        store[CELL_LEN * cell + KIND_AT..][..62].copy_from_slice(&old);
    }
    store
}

fn figures(amount: u32, price: Option<u32>) -> Result<Figures, Refusal> {
    Ok(Figures { amount, price })
}

/// A store in which `sales` were taken one after the other.
fn with(cells: usize, sales: &[Sale]) -> Vec<u8> {
    let mut store = formatted(cells);
    for (n, sale) in sales.iter().enumerate() {
        assert_eq!(take(&KEY, &mut store, sale), Ok(n + 1));
    }
    store
}

/// The answers of take, cancel, total, read and look_up with good arguments.
fn refusals(store: &[u8]) -> [Option<Refusal>; 5] {
    let mut lent = store.to_vec();
    let answers = [
        take(&KEY, &mut lent, &sale(900, 1, 1)).err(),
        cancel(&KEY, &mut lent, 7, 901).err(),
        total(&KEY, &lent).err(),
        read(&lent, 7, 901).err(),
        look_up(&KEY, &lent, 7, 901).err(),
    ];
    if answers[0].is_some() {
        assert_eq!(lent, store);
    }
    answers
}

/// The answers of a sound store with room and without the sale that is asked for.
const SOUND: [Option<Refusal>; 5] = [None, Some((16, 0)), None, Some((16, 0)), Some((16, 0))];

#[test]
fn a_formatted_store_is_chained_upward() {
    assert_eq!(formatted(2), store(&[[0, 0, 1, 0], [0; 4]], 0));
    let four = [[0, 0, 1, 0], [2, 0, 0, 0], [3, 0, 0, 0], [0; 4]];
    assert_eq!(formatted(4), store(&four, 0));
    assert_eq!(formatted(1024)[CELL_LEN * 255..][..3], [0, 1, 0]);
}

#[test]
fn lengths() {
    for len in [0, 64, 127, 129, 65_472 + 63, 65_600] {
        let mut bytes = vec![0; len];
        assert_eq!(format(&mut bytes), Err((18, 0)), "{len}");
        assert_eq!(refusals(&bytes), [Some((18, 0)); 5], "{len}");
    }
    for len in [128, 192, 65_472, 65_536] {
        let mut bytes = vec![0xee; len];
        assert_eq!(format(&mut bytes), Ok(0), "{len}");
        assert_eq!(refusals(&bytes), SOUND, "{len}");
    }
}

#[test]
fn a_sale_goes_to_the_first_free_cell_and_to_the_front() {
    let taken = with(4, &[sale(1, 150, 1), sale(2, 250, 2)]);
    let heads = [[2, 0, 3, 0], [0, 0, 2, 7], [1, 0, 2, 7], [0; 4]];
    for (cell, head) in taken.chunks_exact(CELL_LEN).zip(heads) {
        assert_eq!(cell[..4], head);
    }
    let nonce = [7, 0, 0, 0, 2, 0, 0, 0, b'8', b' ', b'b', b'y'];
    assert_eq!(taken[2 * CELL_LEN + 3..][..12], nonce);
}

#[test]
fn records_are_sealed_by_mro_with_six_rounds_and_no_header() {
    let taken = with(2, &[sale(0x0a0b_0c0d, 0x1122_3344, 9)]);
    let nonce = b"\x07\0\0\0\x0d\x0c\x0b\x0a8 bytes.";
    let record = b"\x44\x33\x22\x11\x02\x01\x09\x01\x02\x03\x04\x05\x06";
    let mut parcel = [0; 45];
    assert_eq!(
        seal(MRO, 6, &KEY, nonce, &[], record, &mut parcel),
        Ok(parcel.len())
    );
    assert_eq!(taken[CELL_LEN + 3..], [&nonce[..], &parcel].concat());
}

#[test]
fn but_for_the_kind_a_price_and_a_day_are_as_a_clock_of_their_bytes() {
    let taken = with(2, &[sale(9, 20, 1)]);
    let old = older(9, 20, 1, [1, 2, 3, 4, 5, 6]);
    assert_eq!(taken[CELL_LEN + KIND_AT], 2);
    assert_eq!(taken[CELL_LEN + KIND_AT + 1..], old[1..]);
}

#[test]
fn cancelling_gives_the_amount_and_the_cell_back() {
    let sales = [sale(1, 10, 1), sale(2, 20, 2), sale(3, 30, 1)];
    for (number, heads) in [
        (1, [[3, 0, 1, 0], [4, 0, 0, 0], [0, 0, 2, 7], [2, 0, 2, 7]]),
        (2, [[3, 0, 2, 0], [0, 0, 2, 7], [4, 0, 0, 0], [1, 0, 2, 7]]),
        (3, [[2, 0, 3, 0], [0, 0, 2, 7], [1, 0, 2, 7], [4, 0, 0, 0]]),
    ] {
        let before = with(5, &sales);
        let mut after = before.clone();
        assert_eq!(cancel(&KEY, &mut after, 7, number), Ok(10 * number));
        for (n, head) in heads.into_iter().enumerate() {
            let cell = &after[CELL_LEN * n..][..CELL_LEN];
            assert_eq!(cell[..4], head, "{number}, cell {n}");
            let rest = if n == number as usize {
                &[0; 60]
            } else {
                &before[CELL_LEN * n + 4..][..60]
            };
            assert_eq!(&cell[4..], rest, "{number}, cell {n}");
        }
        assert_eq!(cancel(&KEY, &mut after, 7, number), Err((16, 0)));
    }
}

#[test]
fn the_total_is_over_coins_and_passes_32_bits() {
    let coins = [sale(1, u32::MAX, 1), sale(2, 5, 2), sale(3, u32::MAX, 1)];
    let mut store = with(5, &coins);
    assert_eq!(total(&KEY, &store), Ok(2 * u64::from(u32::MAX)));
    assert_eq!(take(&KEY, &mut store, &sale(4, 6, 0)), Ok(4));
    assert_eq!(total(&KEY, &store), Ok(2 * u64::from(u32::MAX)));
    assert_eq!(cancel(&KEY, &mut store, 7, 1), Ok(u32::MAX));
    assert_eq!(total(&KEY, &store), Ok(u64::from(u32::MAX)));
}

#[test]
fn reading_gives_the_place_of_61_bytes() {
    let taken = with(3, &[sale(1, 10, 1), sale(2, 20, 2)]);
    assert_eq!(read(&taken, 7, 1), Ok(CELL_LEN + 3));
    assert_eq!(read(&taken, 7, 2), Ok(2 * CELL_LEN + 3));
    assert_eq!(read(&taken, 8, 1), Err((16, 0)));
    assert_eq!(BODY_LEN, 61);
}

#[test]
fn looking_up_gives_the_amount_and_the_price_if_there_is_one() {
    let store = mixed();
    for (number, answer) in [
        (1, figures(10, None)),
        (2, figures(20, Some(0x0403_0201))),
        (3, figures(30, None)),
        (4, figures(40, Some(0))),
        (5, Err((16, 0))),
    ] {
        assert_eq!(look_up(&KEY, &store, 7, number), answer, "{number}");
    }
}

#[test]
fn sales_of_both_kinds_are_read_totalled_and_cancelled() {
    let mut store = mixed();
    let mut coins = 30;
    assert_eq!(total(&KEY, &store), Ok(coins));
    for (number, coin) in [(3, 0), (2, 20), (4, 0), (1, 10)] {
        let at = CELL_LEN * number + 3;
        let number = number as u32;
        assert_eq!(read(&store, 7, number), Ok(at));
        assert_eq!(cancel(&KEY, &mut store, 7, number), Ok(10 * number));
        coins -= coin;
        assert_eq!(total(&KEY, &store), Ok(coins), "{number}");
    }
    assert_eq!(store[..4], [0, 0, 1, 0]);
    assert_eq!(store[4..CELL_LEN], [0; 60]);
}

#[test]
fn a_sale_taken_beside_older_ones_is_priced() {
    let mut store = mixed();
    assert_eq!(take(&KEY, &mut store, &sale(3, 1, 1)), Err((16, 0)));
    assert_eq!(take(&KEY, &mut store, &sale(5, 50, 1)), Ok(5));
    let kinds = store.chunks_exact(CELL_LEN).map(|cell| cell[KIND_AT]);
    assert_eq!(kinds.skip(1).collect::<Vec<_>>(), [1, 2, 1, 2, 2]);
    assert_eq!(look_up(&KEY, &store, 7, 5), figures(50, Some(0x0403_0201)));
    assert_eq!(total(&KEY, &store), Ok(80));
}

/// The kind is not sealed, so no tag tells that it was changed.
#[test]
fn another_kind_makes_a_clock_a_price_and_changes_nothing_else() {
    for (number, kind, price) in [
        (1, 2, Some(0)),
        (2, 1, None),
        (3, 2, Some(u32::from_le_bytes(*b"6 by"))),
        (4, 1, None),
    ] {
        let mut store = mixed();
        store[CELL_LEN * number + KIND_AT] = kind;
        let amount = 10 * number as u32;
        let found = look_up(&KEY, &store, 7, number as u32);
        assert_eq!(found, figures(amount, price), "{number}");
        assert_eq!(total(&KEY, &store), Ok(30));
        assert_eq!(cancel(&KEY, &mut store, 7, number as u32), Ok(amount));
    }
}

#[test]
fn no_other_kind_is_a_sale() {
    for kind in (0..=255).filter(|kind| ![1, 2].contains(kind)) {
        for cell in 1..5 {
            let mut store = mixed();
            store[CELL_LEN * cell + KIND_AT] = kind;
            assert_eq!(refusals(&store), [Some((20, cell as u32)); 5], "{kind}");
        }
    }
    for kind in 1..=255 {
        let mut store = mixed();
        store[CELL_LEN * 5 + KIND_AT] = kind;
        assert_eq!(refusals(&store), [Some((20, 5)); 5], "{kind}");
    }
}

#[test]
fn order_of_the_checks() {
    let full = with(2, &[sale(1, 10, 1)]);
    let mut broken = full.clone();
    broken[CELL_LEN + KIND_AT] = 3;
    for (store, answers) in [(&full, [(16, 0), (15, 0)]), (&broken, [(20, 1); 2])] {
        let mut lent = store.clone();
        let taking = |key, lent: &mut [u8], number| take(key, lent, &sale(number, 1, 1));
        assert_eq!(taking(&KEY[1..], &mut lent, 1), Err((3, 0)));
        assert_eq!(taking(&KEY, &mut lent, 1), Err(answers[0]));
        assert_eq!(taking(&KEY, &mut lent, 2), Err(answers[1]));
        assert_eq!(&lent, store);
    }
    assert_eq!(cancel(&[], &mut broken, 7, 1), Err((3, 0)));
    assert_eq!(cancel(&KEY, &mut broken, 7, 1), Err((20, 1)));
    assert_eq!(total(&[0; 33], &broken), Err((3, 0)));
    assert_eq!(total(&OTHER_KEY, &broken), Err((20, 1)));
    assert_eq!(read(&broken, 7, 1), Err((20, 1)));
}

/// Each change gives a ground that is checked before those of the changes above it.
#[test]
fn a_look_up_is_checked_as_cancel() {
    let mut store = mixed();
    let mut refused = |change: fn(&mut Vec<u8>), key: &[u8], number, answer| {
        change(&mut store);
        assert_eq!(look_up(key, &store, 7, number), Err(answer));
        assert_eq!(cancel(key, &mut store.clone(), 7, number), Err(answer));
    };
    refused(|store| store[2 * CELL_LEN - 1] ^= 1, &KEY, 1, (9, 1));
    refused(|_| (), &OTHER_KEY, 4, (9, 4));
    refused(|_| (), &KEY, 6, (16, 0));
    refused(|store| store[3 * CELL_LEN + KIND_AT] = 3, &KEY, 6, (20, 3));
    refused(|store| store[5 * CELL_LEN] = 6, &KEY, 6, (19, 5));
    refused(|store| store.push(0), &KEY, 6, (18, 0));
    refused(|_| (), &KEY[1..], 6, (3, 0));
}

#[test]
fn the_first_sale_that_had_to_open() {
    let mut store = with(4, &[sale(1, 10, 1), sale(2, 20, 2), sale(3, 30, 1)]);
    assert_eq!(total(&OTHER_KEY, &store), Err((9, 3)));
    assert_eq!(cancel(&OTHER_KEY, &mut store, 7, 1), Err((9, 1)));
    store[2 * CELL_LEN + 40] ^= 1;
    assert_eq!(total(&KEY, &store), Err((9, 2)));
    let before = store.clone();
    assert_eq!(cancel(&KEY, &mut store, 7, 2), Err((9, 2)));
    assert_eq!(store, before);
    assert_eq!(cancel(&KEY, &mut store, 7, 1), Ok(10));
}

#[test]
fn of_two_alike_the_first_counts() {
    let mut store = with(4, &[sale(1, 10, 1), sale(2, 20, 1)]);
    let (first, second) = store.split_at_mut(2 * CELL_LEN);
    second[2..CELL_LEN].copy_from_slice(&first[CELL_LEN + 2..]);
    assert_eq!(total(&KEY, &store), Ok(20));
    assert_eq!(read(&store, 7, 1), Ok(2 * CELL_LEN + 3));
    assert_eq!(take(&KEY, &mut store, &sale(1, 1, 1)), Err((16, 0)));
    let mut damaged = store.clone();
    damaged[2 * CELL_LEN + 63] ^= 1;
    assert_eq!(look_up(&KEY, &damaged, 7, 1), Err((9, 2)));
    assert_eq!(cancel(&KEY, &mut damaged, 7, 1), Err((9, 2)));
    assert_eq!(cancel(&KEY, &mut store, 7, 1), Ok(10));
    assert_eq!(read(&store, 7, 1), Ok(CELL_LEN + 3));
}

#[test]
fn what_is_no_ground() {
    let cells = [[0, 0, 2, 0], [0, 0, 0, 9], [1, 0, 0, 9]];
    assert_eq!(refusals(&store(&cells, 0xee)), SOUND);
    let mut lent = store(&cells, 0xee);
    assert_eq!(take(&KEY, &mut lent, &sale(1, 10, 1)), Ok(2));
    let before = store(&cells, 0xee);
    assert_eq!(lent[..4], [2, 0, 1, 0]);
    assert_eq!(lent[4..2 * CELL_LEN], before[4..2 * CELL_LEN]);
    assert_eq!(cancel(&KEY, &mut lent, 7, 1), Ok(10));
    assert_eq!(lent[..2 * CELL_LEN + 2], before[..2 * CELL_LEN + 2]);
    assert_eq!(lent[2 * CELL_LEN + 2..], [0; 62]);
}

#[test]
fn stores_of_another_form() {
    let sound = ([1, 2], [(0, 1), (3, 0), (0, 0)]);
    assert_eq!(
        refusals(&chained(sound)),
        [None, SOUND[1], Some((9, 1)), SOUND[3], SOUND[4]]
    );
    for (name, form, answer) in BROKEN {
        assert_eq!(refusals(&chained(form)), [Some(answer); 5], "{name}");
    }
}

/// A store's heads, and its three cells by their next index and kind.
type Form = ([u16; 2], [(u16, u8); 3]);

/// What is wrong, the store, and the answer. Sound would be ([1, 2], [(0, 1), (3, 0), (0, 0)]).
#[rustfmt::skip]
const BROKEN: [(&str, Form, Refusal); 40] = [
    ("sales past the last cell", ([4, 2], [(0, 1), (3, 0), (0, 0)]), (19, 0)),
    ("free past the last cell", ([1, 4], [(0, 1), (3, 0), (0, 0)]), (19, 0)),
    ("a head with a high byte", ([1, 258], [(0, 1), (3, 0), (0, 0)]), (19, 0)),
    ("both heads past it", ([4, 4], [(0, 1), (3, 0), (0, 0)]), (19, 0)),
    ("a sale's next past it", ([1, 2], [(4, 1), (3, 0), (0, 0)]), (19, 1)),
    ("a sale's next far past it", ([1, 2], [(65_535, 1), (3, 0), (0, 0)]), (19, 1)),
    ("a free next past it", ([1, 2], [(0, 1), (4, 0), (0, 0)]), (19, 2)),
    ("the last next past it", ([1, 2], [(0, 1), (3, 0), (4, 0)]), (19, 3)),
    ("past it in both chains", ([3, 1], [(4, 0), (0, 0), (4, 1)]), (19, 3)),
    ("a sale behind itself", ([1, 2], [(1, 1), (3, 0), (0, 0)]), (19, 1)),
    ("a free cell behind itself", ([1, 2], [(0, 1), (3, 0), (3, 0)]), (19, 3)),
    ("a cycle of sales", ([2, 0], [(2, 1), (3, 1), (1, 1)]), (19, 1)),
    ("a cycle of free cells", ([1, 2], [(0, 1), (3, 0), (2, 0)]), (19, 3)),
    ("a tail into the chain's middle", ([0, 2], [(3, 0), (3, 0), (1, 0)]), (19, 1)),
    ("a cycle in both chains", ([3, 1], [(1, 0), (0, 0), (3, 1)]), (19, 3)),
    ("two heads alike", ([2, 2], [(0, 1), (3, 0), (0, 0)]), (19, 0)),
    ("a sale before the first free cell", ([1, 2], [(2, 1), (3, 0), (0, 0)]), (19, 0)),
    ("a sale before another free cell", ([1, 2], [(3, 1), (3, 0), (0, 0)]), (19, 2)),
    ("a free cell before a sale", ([1, 2], [(0, 1), (1, 0), (0, 0)]), (19, 2)),
    ("free cells into sales", ([1, 2], [(0, 1), (3, 0), (1, 0)]), (19, 3)),
    ("a misfit and a broken walk", ([2, 3], [(0, 0), (1, 1), (3, 0)]), (19, 3)),
    ("a cell left out and a broken walk", ([2, 0], [(0, 1), (2, 1), (0, 0)]), (19, 2)),
    ("sales that are 0", ([0, 2], [(0, 1), (3, 0), (0, 0)]), (20, 1)),
    ("free that is 0", ([1, 0], [(0, 1), (3, 0), (0, 0)]), (20, 2)),
    ("both heads 0", ([0, 0], [(0, 1), (3, 0), (0, 0)]), (20, 1)),
    ("a next that is 0", ([1, 2], [(0, 1), (0, 0), (0, 0)]), (20, 3)),
    ("a cycle apart", ([1, 0], [(0, 1), (3, 0), (2, 0)]), (20, 2)),
    ("a cell left out", ([1, 3], [(0, 1), (3, 0), (0, 0)]), (20, 2)),
    ("one left out that leads past the last", ([1, 3], [(0, 1), (9, 0), (0, 0)]), (20, 2)),
    ("free cells among the sales", ([1, 0], [(2, 1), (3, 0), (0, 0)]), (20, 2)),
    ("the chains exchanged", ([2, 1], [(0, 1), (3, 0), (0, 0)]), (20, 1)),
    ("kind 0 as a sale", ([1, 2], [(0, 0), (3, 0), (0, 0)]), (20, 1)),
    ("kind 3 as a sale", ([1, 2], [(0, 3), (3, 0), (0, 0)]), (20, 1)),
    ("kind 255 as a sale", ([1, 2], [(0, 255), (3, 0), (0, 0)]), (20, 1)),
    ("kind 1 as free", ([1, 2], [(0, 1), (3, 0), (0, 1)]), (20, 3)),
    ("kind 2 as free", ([1, 2], [(0, 1), (3, 0), (0, 2)]), (20, 3)),
    ("kind 255 as free", ([1, 2], [(0, 1), (3, 255), (0, 0)]), (20, 2)),
    ("two misfits against the chain's order", ([3, 0], [(0, 1), (1, 0), (2, 255)]), (20, 2)),
    ("a misfit below a cell left out", ([1, 2], [(0, 3), (0, 0), (0, 0)]), (20, 1)),
    ("a cell left out below a misfit", ([0, 2], [(0, 0), (3, 0), (0, 9)]), (20, 1)),
];

/// The two heads, and three cells by their next index and kind. No sale in it opens.
fn chained((heads, cells): Form) -> Vec<u8> {
    let [sales, free] = heads.map(u16::to_le_bytes);
    let mut first = vec![[sales[0], sales[1], free[0], free[1]]];
    first.extend(cells.map(|(next, kind)| [next as u8, (next >> 8) as u8, kind, 0xee]));
    store(&first, 0xee)
}
