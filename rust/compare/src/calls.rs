//! Every call of the library, described once.

use crate::call::{pattern, Call, Value};
use crate::conversion;
use crate::diagnosis;
use crate::entry::Arg::*;
use crate::entry::Entry;
use crate::library::{function, Slots};
use crate::runs;
use crate::stores::look_up;
use reference::store::{self, Sale as Sold, PRICED, UNPRICED};
use reference::{open_under, seal_under, Refusal, Start, BLOCK_LEN, TAG_LEN};

/// All calls. Another one is another line here.
pub static ALL: [&Entry; 15] = [
    &SEAL, &OPEN, &OPEN_OLD, &CONVERT, &DIAGNOSE, &SEAL_RUN, &OPEN_RUN, &WALK, &JUMP, &FORMAT,
    &TAKE, &CANCEL, &TOTAL, &READ, &LOOK_UP,
];

/// The calls that seal, or take a parcel.
pub fn sealing() -> impl Iterator<Item = &'static Entry> {
    ALL.into_iter().filter(|entry| entry.takes(Mode))
}

/// Whether the law of another call makes this one.
pub fn by_law(entry: &Entry) -> bool {
    let makes = |other: &Entry| other.stepping.is_some_and(|made| made.name == entry.name);
    ALL.into_iter().any(makes)
}

/// The calls of the store.
pub fn of_store() -> impl Iterator<Item = &'static Entry> {
    ALL.into_iter().filter(|entry| entry.takes(Store))
}

/// All other calls.
pub fn but_store() -> impl Iterator<Item = &'static Entry> {
    ALL.into_iter().filter(|entry| !entry.takes(Store))
}

pub static SEAL: Entry = Entry {
    name: "seal",
    args: &[Mode, Rounds, Key, Nonce, Header, Message, Output],
    writes: &[Output],
    refused: &[1, 2, 3, 4, 5, 6, 7],
    written: |message| message + TAG_LEN,
    parcels: &[],
    clears: false,
    stepping: None,
    law: |_, _, _, _| (),
    function: function!(c12, calmbaize_seal, baseline_seal),
    reference: |a| seal_under(Start::New, a.next(), a.next(), a.next(), a.next()),
};

pub static OPEN: Entry = Entry {
    name: "open",
    args: &[Mode, Rounds, Key, Nonce, Header, Parcel, Output],
    refused: &[1, 2, 3, 4, 5, 8, 6, 7, 9],
    written: |parcel| parcel.saturating_sub(TAG_LEN),
    parcels: &[(Start::New, 0), (Start::Old, 9)],
    clears: true,
    function: function!(c12, calmbaize_open, baseline_open),
    reference: |a| open_under(Start::New, a.next(), a.next(), a.next(), a.next()),
    ..SEAL
};

pub static OPEN_OLD: Entry = Entry {
    name: "open_old",
    parcels: &[(Start::Old, 0), (Start::New, 9)],
    function: function!(c12, calmbaize_open_old, baseline_open_old),
    reference: |a| open_under(Start::Old, a.next(), a.next(), a.next(), a.next()),
    ..OPEN
};

pub static CONVERT: Entry = Entry {
    name: "convert",
    refused: &[1, 2, 3, 4, 5, 8, 6, 7, 17, 9],
    written: |parcel| parcel,
    parcels: &[(Start::Old, 0), (Start::New, 17)],
    clears: false,
    law: conversion::law,
    function: function!(c12, calmbaize_convert, baseline_convert),
    reference: |a| reference::convert(a.next(), a.next(), a.next(), a.next()),
    ..OPEN
};

pub static DIAGNOSE: Entry = Entry {
    name: "diagnose",
    args: &[OldStart, Mode, Rounds, Key, Nonce, Header, Parcel],
    writes: &[],
    refused: &[1, 2, 3, 4, 5, 8, 6],
    written: |_| 0,
    // The check of diagnoses has those of the old start.
    parcels: &[(Start::New, 0)],
    clears: false,
    law: diagnosis::law,
    function: function!(c11, calmbaize_diagnose, baseline_diagnose),
    reference: |a| reference::diagnose(a.next(), a.next(), a.next(), a.next()),
    ..OPEN
};

pub static SEAL_RUN: Entry = Entry {
    name: "seal_run",
    args: &[Mode, Rounds, Key, Nonce, Header, Message, Output, Words],
    writes: &[Output, Words],
    stepping: Some(&SEAL),
    law: runs::law,
    function: function!(c14, calmbaize_seal_run, baseline_seal_run),
    reference: |a| reference::seal_run(a.next(), a.next(), a.next(), a.next(), a.next()),
    ..SEAL
};

pub static OPEN_RUN: Entry = Entry {
    name: "open_run",
    args: &[Mode, Rounds, Key, Nonce, Header, Parcel, Output, Words],
    writes: &[Output, Words],
    stepping: Some(&OPEN),
    law: runs::law,
    function: function!(c14, calmbaize_open_run, baseline_open_run),
    reference: |a| reference::open_run(a.next(), a.next(), a.next(), a.next(), a.next()),
    ..OPEN
};

pub static WALK: Entry = Entry {
    name: "walk",
    args: &[Block, Steps, Output],
    refused: &[10, 13, 12, 7],
    written: |_| BLOCK_LEN,
    function: function!(c6, calmbaize_walk, baseline_walk),
    reference: |a| reference::walk(a.next(), a.next(), a.next()),
    ..SEAL
};

pub static JUMP: Entry = Entry {
    name: "jump",
    args: &[Block, Alpha, Beta, Gamma, Output],
    refused: &[10, 11, 7],
    function: function!(c7, calmbaize_jump, baseline_jump),
    reference: |a| reference::jump(a.next(), a.next(), a.next()),
    ..WALK
};

pub static FORMAT: Entry = Entry {
    name: "format",
    args: &[Store],
    writes: &[Store],
    refused: &[18],
    written: |_| 0,
    function: function!(c2, calmbaize_store_format, baseline_store_format),
    reference: |a| store::format(a.next()),
    ..SEAL
};

pub static TAKE: Entry = Entry {
    name: "take",
    args: &[
        Key, Store, Machine, Sale, Tail, Amount, Column, Means, Price, Day,
    ],
    refused: &[3, 18, 19, 20, 16, 15],
    function: function!(c12, calmbaize_store_take, baseline_store_take),
    reference: take_by_reference,
    ..FORMAT
};

pub static CANCEL: Entry = Entry {
    name: "cancel",
    args: &[Key, Store, Machine, Sale],
    refused: &[3, 18, 19, 20, 16, 9],
    function: function!(c6, calmbaize_store_cancel, baseline_store_cancel),
    reference: |a| {
        let amount = store::cancel(a.next(), a.next(), a.next(), a.next());
        amount.map(|amount| amount as usize)
    },
    ..FORMAT
};

pub static TOTAL: Entry = Entry {
    name: "total",
    args: &[Key, Store, Total],
    writes: &[Total],
    refused: &[3, 18, 19, 20, 9],
    function: function!(c5, calmbaize_store_total, baseline_store_total),
    reference: |a| {
        let total = store::total(a.next(), a.next())?;
        a.next::<&mut [u64]>()[0] = total;
        Ok(0)
    },
    ..FORMAT
};

pub static READ: Entry = Entry {
    name: "read",
    args: &[Store, Machine, Sale],
    writes: &[],
    refused: &[18, 19, 20, 16],
    function: function!(c4, calmbaize_store_read, baseline_store_read),
    reference: |a| store::read(a.next(), a.next(), a.next()),
    ..FORMAT
};

pub static LOOK_UP: Entry = Entry {
    name: "look_up",
    args: &[Key, Store, Machine, Sale, FoundAmount, FoundPrice],
    writes: &[FoundAmount, FoundPrice],
    law: look_up::law,
    function: function!(c8, calmbaize_store_look_up, baseline_store_look_up),
    reference: look_up_by_reference,
    ..CANCEL
};

fn take_by_reference(a: &mut Slots) -> Result<usize, Refusal> {
    let (key, store) = (a.next(), a.next());
    let sold = Sold {
        machine: a.next(),
        sale: a.next(),
        nonce_tail: *a.next::<&[u8]>().first_chunk().expect("a tail"),
        amount: a.next(),
        column: a.next(),
        means: a.next(),
        price: a.next(),
        day: a.next(),
    };
    store::take(key, store, &sold)
}

fn look_up_by_reference(a: &mut Slots) -> Result<usize, Refusal> {
    let found = store::look_up(a.next(), a.next(), a.next(), a.next())?;
    let [amount, price]: [&mut [u32]; 2] = a.next();
    amount[0] = found.amount;
    let kind = match found.price {
        Some(found) => {
            price[0] = found;
            PRICED
        }
        None => UNPRICED,
    };
    Ok(kind.into())
}

/// A walk, with an output that is just enough.
pub fn walk(start: &[u8], steps: &[u8]) -> Call {
    let walk = Call::new(&WALK, |arg| match arg {
        Block => start.into(),
        Steps => steps.into(),
        _ => Value::NONE,
    });
    walk.fitted()
}

/// A jump, with an output that is just enough.
pub fn jump(start: &[u8], [alpha, beta, gamma]: [i32; 3]) -> Call {
    let jump = Call::new(&JUMP, |arg| match arg {
        Block => start.into(),
        Alpha => alpha.into(),
        Beta => beta.into(),
        Gamma => gamma.into(),
        _ => Value::NONE,
    });
    jump.fitted()
}

/// A call of the store, on a sale or not.
pub fn on_store(entry: &'static Entry, key: &[u8], store: &[u8], sold: &Sold) -> Call {
    Call::new(entry, |arg| match arg {
        Key => key.into(),
        Store => store.into(),
        Machine => sold.machine.into(),
        Sale => sold.sale.into(),
        Tail => sold.nonce_tail[..].into(),
        Amount => sold.amount.into(),
        Column => u32::from(sold.column).into(),
        Means => u32::from(sold.means).into(),
        Price => sold.price.into(),
        Day => u32::from(sold.day).into(),
        Total => pattern(8).into(),
        FoundAmount => pattern(4).into(),
        FoundPrice => pattern(8)[4..].into(),
        _ => panic!("{arg:?} is no argument of a store"),
    })
}

/// A call of the store on the sale with these numbers, if on one.
pub fn on_numbers(
    entry: &'static Entry,
    key: &[u8],
    store: &[u8],
    (machine, sale): (u32, u32),
) -> Call {
    let sold = Sold {
        machine,
        sale,
        ..Sold::default()
    };
    on_store(entry, key, store, &sold)
}
