//! Random calls of all entry points but the store's: long and short, valid, refused and damaged.

use crate::call::{Call, Value};
use crate::calls::{self, SEAL};
use crate::damage;
use crate::entry::Arg::{self, Message, Output, Parcel, Steps, Words};
use crate::entry::{Entry, Kind};
use crate::grounds::refused_counts;
use crate::library::Library;
use crate::met::Met;
use crate::prng::Prng;
use crate::report::{Check, Tally};
use reference::MAX_MESSAGE_LEN;
use std::time::Instant;

/// Calls among which every refusal of every entry point is met: each is drawn some ten times in so
/// many, so that one never met is a fault of the drawing or of the library.
const ENOUGH: u64 = 3000;

/// Compares `calls` random calls.
pub fn run(library: Library, seed: u64, calls: u64) -> Tally {
    let mut prng = Prng::new(seed);
    let mut check = Check::new(library);
    let mut met = Met::new(calls::but_store());
    // Those that seal or take a parcel twice as often.
    let entries: Vec<&Entry> = calls::but_store().chain(calls::sealing()).collect();
    let begin = Instant::now();
    for n in 1..=calls {
        let entry = prng.pick(&entries);
        let call = random_call(&mut prng, entry);
        let (answer, _) = check.obeys(&call);
        met.add(&call, answer);
        if n % 50_000 == 0 {
            println!("  {n} calls, {:.0} s", begin.elapsed().as_secs_f64());
        }
    }
    met.show();
    if calls < ENOUGH {
        println!("  too few calls to meet every refusal: that takes {ENOUGH}");
    } else {
        met.all(&mut check.tally);
    }
    check.tally
}

/// A call of random arguments. Its parcel was sealed, but half of the time it is damaged or under other
/// settings, and now and then cut to a tag or less.
fn random_call(prng: &mut Prng, entry: &'static Entry) -> Call {
    let mut call = Call::new(entry, |arg| value(prng, arg));
    if entry.takes(Parcel) {
        seal_parcel(prng, &mut call);
    }
    for (arg, unit) in [(Output, 1), (Words, 8)] {
        if entry.takes(arg) {
            let len = unit * lent_length(prng, call.needed(arg) / unit);
            call[arg] = prng.bytes(len);
        }
    }
    if entry.takes(Parcel) && prng.once_in(2) {
        damage::random(prng, &mut call);
    }
    if entry.takes(Parcel) && prng.once_in(20) {
        call[Parcel].truncate(prng.below(33));
    }
    call
}

/// What was drawn for the parcel becomes the parcel of such a message, mostly under a start that is not
/// refused with 9.
fn seal_parcel(prng: &mut Prng, call: &mut Call) {
    let any = prng.once_in(16);
    let parcels = call.entry.parcels.iter();
    let parcels = parcels.filter(|(_, number)| any || *number != 9);
    let (start, _) = prng.pick(&parcels.collect::<Vec<_>>());
    let message = std::mem::take(&mut call[Parcel]);
    call[Parcel] = call.turned(&SEAL).with(Message, message).parcel(*start);
}

/// A random value of an argument, mostly an allowed one. What has to be lent comes later.
fn value(prng: &mut Prng, arg: Arg) -> Value {
    match arg.kind() {
        Kind::Choice(allowed, refused) => {
            let numbers = if prng.once_in(40) { refused } else { allowed };
            prng.pick(numbers).into()
        }
        Kind::Count(max) => count(prng, max).into(),
        Kind::Number(max) => (prng.below(max as usize + 1) as u32).into(),
        Kind::Bytes(lengths) => match (arg, lengths.into_inner()) {
            (Steps, (_, max)) => steps(prng, max).into(),
            (Parcel, _) => message(prng, MAX_MESSAGE_LEN).into(),
            (_, (min, max)) if min == max => exact_length_bytes(prng, max).into(),
            (_, (_, max)) => message(prng, max).into(),
        },
        Kind::Fixed(len) | Kind::Variable(len) => prng.bytes(len).into(),
        Kind::Room | Kind::Run => Value::NONE,
    }
}

/// Mostly a short one: the library takes a jump step by step.
fn count(prng: &mut Prng, max: u32) -> i32 {
    let bits = if prng.once_in(50) { 17 } else { prng.below(9) };
    match prng.below(150) {
        0 => prng.pick(&[max as i32, -(max as i32)]),
        1..=4 => prng.pick(&refused_counts(max)),
        _ => prng.below((1 << bits) + 1) as i32 - (1 << bits) / 2,
    }
}

/// Steps, mostly few, now and then with some that are none.
fn steps(prng: &mut Prng, max: usize) -> Vec<u8> {
    let len = match prng.below(20) {
        0 => length(prng, max),
        1 => max + 1 + prng.below(3),
        _ => prng.below(40),
    };
    let mut steps = prng.steps(len);
    if len > 0 && prng.once_in(5) {
        for _ in 0..=prng.below(2) {
            let place = prng.below(len);
            steps[place] = prng.pick(&[0, 7, 8, 255]);
        }
    }
    steps
}

fn message(prng: &mut Prng, max: usize) -> Vec<u8> {
    let len = length(prng, max);
    prng.bytes(len)
}

/// `len` bytes, now and then one more or less, or none.
fn exact_length_bytes(prng: &mut Prng, len: usize) -> Vec<u8> {
    let len = if prng.once_in(20) {
        prng.pick(&[0, 1, len - 1, len + 1, 2 * len])
    } else {
        len
    };
    if prng.once_in(20) {
        return vec![0; len];
    }
    prng.bytes(len)
}

/// A length up to a little over `max`, often short, often at the edge of a block.
fn length(prng: &mut Prng, max: usize) -> usize {
    match prng.below(100) {
        0..=49 => prng.below(300),
        50..=82 => (128 * prng.below(9) + prng.below(3)).saturating_sub(1),
        83..=92 => prng.below(max.min(4096) + 1),
        93..=94 => prng.below(max + 1),
        95 => 128 * prng.below(max / 128 + 1),
        96 => max - prng.below(2),
        _ => max + 1 + prng.below(2),
    }
}

/// Mostly `needed` or more; now and then too short.
fn lent_length(prng: &mut Prng, needed: usize) -> usize {
    match prng.below(12) {
        0..=5 => needed,
        6..=9 => needed + prng.below(200),
        10 => needed.saturating_sub(1),
        _ => prng.below(needed + 1),
    }
}
