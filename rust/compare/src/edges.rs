//! All lengths around the edges of blocks and of the limits.

use crate::call::{pattern, Call};
use crate::calls::{self, jump, walk};
use crate::entry::Arg::{Header, Message, Output, Parcel, Steps};
use crate::library::Library;
use crate::prng::Prng;
use crate::report::{Check, Tally};
use reference::{settings, MAX_COUNT, MAX_HEADER_LEN, MAX_MESSAGE_LEN, MAX_STEPS};

const HEADERS: [usize; 10] = [0, 1, 127, 128, 129, 256, 257, 4095, 4096, 4097];
const LONG: [usize; 12] = [
    4095, 4096, 4097, 65_407, 65_408, 65_409, 65_535, 65_536, 65_537, 65_568, 65_569, 131_072,
];

/// Every call that seals or takes a parcel, over edges of headers, messages and outputs; then the lists
/// and counts of walk and jump.
pub fn run(library: Library, seed: u64) -> Tally {
    let mut prng = Prng::new(seed);
    let mut check = Check::new(library);
    for (mode, rounds) in settings() {
        for (header_len, len) in lengths() {
            let seal = Call::seal(&mut prng, mode, rounds, header_len, len);
            sealing(&mut prng, &mut check, &seal);
        }
        short_parcels(&mut prng, &mut check, mode, rounds);
    }
    walks(&mut prng, &mut check);
    jumps(&mut prng, &mut check);
    check.tally
}

/// Lengths of headers and messages, one by one and in pairs.
fn lengths() -> impl Iterator<Item = (usize, usize)> {
    let messages = (0..=400).chain(LONG).map(|len| (len % 300, len));
    let headers = (0..=300).chain(HEADERS).map(|len| (len, len % 300));
    let pairs = HEADERS
        .into_iter()
        .flat_map(|header_len| [0, 1, 127, 128, 129, 255, 256, 257].map(|len| (header_len, len)));
    messages.chain(headers).chain(pairs)
}

/// The calls on a message and on its parcels, but for those that a call by a run has to equal, which
/// its law makes.
fn sealing(prng: &mut Prng, check: &mut Check, seal: &Call) {
    let allowed = seal[Header].len() <= MAX_HEADER_LEN && seal[Message].len() <= MAX_MESSAGE_LEN;
    for good in seal.good_calls() {
        if calls::by_law(good.call.entry) || !good.opens() {
            continue;
        }
        let mut call = good.call;
        let refused = good.answer >> 32 != 0;
        if !refused {
            outputs(check, call.clone());
        }
        let (answer, after) = check.obeys(&call);
        if allowed {
            let passed = answer == good.answer && (refused || after.output() == good.written);
            check.record(passed, || format!("{call}: {answer:#x}, or another output"));
        }
        if call.entry.takes(Parcel) {
            let len = call[Parcel].len();
            call[Parcel][prng.below(len)] ^= 4;
            check.obeys(&call);
        }
    }
}

/// A call with an output that is too short or longer than it has to be, by the tag's length too.
fn outputs(check: &mut Check, mut call: Call) {
    for more in [-32, -1, 1, 100] {
        if call.lend(Output, more) {
            if call.entry.stepping.is_some() {
                check.obeys(&call);
            } else {
                check.compare(&call);
            }
        }
    }
}

/// Parcels of 0 to 33 bytes that nobody sealed.
fn short_parcels(prng: &mut Prng, check: &mut Check, mode: u32, rounds: u32) {
    let parcel_calls = || calls::sealing().filter(|entry| entry.takes(Parcel));
    for len in 0..=33 {
        let seal = Call::seal(prng, mode, rounds, 3, 0);
        let parcel = prng.bytes(len);
        for entry in parcel_calls().filter(|entry| !calls::by_law(entry)) {
            let mut call = seal.turned(entry).with(Parcel, parcel.clone()).fitted();
            call.lend(Output, 8);
            check.obeys(&call);
        }
    }
}

fn walks(prng: &mut Prng, check: &mut Check) {
    for len in (0..=40).chain([127, 128, 4095, 4096, 4097]) {
        for output_len in [0, 127, 128, 129, 300] {
            let steps = prng.steps(len);
            let mut call = walk(&prng.bytes(128), &steps).with(Output, pattern(output_len));
            reaches(check, &call, len <= MAX_STEPS);
            for bad in [0, 7, 128, 255] {
                if let Some(last) = call[Steps].last_mut() {
                    *last = bad;
                    check.compare(&call);
                }
            }
        }
    }
    for start_len in [0, 1, 64, 127, 129, 256] {
        check.compare(&walk(&prng.bytes(start_len), &[1]));
    }
}

/// Compares a walk or a jump, which has to succeed where its list or count is `allowed` and its
/// output long enough.
fn reaches(check: &mut Check, call: &Call, allowed: bool) {
    if allowed && call[Output].len() >= 128 {
        check.answers(call, 128);
    } else {
        check.compare(call);
    }
}

fn jumps(prng: &mut Prng, check: &mut Check) {
    let near = [0, 1, -1, 2, 16, -17];
    let limits = [65_535, 65_536, 65_537].map(|count: i32| [count, -count]);
    let ends = [i32::MAX, i32::MIN];
    for kind in 0..3 {
        for count in near.into_iter().chain(limits.concat()).chain(ends) {
            for output_len in [127, 128, 200] {
                let mut counts = [0; 3];
                counts[kind] = count;
                let call = jump(&prng.bytes(128), counts).with(Output, pattern(output_len));
                reaches(check, &call, count.unsigned_abs() <= MAX_COUNT);
            }
        }
    }
    for start_len in [0, 127, 129] {
        check.compare(&jump(&prng.bytes(start_len), [1; 3]));
    }
}
