//! Every set of grounds that can hold at once: the first in the order of the checks wins.

use crate::call::Call;
use crate::calls::{self, jump, on_store, walk, CANCEL, FORMAT, LOOK_UP, READ, TAKE, TOTAL};
use crate::entry::Arg::{self, *};
use crate::entry::Kind;
use crate::library::{refusal, Library};
use crate::met::Met;
use crate::prng::Prng;
use crate::report::{Check, Tally};
use crate::stores::sound::{index, random_sale, set_index, HEADS, KINDS, KIND_AT};
use reference::store::{BODY_AT, CELL_LEN};
use reference::{settings, MRO, OPP, ROUNDS, TAG_LEN};

/// A change of an argument that gives a ground, or says that it can't.
type Spoil = fn(&mut Prng, &mut Call, Arg) -> bool;

/// Every ground: what it answers, the argument that it lies in, and the change. That of 17 is a parcel's
/// start, which the good calls have. Two of one number stand in the order in which they are found.
const GROUNDS: [(u64, Arg, Spoil); 24] = [
    (refusal(1, 0), Mode, refused_number),
    (refusal(2, 0), Rounds, refused_number),
    (refusal(3, 0), Key, other_length),
    (refusal(4, 0), Nonce, other_length),
    (refusal(5, 0), Header, too_long),
    (refusal(8, 0), Parcel, too_short),
    (refusal(6, 0), Message, too_long),
    (refusal(6, 0), Parcel, too_long),
    (refusal(7, 0), Output, |_, call, output| {
        call.lend(output, -1)
    }),
    (refusal(7, 0), Words, |_, call, words| call.lend(words, -8)),
    (refusal(9, 0), Parcel, bad_tag),
    (refusal(10, 0), Block, other_length),
    (refusal(13, 0), Steps, too_long),
    (refusal(12, 2), Steps, bad_step),
    (refusal(11, 0), Alpha, refused_number),
    (refusal(11, 0), Beta, refused_number),
    (refusal(11, 0), Gamma, refused_number),
    (refusal(18, 0), Store, bad_length),
    (refusal(19, 1), Store, bad_index),
    (refusal(20, 1), Store, bad_kind),
    (refusal(20, 2), Store, missing_cell),
    (refusal(16, 0), Machine, bad_numbers),
    (refusal(15, 0), Store, full),
    (refusal(9, 1), Store, bad_sale),
];

/// All sets of grounds of all calls, and all round counts. Every refusal of every call has to be met.
pub fn run(library: Library, seed: u64) -> Tally {
    let mut run = Run {
        prng: Prng::new(seed),
        check: Check::new(library),
        met: Met::new(calls::ALL.into_iter()),
    };
    for (mode, rounds) in settings() {
        // The header has more whole blocks than the message.
        let seal = Call::seal(&mut run.prng, mode, rounds, 300, 70);
        for good in seal.good_calls() {
            run.all_sets(&good.call, good.answer);
        }
    }
    run.round_counts();
    let start = run.prng.bytes(128);
    run.all_sets(&walk(&start, &[1, 5, 6]), 128);
    run.all_sets(&jump(&start, [1, -2, 3]), 128);
    run.stores();
    run.met.all(&mut run.check.tally);
    run.check.tally
}

struct Run {
    prng: Prng,
    check: Check,
    met: Met,
}

impl Run {
    /// A store with sales in cells 2 and 1, in this order, and with cell 3 free. The sale in cell 1, which
    /// is named, is of either kind.
    fn stores(&mut self) {
        let key = self.prng.bytes(32);
        let [first, second, third] = [5, 6, 7].map(|sale| random_sale(&mut self.prng, 1, sale));
        let empty = on_store(&FORMAT, &[], &self.prng.bytes(4 * CELL_LEN), &first);
        let mut store = self.check.answers(&empty, 0);
        for (cell, sold) in [(1, &first), (2, &second)] {
            let take = on_store(&TAKE, &key, &store[Store], sold);
            store = self.check.answers(&take, cell);
        }
        for kind in KINDS {
            store[Store][CELL_LEN + KIND_AT] = kind;
            for (entry, sold, answer) in [
                (&FORMAT, &first, 0),
                (&TAKE, &third, 3),
                (&CANCEL, &first, first.amount.into()),
                (&TOTAL, &first, 0),
                (&READ, &first, (CELL_LEN + BODY_AT) as u64),
                (&LOOK_UP, &first, kind.into()),
            ] {
                self.all_sets(&on_store(entry, &key, &store[Store], sold), answer);
            }
        }
    }

    /// The library allows the counts that the second implementation does and no other, nor one that
    /// is cut to an allowed one.
    fn round_counts(&mut self) {
        let cut = |&rounds: &u32| [8, 16].map(|bits| rounds | 1 << bits);
        let counts = (0..256).chain(ROUNDS.iter().flat_map(cut));
        for rounds in counts.chain([u32::MAX]) {
            for mode in [OPP, MRO] {
                let seal = Call::seal(&mut self.prng, mode, rounds, 3, 5);
                for good in seal.good_calls() {
                    self.check.compare(&good.call);
                }
            }
        }
    }

    /// Each set of grounds on the call `good`, which answers `done` where none is set.
    fn all_sets(&mut self, good: &Call, done: u64) {
        let entry = good.entry;
        let has = |number| move |ground: &(u64, Arg, Spoil)| ground.0 >> 32 == u64::from(number);
        let of = |&number: &u32| GROUNDS.into_iter().filter(has(number));
        let grounds = entry.refused.iter().flat_map(of);
        let grounds: Vec<_> = grounds.filter(|ground| entry.takes(ground.1)).collect();
        for set in 0..1u32 << grounds.len() {
            let chosen = (0..grounds.len()).filter(|i| set >> i & 1 == 1);
            let mut chosen = chosen.map(|i| grounds[i]).peekable();
            let wanted = chosen.peek().map_or(done, |&(answer, ..)| answer);
            let mut call = good.clone();
            if chosen.all(|(_, arg, spoil)| spoil(&mut self.prng, &mut call, arg)) {
                self.check.answers(&call, wanted);
                self.met.add(&call, wanted);
            }
        }
    }
}

fn refused_number(prng: &mut Prng, call: &mut Call, arg: Arg) -> bool {
    match arg.kind() {
        Kind::Choice(_, refused) => call.set(arg, prng.pick(refused)),
        Kind::Count(max) => call.set(arg, prng.pick(&refused_counts(max))),
        _ => return false,
    }
    true
}

/// Counts that are too large, or too small.
pub fn refused_counts(max: u32) -> [i32; 4] {
    let over = max as i32 + 1;
    [over, -over, i32::MAX, i32::MIN]
}

/// The lengths that are allowed.
fn lengths(arg: Arg) -> (usize, usize) {
    match arg.kind() {
        Kind::Bytes(lengths) => lengths.into_inner(),
        _ => panic!("{arg:?} has no lengths"),
    }
}

/// Too short or too long, where but one length is allowed.
fn other_length(prng: &mut Prng, call: &mut Call, arg: Arg) -> bool {
    let (len, _) = lengths(arg);
    call[arg].resize(prng.pick(&[0, 1, len - 1, len + 1, 2 * len]), 0);
    true
}

/// Too long, with output and words that would do. One that is too short is not made too long.
fn too_long(prng: &mut Prng, call: &mut Call, arg: Arg) -> bool {
    let (min, max) = lengths(arg);
    let possible = call[arg].len() >= min;
    call[arg].resize(max + 1 + prng.below(2), 1);
    call.fit();
    possible
}

/// Too short, but not empty, with output and words that would do.
fn too_short(prng: &mut Prng, call: &mut Call, arg: Arg) -> bool {
    let (min, _) = lengths(arg);
    call[arg].truncate(1 + prng.below(min - 1));
    call.fit();
    true
}

fn bad_tag(prng: &mut Prng, call: &mut Call, parcel: Arg) -> bool {
    let tag = call[parcel].last_chunk_mut::<TAG_LEN>();
    tag.map(|tag| tag[prng.below(TAG_LEN)] ^= 0x80).is_some()
}

fn bad_step(prng: &mut Prng, call: &mut Call, steps: Arg) -> bool {
    call[steps][2] = prng.pick(&[0, 7, 8, 255]);
    true
}

fn bad_length(_: &mut Prng, call: &mut Call, store: Arg) -> bool {
    call[store].push(0);
    true
}

/// That of cell 1, which ends the chain of sales.
fn bad_index(prng: &mut Prng, call: &mut Call, store: Arg) -> bool {
    let cells = call[store].len() / CELL_LEN;
    let wrong = prng.pick(&[1, cells, cells + 1, 65_535]);
    set_index(&mut call[store], CELL_LEN, wrong);
    true
}

fn bad_kind(prng: &mut Prng, call: &mut Call, store: Arg) -> bool {
    call[store][CELL_LEN + KIND_AT] = prng.pick(&[0, 3, 4, 255]);
    true
}

/// Cell 1 becomes the first sale, and cell 2 is in no chain.
fn missing_cell(_: &mut Prng, call: &mut Call, store: Arg) -> bool {
    set_index(&mut call[store], HEADS[0], 1);
    true
}

/// To take, those of cell 1; else those of no cell.
fn bad_numbers(_: &mut Prng, call: &mut Call, machine: Arg) -> bool {
    if call.entry.takes(Tail) {
        call.set(Sale, 5u32);
    } else {
        call.set(machine, 2u32);
    }
    true
}

/// Cell 3 goes before the first sale.
fn full(prng: &mut Prng, call: &mut Call, store: Arg) -> bool {
    let store = &mut call[store];
    let first = index(store, HEADS[0]);
    set_index(store, HEADS[0], 3);
    set_index(store, HEADS[1], 0);
    set_index(store, 3 * CELL_LEN, first);
    store[3 * CELL_LEN + KIND_AT] = prng.pick(&KINDS);
    true
}

/// A bit of the tag in cell 1.
fn bad_sale(_: &mut Prng, call: &mut Call, store: Arg) -> bool {
    call[store][2 * CELL_LEN - 1] ^= 0x80;
    true
}
