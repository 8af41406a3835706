//! Stores damaged in every way, each under all calls.

use crate::call::Call;
use crate::calls::{self, on_numbers, on_store, CANCEL, FORMAT, LOOK_UP, READ, TAKE, TOTAL};
use crate::entry::Arg;
use crate::library::{refusal, Library};
use crate::met::Met;
use crate::prng::Prng;
use crate::report::{Check, Tally};
use crate::stores::sound::{coins, sealed, Sound, KINDS, SALES};
use crate::stores::ways::{Effect, WAYS};
use crate::stores::{look_up, shapes};
use reference::store::{Sale, BODY_AT, BODY_LEN, CELL_LEN, PRICED, STORE_LENS, UNPRICED};

/// Lengths that are allowed, and others around them.
const ALLOWED: [usize; 5] = [128, 192, 4096, 65_472, 65_536];
const REFUSED: [usize; 15] = [
    0, 1, 4, 63, 64, 65, 127, 129, 191, 193, 65_535, 65_537, 65_599, 65_600, 131_072,
];

/// Every way alone, every two of them, lengths, every bit of a sale, either kind of it, two sales alike,
/// and all shapes of small stores.
pub fn run(library: Library, seed: u64) -> Tally {
    let mut prng = Prng::new(seed);
    let mut run = Run {
        check: Check::new(library),
        met: Met::new(calls::of_store()),
    };
    run.one_by_one(&mut prng);
    run.two_at_once(&mut prng);
    run.lengths(&mut prng);
    run.every_bit(&mut prng);
    run.either_kind(&mut prng);
    run.alike(&mut prng);
    shapes::run(&mut prng, &mut run.check);
    run.met.show();
    run.met.all(&mut run.check.tally);
    run.check.tally
}

struct Run {
    check: Check,
    met: Met,
}

impl Run {
    /// Compares a call and holds it against its law. Returns its answer and the arguments afterwards.
    fn compare(&mut self, call: &Call) -> (u64, Call) {
        let (answer, after) = self.check.obeys(call);
        self.met.add(call, answer);
        (answer, after)
    }

    /// Compares a call and counts whether it answers `wanted`. Returns the arguments afterwards.
    fn answers(&mut self, call: &Call, wanted: u64, name: &str) -> Call {
        let (answer, after) = self.compare(call);
        self.check.record(answer == wanted, || {
            format!("{name}: {call}: answer {answer:#x}, to be {wanted:#x}")
        });
        after
    }

    fn one_by_one(&mut self, prng: &mut Prng) {
        let mut done = [[0; 2]; WAYS.len()];
        let small = [2, 3, 4, 5, 6, 9, 17].repeat(4);
        for cells in small.into_iter().chain([65, 257, 300, 1024]) {
            for sales in [0, 1, cells / 2, cells - 2, cells - 1] {
                let sound = Sound::random(prng, cells, sales);
                self.all_ways(prng, &sound, &mut done);
            }
        }
        for ((name, _), done) in WAYS.iter().zip(done) {
            self.check.record(!done.contains(&0), || {
                format!("{name}: done {done:?} times")
            });
        }
    }

    /// All ways that `sound` has room for, in each chain; `done` counts them.
    fn all_ways(&mut self, prng: &mut Prng, sound: &Sound, done: &mut [[u64; 2]; WAYS.len()]) {
        let calls = sound.calls(prng);
        let before: Vec<u64> = calls.iter().map(|call| self.compare(call).0).collect();
        let each = WAYS.iter().zip(done).flat_map(|(way, done)| {
            let chains = done.iter_mut().enumerate();
            chains.map(move |(chain, done)| (way, chain, done))
        });
        for ((name, damage), chain, done) in each {
            let mut damaged = sound.clone();
            let Some(effect) = damage(prng, &mut damaged, chain) else {
                continue;
            };
            *done += 1;
            for (call, &before) in calls.iter().zip(&before) {
                let call = call.clone().with(Arg::Store, damaged.bytes.clone());
                match wanted(&call, sound, before, effect) {
                    Some(wanted) => drop(self.answers(&call, wanted, name)),
                    None => drop(self.compare(&call)),
                }
            }
        }
    }

    /// One way and another on the same store, or one twice. The second may undo the first.
    fn two_at_once(&mut self, prng: &mut Prng) {
        for cells in [3, 4, 6, 12, 40] {
            let sales = 1 + prng.below(cells - 2);
            let sound = Sound::random(prng, cells, sales);
            let calls = sound.calls(prng);
            for (n, (_, first)) in WAYS.iter().enumerate() {
                for (_, second) in &WAYS[n..] {
                    let mut damaged = sound.clone();
                    for damage in [first, second] {
                        let chain = prng.below(2);
                        damage(prng, &mut damaged, chain);
                    }
                    for call in &calls {
                        self.compare(&call.clone().with(Arg::Store, damaged.bytes.clone()));
                    }
                }
            }
        }
    }

    /// Stores with nothing wrong but their lengths.
    fn lengths(&mut self, prng: &mut Prng) {
        for len in ALLOWED.into_iter().chain(REFUSED) {
            let cells = (len / CELL_LEN).max(1);
            for sales in [0, cells / 3, cells - 1] {
                let mut store = Sound::random(prng, cells, sales);
                store.bytes.resize(len, 0);
                for call in store.calls(prng) {
                    let (answer, _) = self.compare(&call);
                    let passed = match answer >> 32 {
                        3 => true,
                        18 => answer == refusal(18, 0) && REFUSED.contains(&len),
                        number => number < 18 && ALLOWED.contains(&len),
                    };
                    self.check
                        .record(passed, || format!("{call}: answer {answer:#x}"));
                }
            }
        }
    }

    /// A sale with any bit changed opens for no one, and keeps the numbers that it then has.
    fn every_bit(&mut self, prng: &mut Prng) {
        let sound = Sound::random(prng, 4, 2);
        let cell = sound.chains[SALES][1];
        for bit in 0..8 * BODY_LEN {
            let mut damaged = sound.clone();
            let body = damaged.body_mut(cell);
            body[bit / 8] ^= 1 << (bit % 8);
            let number = |at: usize| u32::from_le_bytes(body[at..at + 4].try_into().expect("four"));
            let numbers = (number(0), number(4));
            let (key, store) = (&damaged.key, &damaged.bytes);
            let shut = refusal(9, cell as u32);
            let name = format!("bit {bit} of a sale");
            let on = |entry| on_numbers(entry, key, store, numbers);
            self.answers(&on(&TOTAL), shut, &name);
            if numbers != (sound.sold[0].machine, sound.sold[0].sale) {
                self.answers(&on(&CANCEL), shut, &name);
                self.answers(&on(&LOOK_UP), shut, &name);
            }
        }
    }

    /// The kind is not sealed, so that every sale opens as one of either.
    fn either_kind(&mut self, prng: &mut Prng) {
        let sound = Sound::random(prng, 24, 20);
        let places = (0..sound.sold.len()).flat_map(|place| KINDS.map(|kind| (place, kind)));
        for (place, kind) in places {
            let mut store = sound.clone();
            *store.kind_mut(store.chains[SALES][place]) = kind;
            self.kind_answers(&store, &store.sold[place], kind);
        }
    }

    /// The calls on a sale of a kind: only the price depends on that.
    fn kind_answers(&mut self, store: &Sound, sold: &Sale, kind: u8) {
        let on = |entry| on_store(entry, &store.key, &store.bytes, sold);
        let name = format!("a sale of kind {kind}");
        self.answers(&on(&CANCEL), sold.amount.into(), &name);
        let call = on(&LOOK_UP);
        let after = self.answers(&call, kind.into(), &name);
        look_up::finds(&mut self.check, &call, &after, sold, kind);
        let coins = coins(&store.sold);
        let total = &self.answers(&on(&TOTAL), 0, &name)[Arg::Total];
        self.check.record(*total == coins.to_ne_bytes(), || {
            format!("{name}: the total is {total:x?}, to be {coins}")
        });
    }

    /// Of two sales alike the first in the chain counts, also where it does not open.
    fn alike(&mut self, prng: &mut Prng) {
        for (first, second) in [(0, 1), (0, 3), (1, 2), (2, 3)] {
            let mut store = Sound::random(prng, 6, 4);
            store.sold[second].machine = store.sold[first].machine;
            store.sold[second].sale = store.sold[first].sale;
            let body = sealed(&store.key, &store.sold[second]);
            let [one, other] = [first, second].map(|place| store.chains[SALES][place]);
            store.body_mut(other).copy_from_slice(&body);
            let amount = store.sold[first].amount.into();
            let kind = (*store.kind_mut(one)).into();
            self.alike_answers(&store, first, [amount, kind, 0]);
            let mut damaged = store.clone();
            damaged.body_mut(one)[BODY_LEN - 1] ^= 1;
            let shut = refusal(9, one as u32);
            self.alike_answers(&damaged, first, [shut, shut, shut]);
            let mut damaged = store.clone();
            damaged.body_mut(other)[BODY_LEN - 1] ^= 1;
            let shut = refusal(9, other as u32);
            self.alike_answers(&damaged, first, [amount, kind, shut]);
        }
    }

    /// The calls on a store with two sales alike, by the place of the first of them and what cancel,
    /// look_up and total have to answer.
    fn alike_answers(&mut self, store: &Sound, first: usize, wanted: [u64; 3]) {
        let offset = CELL_LEN * store.chains[SALES][first] + BODY_AT;
        for (entry, wanted) in [
            (&CANCEL, wanted[0]),
            (&LOOK_UP, wanted[1]),
            (&TOTAL, wanted[2]),
            (&READ, offset as u64),
            (&TAKE, refusal(16, 0)),
        ] {
            let call = on_store(entry, &store.key, &store.bytes, &store.sold[first]);
            self.answers(&call, wanted, "two sales alike");
        }
    }
}

fn allowed(len: usize) -> bool {
    STORE_LENS.contains(&len) && len % CELL_LEN == 0
}

/// What `call` has to answer where `sound` was damaged with that effect, by its answer before.
fn wanted(call: &Call, sound: &Sound, before: u64, effect: Effect) -> Option<u64> {
    let entry = call.entry;
    let named = || sound.cell_of(call.number(Arg::Machine), call.number(Arg::Sale));
    Some(match effect {
        Effect::Other => return None,
        _ if entry.name == FORMAT.name && allowed(call[Arg::Store].len()) => 0,
        _ if entry.name == FORMAT.name => refusal(18, 0),
        Effect::Form(number, cell) if before != refusal(3, 0) => refusal(number, cell as u32),
        Effect::Shut(shut)
            if before >> 32 == 0
                && entry.refuses(9)
                && (!entry.takes(Arg::Machine) || named() == Some(shut)) =>
        {
            refusal(9, shut as u32)
        }
        Effect::OtherKind(other)
            if before >> 32 == 0 && entry.name == LOOK_UP.name && named() == Some(other) =>
        {
            before ^ u64::from(UNPRICED ^ PRICED)
        }
        _ => before,
    })
}
