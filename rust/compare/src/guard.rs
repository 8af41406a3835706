//! Every lent buffer at the edge of a page that can't be touched.

use crate::call::Call;
use crate::calls::{self, jump, walk};
use crate::child;
use crate::diagnosis::asking;
use crate::entry::Arg::{OldStart, Output, Store, Words};
use crate::good::Good;
use crate::library::Library;
use crate::pages::{self, Edge};
use crate::prng::Prng;
use crate::report::Tally;
use crate::stores::sound::Sound;
use crate::stores::ways::WAYS;
use reference::{settings, MRO, OPP};
use std::collections::BTreeSet;

/// Cells and sales of stores: small ones, ones of a page and a cell more, and the longest.
const STORES: [(usize, usize); 7] = [
    (2, 0),
    (2, 1),
    (3, 1),
    (5, 2),
    (64, 40),
    (65, 64),
    (1024, 9),
];

/// Runs the calls in a child process, since a byte read or written outside ends it.
pub fn run(library: &str) -> Tally {
    child::run(&["--library", library, "guard-child"]).tally
}

/// The child: makes every call at both edges. Of each entry point some have to succeed, since a
/// refused call need not touch its buffers, and some to fail by what they have read.
pub fn child(library: Library) {
    let mut met = BTreeSet::new();
    for call in calls() {
        let wanted = Library::Reference.call(&call);
        for edge in [Edge::First, Edge::Last] {
            child::call(format_args!("{call}, {edge:?} in its pages"));
            let answer = agrees(library, &call, edge, &wanted);
            if let Ok(answer) = answer {
                met.insert((call.entry.name, (answer >> 32) as u32));
            }
            child::outcome(answer.map(drop));
        }
    }
    for entry in calls::ALL {
        let numbers = [0, 9, 17].into_iter();
        for number in numbers.filter(|&number| number == 0 || entry.refuses(number)) {
            child::call(entry.name);
            let none = || format!("no call met refusal {number}, 0 for none");
            child::outcome(met.get(&(entry.name, number)).map(drop).ok_or_else(none));
        }
    }
    child::done();
}

/// The answer, where it and all arguments afterwards are those wanted.
fn agrees(
    library: Library,
    call: &Call,
    edge: Edge,
    (wanted, after): &(u64, Call),
) -> Result<u64, String> {
    let mut lent = pages::lent(call, edge);
    let answer = lent.call(library, false);
    if answer == *wanted && lent.now().values == after.values {
        Ok(answer)
    } else {
        Err(format!("{answer:#x}, expected {wanted:#x}"))
    }
}

fn calls() -> Vec<Call> {
    let mut prng = Prng::new(4);
    let mut calls = Vec::new();
    for (mode, rounds) in settings() {
        for len in [
            0, 1, 7, 8, 9, 13, 127, 128, 129, 255, 256, 257, 4096, 65_535, 65_536,
        ] {
            for header_len in [0, 1, 127, 128, 129, 4096, 4097] {
                let seal = Call::seal(&mut prng, mode, rounds, header_len, len);
                sealing(&mut calls, &seal);
            }
        }
    }
    walking(&mut prng, &mut calls);
    for (cells, sales) in STORES {
        let sound = Sound::random(&mut prng, cells, sales);
        stores(&mut prng, &mut calls, &sound);
    }
    calls
}

/// Every call on a message and on its parcels, with just enough lent; then with an output that is too
/// short, with no words, with one too few and with more, and of a damaged input; and where a start is
/// asked, with the old one.
fn sealing(calls: &mut Vec<Call>, seal: &Call) {
    for Good { call: good, .. } in seal.good_calls().into_iter().filter(Good::opens) {
        let mut push = |change: &dyn Fn(&mut Call) -> bool| {
            let mut call = good.clone();
            if change(&mut call) {
                calls.push(call);
            }
        };
        push(&|_| true);
        push(&|call| call.lend(Output, -1));
        push(&|call| call.lend(Words, -8));
        push(&|call| call.lend(Words, 24));
        push(&|call| good.entry.takes(Words) && call.lend(Words, -(call.needed(Words) as isize)));
        push(&|call| {
            let input = call.input().expect("a message or a parcel");
            let middle = call[input].len() / 2;
            call[input].get_mut(middle).map(|byte| *byte ^= 1).is_some()
        });
        if good.entry.takes(OldStart) {
            let old = [[1, OPP, 12], [1, MRO, 4]];
            calls.extend(old.map(|setting| asking(good.clone(), setting)));
        }
    }
}

/// All calls on a sound store, on parts of it, and on damaged ones.
fn stores(prng: &mut Prng, calls: &mut Vec<Call>, sound: &Sound) {
    let good = sound.calls(prng);
    for call in &good {
        for len in [0, 1, 2, 63, 64, 65, 127, sound.bytes.len() - 1] {
            calls.push(call.clone().with(Store, sound.bytes[..len].to_vec()));
        }
        for (_, damage) in WAYS {
            let mut damaged = sound.clone();
            let chain = prng.below(2);
            damage(prng, &mut damaged, chain);
            calls.push(call.clone().with(Store, damaged.bytes));
        }
    }
    calls.extend(good);
}

fn walking(prng: &mut Prng, calls: &mut Vec<Call>) {
    for len in [0, 1, 2, 100, 4096, 4097] {
        for more in [-128, -1, 0, 1] {
            let steps = prng.steps(len);
            for mut call in [
                walk(&prng.bytes(128), &steps),
                jump(&prng.bytes(128), [3, -2, -1]),
            ] {
                call.lend(Output, more);
                calls.push(call);
            }
        }
    }
    for start_len in [0, 1, 127, 129] {
        let start = prng.bytes(start_len);
        calls.push(walk(&start, &[1, 2]));
        calls.push(jump(&start, [1; 3]));
    }
}
