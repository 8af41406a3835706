//! Counting what agrees, and showing what does not.

use crate::call::Call;
use crate::library::{Held, Lent, Library};
use std::ops::{Deref, DerefMut};

/// Words watched on both sides of a buffer that is written, and what they hold.
const MARGIN: usize = 64;
const MARGIN_WORD: u64 = 0xa5a5_a5a5_a5a5_a5a5;
/// Failures shown of one check.
const SHOWN: u64 = 10;

/// What passed and what failed.
#[derive(Default)]
pub struct Tally {
    pub passed: u64,
    pub failed: u64,
}

impl Tally {
    /// Counts one result; `failure` describes it where it failed.
    pub fn record(&mut self, passed: bool, failure: impl FnOnce() -> String) {
        if passed {
            self.passed += 1;
            return;
        }
        self.failed += 1;
        if self.failed <= SHOWN {
            println!("  failed: {}", failure());
        }
    }

    /// Adds what another counted.
    pub fn add(&mut self, other: &Self) {
        self.passed += other.passed;
        self.failed += other.failed;
    }
}

/// One check of a library.
pub struct Check {
    pub library: Library,
    pub tally: Tally,
}

impl Check {
    /// Nothing counted yet.
    pub fn new(library: Library) -> Self {
        let tally = Tally::default();
        Self { library, tally }
    }

    /// Counts one result; `failure` describes it where it failed.
    pub fn record(&mut self, passed: bool, failure: impl FnOnce() -> String) {
        self.tally.record(passed, failure);
    }

    /// Compares `call` and counts whether it answers `wanted`, which a call that both sides refuse
    /// does not. Returns the arguments afterwards.
    pub fn answers(&mut self, call: &Call, wanted: u64) -> Call {
        let (answer, after) = self.compare(call);
        self.record(answer == wanted, || {
            format!("{call}: answer {answer:#x}, to be {wanted:#x}")
        });
        after
    }

    /// Compares `call` and holds it against its law. Refused with another number than 9, it has to
    /// change nothing. Returns the answer and the arguments afterwards.
    pub fn obeys(&mut self, call: &Call) -> (u64, Call) {
        let (answer, after) = self.compare(call);
        if !matches!(answer >> 32, 0 | 9) {
            let unchanged = after.values == call.values;
            self.record(unchanged, || format!("{call}: refused, and changed"));
        }
        (call.entry.law)(self, call, answer, &after);
        (answer, after)
    }

    /// Makes `call` and compares the answer and every byte with the second implementation. Returns
    /// the answer and the arguments afterwards.
    pub fn compare(&mut self, call: &Call) -> (u64, Call) {
        let mut wanted = Lent::new(call, |bytes| bytes, Watched::new);
        let mut lent = Lent::new(call, <[u8]>::to_vec, Watched::new);
        let wanted_answer = wanted.call(Library::Reference, false);
        let answer = lent.call(self.library, true);
        let pairs = lent.held.iter().zip(&wanted.held);
        let mut pairs = call.entry.args.iter().zip(pairs);
        let difference =
            pairs.find_map(|(arg, (held, wanted))| Some((arg, differs(held, wanted)?)));
        self.record(answer == wanted_answer && difference.is_none(), || {
            format!("{call}: answer {answer:#x}, expected {wanted_answer:#x}; {difference:?}")
        });
        (answer, lent.now())
    }
}

/// Where two buffers differ first, counted from where they begin.
fn differs(held: &Held<Vec<u8>, Watched>, wanted: &Held<&[u8], Watched>) -> Option<isize> {
    let (bytes, others, margin) = match (held, wanted) {
        (Held::Read(bytes), Held::Read(others)) => (&bytes[..], *others, 0),
        (Held::Written(bytes), Held::Written(others)) => (bytes.all(), others.all(), 8 * MARGIN),
        _ => return None,
    };
    if bytes == others {
        return None;
    }
    let at = bytes.iter().zip(others).position(|(a, b)| a != b)?;
    Some(at as isize - margin as isize)
}

/// A copy of a buffer that is lent to be written, aligned as words are, with watched room on both
/// sides.
pub struct Watched {
    words: Vec<u64>,
    len: usize,
}

impl Watched {
    pub fn new(lent: &[u8]) -> Self {
        let words = vec![MARGIN_WORD; lent.len().div_ceil(8) + 2 * MARGIN];
        let mut watched = Self {
            words,
            len: lent.len(),
        };
        watched.copy_from_slice(lent);
        watched
    }

    /// With the room on both sides.
    fn all(&self) -> &[u8] {
        // SAFETY: the bytes of words are bytes.
        unsafe { self.words.align_to().1 }
    }
}

impl Deref for Watched {
    type Target = [u8];

    fn deref(&self) -> &[u8] {
        &self.all()[8 * MARGIN..][..self.len]
    }
}

impl DerefMut for Watched {
    fn deref_mut(&mut self) -> &mut [u8] {
        // SAFETY: the bytes of words are bytes, and any eight bytes are a word.
        let all = unsafe { self.words.align_to_mut().1 };
        &mut all[8 * MARGIN..][..self.len]
    }
}
