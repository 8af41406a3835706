//! The mask rule, runs of words and the paper's polynomial, on the library's own walk and jump.

use crate::call::Call;
use crate::calls::{self, SEAL_RUN};
use crate::entry::Arg::{Output, Words};
use crate::library::Library;
use crate::prng::Prng;
use crate::report::{Check, Tally};
use reference::settings;

/// The exponents of the polynomial of section 3.6.3 for 1,024 bits.
const EXPONENTS: [usize; 9] = [1024, 901, 695, 572, 409, 366, 203, 163, 0];

/// Lists in other orders give the same block, and so does the jump by their net counts. A run has
/// the blocks that walk reaches.
pub fn run(library: Library, seed: u64) -> Tally {
    let mut prng = Prng::new(seed);
    let mut check = Check::new(library);
    for n in 0..300 {
        let len = if n % 30 == 0 { 4096 } else { prng.below(60) };
        let start = prng.bytes(128);
        let mut steps = prng.steps(len);
        let reached = walk(library, &start, &steps);
        let counts = net_counts(&steps);
        let jumped = block(library, &calls::jump(&start, counts));
        check.record(same(&reached, &jumped), || {
            format!("the jump by {counts:?}")
        });
        prng.shuffle(&mut steps);
        let again = walk(library, &start, &steps);
        check.record(same(&reached, &again), || {
            format!("a list of {len} in another order")
        });
    }
    for (mode, rounds) in settings() {
        let seal = Call::seal(&mut prng, mode, rounds, 700, 300);
        windows(&mut check, &seal);
    }
    for _ in 0..20 {
        polynomial(&mut check, &prng.bytes(128));
    }
    check.tally
}

/// The run that `seal` leaves in words: each sixteen are an alpha step further than those before, and
/// a beta or gamma step from there gives sums of neighbours.
fn windows(check: &mut Check, seal: &Call) {
    let library = check.library;
    let call = seal.turned(&SEAL_RUN);
    let (answer, after) = library.call(&call);
    check.record(answer == call[Output].len() as u64, || {
        format!("{call}: {answer:#x}")
    });
    let words = 0..after[Words].len() / 8;
    let run: Vec<u64> = words.map(|n| word(&after[Words], n)).collect();
    for (n, w) in run.windows(18).enumerate() {
        let from = block_of(|t| w[t]);
        for (step, to) in [
            (1, block_of(|t| w[t + 1])),
            (2, block_of(|t| w[t + 1] ^ w[t])),
            (3, block_of(|t| w[t + 2] ^ w[t + 1] ^ w[t])),
        ] {
            let reached = walk(library, &from, &[step]);
            check.record(reached == Ok(to), || format!("step {step} from word {n}"));
        }
    }
}

/// The bytes of the block whose word `t` is `word(t)`.
fn block_of(word: impl Fn(usize) -> u64) -> Vec<u8> {
    (0..16).flat_map(|t| word(t).to_le_bytes()).collect()
}

/// Alpha as walk computes it is a root of the paper's polynomial; with two rotations it is not.
fn polynomial(check: &mut Check, start: &[u8]) {
    let library = check.library;
    let zero = evaluate(start, |block| walk(library, block, &[1]));
    check.record(zero == Ok(vec![0; 128]), || {
        format!("the polynomial under alpha: {zero:x?}")
    });
    let other = evaluate(start, |block| Ok(with_two_rotations(block)));
    check.record(other != Ok(vec![0; 128]), || {
        "the polynomial with two rotations".into()
    });
}

/// The polynomial in `alpha`, applied to `start`.
fn evaluate(start: &[u8], alpha: impl Fn(&[u8]) -> Reached) -> Reached {
    let mut total = vec![0; 128];
    let mut power = start.to_vec();
    for exponent in 0..=1024 {
        if EXPONENTS.contains(&exponent) {
            total.iter_mut().zip(&power).for_each(|(t, p)| *t ^= p);
        }
        power = alpha(&power)?;
    }
    Ok(total)
}

fn with_two_rotations(block: &[u8]) -> Vec<u8> {
    let last = word(block, 0).rotate_left(53) ^ word(block, 5).rotate_left(13);
    [&block[8..], &last.to_le_bytes()].concat()
}

/// Word `n` of these bytes.
fn word(bytes: &[u8], n: usize) -> u64 {
    u64::from_le_bytes(*bytes[8 * n..].first_chunk().expect("eight bytes"))
}

fn net_counts(steps: &[u8]) -> [i32; 3] {
    let count = |step| steps.iter().filter(|&&s| s == step).count() as i32;
    [1, 2, 3].map(|step| count(step) - count(step + 3))
}

/// The block that a call writes, or its answer where that is another than 128.
type Reached = Result<Vec<u8>, u64>;

/// Both calls wrote a block, and the same one. Two refused calls agree on no mask.
fn same(a: &Reached, b: &Reached) -> bool {
    matches!((a, b), (Ok(a), Ok(b)) if a == b)
}

fn walk(library: Library, start: &[u8], steps: &[u8]) -> Reached {
    block(library, &calls::walk(start, steps))
}

fn block(library: Library, call: &Call) -> Reached {
    match library.call(call) {
        (128, mut after) => Ok(std::mem::take(&mut after[Output])),
        (answer, _) => Err(answer),
    }
}
