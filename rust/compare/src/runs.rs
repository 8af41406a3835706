//! Seal and open with their masks from a run of words in a lent buffer.

use crate::call::Call;
use crate::calls::{OPEN_RUN, SEAL_RUN};
use crate::entry::Arg::{Message, Output, Parcel, Words};
use crate::library::{refusal, Library};
use crate::prng::Prng;
use crate::report::{Check, Tally};
use reference::{settings, Start, MAX_HEADER_LEN, MAX_MESSAGE_LEN};

/// Bytes behind the whole blocks of a header or a message.
const LEFTOVERS: [usize; 3] = [0, 1, 127];

/// Messages of 0 to 20 whole blocks, which leave every rest of four several times, and the longest,
/// beside headers of all counts, so of fewer whole blocks, of as many and of more.
pub fn run(library: Library, seed: u64) -> Tally {
    let mut prng = Prng::new(seed);
    let mut check = Check::new(library);
    for (mode, rounds) in settings() {
        for blocks in (0..=20).chain(510..=512) {
            for header_blocks in header_blocks(blocks) {
                // With the four round counts each pair of counts gets every leftover.
                let len = 128 * blocks + LEFTOVERS[(header_blocks + rounds as usize / 2) % 3];
                let header_len = 128 * header_blocks + prng.pick(&LEFTOVERS);
                let header_len = header_len.min(MAX_HEADER_LEN);
                let seal = Call::seal(&mut prng, mode, rounds, header_len, len);
                for call in [
                    seal.turned(&SEAL_RUN),
                    seal.on_parcel(&OPEN_RUN, Start::New),
                ] {
                    with_words(&mut prng, &mut check, call, len);
                }
            }
            let len = (128 * blocks + 9).min(MAX_MESSAGE_LEN);
            let seal = Call::seal(&mut prng, mode, rounds, 200, len);
            every_block_damaged(&mut prng, &mut check, &seal);
        }
    }
    check.tally
}

/// Whole blocks of headers beside a message of `blocks`; beside a long one not all counts.
fn header_blocks(blocks: usize) -> impl Iterator<Item = usize> {
    (0..=MAX_HEADER_LEN / 128).step_by(if blocks > 20 { 8 } else { 1 })
}

/// A call on a message of `len` bytes or its parcel, in one word too few, in as many as its run has,
/// in more, and in what such a call left there but for a bit.
fn with_words(prng: &mut Prng, check: &mut Check, call: Call, len: usize) {
    let needed = call.needed(Words);
    let more = needed + 8 * (1 + prng.below(9));
    let [few, enough, more, before] = [needed - 8, needed, more, needed].map(|len| prng.bytes(len));
    let done = call[Output].len() as u64;
    let [few_answer, done] = match len > MAX_MESSAGE_LEN {
        true => [refusal(6, 0); 2],
        false => [refusal(7, 0), done],
    };
    let (_, mut left) = check.compare(&call.clone().with(Words, before));
    left[Words][prng.below(needed)] ^= 1 << prng.below(8);
    for (words, wanted) in [
        (few, few_answer),
        (enough, done),
        (more, done),
        (std::mem::take(&mut left[Words]), done),
    ] {
        let call = call.clone().with(Words, words);
        let (answer, _) = check.obeys(&call);
        check.record(answer == wanted, || {
            format!("{call}: answer {answer:#x}, to be {wanted:#x}")
        });
    }
}

/// A bit of each block of the parcel changed, and one behind the blocks. Of a long parcel only the
/// first and the last eight blocks.
fn every_block_damaged(prng: &mut Prng, check: &mut Check, seal: &Call) {
    let len = seal[Message].len();
    let good = seal.on_parcel(&OPEN_RUN, Start::New);
    let words = prng.bytes(good.needed(Words) + 16);
    let good = good.with(Words, words);
    let blocks = len / 128;
    for block in (0..=blocks).filter(|&block| blocks <= 20 || block < 8 || block + 8 > blocks) {
        let mut call = good.clone();
        let damaged = &mut call[Parcel][128 * block..];
        let at = prng.below(damaged.len().min(128));
        damaged[at] ^= 1 << prng.below(8);
        let (answer, after) = check.obeys(&call);
        let passed = answer == refusal(9, 0) && after[Output] == vec![0; len];
        check.record(passed, || format!("{call}: block {block} damaged"));
    }
}

/// With words enough for the run, a call has to answer and to write what the stepping call does; behind
/// the run, and where it is refused with another number than 9, it has to change no word.
pub fn law(check: &mut Check, call: &Call, answer: u64, after: &Call) {
    let stepping = call.entry.stepping.expect("a stepping call");
    let stepping = call.turned(stepping).with(Output, call[Output].clone());
    let (stepped, stepping) = check.compare(&stepping);
    if call[Words].len() >= call.needed(Words) {
        let same = answer == stepped && after[Output] == stepping[Output];
        check.record(same, || format!("{call}: not as the stepping call"));
    }
    let written = match answer >> 32 {
        0 | 9 => call.needed(Words),
        _ => 0,
    };
    let kept = after[Words].get(written..) == call[Words].get(written..);
    check.record(kept, || format!("{call}: a word changed"));
}
