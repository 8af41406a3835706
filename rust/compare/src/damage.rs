//! Parcels damaged in every way, and parcels under other settings.

use crate::call::Call;
use crate::calls::{self, OPEN, OPEN_OLD, SEAL};
use crate::entry::Arg::{Header, Key, Message, Mode, Nonce, Output, Parcel, Rounds, Words};
use crate::good::Good;
use crate::library::{refusal, Library};
use crate::prng::Prng;
use crate::report::{Check, Tally};
use reference::{settings, Start, MAX_HEADER_LEN, MAX_MESSAGE_LEN, MRO, OPP, ROUNDS, TAG_LEN};
use std::collections::BTreeSet;

/// Changes a call that takes a parcel, or reports that it can't.
type Damage = fn(&mut Prng, &mut Call) -> bool;

/// The ways to damage such a call.
const KINDS: [(&str, Damage); 15] = [
    ("a bit of the ciphertext", flip_ciphertext),
    ("a bit of the tag", flip_tag),
    ("the other start's tag", other_tag),
    ("a block cut out", cut_block),
    ("two blocks exchanged", swap_blocks),
    ("a block doubled", double_block),
    ("the last byte cut", cut_byte),
    ("a byte more", add_byte),
    ("a byte of the ciphertext zeroed", zero_byte),
    ("another header", |prng, call| flip(prng, &mut call[Header])),
    ("a header with a zero more", extend_header),
    ("another nonce", |prng, call| flip(prng, &mut call[Nonce])),
    ("another key", |prng, call| flip(prng, &mut call[Key])),
    ("the other mode", change_mode),
    ("another round count", change_rounds),
];

/// Which entry points were damaged in which ways.
type Done = BTreeSet<(&'static str, &'static str)>;

/// Damages a call in one random way.
pub fn random(prng: &mut Prng, call: &mut Call) {
    let (_, damage) = prng.pick(&KINDS);
    damage(prng, call);
}

/// Every kind of damage over many lengths, and the parcels of a start that a call does not open: always
/// refused with 9. An open has then cleared the message, a conversion has changed nothing.
pub fn run(library: Library, seed: u64) -> Tally {
    let mut prng = Prng::new(seed);
    let mut check = Check::new(library);
    let mut done = Done::new();
    for (mode, rounds) in settings() {
        for len in [0, 1, 13, 127, 128, 129, 256, 300, 384, 1000, 4096, 65_536] {
            for header_len in [0, 5, 128, 200] {
                let seal = Call::seal(&mut prng, mode, rounds, header_len, len);
                check.answers(&seal, len as u64 + 32);
                all_kinds(&mut prng, &mut check, &seal, &mut done);
            }
        }
        every_tag_bit(&mut prng, &mut check, mode, rounds);
    }
    for entry in calls::sealing().filter(|entry| entry.takes(Parcel)) {
        for (kind, _) in KINDS {
            check.record(done.contains(&(entry.name, kind)), || {
                format!("{}, {kind}: not done once", entry.name)
            });
        }
    }
    check.tally
}

/// Each kind of damage that the parcels of `seal` have room for.
fn all_kinds(prng: &mut Prng, check: &mut Check, seal: &Call, done: &mut Done) {
    for good in on_parcels(seal) {
        let (call, name) = (&good.call, good.call.entry.name);
        if !good.opens() {
            does_not_open(check, call, "the other start");
            continue;
        }
        let after = check.answers(call, good.answer);
        let same = match good.answer >> 32 {
            0 => after.output().starts_with(&good.written),
            _ => after.values == call.values,
        };
        check.record(same, || format!("{call}: the output is another"));
        for (kind, damage) in KINDS {
            let mut call = call.clone();
            if damage(prng, &mut call) {
                done.insert((name, kind));
                does_not_open(check, &call, kind);
            }
        }
    }
}

/// Each of the 256 bits of a tag counts.
fn every_tag_bit(prng: &mut Prng, check: &mut Check, mode: u32, rounds: u32) {
    let seal = Call::seal(prng, mode, rounds, 9, 150);
    for good in on_parcels(&seal).filter(Good::opens) {
        for bit in 0..256 {
            let mut call = good.call.clone();
            call[Parcel][150 + bit / 8] ^= 1 << (bit % 8);
            does_not_open(check, &call, "a bit of the tag");
        }
    }
}

/// The calls on the parcels of `seal`. There is room for a longer message, and words enough for a block
/// more.
fn on_parcels(seal: &Call) -> impl Iterator<Item = Good> {
    let good = seal.good_calls().into_iter();
    good.filter(|good| good.call.entry.takes(Parcel))
        .map(|mut good| {
            good.call.lend(Output, 232);
            good.call.lend(Words, 8);
            good
        })
}

/// Compares a call. Where there is a refusal for that, it has to be refused with 9 and to leave its
/// output as it has to.
fn does_not_open(check: &mut Check, call: &Call, kind: &str) {
    let (answer, after) = check.obeys(call);
    if call.entry.refuses(9) {
        let mut wanted = call.output().to_vec();
        if call.entry.clears {
            wanted[..ciphertext_len(call)].fill(0);
        }
        let passed = answer == refusal(9, 0) && after.output() == wanted;
        check.record(passed, || format!("{call}: {kind} answers {answer:#x}"));
    }
}

/// Bytes of a parcel's ciphertext.
fn ciphertext_len(call: &Call) -> usize {
    call[Parcel].len() - TAG_LEN
}

fn flip(prng: &mut Prng, bytes: &mut [u8]) -> bool {
    if bytes.is_empty() {
        return false;
    }
    let at = prng.below(bytes.len());
    bytes[at] ^= 1 << prng.below(8);
    true
}

fn flip_ciphertext(prng: &mut Prng, call: &mut Call) -> bool {
    let len = ciphertext_len(call);
    flip(prng, &mut call[Parcel][..len])
}

fn flip_tag(prng: &mut Prng, call: &mut Call) -> bool {
    let len = ciphertext_len(call);
    flip(prng, &mut call[Parcel][len..])
}

/// The ciphertext of one start and the tag that its message has under the other, where the ciphertexts
/// differ: a short one may be the same.
fn other_tag(_: &mut Prng, call: &mut Call) -> bool {
    let len = ciphertext_len(call);
    for (open, other) in [(&OPEN, Start::Old), (&OPEN_OLD, Start::New)] {
        let (answer, mut opened) = Library::Reference.call(&call.turned(open));
        if answer == len as u64 {
            let message = std::mem::take(&mut opened[Output]);
            let parcel = call.turned(&SEAL).with(Message, message).parcel(other);
            let differ = call[Parcel][..len] != parcel[..len];
            call[Parcel].splice(len.., parcel[len..].iter().copied());
            return differ;
        }
    }
    false
}

fn cut_block(prng: &mut Prng, call: &mut Call) -> bool {
    let blocks = ciphertext_len(call) / 128;
    if blocks == 0 {
        return false;
    }
    let at = 128 * prng.below(blocks);
    call[Parcel].drain(at..at + 128);
    true
}

fn swap_blocks(prng: &mut Prng, call: &mut Call) -> bool {
    let blocks = ciphertext_len(call) / 128;
    if blocks < 2 {
        return false;
    }
    let (first, second) = (prng.below(blocks - 1), blocks - 1);
    for i in 0..128 {
        call[Parcel].swap(128 * first + i, 128 * second + i);
    }
    true
}

fn double_block(prng: &mut Prng, call: &mut Call) -> bool {
    let blocks = ciphertext_len(call) / 128;
    if blocks == 0 || ciphertext_len(call) + 128 > MAX_MESSAGE_LEN {
        return false;
    }
    let at = 128 * prng.below(blocks);
    let block = call[Parcel][at..at + 128].to_vec();
    call[Parcel].splice(at..at, block);
    true
}

fn cut_byte(_: &mut Prng, call: &mut Call) -> bool {
    let parcel = &mut call[Parcel];
    let cut = parcel.len() > 32;
    if cut {
        parcel.pop();
    }
    cut
}

fn add_byte(prng: &mut Prng, call: &mut Call) -> bool {
    let room = call[Parcel].len() < MAX_MESSAGE_LEN + TAG_LEN;
    if room {
        let at = prng.below(call[Parcel].len() + 1);
        call[Parcel].insert(at, 0);
    }
    room
}

fn zero_byte(prng: &mut Prng, call: &mut Call) -> bool {
    let len = ciphertext_len(call);
    if len == 0 {
        return false;
    }
    let at = prng.below(len);
    let changed = call[Parcel][at] != 0;
    call[Parcel][at] = 0;
    changed
}

fn extend_header(_: &mut Prng, call: &mut Call) -> bool {
    let room = call[Header].len() < MAX_HEADER_LEN;
    if room {
        call[Header].push(0);
    }
    room
}

fn change_mode(_: &mut Prng, call: &mut Call) -> bool {
    call.set(Mode, call.number(Mode) ^ OPP ^ MRO);
    true
}

fn change_rounds(prng: &mut Prng, call: &mut Call) -> bool {
    let rounds = call.number(Rounds);
    let others: Vec<u32> = ROUNDS.iter().copied().filter(|&n| n != rounds).collect();
    call.set(Rounds, prng.pick(&others));
    true
}
