//! Why a parcel won't open, over all settings asked and true.

use crate::call::{Call, Value};
use crate::calls::{DIAGNOSE, OPEN, OPEN_OLD};
use crate::entry::Arg::{self, Header, Key, Mode, Nonce, OldStart, Parcel, Rounds};
use crate::library::{refusal, Library};
use crate::prng::Prng;
use crate::report::{Check, Tally};
use reference::{all_settings, Start, KEY_LEN, MRO, NONCE_LEN, OPP, TAG_LEN};

/// What a setting consists of, in the order of its words.
const PARTS: [Arg; 3] = [OldStart, Mode, Rounds];

/// Lengths of headers and messages: none, whole blocks, leftovers and both.
const LENGTHS: [(usize, usize); 7] = [
    (0, 0),
    (5, 13),
    (128, 0),
    (0, 256),
    (256, 128),
    (200, 300),
    (4095, 1500),
];

/// Values of [`PARTS`].
type Setting = [u32; 3];

/// The sixteen settings, in the order in which they are tried.
fn all() -> impl Iterator<Item = Setting> {
    let sixteen = all_settings().into_iter();
    sixteen.map(|(start, (mode, rounds))| [u32::from(start == Start::Old), mode, rounds])
}

/// The answer to `asked` where `found` is the first setting that opens, if any does.
fn answer(asked: Setting, found: Option<Setting>) -> u64 {
    let Some(found) = found else { return 255 };
    if found == asked {
        return 0;
    }
    let number = all().position(|setting| setting == found);
    let words = (0..3).filter(|&part| found[part] != asked[part]);
    let words: u64 = words.map(|part| 32 << part).sum();
    1 + number.expect("a setting") as u64 + words
}

/// This diagnosis with other settings asked.
pub fn asking(mut call: Call, setting: Setting) -> Call {
    for (part, value) in PARTS.into_iter().zip(setting) {
        call.set(part, value);
    }
    call
}

/// The setting that is named has to open the parcel by `open` or `open_old` of the same library, and the
/// one asked and all before have not to; none is the answer where all sixteen fail.
pub fn law(check: &mut Check, call: &Call, given: u64, _: &Call) {
    if given >> 32 != 0 {
        return;
    }
    let library = check.library;
    let opens = |setting: &Setting| {
        let open = [&OPEN, &OPEN_OLD][setting[0] as usize];
        let (answer, _) = library.call(&asking(call.clone(), *setting).turned(open));
        answer >> 32 == 0
    };
    let asked = PARTS.map(|part| call.number(part));
    let wanted = answer(asked, std::iter::once(asked).chain(all()).find(opens));
    check.record(given == wanted, || {
        format!("{call}: answer {given:#x}, to be {wanted:#x} by what opens")
    });
}

/// Parcels under every setting, of whole blocks, of leftovers and of nothing, sound, damaged and cut, and
/// each with every setting asked; then those that several settings open.
pub fn run(library: Library, seed: u64) -> Tally {
    let mut prng = Prng::new(seed);
    let mut check = Check::new(library);
    for (header_len, len) in LENGTHS {
        for found in all() {
            let seal = Call::seal(&mut prng, found[1], found[2], header_len, len);
            let start = [Start::New, Start::Old][found[0] as usize];
            let good = seal.on_parcel(&DIAGNOSE, start);
            for asked in all() {
                let call = asking(good.clone(), asked);
                answers(&mut check, &call, answer(asked, Some(found)));
                others(&mut prng, &mut check, call);
            }
        }
    }
    zeros(&mut check);
    check.tally
}

/// The parcel with a bit changed in its tag, or before that; without its first byte, or its last; and cut
/// to less than a tag.
fn others(prng: &mut Prng, check: &mut Check, call: Call) {
    let parcel = &call[Parcel];
    let len = parcel.len() - TAG_LEN;
    let mut flipped = |range: std::ops::Range<usize>| {
        let (mut parcel, at) = (parcel.clone(), range.start + prng.below(range.len()));
        parcel[at] ^= 1 << prng.below(8);
        parcel
    };
    let mut damaged = vec![flipped(len..len + TAG_LEN)];
    if len > 0 {
        damaged.push(flipped(0..len));
        damaged.push(parcel[1..].to_vec());
        damaged.push(parcel[..parcel.len() - 1].to_vec());
    }
    for parcel in damaged {
        answers(check, &call.clone().with(Parcel, parcel), 255);
    }
    let short = parcel[..TAG_LEN - 1].to_vec();
    answers(check, &call.with(Parcel, short), refusal(8, 0));
}

/// Parcels of zeros under zero key and nonce open under several settings of the old start: all eight where
/// header and message are empty, and the four of OPP where they are whole blocks. The first is named.
fn zeros(check: &mut Check) {
    let first = [1, OPP, 4];
    for (header, parcel, opening) in [
        (0, 32, &[OPP, MRO][..]),
        (0, 160, &[OPP]),
        (128, 32, &[OPP]),
        (4096, 65_568, &[OPP]),
        (0, 33, &[]),
    ] {
        for asked in all() {
            let opens = asked[0] == 1 && opening.contains(&asked[1]);
            let found = if opens { asked } else { first };
            let wanted = answer(asked, (!opening.is_empty()).then_some(found));
            answers(check, &of_zeros(asked, header, parcel), wanted);
        }
    }
    for (header, parcel, number) in [(0, 31, 8), (0, 65_569, 6), (4097, 31, 5)] {
        answers(check, &of_zeros(first, header, parcel), refusal(number, 0));
    }
    // 9 is setting 8, the first of the old start; 32, 64 and 128 say what differs.
    for (asked, wanted) in [
        ([1, MRO, 12], 0),
        ([0, OPP, 4], 9 + 32),
        ([0, OPP, 6], 9 + 32 + 128),
        ([0, MRO, 4], 9 + 32 + 64),
        ([0, MRO, 12], 9 + 32 + 64 + 128),
    ] {
        answers(check, &of_zeros(asked, 0, 32), wanted);
    }
}

/// A diagnosis of zeros alone, with a header and a parcel of these lengths.
fn of_zeros(asked: Setting, header: usize, parcel: usize) -> Call {
    let call = Call::new(&DIAGNOSE, |arg| match arg {
        Key => vec![0; KEY_LEN].into(),
        Nonce => vec![0; NONCE_LEN].into(),
        Header => vec![0; header].into(),
        Parcel => vec![0; parcel].into(),
        _ => Value::Number(0),
    });
    asking(call, asked)
}

/// Compares a diagnosis and its law, and counts whether it answers `wanted`.
fn answers(check: &mut Check, call: &Call, wanted: u64) {
    let (answer, _) = check.obeys(call);
    check.record(answer == wanted, || {
        format!("{call}: answer {answer:#x}, to be {wanted:#x}")
    });
}
