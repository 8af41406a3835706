//! Known answers, and lengths at their limits.

use crate::call::{pattern, Call, Value};
use crate::calls::{jump, walk, CONVERT, OPEN, OPEN_OLD, OPEN_RUN, SEAL, SEAL_RUN};
use crate::entry::Arg::{Header, Key, Message, Mode, Nonce, Output, Parcel, Rounds, Words};
use crate::entry::Entry;
use crate::library::{refusal, Library};
use crate::report::{Check, Tally};
use reference::{MRO, OPP, ROUNDS};

/// Every line that can be seen through the calls.
pub fn run(library: Library) -> Tally {
    let mut check = Check::new(library);
    steps(&mut check);
    zeros(&mut check);
    conversions(&mut check);
    sealing_limits(&mut check);
    parcel_limits(&mut check);
    run_limits(&mut check);
    mask_limits(&mut check);
    check.tally
}

/// A word's number and value.
type Word = (usize, u64);

/// P3 to P8: a step, a word of the start, and the words reached.
fn steps(check: &mut Check) {
    let lines: [(&str, u8, Word, &[Word]); 7] = [
        ("P3", 1, (0, 1), &[(15, 0x0020_0000_0000_0000)]),
        ("P4", 1, (0, 0x800), &[(15, 1)]),
        ("P5", 1, (5, 1), &[(4, 1), (15, 0x2000)]),
        (
            "P6",
            1,
            (5, 0x0008_0000_0000_0000),
            &[(4, 0x0008_0000_0000_0000)],
        ),
        ("P7", 2, (0, 1), &[(0, 1), (15, 0x0020_0000_0000_0000)]),
        ("P8", 4, (15, 1), &[(0, 0x800)]),
        (
            "maskwalk",
            3,
            (0, 1),
            &[
                (0, 1),
                (14, 0x0020_0000_0000_0000),
                (15, 0x0020_0000_0000_0000),
            ],
        ),
    ];
    for (name, step, start, words) in lines {
        let (answer, after) = check.library.call(&walk(&block(&[start]), &[step]));
        let passed = answer == 128 && after[Output] == block(words);
        check.record(passed, || format!("{name}: {answer:#x}"));
    }
}

/// P10 and P11: a mode and the length of a message of zeros that has zeros for a parcel.
const ZEROS: [(&str, u32, usize); 3] = [("P10", OPP, 0), ("P10", MRO, 0), ("P11", OPP, 128)];

/// The parcels of P10 and P11, which open under the old start and no longer under the new one. P2 is
/// behind both, since an old start of zeros gives masks of zeros.
fn zeros(check: &mut Check) {
    for (name, mode, len) in ZEROS {
        for &rounds in ROUNDS {
            for (open, wanted) in [(&OPEN_OLD, len as u64), (&OPEN, refusal(9, 0))] {
                let inputs = [&[0; 32][..], &[], &vec![0; len + 32]];
                let call = sealing(open, [mode, rounds], inputs, len);
                let (answer, after) = check.library.call(&call);
                let passed = answer == wanted && after[Output] == vec![0; len];
                check.record(passed, || format!("{name}: {answer:#x}"));
            }
        }
    }
}

/// The same parcels become what is sealed of their messages, which is then done already; and a
/// refusal changes no output.
fn conversions(check: &mut Check) {
    let lines = ZEROS
        .into_iter()
        .flat_map(|line| ROUNDS.iter().map(move |&rounds| (line, rounds)));
    for ((name, mode, len), rounds) in lines {
        let library = check.library;
        let call = |entry, input: &[u8]| {
            let call = sealing(entry, [mode, rounds], [&[0; 32], &[], input], len + 32);
            let (answer, mut after) = library.call(&call);
            (answer, std::mem::take(&mut after[Output]))
        };
        let old = vec![0; len + 32];
        let (_, new) = call(&SEAL, &old[..len]);
        let mut neither = new.clone();
        neither[len] ^= 1;
        for (parcel, wanted, output) in [
            (&old, len as u64 + 32, &new),
            (&new, refusal(17, 0), &pattern(len + 32)),
            (&neither, refusal(9, 0), &pattern(len + 32)),
        ] {
            let (answer, found) = call(&CONVERT, parcel);
            let passed = answer == wanted && found == *output;
            check.record(passed, || format!("{name}, converted: {answer:#x}"));
        }
    }
}

fn sealing_limits(check: &mut Check) {
    let good = ROUNDS[0];
    let lines = [
        ("rounds 5 and a key of 31", 5, 31, 0, 0, 32, refusal(2, 0)),
        ("a header of 4,096", good, 32, 4096, 0, 32, 32),
        ("a header of 4,097", good, 32, 4097, 0, 32, refusal(5, 0)),
        ("a message of 65,536", good, 32, 0, 65_536, 65_568, 65_568),
        (
            "a message of 65,537",
            good,
            32,
            0,
            65_537,
            65_569,
            refusal(6, 0),
        ),
        ("an output of 159", good, 32, 0, 128, 159, refusal(7, 0)),
    ];
    for mode in [OPP, MRO] {
        for (name, rounds, key, header, message, output, wanted) in lines {
            let [key, header, message] = [key, header, message].map(|len| vec![7; len]);
            let inputs = [&key[..], &header, &message];
            let call = sealing(&SEAL, [mode, rounds], inputs, output);
            answers(check, name, &call, wanted);
        }
        // Zero key and nonce, so under the old start a tag of zeros opens as the empty message.
        for (name, open, parcel, wanted) in [
            ("a parcel of 31", &OPEN, vec![0; 31], refusal(8, 0)),
            ("a parcel of 31", &OPEN_OLD, vec![0; 31], refusal(8, 0)),
            ("a tag of zeros", &OPEN, vec![0; 32], refusal(9, 0)),
            ("an empty message", &OPEN_OLD, vec![0; 32], 0),
            ("a parcel of 32", &OPEN, vec![1; 32], refusal(9, 0)),
            ("a parcel of 32", &OPEN_OLD, vec![1; 32], refusal(9, 0)),
        ] {
            let call = sealing(open, [mode, good], [&[0; 32], &[], &parcel], 0);
            answers(check, name, &call, wanted);
        }
    }
}

/// Zero key and nonce, so under the old start whole blocks of zeros, in the header too, have zeros
/// for a parcel of OPP.
fn parcel_limits(check: &mut Check) {
    for (name, header, parcel, output, wanted) in [
        ("a header of 4,096", 4096, 32, 32, 32),
        ("a header of 4,097", 4097, 32, 32, refusal(5, 0)),
        ("a parcel of 31", 0, 31, 31, refusal(8, 0)),
        ("a parcel of 32", 0, 32, 32, 32),
        ("an output of 31", 0, 32, 31, refusal(7, 0)),
        ("a parcel of 160", 0, 160, 160, 160),
        ("an output of 159", 0, 160, 159, refusal(7, 0)),
        ("a parcel of 65,568", 0, 65_568, 65_568, 65_568),
        ("an output of 65,567", 0, 65_568, 65_567, refusal(7, 0)),
        ("a parcel of 65,569", 0, 65_569, 65_569, refusal(6, 0)),
    ] {
        let inputs = [&[0; 32][..], &vec![0; header], &vec![0; parcel]];
        let call = sealing(&CONVERT, [OPP, ROUNDS[0]], inputs, output);
        answers(check, name, &call, wanted);
    }
}

/// Whole blocks of a header or a message, and the words that their run has.
fn run_limits(check: &mut Check) {
    for (header, message, needed) in [
        (0, 0, 21),
        (127, 127, 21),
        (128, 127, 22),
        (127, 128, 22),
        (4096, 0, 53),
        (4096, 4224, 54),
        (4096, 65_535, 532),
        (0, 65_536, 533),
    ] {
        for mode in [OPP, MRO] {
            let settings = [mode, ROUNDS[0]];
            let (header, sealed) = (vec![7; header], vec![7; message]);
            let inputs = [&[7; 32][..], &header, &sealed];
            let seal = sealing(&SEAL_RUN, settings, inputs, message + 32);
            let parcel = run_lengths(check, &seal, needed);
            let open = sealing(&OPEN_RUN, settings, [&[7; 32], &header, &parcel], message);
            let opened = run_lengths(check, &open, needed);
            check.record(opened == sealed, || format!("{message} bytes"));
        }
    }
}

/// In one word too few a call is refused with 7 and changes none. In enough it fills its output, leaves
/// a run in the first and changes none behind. Returns the output.
fn run_lengths(check: &mut Check, call: &Call, needed: usize) -> Vec<u8> {
    let done = call[Output].len() as u64;
    let mut output = Vec::new();
    for (lent, written, wanted) in [
        (needed - 1, 0, refusal(7, 0)),
        (needed, needed, done),
        (needed + 1, needed, done),
    ] {
        let call = call.clone().with(Words, pattern(8 * lent));
        let (answer, mut after) = check.library.call(&call);
        let (run, rest) = after[Words].split_at(8 * written);
        let word = |bytes: &[u8]| u64::from_le_bytes(*bytes.first_chunk().expect("a word"));
        let run: Vec<u64> = run.chunks_exact(8).map(word).collect();
        let next = |w: &[u64]| w[16] == w[0].rotate_left(53) ^ (w[5] << 13);
        let kept = rest == &call[Words][8 * written..];
        let passed = answer == wanted && run.windows(17).all(next) && kept;
        check.record(passed, || format!("{call}: {answer:#x}"));
        output = std::mem::take(&mut after[Output]);
    }
    output
}

fn mask_limits(check: &mut Check) {
    for kind in 0..3 {
        for (count, wanted) in [(65_536, 128), (65_537, refusal(11, 0))] {
            for count in [count, -count] {
                let mut counts = [0; 3];
                counts[kind] = count;
                let name = format!("a net count of {count}");
                answers(check, &name, &jump(&[9; 128], counts), wanted);
            }
        }
    }
    let call = walk(&[9; 128], &[1, 7, 0]);
    answers(check, "steps 1, 7, 0", &call, refusal(12, 1));
}

/// A call that seals or takes a parcel, by mode and rounds, by key, header and input, and by the length
/// of its output. Key and nonce begin with the same bytes.
fn sealing(
    entry: &'static Entry,
    [mode, rounds]: [u32; 2],
    [key, header, input]: [&[u8]; 3],
    output_len: usize,
) -> Call {
    Call::new(entry, |arg| match arg {
        Mode => mode.into(),
        Rounds => rounds.into(),
        Key => key.into(),
        Nonce => key[..16].into(),
        Header => header.into(),
        Message | Parcel => input.into(),
        Output => pattern(output_len).into(),
        _ => Value::NONE,
    })
}

/// Counts whether a call answers `wanted`.
fn answers(check: &mut Check, name: &str, call: &Call, wanted: u64) {
    let (answer, _) = check.library.call(call);
    check.record(answer == wanted, || format!("{name}: {answer:#x}"));
}

/// The bytes of the block with these words, the others zero.
fn block(words: &[Word]) -> Vec<u8> {
    let mut bytes = vec![0; 128];
    for (place, word) in words {
        bytes[8 * place..8 * place + 8].copy_from_slice(&word.to_le_bytes());
    }
    bytes
}
