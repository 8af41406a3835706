//! Sealing and opening by a run of words in a lent buffer.

use reference::{jump, open, open_run, permute, run_len, seal, seal_run, settings};
use reference::{Refusal, MRO, OPP};

const KEY: &[u8] = &[0x42; 32];
const NONCE: &[u8] = &[0x24; 16];
/// What an output holds before, and where a call does not write.
const BEFORE: u8 = 0xaa;
/// The same of a word.
const WORD: u64 = 0x5555_aaaa_0123_89ef;

/// What came of a call: the answer, the output and the words.
type After = (Result<usize, Refusal>, Vec<u8>, Vec<u64>);

fn bytes(len: usize) -> Vec<u8> {
    (0..len).map(|i| (i * 7 + 1) as u8).collect()
}

fn sealed(settings: (u32, u32), inputs: [&[u8]; 4], output_len: usize, words_len: usize) -> After {
    let (mut output, mut words) = (vec![BEFORE; output_len], vec![WORD; words_len]);
    let answer = seal_run(settings.0, settings.1, inputs, &mut output, &mut words);
    (answer, output, words)
}

fn opened(settings: (u32, u32), inputs: [&[u8]; 4], output_len: usize, words_len: usize) -> After {
    let (mut output, mut words) = (vec![BEFORE; output_len], vec![WORD; words_len]);
    let answer = open_run(settings.0, settings.1, inputs, &mut output, &mut words);
    (answer, output, words)
}

/// Section 8's start of the key and the nonce above.
fn start(rounds: u32) -> [u64; 16] {
    let mut block = [0; 16];
    block[..2].fill(0x2424_2424_2424_2424);
    block[10..12].copy_from_slice(&[rounds.into(), 256]);
    block[12..].fill(0x4242_4242_4242_4242);
    permute(rounds, &block)
}

/// The run of that start by the steps themselves: word n is word 0 of the mask after n alpha steps.
fn run(rounds: u32, len: usize) -> Vec<u64> {
    let start: Vec<u8> = start(rounds)
        .into_iter()
        .flat_map(u64::to_le_bytes)
        .collect();
    let word = |n: usize| {
        let mut mask = [0; 128];
        assert_eq!(jump(&start, [n as i32, 0, 0], &mut mask), Ok(128));
        u64::from_le_bytes(mask[..8].try_into().expect("eight bytes"))
    };
    (0..len).map(word).collect()
}

/// The run and behind it `more` words as they were.
fn run_and(rounds: u32, len: usize, more: usize) -> Vec<u64> {
    [run(rounds, len), vec![WORD; more]].concat()
}

#[test]
fn as_the_stepping_calls_with_the_run_in_the_words() {
    for (mode, rounds) in settings() {
        for (header_len, len) in [
            (0, 0),
            (5, 1),
            (128, 127),
            (0, 640),
            (700, 300),
            (4096, 129),
        ] {
            let (header, message) = (bytes(header_len), bytes(len));
            let (mut parcel, mut output) = (vec![BEFORE; len + 35], vec![BEFORE; len + 3]);
            let answer = seal(mode, rounds, KEY, NONCE, &header, &message, &mut parcel);
            let words = run_len(header_len, len);
            let inputs = [KEY, NONCE, &header, &message];
            let wanted = (answer, parcel.clone(), run_and(rounds, words, 4));
            assert_eq!(sealed((mode, rounds), inputs, len + 35, words + 4), wanted);
            parcel.truncate(len + 32);
            let answer = open(mode, rounds, KEY, NONCE, &header, &parcel, &mut output);
            assert_eq!((answer, &output[..len]), (Ok(len), &message[..]));
            let inputs = [KEY, NONCE, &header, &parcel];
            let wanted = (answer, output, run(rounds, words));
            assert_eq!(opened((mode, rounds), inputs, len + 3, words), wanted);
        }
    }
}

#[test]
fn a_differing_tag_clears_the_message_and_leaves_the_run() {
    for (mode, rounds) in settings() {
        let (answer, mut parcel, _) =
            sealed((mode, rounds), [KEY, NONCE, b"", &bytes(300)], 332, 23);
        assert_eq!(answer, Ok(332));
        parcel[331] ^= 0x80;
        let output = [vec![0; 300], vec![BEFORE; 2]].concat();
        let wanted = (Err((9, 0)), output, run_and(rounds, 23, 5));
        let after = opened((mode, rounds), [KEY, NONCE, b"", &parcel], 302, 28);
        assert_eq!(after, wanted);
    }
}

/// The number with which a call refuses, having left the output and the words as they were.
fn refused((answer, output, words): After) -> u32 {
    assert!(output.iter().all(|&byte| byte == BEFORE));
    assert!(words.iter().all(|&word| word == WORD));
    match answer {
        Err((number, 0)) => number,
        answer => panic!("{answer:?}"),
    }
}

/// Each call has its own ground and all that are checked later.
#[test]
fn order_of_the_checks() {
    let (key, nonce, header) = (&KEY[..31], &[0; 17], &[0; 4097]);
    let long = &[0; 65_569];
    for call in [sealed, opened] {
        let number = |mode, rounds, inputs| refused(call((mode, rounds), inputs, 0, 0));
        assert_eq!(number(3, 5, [key, nonce, header, long]), 1);
        assert_eq!(number(OPP, 5, [key, nonce, header, long]), 2);
        assert_eq!(number(OPP, 4, [key, nonce, header, long]), 3);
        assert_eq!(number(OPP, 4, [KEY, nonce, header, long]), 4);
        assert_eq!(number(OPP, 4, [KEY, NONCE, header, long]), 5);
        assert_eq!(number(OPP, 4, [KEY, NONCE, b"", long]), 6);
        assert_eq!(number(OPP, 4, [KEY, NONCE, b"", &long[..40]]), 7);
    }
    let number = |inputs| refused(opened((OPP, 4), inputs, 0, 0));
    assert_eq!(number([KEY, NONCE, header, &long[..31]]), 5);
    assert_eq!(number([KEY, NONCE, b"", &long[..31]]), 8);
    // A parcel of another tag, and nothing to write.
    assert_eq!(number([KEY, NONCE, b"", &long[..32]]), 7);
    let (answer, ..) = opened((OPP, 4), [KEY, NONCE, b"", &long[..32]], 0, 21);
    assert_eq!(answer, Err((9, 0)));
}

#[test]
fn either_buffer_too_short() {
    for (header_len, len, words) in [(0, 0, 21), (4096, 0, 53), (0, 65_536, 533), (128, 127, 22)] {
        let (header, message) = (bytes(header_len), bytes(len));
        let inputs = [KEY, NONCE, &header, &message];
        assert_eq!(refused(sealed((MRO, 6), inputs, len + 32, words - 1)), 7);
        assert_eq!(refused(sealed((MRO, 6), inputs, len + 31, words)), 7);
        let (answer, parcel, _) = sealed((MRO, 6), inputs, len + 32, words);
        assert_eq!(answer, Ok(len + 32));
        let inputs = [KEY, NONCE, &header, &parcel];
        assert_eq!(refused(opened((MRO, 6), inputs, len, words - 1)), 7);
        if len > 0 {
            assert_eq!(refused(opened((MRO, 6), inputs, len - 1, words)), 7);
        }
        assert_eq!(opened((MRO, 6), inputs, len, words).0, Ok(len));
    }
}
