//! Sealing and opening with all masks from one run of words, beside the calls that step each mask.

use calmbaize::slices::{open_run, seal_run};
use calmbaize::{run_words, Aead, Ground, Header, Key, Mode, Nonce, Rounds, BLOCK_LEN, TAG_LEN};

const KEY: [u8; 32] = [0xb3; 32];
const NONCE: [u8; 16] = [5; 16];
const MODES: [Mode; 2] = [Mode::Opp, Mode::Mro];
/// What the words hold before.
const OLD: u64 = 0xaaaa_aaaa_aaaa_aaaa;

/// Whole blocks and leftovers of header and message, with either the longer one.
const LENGTHS: [(usize, usize); 12] = [
    (0, 0),
    (0, 1),
    (1, 127),
    (127, 128),
    (4096, 129),
    (128, 384),
    (385, 512),
    (513, 640),
    (0, 1000),
    (1024, 1024),
    (2000, 65_535),
    (4096, 65_536),
];

fn bytes(len: usize) -> Vec<u8> {
    (0..len).map(|i| (i * i + 7 * i + 3) as u8).collect()
}

/// G of BLAKE2b without the message words.
fn mix(s: &mut [u64; 16], [a, b, c, d]: [usize; 4]) {
    for (to_d, to_b) in [(32, 24), (16, 63)] {
        s[a] = s[a].wrapping_add(s[b]);
        s[d] = (s[d] ^ s[a]).rotate_right(to_d);
        s[c] = s[c].wrapping_add(s[d]);
        s[b] = (s[b] ^ s[c]).rotate_right(to_b);
    }
}

/// The start block: nonce, zeros, round count, the tag's bits and key, permuted.
fn start(rounds: u32) -> [u64; 16] {
    let mut bytes = [0; BLOCK_LEN];
    bytes[..16].copy_from_slice(&NONCE);
    bytes[80] = rounds as u8;
    bytes[88..90].copy_from_slice(&256_u16.to_le_bytes());
    bytes[96..].copy_from_slice(&KEY);
    let mut s =
        std::array::from_fn(|i| u64::from_le_bytes(bytes[8 * i..][..8].try_into().unwrap()));
    for _ in 0..rounds {
        for i in 0..4 {
            mix(&mut s, [i, 4 + i, 8 + i, 12 + i]);
        }
        for i in 0..4 {
            mix(
                &mut s,
                [i, 4 + (i + 1) % 4, 8 + (i + 2) % 4, 12 + (i + 3) % 4],
            );
        }
    }
    s
}

fn run(rounds: u32, len: usize) -> Vec<u64> {
    let mut words = start(rounds).to_vec();
    for n in 0..len - 16 {
        words.push(words[n].rotate_left(53) ^ words[n + 5] << 13);
    }
    words
}

/// The run, and then two words as they were.
fn after(rounds: Rounds, len: usize) -> Vec<u64> {
    let mut words = run(rounds.count(), len);
    words.extend([OLD; 2]);
    words
}

/// Holds both calls against seal and open: answers, outputs and words.
fn same_as_stepping(mode: Mode, rounds: Rounds, header: &[u8], message: &[u8]) {
    let aead = Aead::new(mode, rounds, Key::new(KEY));
    let (nonce, header) = (Nonce::new(NONCE), Header(header));
    let (len, count) = (message.len(), run_words(header.0.len(), message.len()));
    let (mut parcel, mut expected) = (vec![0xaa; len + TAG_LEN + 1], vec![0xaa; len + TAG_LEN + 1]);
    let mut words = vec![OLD; count + 2];
    let sealed = aead.seal_run(&nonce, header, message, &mut parcel, &mut words);
    assert_eq!(sealed, aead.seal(&nonce, header, message, &mut expected));
    assert!(parcel == expected, "{mode:?} {rounds:?} {len}");
    assert_eq!(words, after(rounds, count));
    parcel.truncate(len + TAG_LEN);
    for damage in [0, 1] {
        parcel[len / 2] ^= damage;
        let (mut opened, mut expected) = (vec![0xaa; len + 1], vec![0xaa; len + 1]);
        let mut words = vec![OLD; count + 2];
        let answer = aead.open_run(&nonce, header, &parcel, &mut opened, &mut words);
        assert_eq!(answer, aead.open(&nonce, header, &parcel, &mut expected));
        assert_eq!(answer.is_ok(), damage == 0);
        assert!(opened == expected, "{mode:?} {rounds:?} {len}");
        assert_eq!(words, after(rounds, count));
    }
}

#[test]
fn answers_outputs_and_words() {
    for (header_len, len) in LENGTHS {
        let (header, message) = (bytes(header_len), bytes(len));
        for mode in MODES {
            for &rounds in Rounds::ALL {
                same_as_stepping(mode, rounds, &header, &message);
            }
        }
    }
}

#[test]
fn what_the_words_held_does_not_matter() {
    let (header, message) = (bytes(200), bytes(700));
    let count = run_words(header.len(), message.len());
    for mode in [1, 2] {
        let results = [0, OLD, u64::MAX].map(|old| {
            let (mut parcel, mut words) = (vec![0; 732], vec![old; count]);
            let (out, run) = (&mut parcel, &mut words);
            seal_run(mode, 4, &KEY, &NONCE, &header, &message, out, run).unwrap();
            // The same buffer again, with another run in it.
            let (mut opened, run) = (vec![0; 700], &mut words);
            let wrong = open_run(mode, 6, &KEY, &NONCE, &header, &parcel, &mut opened, run);
            assert_eq!(wrong, Err(Ground::Tag.into()));
            let right = open_run(mode, 4, &KEY, &NONCE, &header, &parcel, &mut opened, run);
            assert_eq!((right, &opened), (Ok(700), &message));
            (parcel, words)
        });
        assert!(results.windows(2).all(|two| two[0] == two[1]));
    }
}

#[test]
fn one_word_too_few_is_refused() {
    for (header_len, len) in LENGTHS {
        let (header, message, parcel) = (bytes(header_len), bytes(len), bytes(len + TAG_LEN));
        let few = run_words(header_len, len) - 1;
        let (mut words, mut out) = (vec![OLD; few], vec![0xaa; len + TAG_LEN]);
        for mode in [1, 2] {
            for lent in [few, 0] {
                let (run, out) = (&mut words[..lent], &mut out);
                let sealed = seal_run(mode, 4, &KEY, &NONCE, &header, &message, out, run);
                let opened = open_run(mode, 4, &KEY, &NONCE, &header, &parcel, out, run);
                let refused = Err(Ground::OutputTooShort.into());
                assert_eq!((sealed, opened), (refused, refused));
            }
        }
        assert!(words.iter().all(|&word| word == OLD) && out.iter().all(|&byte| byte == 0xaa));
    }
}

/// Each in a call with every later ground, too few words among them.
#[test]
fn refusals_in_their_order() {
    let (long, mut out, mut words) = (bytes(65_569), vec![0xaa; 65_600], [OLD; 20]);
    let mut refused = |mode, rounds, key: &[u8], nonce: &[u8], header, message, parcel, ground| {
        let (out, run) = (&mut out[..0], &mut words);
        let sealed = seal_run(mode, rounds, key, nonce, header, message, out, run);
        let opened = open_run(mode, rounds, key, nonce, header, parcel, out, run);
        let expected = Err(Ground::into(ground));
        // A parcel may be too short, which a message can't be.
        assert!(sealed == expected || ground == Ground::InputTooShort);
        assert_eq!((opened, words), (expected, [OLD; 20]));
    };
    let (over, short) = (&long[..4097], &long[..31]);
    refused(3, 5, &KEY[1..], &[], over, &long, short, Ground::Mode);
    refused(1, 5, &KEY[1..], &[], over, &long, short, Ground::Rounds);
    refused(1, 4, &KEY[1..], &[], over, &long, short, Ground::KeyLength);
    refused(1, 4, &KEY, &[], over, &long, short, Ground::NonceLength);
    refused(
        2,
        6,
        &KEY,
        &NONCE,
        over,
        &long,
        short,
        Ground::HeaderTooLong,
    );
    refused(2, 6, &KEY, &NONCE, &[], &long, short, Ground::InputTooShort);
    refused(2, 6, &KEY, &NONCE, &[], &long, &long, Ground::InputTooLong);
    let (most, parcel) = (&long[..65_536], &long[..65_568]);
    refused(
        2,
        6,
        &KEY,
        &NONCE,
        &[],
        most,
        parcel,
        Ground::OutputTooShort,
    );
}

#[test]
fn lengths_of_runs() {
    for blocks in 0..=512 {
        let lens = [128 * blocks, 128 * blocks + 127];
        for len in lens {
            assert_eq!(
                (run_words(0, len), run_words(len, 0)),
                (blocks + 21, blocks + 21)
            );
        }
    }
    assert_eq!((run_words(4096, 4095), run_words(4095, 4096)), (53, 53));
}
