//! Parcels of the old start brought over to the new one.

use reference::{convert, open_under, seal_under, settings, Refusal, Start, MRO, OPP, ROUNDS};

const KEY: &[u8] = &[0x42; 32];
const NONCE: &[u8] = &[0x24; 16];
const HEADER: &[u8] = b"header";
/// What an output holds before, and where a call does not write.
const BEFORE: u8 = 0xaa;

fn message(len: usize) -> Vec<u8> {
    (0..len).map(|i| (i * 7 + 1) as u8).collect()
}

fn sealed(start: Start, mode: u32, rounds: u32, header: &[u8], message: &[u8]) -> Vec<u8> {
    let mut parcel = vec![0; message.len() + 32];
    let inputs = [KEY, NONCE, header, message];
    let answer = seal_under(start, mode, rounds, inputs, &mut parcel);
    assert_eq!(answer, Ok(parcel.len()));
    parcel
}

/// The number with which convert refuses, having left the output as it was.
fn refused(mode: u32, rounds: u32, inputs: [&[u8]; 4], output_len: usize) -> u32 {
    let mut output = vec![BEFORE; output_len];
    let answer = convert(mode, rounds, inputs, &mut output);
    assert_eq!(output, vec![BEFORE; output_len]);
    match answer {
        Err((number, 0)) => number,
        answer => panic!("{answer:?}"),
    }
}

/// The same of a parcel under the right key, nonce and header, with room enough.
fn parcel_refused(mode: u32, rounds: u32, parcel: &[u8]) -> u32 {
    let inputs = [KEY, NONCE, HEADER, parcel];
    refused(mode, rounds, inputs, parcel.len() + 5)
}

#[test]
fn an_old_parcel_becomes_the_new_one_of_its_message() {
    for (mode, rounds) in settings() {
        for len in [0, 1, 13, 127, 128, 129, 255, 256, 257, 1000] {
            let message = message(len);
            for header in [&[], &message[len / 2..], &[5; 200]] {
                let old = sealed(Start::Old, mode, rounds, header, &message);
                let new = sealed(Start::New, mode, rounds, header, &message);
                let mut output = vec![BEFORE; old.len() + 3];
                let inputs = [KEY, NONCE, header, &old];
                let answer = convert(mode, rounds, inputs, &mut output);
                assert_eq!(answer, Ok(old.len()));
                assert_eq!(output, [&new[..], &[BEFORE; 3]].concat());
            }
        }
    }
}

#[test]
fn what_was_converted_opens_under_the_new_start_alone() {
    for (mode, rounds) in settings() {
        let message = message(300);
        let old = sealed(Start::Old, mode, rounds, HEADER, &message);
        let mut parcel = vec![BEFORE; old.len()];
        let inputs = [KEY, NONCE, HEADER, &old];
        assert_eq!(convert(mode, rounds, inputs, &mut parcel), Ok(332));
        let opened = |start| {
            let mut output = vec![BEFORE; 300];
            let inputs = [KEY, NONCE, HEADER, &parcel];
            let answer = open_under(start, mode, rounds, inputs, &mut output);
            (answer, output)
        };
        assert_eq!(opened(Start::New), (Ok(300), message));
        assert_eq!(opened(Start::Old), (Err((9, 0)), vec![0; 300]));
    }
}

/// Under the old start a key and a nonce of zeros make every mask zero.
#[test]
fn p10_and_p11_are_old_parcels() {
    for (mode, len) in [(OPP, 0), (MRO, 0), (OPP, 128)] {
        for &rounds in ROUNDS {
            let zeros = vec![0; len + 32];
            let [mut parcel, mut wanted] = [(); 2].map(|()| vec![BEFORE; len + 32]);
            let inputs = |input| [&zeros[..32], &[0; 16], &[], input];
            let answer = convert(mode, rounds, inputs(&zeros), &mut parcel);
            assert_eq!(answer, Ok(len + 32));
            let message = inputs(&zeros[..len]);
            let answer = seal_under(Start::New, mode, rounds, message, &mut wanted);
            assert_eq!((answer, parcel), (Ok(len + 32), wanted));
        }
    }
}

/// The rows of the table of known answers that have converted bytes.
#[test]
fn p10_becomes_the_parcels_of_the_table_of_known_answers() {
    let inputs: [&[u8]; 4] = [&[0; 32], &[0; 16], &[], &[0; 32]];
    for (mode, wanted) in [
        (
            OPP,
            "e509a22d82c07f4936c2dfb405937fcc3604c4419f4edc6e5460c93602a90c6f",
        ),
        (
            MRO,
            "82fc68e046b30218eb37134885d0aa82b181dc4c667b6ff3b607bfaa420cc37b",
        ),
    ] {
        let mut parcel = [BEFORE; 32];
        assert_eq!(convert(mode, 4, inputs, &mut parcel), Ok(32));
        let parcel: String = parcel.iter().map(|byte| format!("{byte:02x}")).collect();
        assert_eq!(parcel, wanted);
    }
}

#[test]
fn a_new_parcel_is_done_already() {
    for (mode, rounds) in settings() {
        for len in [0, 1, 127, 128, 129, 300] {
            let new = sealed(Start::New, mode, rounds, HEADER, &message(len));
            assert_eq!(parcel_refused(mode, rounds, &new), 17);
        }
    }
}

#[test]
fn a_parcel_of_neither_start_does_not_open() {
    for (mode, rounds) in settings() {
        let [old, new] = [Start::Old, Start::New]
            .map(|start| sealed(start, mode, rounds, HEADER, &message(130)));
        for good in [&old, &new] {
            for place in 0..good.len() {
                let mut parcel = good.clone();
                parcel[place] ^= 1 << (place % 8);
                assert_eq!(parcel_refused(mode, rounds, &parcel), 9);
            }
            for cut in [1..162, 0..161, 0..34, 128..162] {
                assert_eq!(parcel_refused(mode, rounds, &good[cut]), 9);
            }
        }
        // The ciphertext of one start and the tag of the other.
        for (one, other) in [(&old, &new), (&new, &old)] {
            let parcel = [&one[..130], &other[130..]].concat();
            assert_eq!(parcel_refused(mode, rounds, &parcel), 9);
        }
    }
}

#[test]
fn other_settings_do_not_open() {
    let others: [[&[u8]; 3]; 3] = [
        [&[0x43; 32], NONCE, HEADER],
        [KEY, &[0x25; 16], HEADER],
        [KEY, NONCE, b"Header"],
    ];
    for sealing in settings() {
        for start in [Start::Old, Start::New] {
            let (mode, rounds) = sealing;
            let parcel = sealed(start, mode, rounds, HEADER, &message(20));
            for [key, nonce, header] in others {
                let inputs = [key, nonce, header, &parcel];
                assert_eq!(refused(mode, rounds, inputs, 60), 9);
            }
            for (mode, rounds) in settings().filter(|&other| other != sealing) {
                assert_eq!(parcel_refused(mode, rounds, &parcel), 9);
            }
        }
    }
}

/// Each call has its own ground and all that are checked later.
#[test]
fn order_of_the_checks() {
    let (key, nonce, header) = (&KEY[..31], &[0; 17], &[0; 4097]);
    let long = &[0; 65_569];
    let new = sealed(Start::New, OPP, 4, HEADER, &message(3));
    assert_eq!(refused(3, 5, [key, nonce, header, long], 0), 1);
    assert_eq!(refused(OPP, 5, [key, nonce, header, long], 0), 2);
    assert_eq!(refused(OPP, 4, [key, nonce, header, long], 0), 3);
    assert_eq!(refused(OPP, 4, [KEY, nonce, header, long], 0), 4);
    assert_eq!(refused(OPP, 4, [KEY, NONCE, header, long], 0), 5);
    assert_eq!(refused(OPP, 4, [KEY, NONCE, header, &long[..31]], 0), 5);
    assert_eq!(refused(OPP, 4, [KEY, NONCE, HEADER, &long[..31]], 0), 8);
    assert_eq!(refused(OPP, 4, [KEY, NONCE, HEADER, long], 0), 6);
    assert_eq!(refused(OPP, 4, [KEY, NONCE, HEADER, &long[..32]], 31), 7);
    assert_eq!(refused(OPP, 4, [KEY, NONCE, HEADER, &new], 34), 7);
}

#[test]
fn lengths_at_their_limits() {
    let answer = |header_len, parcel: &[u8], output_len| {
        let mut output = vec![BEFORE; output_len];
        let inputs = [KEY, NONCE, &vec![3; header_len][..], parcel];
        convert(MRO, 6, inputs, &mut output)
    };
    let parcel = |header_len, len| sealed(Start::Old, MRO, 6, &vec![3; header_len], &vec![5; len]);
    let refusal = |number| -> Result<usize, Refusal> { Err((number, 0)) };
    let short = parcel(4096, 0);
    assert_eq!(answer(4096, &short, 32), Ok(32));
    assert_eq!(answer(4096, &short, 31), refusal(7));
    assert_eq!(answer(4096, &short[..31], 32), refusal(8));
    assert_eq!(answer(4097, &short, 32), refusal(5));
    let mut long = parcel(0, 65_536);
    assert_eq!(answer(0, &long, 65_568), Ok(65_568));
    assert_eq!(answer(0, &long, 65_567), refusal(7));
    long.push(0);
    assert_eq!(answer(0, &long, 65_569), refusal(6));
}
