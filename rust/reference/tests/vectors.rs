//! Known answers of the entry points but those of the store. Those of single steps are tested beside
//! the code.

use reference::{jump, open, open_under, seal, seal_under, settings, walk};
use reference::{Refusal, Start, MRO, OPP, ROUNDS};

/// Under the old start a key and a nonce of zeros make every mask zero.
const ZERO: ([u8; 32], [u8; 16]) = ([0; 32], [0; 16]);
const KEY: [u8; 32] = [0x42; 32];
const NONCE: [u8; 16] = [0x24; 16];

fn sealed(mode: u32, rounds: u32, header: &[u8], message: &[u8]) -> Vec<u8> {
    let mut parcel = vec![0xaa; message.len() + 32];
    let answer = seal(mode, rounds, &KEY, &NONCE, header, message, &mut parcel);
    assert_eq!(answer, Ok(parcel.len()));
    parcel
}

fn seal_answer(header_len: usize, message_len: usize, output_len: usize) -> Result<usize, Refusal> {
    let (header, message) = (vec![3; header_len], vec![5; message_len]);
    let mut output = vec![0; output_len];
    seal(OPP, ROUNDS[0], &KEY, &NONCE, &header, &message, &mut output)
}

#[test]
fn p10_the_tag_of_nothing_is_zero() {
    let inputs: [&[u8]; 4] = [&ZERO.0, &ZERO.1, &[], &[]];
    for (mode, rounds) in settings() {
        let mut parcel = [0xaa; 32];
        let answer = seal_under(Start::Old, mode, rounds, inputs, &mut parcel);
        assert_eq!((answer, parcel), (Ok(32), [0; 32]));
        let answer = seal(mode, rounds, &ZERO.0, &ZERO.1, &[], &[], &mut parcel);
        assert_eq!((answer, parcel == [0; 32]), (Ok(32), false));
    }
}

#[test]
fn p11_a_zero_block_under_opp() {
    let inputs: [&[u8]; 4] = [&ZERO.0, &ZERO.1, &[], &[0; 128]];
    for &rounds in ROUNDS {
        let mut parcel = [0xaa; 160];
        let answer = seal_under(Start::Old, OPP, rounds, inputs, &mut parcel);
        assert_eq!((answer, parcel), (Ok(160), [0; 160]));
    }
}

/// The rows of the table of known answers that have sealed bytes, and neither header nor message.
#[test]
fn parcels_as_in_the_table_of_known_answers() {
    let nonce: [u8; 16] = std::array::from_fn(|i| i as u8);
    for (start, mode, rounds, tag) in [
        (
            Start::New,
            OPP,
            12,
            "3f9c4993d55b21cb54aa80a9614e3ab7b600003907dc5deb0bfde1274fa8a191",
        ),
        (
            Start::Old,
            OPP,
            6,
            "1ee9b2d13db0fd7193cf409300ed5880bedee7135cc369e0ba5770fccc914c51",
        ),
        (
            Start::Old,
            MRO,
            4,
            "138ba1c9ea7ae80688dd4a92bfdd0083fb9d2b4aa03a335d138f65959c022d0d",
        ),
    ] {
        assert_eq!(sealed_in_hex(start, mode, rounds, &nonce, &[], &[]), tag);
    }
}

/// Those of a sale, with price and day and with zeros in their place.
#[test]
fn sales_as_in_that_table() {
    let mut sale = [0; 16];
    (sale[0], sale[4]) = (7, 1);
    for (detail, body) in [
        (
            [148, 0, 0, 0, 35, 1],
            "94d01c0f3f021316e1c87e0b95\
             b8e1ab40cc289bfe317b17e4045eb836e7c00ffdc2719473d5c682cf2f3d0d71",
        ),
        (
            [0; 6],
            "b1692e624070b2b269faf09cae\
             219f04f37c3bee975f81e934a7c6e9520b62c7d52d9f3eac116a78ec8b52fc83",
        ),
    ] {
        let record = [&[150, 0, 0, 0, 4, 0, 1], &detail[..]].concat();
        assert_eq!(sealed_in_hex(Start::New, MRO, 6, &sale, &[], &record), body);
    }
}

/// Those with a header: mode, the lengths of header and message, and the parcel from the byte on
/// that the row begins at.
const WITH_A_HEADER: [(u32, usize, usize, &str); 6] = [
    (
        OPP,
        5,
        3,
        "7fb460\
         32ed2f7c4fefc6c536cf292ff0eb486515c61badfb4583a64206edb9bc2c5019",
    ),
    (
        MRO,
        5,
        3,
        "88ad78\
         fdb406fe1cf797321ff9cb746724e53b1c3f60ab449c61271bb9fcaef87a2130",
    ),
    (
        OPP,
        261,
        131,
        "cc11f8e4ae8ba556df6e16\
         c7d1c11c021b6c30d9709247767ff845723ee1f34dce52d16e0bbeb88586bde3",
    ),
    (
        MRO,
        261,
        131,
        "5f7cffe01b61f42e547a7e\
         1d73b8e5c5b538e767e07793166042aa1ab9b6d0b9fa5e71ab6a645d481ea22a",
    ),
    (
        OPP,
        133,
        256,
        "8260dbb1fcb58386\
         94e51820b2a039b6e97feed5cfb2ab458a9b18b139ba2ce01c9b80a0d50145c4",
    ),
    (
        MRO,
        133,
        256,
        "1b500fbbea32e8a2\
         dee9073d4ce214ac68bf993d5e3f56d9e5d5af04fb892ea1c94bfc5ad16aec50",
    ),
];

/// A header's bytes count down from 255, over and over 251 of them, a message's up from 0.
#[test]
fn parcels_with_a_header_as_in_that_table() {
    let up: [u8; 256] = std::array::from_fn(|i| i as u8);
    let down: [u8; 261] = std::array::from_fn(|i| 255 - (i % 251) as u8);
    for (mode, header, message, end) in WITH_A_HEADER {
        let (header, message) = (&down[..header], &up[..message]);
        let parcel = sealed_in_hex(Start::New, mode, 4, &up[..16], header, message);
        assert_eq!(&parcel[parcel.len() - end.len()..], end);
    }
}

/// With a key of the bytes 16 to 47.
fn sealed_in_hex(
    start: Start,
    mode: u32,
    rounds: u32,
    nonce: &[u8],
    header: &[u8],
    message: &[u8],
) -> String {
    let key: [u8; 32] = std::array::from_fn(|i| 16 + i as u8);
    let mut parcel = vec![0; message.len() + 32];
    let inputs = [&key, nonce, header, message];
    let answer = seal_under(start, mode, rounds, inputs, &mut parcel);
    assert_eq!(answer, Ok(parcel.len()));
    parcel.iter().map(|byte| format!("{byte:02x}")).collect()
}

#[test]
fn each_start_refuses_the_others_parcels() {
    for (mode, rounds) in settings() {
        for sealed in [Start::New, Start::Old] {
            let mut parcel = [0; 45];
            let inputs: [&[u8]; 4] = [&KEY, &NONCE, b"head", &[5; 13]];
            let answer = seal_under(sealed, mode, rounds, inputs, &mut parcel);
            assert_eq!(answer, Ok(45));
            for opened in [Start::New, Start::Old] {
                let inputs: [&[u8]; 4] = [&KEY, &NONCE, b"head", &parcel];
                let mut message = [0xaa; 13];
                let answer = open_under(opened, mode, rounds, inputs, &mut message);
                let wanted = if opened == sealed {
                    (Ok(13), [5; 13])
                } else {
                    (Err((9, 0)), [0; 13])
                };
                assert_eq!((answer, message), wanted);
            }
        }
    }
}

#[test]
fn rounds_are_checked_before_the_key() {
    let answer = seal(OPP, 5, &KEY[..31], &NONCE, &[], &[], &mut [0; 32]);
    assert_eq!(answer, Err((2, 0)));
}

#[test]
fn lengths_at_their_limits() {
    assert_eq!(seal_answer(4096, 0, 32), Ok(32));
    assert_eq!(seal_answer(4097, 0, 32), Err((5, 0)));
    assert_eq!(seal_answer(0, 65_536, 65_568), Ok(65_568));
    assert_eq!(seal_answer(0, 65_537, 65_569), Err((6, 0)));
    assert_eq!(seal_answer(0, 128, 159), Err((7, 0)));
}

#[test]
fn short_parcels() {
    let answer = |parcel: &[u8]| {
        let inputs: [&[u8]; 4] = [&ZERO.0, &ZERO.1, &[], parcel];
        open_under(Start::Old, OPP, ROUNDS[0], inputs, &mut [])
    };
    assert_eq!(answer(&[0; 31]), Err((8, 0)));
    assert_eq!(answer(&[0; 32]), Ok(0));
    assert_eq!(answer(&[1; 32]), Err((9, 0)));
}

#[test]
fn net_counts_at_their_limits() {
    let answer = |counts| jump(&[7; 128], counts, &mut [0; 128]);
    assert_eq!(answer([65_536, -65_536, 65_536]), Ok(128));
    for counts in [
        [65_537, 0, 0],
        [0, -65_537, 0],
        [0, 0, 65_537],
        [i32::MIN, 0, 0],
    ] {
        assert_eq!(answer(counts), Err((11, 0)));
    }
}

#[test]
fn a_bad_step_is_placed() {
    assert_eq!(walk(&[0; 128], &[1, 7, 0], &mut [0; 128]), Err((12, 1)));
}

#[test]
fn order_of_the_checks_of_walk_and_jump() {
    let long = [9; 4097];
    assert_eq!(walk(&[0; 127], &long, &mut []), Err((10, 0)));
    assert_eq!(walk(&[0; 128], &long, &mut []), Err((13, 0)));
    assert_eq!(walk(&[0; 128], &long[..4096], &mut []), Err((12, 0)));
    assert_eq!(walk(&[0; 128], &[6; 4096], &mut [0; 127]), Err((7, 0)));
    assert_eq!(jump(&[0; 127], [65_537; 3], &mut []), Err((10, 0)));
    assert_eq!(jump(&[0; 128], [65_537; 3], &mut []), Err((11, 0)));
    assert_eq!(jump(&[0; 128], [1; 3], &mut [0; 127]), Err((7, 0)));
}

#[test]
fn a_differing_tag_clears_the_message_and_nothing_else() {
    for (mode, rounds) in settings() {
        let mut parcel = sealed(mode, rounds, b"header", &[5; 200]);
        parcel[231] ^= 0x80;
        let mut output = [0xaa; 210];
        let answer = open(mode, rounds, &KEY, &NONCE, b"header", &parcel, &mut output);
        assert_eq!(answer, Err((9, 0)));
        assert_eq!(output[..200], [0; 200]);
        assert_eq!(output[200..], [0xaa; 10]);
    }
}

#[test]
fn what_is_sealed_opens() {
    for (mode, rounds) in settings() {
        for len in [0, 1, 127, 128, 129, 255, 256, 257, 1000] {
            let message: Vec<u8> = (0..len).map(|i| (i * 7 + 1) as u8).collect();
            let parcel = sealed(mode, rounds, &message[len / 2..], &message);
            let mut output = vec![0xaa; len + 3];
            let header = &message[len / 2..];
            let answer = open(mode, rounds, &KEY, &NONCE, header, &parcel, &mut output);
            assert_eq!(answer, Ok(len));
            assert_eq!(output, [&message[..], &[0xaa; 3]].concat());
        }
    }
}

#[test]
fn dropping_a_final_zero_block_changes_the_tag() {
    let tag = |message: &[u8]| sealed(OPP, ROUNDS[0], &[], message).split_off(message.len());
    assert_ne!(tag(&[0; 256]), tag(&[0; 128]));
}
