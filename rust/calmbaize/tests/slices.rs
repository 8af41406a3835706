//! Every ground through the calls with slices, whose checks are the library's own.

use calmbaize::slices::{convert, jump, open, open_old, seal, walk};
use calmbaize::{Ground, MAX_COUNT};

const KEY: [u8; 32] = [3; 32];
const NONCE: [u8; 16] = [5; 16];

#[test]
fn seal_refusals() {
    let long = vec![0; 65_537];
    let mut out = vec![0xaa; 65_600];
    let mut refused = |mode, rounds, key: &[u8], nonce: &[u8], header, message, out_len, ground| {
        let output = &mut out[..out_len];
        let answer = seal(mode, rounds, key, nonce, header, message, output);
        assert_eq!(answer, Err(Ground::into(ground)));
        assert!(out.iter().all(|&byte| byte == 0xaa), "{ground:?}");
    };
    let none: &[u8] = &[];
    refused(3, 5, &KEY, &NONCE, none, none, 32, Ground::Mode);
    refused(1, 5, &KEY[1..], &NONCE, none, none, 32, Ground::Rounds);
    refused(1, 4, &KEY[1..], &[], none, none, 32, Ground::KeyLength);
    refused(1, 4, &KEY, &[], &long, none, 32, Ground::NonceLength);
    let header = &long[..4097];
    refused(2, 6, &KEY, &NONCE, header, &long, 32, Ground::HeaderTooLong);
    refused(2, 6, &KEY, &NONCE, none, &long, 32, Ground::InputTooLong);
    refused(2, 6, &KEY, &NONCE, none, &[1], 32, Ground::OutputTooShort);
}

#[test]
fn open_refusals() {
    let long = vec![0; 65_569];
    let mut out = vec![0xaa; 65_600];
    let mut refused = |parcel, out_len, ground| {
        let answer = open(2, 6, &KEY, &NONCE, &[], parcel, &mut out[..out_len]);
        assert_eq!(answer, Err(Ground::into(ground)));
        assert!(out.iter().all(|&byte| byte == 0xaa), "{ground:?}");
    };
    refused(&long[..31], 0, Ground::InputTooShort);
    refused(&long, 0, Ground::InputTooLong);
    refused(&long[..34], 1, Ground::OutputTooShort);
    refused(&long[..32], 1, Ground::Tag);
    let answer = open(2, 6, &KEY, &NONCE, &[], &long[..34], &mut out);
    assert_eq!(answer, Err(Ground::Tag.into()));
    assert_eq!(out[..3], [0, 0, 0xaa]);
}

#[test]
fn convert_refusals() {
    let long = vec![0; 65_569];
    let mut out = vec![0xaa; 65_600];
    let mut refused = |mode, rounds, key: &[u8], nonce: &[u8], header, parcel, out_len, ground| {
        let output = &mut out[..out_len];
        let answer = convert(mode, rounds, key, nonce, header, parcel, output);
        assert_eq!(answer, Err(Ground::into(ground)));
        assert!(out.iter().all(|&byte| byte == 0xaa), "{ground:?}");
    };
    let (none, short): (&[u8], _) = (&[], &long[..31]);
    refused(3, 5, &KEY, &NONCE, none, short, 0, Ground::Mode);
    refused(1, 5, &KEY[1..], &NONCE, none, short, 0, Ground::Rounds);
    refused(1, 4, &KEY[1..], &[], none, short, 0, Ground::KeyLength);
    refused(1, 4, &KEY, &[], &long, short, 0, Ground::NonceLength);
    let header = &long[..4097];
    refused(2, 6, &KEY, &NONCE, header, short, 0, Ground::HeaderTooLong);
    refused(2, 6, &KEY, &NONCE, none, short, 0, Ground::InputTooShort);
    refused(2, 6, &KEY, &NONCE, none, &long, 0, Ground::InputTooLong);
    // Room for the message is not enough.
    for len in [32, 34, 65_568] {
        let (parcel, no_room) = (&long[..len], Ground::OutputTooShort);
        refused(2, 6, &KEY, &NONCE, none, parcel, len - 32, no_room);
        refused(2, 6, &KEY, &NONCE, none, parcel, len - 1, no_room);
        refused(2, 6, &KEY, &NONCE, none, parcel, len, Ground::Tag);
    }
}

/// Under OPP a key and a nonce of zeros make every mask of the old start zero, so that whole blocks of
/// zeros are sealed as zeros, with a tag of zeros.
#[test]
fn convert_takes_whole_blocks() {
    let (key, nonce, zeros) = ([0; 32], [0; 16], vec![0; 65_568]);
    for blocks in [0, 1, 2, 17, 512] {
        let len = 128 * blocks;
        let (old, message) = (&zeros[..len + 32], &zeros[..len]);
        let (mut new, mut sealed) = (vec![0xaa; len + 33], vec![0; len + 32]);
        assert_eq!(
            open_old(1, 4, &key, &nonce, &[], old, &mut vec![1; len]),
            Ok(len)
        );
        let converted = convert(1, 4, &key, &nonce, &[], old, &mut new);
        assert_eq!(converted, Ok(len + 32));
        seal(1, 4, &key, &nonce, &[], message, &mut sealed).unwrap();
        sealed.push(0xaa);
        assert_eq!(new, sealed, "{len} bytes");
        let again = convert(1, 4, &key, &nonce, &[], &new[..len + 32], &mut sealed);
        assert_eq!(again, Err(Ground::DoneAlready.into()));
        assert_eq!(new, sealed, "{len} bytes");
    }
}

#[test]
fn mask_refusals() {
    let (start, mut out) = ([1; 128], [0xaa; 128]);
    let cases = [
        (walk(&start[1..], &[9; 4097], &mut out), Ground::StartLength),
        (walk(&start, &[9; 4097], &mut out), Ground::TooManySteps),
        (walk(&start, &[], &mut out[1..]), Ground::OutputTooShort),
        (jump(&start[1..], 0, 0, 0, &mut out), Ground::StartLength),
        (jump(&start, 0, -MAX_COUNT - 1, 0, &mut out), Ground::Count),
        (jump(&start, 0, 0, i32::MIN, &mut []), Ground::Count),
        (jump(&start, 0, 0, 0, &mut []), Ground::OutputTooShort),
    ];
    for (answer, ground) in cases {
        assert_eq!(answer, Err(ground.into()));
    }
    let refusal = walk(&start, &[1, 2, 0], &mut []).unwrap_err();
    assert_eq!((refusal.ground, refusal.place), (Ground::Step, 2));
    assert_eq!(out, [0xaa; 128]);
}

#[test]
fn empty_buffers() {
    let mut parcel = [0; 32];
    for mode in [1, 2] {
        assert_eq!(seal(mode, 4, &KEY, &NONCE, &[], &[], &mut parcel), Ok(32));
        assert_eq!(open(mode, 4, &KEY, &NONCE, &[], &parcel, &mut []), Ok(0));
    }
}
