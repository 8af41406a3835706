//! Sealing and opening with values that have types of their own.

use calmbaize::{slices, Aead, Ground, Header, Key, Mode, Nonce, Rounds};
use std::mem::MaybeUninit;

const KEY: [u8; 32] = [0xb3; 32];
const NONCE: Nonce = Nonce::new([5; 16]);

#[test]
fn seals_as_the_slices_do_and_opens_again() {
    for (mode, number) in [(Mode::Opp, 1), (Mode::Mro, 2)] {
        for &rounds in Rounds::ALL {
            let aead = Aead::new(mode, rounds, Key::new(KEY));
            let (mut parcel, mut by_slices, mut opened) = ([0; 35], [0; 35], [0; 3]);
            let sealed = aead.seal(&NONCE, Header(b"head"), b"tea", &mut parcel);
            assert_eq!(sealed, Ok(35));
            let (count, nonce, out) = (rounds.count(), [5; 16], &mut by_slices);
            slices::seal(number, count, &KEY, &nonce, b"head", b"tea", out).unwrap();
            assert_eq!(parcel, by_slices);
            let answer = aead.open(&NONCE, Header(b"head"), &parcel, &mut opened);
            assert_eq!((answer, &opened), (Ok(3), b"tea"));
            let answer = aead.open(&NONCE, Header(b"tail"), &parcel, &mut opened);
            assert_eq!((answer, opened), (Err(Ground::Tag.into()), [0; 3]));
        }
    }
}

/// What version 0.3.0 sealed with six rounds under OPP and MRO: "sale" with the header "post", the
/// key's and the nonce's bytes counted up from 0.
const OLD: [(Mode, [u8; 36]); 2] = [
    (
        Mode::Opp,
        [
            0xbc, 0x65, 0xe2, 0xd4, 0x72, 0xae, 0xc0, 0x71, 0x4c, 0x3b, 0xfb, 0xc3, 0x25, 0xe9,
            0xd4, 0x9f, 0x89, 0xd2, 0x63, 0x67, 0x61, 0x78, 0x57, 0x0a, 0xe6, 0xa8, 0x14, 0xb7,
            0xd0, 0x03, 0xf9, 0x40, 0xf8, 0xdf, 0xf3, 0xd2,
        ],
    ),
    (
        Mode::Mro,
        [
            0x1c, 0xc0, 0xd5, 0x4a, 0x06, 0x4b, 0xc8, 0xcb, 0xd4, 0x84, 0xb4, 0xfc, 0xa8, 0x87,
            0x2e, 0xbc, 0x35, 0x84, 0x34, 0x3b, 0x36, 0x4d, 0xc5, 0x82, 0x23, 0x84, 0x63, 0x3d,
            0x62, 0xdf, 0x96, 0x26, 0xae, 0x79, 0x29, 0xfa,
        ],
    ),
];

/// The settings that those were sealed with, but for the mode.
fn of_old(mode: Mode) -> (Aead, Nonce, Header<'static>) {
    let key = Key::new(std::array::from_fn(|i| i as u8));
    let nonce = Nonce::new(std::array::from_fn(|i| i as u8));
    (Aead::new(mode, Rounds::Six, key), nonce, Header(b"post"))
}

#[test]
fn each_start_opens_its_own_parcels_alone() {
    for (mode, old) in OLD {
        let (aead, nonce, header) = of_old(mode);
        let (mut new, mut message) = ([0; 36], [0xaa; 5]);
        assert_eq!(aead.seal(&nonce, header, b"sale", &mut new), Ok(36));
        let opened = aead.open_old(&nonce, header, &old, &mut message);
        assert_eq!((opened, &message), (Ok(4), b"sale\xaa"));
        let refused = aead.open(&nonce, header, &old, &mut message);
        assert_eq!(
            (refused, &message),
            (Err(Ground::Tag.into()), b"\0\0\0\0\xaa")
        );
        let opened = aead.open(&nonce, header, &new, &mut message);
        assert_eq!((opened, &message), (Ok(4), b"sale\xaa"));
        let refused = aead.open_old(&nonce, header, &new, &mut message);
        assert_eq!(
            (refused, &message),
            (Err(Ground::Tag.into()), b"\0\0\0\0\xaa")
        );
    }
}

#[test]
fn an_old_parcel_becomes_the_new_one_of_its_message() {
    for (mode, old) in OLD {
        let (aead, nonce, header) = of_old(mode);
        let (mut new, mut converted) = ([0; 36], [0xaa; 38]);
        assert_eq!(aead.seal(&nonce, header, b"sale", &mut new), Ok(36));
        let answer = aead.convert(&nonce, header, &old, &mut converted);
        assert_eq!(answer, Ok(36));
        assert_eq!(
            (&converted[..36], &converted[36..]),
            (&new[..], &[0xaa; 2][..])
        );
        let exact = aead.convert(&nonce, header, &old, &mut converted[..36]);
        assert_eq!(exact, Ok(36));
    }
}

#[test]
fn a_parcel_that_is_not_converted_changes_nothing() {
    for (mode, old) in OLD {
        let (aead, nonce, header) = of_old(mode);
        let (mut new, mut output) = ([0; 36], [0xaa; 38]);
        assert_eq!(aead.seal(&nonce, header, b"sale", &mut new), Ok(36));
        let mut refused = |header, parcel: &[u8], len, ground| {
            let answer = aead.convert(&nonce, header, parcel, &mut output[..len]);
            assert_eq!(answer, Err(Ground::into(ground)));
            assert_eq!(output, [0xaa; 38], "{ground:?}");
        };
        refused(header, &new, 38, Ground::DoneAlready);
        refused(header, &new, 35, Ground::OutputTooShort);
        refused(header, &old, 35, Ground::OutputTooShort);
        refused(Header(b"past"), &old, 38, Ground::Tag);
        refused(Header(b"past"), &new, 38, Ground::Tag);
        for place in 0..36 {
            for mut damaged in [old, new] {
                damaged[place] ^= 1;
                refused(header, &damaged, 38, Ground::Tag);
            }
        }
    }
}

#[test]
fn counts_are_allowed_where_the_archive_allows_them() {
    for count in 0..1000 {
        let rounds = Rounds::try_from(count);
        let sealed = slices::seal(1, count, &KEY, &[5; 16], &[], &[], &mut [0; 32]);
        assert_eq!(rounds.map(Rounds::count), sealed.map(|_| count));
    }
    let counts: Vec<u32> = Rounds::ALL.iter().map(|rounds| rounds.count()).collect();
    assert!(counts.is_sorted(), "{counts:?}");
    let words: Vec<String> = counts.iter().map(u32::to_string).collect();
    let (most, others) = words.split_last().unwrap();
    assert_eq!(Rounds::LIST, format!("{} or {most}", others.join(", ")));
}

#[test]
fn other_lengths_are_refused() {
    for len in 0..40 {
        let bytes = &[7; 40][..len];
        let key = Key::try_from(bytes).map(|_| len);
        let nonce = Nonce::try_from(bytes).map(|_| len);
        let expected = |right, ground| if len == right { Ok(len) } else { Err(ground) };
        assert_eq!(key, expected(32, Ground::KeyLength.into()));
        assert_eq!(nonce, expected(16, Ground::NonceLength.into()));
    }
}

#[test]
fn a_key_shows_no_byte() {
    let aead = Aead::new(Mode::Opp, Rounds::Four, Key::new(KEY));
    let text = format!("{aead:?}");
    assert_eq!(text, "Aead { mode: Opp, rounds: Four, key: Key(..) }");
}

#[test]
fn a_dropped_key_is_zero() {
    let mut place = MaybeUninit::new(Key::new(KEY));
    let bytes = place.as_mut_ptr().cast::<[u8; 32]>();
    // SAFETY: the place outlives both reads, holds 32 bytes that are set, and is dropped once.
    let (before, after) = unsafe {
        let before = bytes.read();
        place.assume_init_drop();
        (before, bytes.read())
    };
    assert_eq!((before, after), (KEY, [0; 32]));
}
