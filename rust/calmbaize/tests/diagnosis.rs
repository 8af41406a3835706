//! Why a parcel won't open: the settings, the reasons and what is refused.

use calmbaize::ffi::decode_diagnosis;
use calmbaize::slices::diagnose;
use calmbaize::{Aead, Differs, Ground, Header, Key, Mode, Nonce, Reason, Rounds, Setting, Start};

const NONE: Header<'_> = Header(&[]);

/// The sixteen settings.
fn all() -> impl Iterator<Item = Setting> {
    (0..).map_while(Setting::from_number)
}

/// What a diagnosis with a key and a nonce of these bytes tells.
fn told(asked: Setting, byte: u8, parcel: &[u8]) -> Reason {
    let aead = Aead::new(asked.mode, asked.rounds, Key::new([byte; 32]));
    let nonce = Nonce::new([byte; 16]);
    aead.diagnose(asked.start, &nonce, NONE, parcel).unwrap()
}

/// That `setting` is the first that opens.
fn opens(asked: Setting, setting: Setting) -> Reason {
    if asked == setting {
        return Reason::AsAsked;
    }
    let differs = Differs {
        start: asked.start != setting.start,
        mode: asked.mode != setting.mode,
        rounds: asked.rounds != setting.rounds,
    };
    Reason::Other { setting, differs }
}

#[test]
fn settings_have_their_order() {
    let texts: Vec<String> = all().map(|setting| setting.to_string()).collect();
    let mut wanted = Vec::new();
    for start in ["new", "old"] {
        for mode in ["OPP", "MRO"] {
            wanted.extend(
                [4, 6, 8, 12].map(|rounds| format!("{start} start, {mode}, {rounds} rounds")),
            );
        }
    }
    assert_eq!(texts, wanted);
    assert_eq!(Setting::from_number(u32::MAX), None);
}

#[test]
fn every_answer_is_a_reason_or_unknown() {
    assert_eq!(decode_diagnosis(0), Ok(Reason::AsAsked));
    assert_eq!(decode_diagnosis(255), Ok(Reason::NoneOfSixteen));
    let mut others = 0;
    for value in (1..255).chain(256..1000).chain([u64::from(u32::MAX)]) {
        match decode_diagnosis(value) {
            Ok(Reason::Other { setting, differs }) => {
                let words = [
                    (differs.start, 32),
                    (differs.mode, 64),
                    (differs.rounds, 128),
                ];
                let words: u64 = words
                    .into_iter()
                    .map(|(differs, word)| u64::from(differs) * word)
                    .sum();
                let number = all().position(|other| other == setting).unwrap() as u64;
                assert_eq!(value, 1 + number + words);
                others += 1;
            }
            answer => {
                let refusal = answer.unwrap_err();
                assert_eq!((refusal.number(), u64::from(refusal.place)), (0, value));
            }
        }
    }
    // Each setting with each set of words but the empty one.
    assert_eq!(others, 16 * 7);
    assert_eq!(decode_diagnosis(8 << 32), Err(Ground::InputTooShort.into()));
}

#[test]
fn words_say_what_differs() {
    let text = |value| decode_diagnosis(value).unwrap().to_string();
    assert_eq!(text(0), "opens as asked");
    assert_eq!(text(255), "none of the sixteen");
    for (words, differ) in [
        (1, "start differs"),
        (2, "mode differs"),
        (3, "start, mode differ"),
        (4, "rounds differ"),
        (5, "start, rounds differ"),
        (6, "mode, rounds differ"),
        (7, "start, mode, rounds differ"),
    ] {
        let wanted = format!("opens with old start, MRO, 6 rounds: {differ}");
        assert_eq!(text(1 + 13 + 32 * words), wanted);
    }
    // No diagnosis says this, but the type can.
    let nothing = Differs {
        start: false,
        mode: false,
        rounds: false,
    };
    assert_eq!(nothing.to_string(), "nothing differs");
}

#[test]
fn a_sealed_parcel_tells_its_settings() {
    for sealed in all().filter(|setting| setting.start == Start::New) {
        let aead = Aead::new(sealed.mode, sealed.rounds, Key::new([7; 32]));
        let mut parcel = [0; 162];
        aead.seal(&Nonce::new([7; 16]), NONE, &[1; 130], &mut parcel)
            .unwrap();
        for asked in all() {
            assert_eq!(told(asked, 7, &parcel), opens(asked, sealed));
            assert_eq!(told(asked, 8, &parcel), Reason::NoneOfSixteen);
        }
    }
}

/// Under the old start a key and a nonce of zeros make every mask zero, so that zeros open under all its
/// settings, or under those of OPP where there is a block.
#[test]
fn the_setting_asked_goes_first_and_then_the_order() {
    let first = Setting {
        start: Start::Old,
        mode: Mode::Opp,
        rounds: Rounds::Four,
    };
    for asked in all() {
        for (parcel, mode) in [(&[0; 160][..], Mode::Opp), (&[0; 32], asked.mode)] {
            let as_asked = asked.start == Start::Old && asked.mode == mode;
            let found = if as_asked { asked } else { first };
            assert_eq!(told(asked, 0, parcel), opens(asked, found));
        }
    }
}

#[test]
fn refusals() {
    let (key, nonce, long) = ([3; 32], [5; 16], vec![0; 65_569]);
    let refused = |mode, rounds, key: &[u8], nonce: &[u8], header, parcel, ground| {
        for old_start in [false, true] {
            let answer = diagnose(old_start, mode, rounds, key, nonce, header, parcel);
            assert_eq!(answer, Err(Ground::into(ground)));
        }
    };
    let (none, short): (&[u8], _) = (&[], &long[..31]);
    refused(3, 5, &key, &nonce, none, short, Ground::Mode);
    refused(1, 5, &key[1..], &nonce, none, short, Ground::Rounds);
    refused(1, 4, &key[1..], &[], none, short, Ground::KeyLength);
    refused(1, 4, &key, &[], &long, short, Ground::NonceLength);
    let header = &long[..4097];
    refused(2, 6, &key, &nonce, header, short, Ground::HeaderTooLong);
    refused(2, 6, &key, &nonce, none, short, Ground::InputTooShort);
    refused(2, 6, &key, &nonce, none, &long, Ground::InputTooLong);
    for len in [32, 65_568] {
        let answer = diagnose(false, 2, 6, &key, &nonce, header, &long[..len]);
        assert_eq!(answer, Err(Ground::HeaderTooLong.into()));
        let answer = diagnose(false, 2, 6, &key, &nonce, &header[1..], &long[..len]);
        assert_eq!(answer, Ok(Reason::NoneOfSixteen));
    }
}
