//! Any number that an archive may answer, taken apart.

use calmbaize::ffi::{decode, decode_look_up};
use calmbaize::{Ground, LookUp, Refusal, Rounds, KIND_PRICED, KIND_UNPRICED};
use std::error::Error;

/// The number that no call gives any more.
const WITHDRAWN: u32 = 14;
/// The first number that no ground has had.
const UNKNOWN: u32 = 21;

fn refusal(number: u32, place: u32) -> Refusal {
    decode(u64::from(number) << 32 | u64::from(place)).unwrap_err()
}

#[test]
fn a_success_is_its_value() {
    for value in [0, 1, 128, 65_568, u32::MAX] {
        assert_eq!(decode(value.into()), Ok(value));
    }
}

/// Of a look-up the value is a kind. What the call has written counts for the two known ones alone.
#[test]
fn a_look_up_is_by_its_kind() {
    let (amount, price) = (150, 149);
    let decoded = |answer| decode_look_up(answer, amount, price);
    let priced = LookUp::Priced { amount, price };
    assert_eq!(decoded(KIND_PRICED.into()), Ok(priced));
    assert_eq!(
        decoded(KIND_UNPRICED.into()),
        Ok(LookUp::Unpriced { amount })
    );
    for kind in (3..70_000).chain([0, u32::MAX]) {
        let refusal = decoded(kind.into()).unwrap_err();
        assert_eq!((refusal.number(), refusal.place), (0, kind));
    }
    for number in (1..UNKNOWN).chain([u32::MAX]) {
        for place in [0, 1, 2, u32::MAX] {
            let answer = u64::from(number) << 32 | u64::from(place);
            assert_eq!(decoded(answer), Err(refusal(number, place)));
        }
    }
}

#[test]
fn numbers_of_the_documents() {
    let grounds = [
        Ground::Mode,
        Ground::Rounds,
        Ground::KeyLength,
        Ground::NonceLength,
        Ground::HeaderTooLong,
        Ground::InputTooLong,
        Ground::OutputTooShort,
        Ground::InputTooShort,
        Ground::Tag,
        Ground::StartLength,
        Ground::Count,
        Ground::Step,
        Ground::TooManySteps,
        Ground::StoreFull,
        Ground::SaleNumbers,
        Ground::DoneAlready,
        Ground::StoreLength,
        Ground::StoreIndex,
        Ground::StoreKind,
    ];
    let numbers: Vec<u32> = (1..UNKNOWN).filter(|&n| n != WITHDRAWN).collect();
    for (&number, ground) in numbers.iter().zip(grounds) {
        assert_eq!(ground.number(), number);
        assert_eq!(refusal(number, 0), ground.into());
    }
    assert_eq!(grounds.len(), numbers.len());
}

#[test]
fn number_and_place_are_kept_for_every_number() {
    for number in (1..70_000).chain([u32::MAX]) {
        let refusal = refusal(number, 7);
        assert_eq!((refusal.number(), refusal.place), (number, 7));
        let unknown = matches!(refusal.ground, Ground::Unknown { .. });
        let none = number == WITHDRAWN || number >= UNKNOWN;
        assert_eq!(unknown, none, "{number}");
    }
}

#[test]
fn refusals_are_errors_with_a_text() {
    let text = |number| {
        let error: Box<dyn Error> = refusal(number, 7).into();
        error.to_string()
    };
    assert_eq!(text(2), format!("round count is not {}", Rounds::LIST));
    assert_eq!(text(9), "tag differs in cell 7");
    assert_eq!(refusal(9, 0).to_string(), "tag differs");
    assert_eq!(text(12), "step at 7 is not 1 to 6");
    let done = "done already: parcel opens under the new start, and not under the old";
    assert_eq!(text(17), done);
    let length = "store is not 128 to 65,536 bytes in cells of 64";
    assert_eq!(text(18), length);
    // Cell 0 holds the two first indices, and is named as any other.
    for cell in [0, 1, 1023] {
        let index = refusal(19, cell).to_string();
        assert!(index.starts_with(&format!("index held by cell {cell} is past ")));
    }
    assert!(text(20).starts_with("cell 7 is in neither chain, or its kind "));
    assert_eq!(text(UNKNOWN), "ground is not known to this version, at 7");
    let kind = decode_look_up(3, 150, 149).unwrap_err().to_string();
    assert_eq!(kind, "kind or offset 3 is not known to this version");
}
