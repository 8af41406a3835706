//! The diagnoses that are measured: with one trial, which opens as asked, with the fewest and the most that
//! find another setting, and with all in vain.

use crate::buffer::Buffer;
use crate::cases::Implementation::{self, *};
use crate::cases::{Key, Size, KEY, NONCE};
use crate::measure::Case;
use crate::sealing::sealed;
use baseline::baseline_diagnose;
#[cfg(feature = "archive")]
use calmbaize::ffi::calmbaize_diagnose;
use reference::{all_settings, Start, TAG_LEN};
use std::ptr::null;

/// A diagnosis: its name, the setting asked, and the parcel's where it is whole, by their places in the order
/// of trial. The two are the same, or differ in start, mode and rounds.
struct Diagnosis(&'static str, usize, Option<usize>);

pub const AS_ASKED: &str = "diagnose in 1 trial";

const ALL: [Diagnosis; 4] = [
    Diagnosis(AS_ASKED, 0, Some(0)),
    Diagnosis("diagnose in 2 trials", 15, Some(0)),
    Diagnosis("diagnose in 16 trials", 0, Some(15)),
    Diagnosis("diagnose in vain", 0, None),
];

/// The names of the others.
pub const NAMES: [&str; ALL.len() - 1] = {
    let [_, first, last, none] = ALL;
    [first.0, last.0, none.0]
};

/// The settings that the diagnosis of that name tries: the one asked, then the others up to the parcel's.
pub fn tried(name: &str) -> Vec<(Start, (u32, u32))> {
    let named = ALL.iter().find(|diagnosis| diagnosis.0 == name);
    let &Diagnosis(_, asked, parcel) = named.expect("a diagnosis that is measured");
    let others = (0..=parcel.unwrap_or(15)).filter(|&n| n != asked);
    let places = [asked].into_iter().chain(others);
    places.map(|n| all_settings()[n]).collect()
}

/// The type of the foreign call: the arguments of opening behind the start, and no output.
type Diagnose = unsafe extern "C" fn(
    bool,
    u32,
    u32,
    *const u8,
    usize,
    *const u8,
    usize,
    *const u8,
    usize,
    *const u8,
    usize,
) -> u64;

const WHO: &[(Implementation, Diagnose)] = &[
    #[cfg(feature = "archive")]
    (Library, calmbaize_diagnose),
    (ScalarC, baseline_diagnose),
];

/// The cases that are wanted, with a message of so many bytes. None has a mode and rounds of its own.
pub fn all(len: usize, wanted: &dyn Fn(Key) -> bool) -> Vec<Case> {
    let mut cases = Vec::new();
    for diagnosis in &ALL {
        for &(implementation, call) in WHO {
            let key = Key::new(implementation, None, diagnosis.0, Size::Bytes(len));
            if wanted(key) {
                cases.push(diagnosis.case(key, call));
            }
        }
    }
    cases
}

impl Diagnosis {
    /// The case of `key`, of an empty header.
    fn case(&self, key: Key, call: Diagnose) -> Case {
        let &Self(_, asked, parcel_under) = self;
        let message = vec![0x5a; key.size.bytes()];
        let mut parcel = Buffer::filled(0, message.len() + TAG_LEN);
        let (start, setting) = all_settings()[parcel_under.unwrap_or(asked)];
        sealed(start, setting, &message, &mut parcel);
        parcel[message.len()] ^= u8::from(parcel_under.is_none());
        let answer = match parcel_under {
            Some(n) if n == asked => 0,
            Some(n) => 1 + n as u64 + 32 * (1 + 2 + 4),
            None => 255,
        };
        let (start, (mode, rounds)) = all_settings()[asked];
        Case::new(key, answer, move || {
            let (key, nonce) = (KEY.as_ptr(), NONCE.as_ptr());
            let (old, nonce_len) = (start == Start::Old, reference::NONCE_LEN);
            let (input, len) = (parcel.as_ptr(), parcel.len());
            // SAFETY: each pointer is valid for its length, and nothing is written.
            unsafe {
                call(
                    old,
                    mode,
                    rounds,
                    key,
                    KEY.len(),
                    nonce,
                    nonce_len,
                    null(),
                    0,
                    input,
                    len,
                )
            }
        })
    }
}
