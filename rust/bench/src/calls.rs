//! The calls that seal, open and convert: what each is given, what it has to answer, and who has it.
//! A further call is a line of `all` and a list of who has it; a bound on it is a line of `BOUNDS`.

use crate::buffer::Buffer;
use crate::cases::Implementation::{self, *};
use crate::cases::{Key, Size};
use crate::measure::Case;
use crate::sealing::sealed;
use crate::sealing::How::{self, Run, Second, Step};
use crate::wide;
#[cfg(wide)]
use crate::wide::{wide_open, wide_open_run, wide_seal, wide_seal_run};
use baseline::*;
#[cfg(feature = "archive")]
use calmbaize::ffi::*;
use reference::Start::{self, New, Old};
use reference::{open_under, seal_under};

pub const SEAL: &str = "seal";
pub const OPEN: &str = "open";
/// Of a parcel whose tag differs.
pub const OPEN_REFUSED: &str = "open refused";
/// Of a parcel of the old start.
pub const OPEN_OLD: &str = "open old start";
/// Of such a parcel whose tag differs.
pub const OPEN_OLD_REFUSED: &str = "open old start refused";
/// Of a parcel of the old start.
pub const CONVERT: &str = "convert";
/// Of a parcel of the new start, which is refused as done already.
pub const CONVERT_DONE: &str = "convert done already";
/// Of a parcel of the old start whose tag differs.
pub const CONVERT_REFUSED: &str = "convert refused";

/// What a call is given.
#[derive(Clone, Copy)]
enum Given {
    Message,
    Parcel(Start),
    /// A parcel whose tag differs.
    Damaged(Start),
}

/// What a call has room to write.
#[derive(Clone, Copy)]
enum Room {
    Message,
    Parcel,
}

/// The number of a refusal: the tag differs.
pub const DIFFERS: u64 = 9;
/// The parcel is of the new start.
const DONE: u64 = 17;

/// A call that is timed.
pub struct Call {
    pub name: &'static str,
    given: Given,
    room: Room,
    /// The number that it is refused with, else 0: then it answers the bytes written.
    refused: u64,
    by: Vec<By>,
}

/// One who has a call, and how it is made there.
type By = (Implementation, How);

/// Every call: its name, what it is given, what it has room for, its refusal, and who has it.
#[rustfmt::skip]
pub fn all() -> Vec<Call> {
    use Given::{Damaged, Message, Parcel};
    let call = |name, given, room, refused, by| Call { name, given, room, refused, by };
    vec![
        call(SEAL, Message, Room::Parcel, 0, seal()),
        call(OPEN, Parcel(New), Room::Message, 0, open()),
        call(OPEN_REFUSED, Damaged(New), Room::Message, DIFFERS, open()),
        call(OPEN_OLD, Parcel(Old), Room::Message, 0, open_old()),
        call(OPEN_OLD_REFUSED, Damaged(Old), Room::Message, DIFFERS, open_old()),
        call(CONVERT, Parcel(Old), Room::Parcel, 0, convert()),
        call(CONVERT_DONE, Parcel(New), Room::Parcel, DONE, convert()),
        call(CONVERT_REFUSED, Damaged(Old), Room::Parcel, DIFFERS, convert()),
    ]
}

/// Who seals and opens, and how each does. Those that are compared stand side by side.
pub fn seal_and_open() -> Vec<(Implementation, How, How)> {
    let clang = avx2_by_clang();
    let clang = clang.map(|(seal, open)| (Avx2Clang, Run(seal), Run(open)));
    let mut all = Vec::from_iter(clang);
    all.extend([
        #[cfg(wide)]
        (WideRun, Run(wide_seal_run), Run(wide_open_run)),
        #[cfg(target_arch = "x86_64")]
        (Avx2C, Run(avx2_opp_seal_run), Run(avx2_opp_open_run)),
        #[cfg(wide)]
        (Wide, Step(wide_seal), Step(wide_open)),
        #[cfg(feature = "archive")]
        (Library, Step(calmbaize_seal), Step(calmbaize_open)),
        #[cfg(feature = "archive")]
        (LibraryRun, Run(calmbaize_seal_run), Run(calmbaize_open_run)),
        (ScalarC, Step(baseline_seal), Step(baseline_open)),
        (ScalarCRun, Run(baseline_seal_run), Run(baseline_open_run)),
        (Reference, Second(seal_under, New), Second(open_under, New)),
    ]);
    all
}

fn seal() -> Vec<By> {
    let all = seal_and_open().into_iter();
    all.map(|(who, seal, _)| (who, seal)).collect()
}

fn open() -> Vec<By> {
    let all = seal_and_open().into_iter();
    all.map(|(who, _, open)| (who, open)).collect()
}

fn open_old() -> Vec<By> {
    vec![
        #[cfg(feature = "archive")]
        (Library, Step(calmbaize_open_old)),
        (ScalarC, Step(baseline_open_old)),
        (Reference, Second(open_under, Old)),
    ]
}

fn convert() -> Vec<By> {
    vec![
        #[cfg(feature = "archive")]
        (Library, Step(calmbaize_convert)),
        (ScalarC, Step(baseline_convert)),
    ]
}

impl Call {
    /// The cases that are wanted, with a mode and its rounds and a message of so many bytes.
    pub fn cases(
        &self,
        setting: (u32, u32),
        len: usize,
        wanted: &dyn Fn(Key) -> bool,
    ) -> Vec<Case> {
        let mut cases = Vec::new();
        for &(implementation, how) in &self.by {
            let key = Key::new(implementation, Some(setting), self.name, Size::Bytes(len));
            let runs = !implementation.needs_avx2() || wide::runs();
            if runs && implementation.has(key.setting) && wanted(key) {
                let mut words = Buffer::filled(0, reference::run_len(0, len));
                let seal = |start, message: &[u8], parcel: &mut [u8]| {
                    sealed(start, setting, message, parcel);
                };
                cases.push(self.case(key, 32, seal, move |input, output| {
                    how.make(setting, input, output, &mut words)
                }));
            }
        }
        cases
    }

    /// The case of `key`. `seal` makes a parcel of a message under a start, and `make` the call.
    pub fn case(
        &self,
        key: Key,
        tag_len: usize,
        seal: impl FnOnce(Start, &[u8], &mut [u8]),
        mut make: impl FnMut(&[u8], &mut [u8]) -> u64 + 'static,
    ) -> Case {
        let message = Buffer::filled(0x5a, key.size.bytes());
        let mut parcel = Buffer::filled(0, message.len() + tag_len);
        if let Given::Parcel(start) | Given::Damaged(start) = self.given {
            seal(start, &message, &mut parcel);
        }
        if let Given::Damaged(_) = self.given {
            parcel[message.len()] ^= 1;
        }
        let (input, mut output) = match (self.given, self.room) {
            (Given::Message, _) => (message, parcel),
            (_, Room::Message) => (parcel, message),
            (_, Room::Parcel) => {
                let converted = Buffer::filled(0, parcel.len());
                (parcel, converted)
            }
        };
        let wanted = match self.refused {
            0 => output.len() as u64,
            number => number << 32,
        };
        Case::new(key, wanted, move || make(&input, &mut output))
    }
}
