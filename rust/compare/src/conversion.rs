//! What a conversion keeps: the message, the length, and where it is refused the output.

use crate::call::Call;
use crate::calls::{CONVERT, OPEN, OPEN_OLD};
use crate::entry::{Arg, Entry};
use crate::library::refusal;
use crate::report::Check;

/// What a convert call writes has to open under the new start to the message that the parcel has under
/// the old one, and to be done already; refused, it has to change nothing.
pub fn law(check: &mut Check, call: &Call, answer: u64, after: &Call) {
    let len = call[Arg::Parcel].len();
    match after[Arg::Output].get(..len) {
        Some(converted) if len >= 32 && answer == len as u64 => {
            same_message(check, call, converted);
        }
        _ => {
            let unchanged = answer >> 32 != 0 && after.values == call.values;
            check.record(unchanged, || {
                format!("{call}: answer {answer:#x}, of another length or with a change")
            });
        }
    }
}

fn same_message(check: &mut Check, call: &Call, converted: &[u8]) {
    let on = |entry: &'static Entry, parcel: &[u8]| {
        call.turned(entry)
            .with(Arg::Parcel, parcel.to_vec())
            .fitted()
    };
    let mut message = |open: Call| check.answers(&open, open[Arg::Output].len() as u64);
    let before = message(on(&OPEN_OLD, &call[Arg::Parcel]));
    let after = message(on(&OPEN, converted));
    let same = before[Arg::Output] == after[Arg::Output];
    check.record(same, || format!("{call}: another message"));
    check.answers(&on(&CONVERT, converted), refusal(17, 0));
}
