//! What a look-up has to find, and what it has in common with cancel and read.

use crate::call::Call;
use crate::calls::{CANCEL, READ};
use crate::entry::Arg::{FoundAmount, FoundPrice, Store};
use crate::report::Check;
use crate::stores::sound::KIND_AT;
use reference::store::{Sale, BODY_AT, PRICED};

/// It has to be refused as cancel is, and then to change nothing. Else it has to answer the kind of the
/// cell that read finds, with the amount that cancel answers.
pub fn law(check: &mut Check, call: &Call, answer: u64, after: &Call) {
    let (cancelled, _) = check.compare(&call.turned(&CANCEL));
    let (offset, _) = check.compare(&call.turned(&READ));
    let passed = match cancelled >> 32 {
        0 => {
            let kind_at = (offset as usize).wrapping_sub(BODY_AT - KIND_AT);
            let kind = call[Store].get(kind_at).copied().map(u64::from);
            let amount = cancelled as u32;
            kind == Some(answer) && after[FoundAmount] == amount.to_ne_bytes()
        }
        _ => answer == cancelled && after.values == call.values,
    };
    check.record(passed, || {
        format!("{call}: answer {answer:#x}, and cancel answers {cancelled:#x}")
    });
}

/// Counts whether the look-up of a sale of that kind found its amount, and its price or none.
pub fn finds(check: &mut Check, call: &Call, after: &Call, sold: &Sale, kind: u8) {
    let price = match kind {
        PRICED => &sold.price.to_ne_bytes(),
        _ => &call[FoundPrice][..],
    };
    let found = [&after[FoundAmount][..], &after[FoundPrice]];
    let passed = found == [&sold.amount.to_ne_bytes(), price];
    check.record(passed, || format!("{call}: kind {kind}, found {found:x?}"));
}
