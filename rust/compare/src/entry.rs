//! What a call is: its arguments by their kinds, what it writes, and what refuses it.
//!
//! `calls.rs` has all of them. Every check takes from there what it needs of a call.

use crate::call::Call;
use crate::library::{Function, Slots};
use crate::report::Check;
use reference::store::{NONCE_TAIL_LEN, STORE_LENS};
use reference::{Refusal, Start, BLOCK_LEN, KEY_LEN, MAX_COUNT, MAX_HEADER_LEN, MAX_MESSAGE_LEN};
use reference::{MAX_STEPS, MRO, NONCE_LEN, OPP, ROUNDS, TAG_LEN};
use std::ops::RangeInclusive;

/// An argument.
#[derive(Clone, Copy, Debug, PartialEq, Eq)]
pub enum Arg {
    OldStart,
    Mode,
    Rounds,
    Key,
    Nonce,
    Header,
    Message,
    Parcel,
    Output,
    Words,
    Block,
    Steps,
    Alpha,
    Beta,
    Gamma,
    Store,
    Machine,
    Sale,
    Tail,
    Amount,
    Column,
    Means,
    Price,
    Day,
    Total,
    FoundAmount,
    FoundPrice,
}

/// What an argument may be.
pub enum Kind {
    /// A number: all that are allowed, and some that are refused.
    Choice(&'static [u32], &'static [u32]),
    /// A number of either sign, allowed up to this one.
    Count(u32),
    /// Any number up to this one.
    Number(u32),
    /// Bytes with their length, allowed in this range.
    Bytes(RangeInclusive<usize>),
    /// So many bytes, without a length.
    Fixed(usize),
    /// Bytes with their length, at least as many as success writes.
    Room,
    /// Words with their count, at least as many as the run has.
    Run,
    /// A number of so many bytes that the call may change.
    Variable(usize),
}

impl Arg {
    /// What it may be.
    pub fn kind(self) -> Kind {
        match self {
            Self::OldStart => Kind::Number(1),
            Self::Mode => Kind::Choice(&[OPP, MRO], &[0, 3, 256, 257, 1 << 31, u32::MAX]),
            Self::Rounds => Kind::Choice(ROUNDS, &[0, 1, 3, 5, 7, 9, 10, 11, 13, 260, u32::MAX]),
            Self::Key => Kind::Bytes(KEY_LEN..=KEY_LEN),
            Self::Nonce => Kind::Bytes(NONCE_LEN..=NONCE_LEN),
            Self::Header => Kind::Bytes(0..=MAX_HEADER_LEN),
            Self::Message => Kind::Bytes(0..=MAX_MESSAGE_LEN),
            Self::Parcel => Kind::Bytes(TAG_LEN..=MAX_MESSAGE_LEN + TAG_LEN),
            Self::Output => Kind::Room,
            Self::Words => Kind::Run,
            Self::Block => Kind::Bytes(BLOCK_LEN..=BLOCK_LEN),
            Self::Steps => Kind::Bytes(0..=MAX_STEPS),
            Self::Alpha | Self::Beta | Self::Gamma => Kind::Count(MAX_COUNT),
            Self::Store => Kind::Bytes(STORE_LENS),
            Self::Machine | Self::Sale | Self::Amount | Self::Price => Kind::Number(u32::MAX),
            Self::Column | Self::Day => Kind::Number(u16::MAX.into()),
            Self::Means => Kind::Number(u8::MAX.into()),
            Self::Tail => Kind::Fixed(NONCE_TAIL_LEN),
            Self::Total => Kind::Variable(8),
            Self::FoundAmount | Self::FoundPrice => Kind::Variable(4),
        }
    }

    /// Whether a buffer of `len` bytes can be lent at all, refused or not.
    pub fn can_be(self, len: usize) -> bool {
        match self.kind() {
            Kind::Fixed(fixed) | Kind::Variable(fixed) => len == fixed,
            Kind::Run => len % 8 == 0,
            _ => true,
        }
    }
}

/// What has to hold of a call beside the second implementation's answer: by the call, what it
/// answered, and its arguments afterwards.
pub type Law = fn(&mut Check, &Call, u64, &Call);

/// A call of the library.
pub struct Entry {
    /// As case files write it.
    pub name: &'static str,
    /// In the order in which C and case files have them.
    pub args: &'static [Arg],
    /// Those that it writes, in the same order.
    pub writes: &'static [Arg],
    /// The numbers of its refusals, in the order of its checks.
    pub refused: &'static [u32],
    /// Bytes of the output that success writes, by the length of message or parcel. A call that has
    /// an output answers this number on success, and not one that has none, such as diagnose.
    pub written: fn(usize) -> usize,
    /// Sound parcels by their start, each with the number that refuses it, 0 for none.
    pub parcels: &'static [(Start, u32)],
    /// On 9 the bytes that success would have written are zero.
    pub clears: bool,
    /// The call whose answer and output it has to give, having words enough.
    pub stepping: Option<&'static Entry>,
    /// What else has to hold.
    pub law: Law,
    /// The calls of the archive and of the scalar C.
    pub function: Function,
    /// The call of the second implementation.
    pub reference: fn(&mut Slots) -> Result<usize, Refusal>,
}

impl Entry {
    pub fn takes(&self, arg: Arg) -> bool {
        self.args.contains(&arg)
    }

    pub fn refuses(&self, number: u32) -> bool {
        self.refused.contains(&number)
    }
}
