//! Why a parcel won't open.

use crate::{Mode, Rounds};
use core::fmt;

/// What the masks start from.
#[derive(Clone, Copy, Debug, PartialEq, Eq, Hash)]
pub enum Start {
    /// Nonce, round count, the tag's length and key: that of [`Aead::seal`](crate::Aead::seal) and
    /// [`Aead::open`](crate::Aead::open).
    New,
    /// Nonce and key alone, as in versions before 0.4.0: that of
    /// [`Aead::open_old`](crate::Aead::open_old).
    Old,
}

/// All that a parcel is opened with beside key, nonce and header.
#[derive(Clone, Copy, Debug, PartialEq, Eq, Hash)]
#[allow(missing_docs)]
pub struct Setting {
    pub start: Start,
    pub mode: Mode,
    pub rounds: Rounds,
}

/// In what a setting is not the one asked.
#[derive(Clone, Copy, Debug, PartialEq, Eq, Hash)]
#[allow(missing_docs)]
pub struct Differs {
    pub start: bool,
    pub mode: bool,
    pub rounds: bool,
}

/// What a diagnosis tells of a parcel.
#[derive(Clone, Copy, Debug, PartialEq, Eq, Hash)]
pub enum Reason {
    /// It opens as asked.
    AsAsked,
    /// It opens under `setting`, and neither as asked nor under another setting before that one.
    Other {
        /// The first that opens it.
        setting: Setting,
        /// In what that is not the one asked.
        differs: Differs,
    },
    /// It opens under none of the sixteen settings.
    NoneOfSixteen,
}

impl Setting {
    /// The setting with this number, which is 0 to 15: new start before old, then OPP before MRO, then
    /// the rounds as in [`Rounds::ALL`]. In this order they are tried.
    pub fn from_number(number: u32) -> Option<Self> {
        let (start, mode) = match number / 4 {
            0 => (Start::New, Mode::Opp),
            1 => (Start::New, Mode::Mro),
            2 => (Start::Old, Mode::Opp),
            3 => (Start::Old, Mode::Mro),
            _ => return None,
        };
        let rounds = Rounds::ALL[number as usize % 4];
        Some(Self {
            start,
            mode,
            rounds,
        })
    }
}

impl Reason {
    /// The reason that the value of a C call names, if it names one.
    pub(crate) fn from_value(value: u32) -> Option<Self> {
        let (number, differing) = match value {
            0 => return Some(Self::AsAsked),
            255 => return Some(Self::NoneOfSixteen),
            _ => ((value - 1) % 32, (value - 1) / 32),
        };
        let differs = Differs {
            start: differing & 1 != 0,
            mode: differing & 2 != 0,
            rounds: differing & 4 != 0,
        };
        let setting = Setting::from_number(number)?;
        (1..8)
            .contains(&differing)
            .then_some(Self::Other { setting, differs })
    }
}

impl fmt::Display for Start {
    fn fmt(&self, f: &mut fmt::Formatter<'_>) -> fmt::Result {
        f.write_str(match self {
            Self::New => "new start",
            Self::Old => "old start",
        })
    }
}

impl fmt::Display for Setting {
    fn fmt(&self, f: &mut fmt::Formatter<'_>) -> fmt::Result {
        let mode = match self.mode {
            Mode::Opp => "OPP",
            Mode::Mro => "MRO",
        };
        write!(f, "{}, {mode}, {} rounds", self.start, self.rounds.count())
    }
}

impl fmt::Display for Differs {
    fn fmt(&self, f: &mut fmt::Formatter<'_>) -> fmt::Result {
        f.write_str(match (self.start, self.mode, self.rounds) {
            (false, false, false) => "nothing differs",
            (true, false, false) => "start differs",
            (false, true, false) => "mode differs",
            (true, true, false) => "start, mode differ",
            (false, false, true) => "rounds differ",
            (true, false, true) => "start, rounds differ",
            (false, true, true) => "mode, rounds differ",
            (true, true, true) => "start, mode, rounds differ",
        })
    }
}

impl fmt::Display for Reason {
    fn fmt(&self, f: &mut fmt::Formatter<'_>) -> fmt::Result {
        match self {
            Self::AsAsked => f.write_str("opens as asked"),
            Self::Other { setting, differs } => write!(f, "opens with {setting}: {differs}"),
            Self::NoneOfSixteen => f.write_str("none of the sixteen"),
        }
    }
}
