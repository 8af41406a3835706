//! Mode and round count.

use crate::{Ground, Refusal};

/// How a message is encrypted.
#[derive(Clone, Copy, Debug, PartialEq, Eq, Hash)]
#[repr(u32)]
pub enum Mode {
    /// Offset Public Permutation. A nonce must never be used twice with one key.
    Opp = 1,
    /// Misuse-Resistant Offset.
    Mro = 2,
}

/// The allowed counts, each with its name.
macro_rules! rounds {
    ($($name:ident = $count:literal),+) => {
        /// The rounds of the permutation. Time grows with them, and a parcel must be opened with the
        /// count that sealed it.
        #[derive(Clone, Copy, Debug, PartialEq, Eq, Hash)]
        #[non_exhaustive]
        #[repr(u32)]
        pub enum Rounds {
            $(
                #[doc = concat!($count, " rounds.")]
                $name = $count,
            )+
        }

        impl Rounds {
            /// All that is allowed, the least first.
            pub const ALL: &'static [Self] = &[$(Self::$name),+];
        }
    };
}

rounds!(Four = 4, Six = 6, Eight = 8, Twelve = 12);

impl Rounds {
    /// All that is allowed in words, for a reader. A test holds it to [`ALL`](Self::ALL).
    pub const LIST: &'static str = "4, 6, 8 or 12";

    /// The count as a number.
    pub const fn count(self) -> u32 {
        self as u32
    }
}

impl TryFrom<u32> for Rounds {
    type Error = Refusal;

    /// Any count that is not allowed is refused with [`Ground::Rounds`].
    fn try_from(count: u32) -> Result<Self, Refusal> {
        let found = Self::ALL.iter().find(|rounds| rounds.count() == count);
        found.copied().ok_or(Ground::Rounds.into())
    }
}
