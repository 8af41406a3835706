//! Why a call was refused.

use crate::Rounds;
use core::error::Error;
use core::fmt;

/// A refusal: its ground, and the place where the ground lies.
///
/// ```
/// use calmbaize::{slices, Ground, Refusal};
///
/// let refusal = slices::walk(&[1; 128], &[1, 7], &mut [0; 128]).unwrap_err();
/// assert_eq!((refusal.number(), refusal.place), (12, 1));
/// assert!(matches!(refusal, Refusal { ground: Ground::Step, .. }));
/// ```
#[derive(Clone, Copy, Debug, PartialEq, Eq, Hash)]
#[non_exhaustive]
pub struct Refusal {
    /// What the call was refused for.
    pub ground: Ground,
    /// Where the ground lies: the index of the step for [`Ground::Step`]; the cell for
    /// [`Ground::Tag`] of a sale in a store and for [`Ground::StoreKind`]; the cell that holds the
    /// index, which may be cell 0, for [`Ground::StoreIndex`]. For [`Ground::Unknown`] with number 0
    /// it is the kind, the offset or the reason that is not known, with another the place that the
    /// archive gave. It is 0 for the others.
    pub place: u32,
}

impl Refusal {
    /// The refusal that the two halves of an answer name.
    pub(crate) const fn new(number: u32, place: u32) -> Self {
        Self {
            ground: Ground::from_number(number),
            place,
        }
    }

    /// The number of the ground.
    pub const fn number(self) -> u32 {
        self.ground.number()
    }
}

impl From<Ground> for Refusal {
    /// The refusal with place 0.
    fn from(ground: Ground) -> Self {
        Self { ground, place: 0 }
    }
}

/// All grounds from one table: number, name and text.
macro_rules! grounds {
    ($($number:literal $name:ident $text:literal,)+) => {
        /// What a call is refused for. Its [number](Self::number) is the same in every interface
        /// of the library; 14 is not given any more. In its text `{place}` stands for the
        /// [place](Refusal::place), `{cell}` for the same as a cell, where it is one, and `{rounds}`
        /// for the [allowed counts](Rounds::LIST).
        #[derive(Clone, Copy, Debug, PartialEq, Eq, Hash)]
        #[non_exhaustive]
        pub enum Ground {
            $(
                #[doc = concat!($number, ": ", $text, ".")]
                $name,
            )+
            /// A number that this version of the crate does not know, from an archive of another
            /// version, or 0 where it does not know the kind of a sale, the offset of one or a
            /// reason. What such a call wrote is not known either.
            #[non_exhaustive]
            Unknown {
                /// That number.
                number: u32,
            },
        }

        impl Ground {
            const fn from_number(number: u32) -> Self {
                match number {
                    $($number => Self::$name,)+
                    _ => Self::Unknown { number },
                }
            }

            /// The ground's number.
            pub const fn number(self) -> u32 {
                match self {
                    $(Self::$name => $number,)+
                    Self::Unknown { number } => number,
                }
            }

            const fn text(self) -> &'static str {
                match self {
                    $(Self::$name => $text,)+
                    Self::Unknown { number: 0 } => {
                        "kind or offset {place} is not known to this version"
                    }
                    Self::Unknown { .. } => "ground is not known to this version, at {place}",
                }
            }
        }
    };
}

grounds! {
    1 Mode "mode is not 1 (OPP) or 2 (MRO)",
    2 Rounds "round count is not {rounds}",
    3 KeyLength "key is not 32 bytes",
    4 NonceLength "nonce is not 16 bytes",
    5 HeaderTooLong "header is over 4,096 bytes",
    6 InputTooLong "message is over 65,536 bytes, or parcel over 65,568",
    7 OutputTooShort "output, or a buffer of words, is shorter than what success writes",
    8 InputTooShort "parcel is under 32 bytes",
    9 Tag "tag differs{cell}",
    10 StartLength "start is not 128 bytes",
    11 Count "net count is outside -65,536 to 65,536",
    12 Step "step at {place} is not 1 to 6",
    13 TooManySteps "list is over 4,096 steps",
    15 StoreFull "store has no free cell",
    16 SaleNumbers "machine and sale number are there already (take) or not there (cancel, read, look-up)",
    17 DoneAlready "done already: parcel opens under the new start, and not under the old",
    18 StoreLength "store is not 128 to 65,536 bytes in cells of 64",
    19 StoreIndex "index held by cell {place} is past the last cell, or of a cell reached before",
    20 StoreKind "cell {place} is in neither chain, or its kind does not fit its chain",
}

impl fmt::Display for Refusal {
    fn fmt(&self, f: &mut fmt::Formatter<'_>) -> fmt::Result {
        let text = self.ground.text();
        if let Some((before, after)) = text.split_once("{place}") {
            write!(f, "{before}{}{after}", self.place)
        } else if let Some((before, after)) = text.split_once("{cell}") {
            // Cell 0 never holds a sale, so that a place of 0 is no cell.
            match self.place {
                0 => write!(f, "{before}{after}"),
                cell => write!(f, "{before} in cell {cell}{after}"),
            }
        } else if let Some((before, after)) = text.split_once("{rounds}") {
            write!(f, "{before}{}{after}", Rounds::LIST)
        } else {
            f.write_str(text)
        }
    }
}

impl Error for Refusal {}
