//! A sale in the clear, and sealed as a store has it.

use crate::{slices, Key, Mode, Refusal, Rounds};
use crate::{KIND_PRICED, KIND_UNPRICED, NONCE_LEN, SALE_LEN, TAG_LEN};

/// A sale as it is handed to a store. In the store its two numbers can be read; the rest is
/// sealed.
#[derive(Clone, Copy, Debug, PartialEq, Eq, Hash)]
pub struct Sale {
    /// The machine that sold.
    pub machine: u32,
    /// The number of the sale at that machine.
    pub sale: u32,
    /// The amount taken, in cents.
    pub amount: u32,
    /// The column sold from.
    pub column: u16,
    /// How it was paid: [`MEANS_COIN`](crate::MEANS_COIN), [`MEANS_CARD`](crate::MEANS_CARD), or
    /// any other byte, which is carried and means nothing here.
    pub means: u8,
    /// The listed price in cents, from which coin rounding may make the amount differ. It counts in
    /// no total.
    pub price: u32,
    /// The number of the day as the machine counts them; carried and not read.
    pub day: u16,
}

/// A sale as a store gives it back: one that a version before 0.8.0 took has no price.
#[derive(Clone, Copy, Debug, PartialEq, Eq, Hash)]
pub struct StoredSale {
    /// The machine that sold.
    pub machine: u32,
    /// The number of the sale at that machine.
    pub sale: u32,
    /// The amount taken, in cents.
    pub amount: u32,
    /// The column sold from.
    pub column: u16,
    /// How it was paid, as in [`Sale::means`].
    pub means: u8,
    /// What else was sealed, which depends on the kind.
    pub detail: Detail,
}

/// What a sale has behind its means.
#[derive(Clone, Copy, Debug, PartialEq, Eq, Hash)]
pub enum Detail {
    /// Of a sale of [`KIND_PRICED`].
    Priced {
        /// The listed price in cents, which may be 0.
        price: u32,
        /// The number of the day as the machine counts them.
        day: u16,
    },
    /// Of a sale of [`KIND_UNPRICED`].
    Unpriced {
        /// The time as the machine had it.
        clock: [u8; 6],
    },
}

impl From<Sale> for StoredSale {
    /// What a store gives back once the sale is taken.
    fn from(sale: Sale) -> Self {
        Self {
            machine: sale.machine,
            sale: sale.sale,
            amount: sale.amount,
            column: sale.column,
            means: sale.means,
            detail: Detail::Priced {
                price: sale.price,
                day: sale.day,
            },
        }
    }
}

/// Amount and listed price of a sale, as [`Store::look_up`](crate::Store::look_up) gives them. No
/// price is another thing than a price of 0. Which of the two a sale has is told by its
/// [kind](SealedSale::kind), which is not sealed.
#[derive(Clone, Copy, Debug, PartialEq, Eq, Hash)]
pub enum LookUp {
    /// Of a sale of [`KIND_PRICED`].
    Priced {
        /// The amount taken, in cents.
        amount: u32,
        /// The listed price in cents.
        price: u32,
    },
    /// Of a sale of [`KIND_UNPRICED`], which has no price.
    Unpriced {
        /// The amount taken, in cents.
        amount: u32,
    },
}

impl LookUp {
    /// The amount taken, in cents, whatever the kind.
    pub const fn amount(self) -> u32 {
        match self {
            Self::Priced { amount, .. } | Self::Unpriced { amount } => amount,
        }
    }
}

/// A sale's part of a store, as [`Store::read`](crate::Store::read) and
/// [`Store::sales`](crate::Store::sales) give it.
///
/// # Examples
///
/// ```
/// use calmbaize::{Detail, Ground, Key, Refusal, Sale, SealedSale, Store, MEANS_COIN};
/// use calmbaize::{KIND_PRICED, KIND_UNPRICED};
///
/// let (mut bytes, key) = ([0; 128], Key::new([7; 32]));
/// let mut store = Store::new(&mut bytes);
/// store.format()?;
/// let sale = Sale {
///     machine: 11, sale: 1, amount: 150, column: 4, means: MEANS_COIN, price: 149, day: 320,
/// };
/// store.take(&key, &[0; 8], &sale)?;
///
/// let sealed = store.read(11, 1)?;
/// assert_eq!((sealed.numbers(), sealed.kind), ((11, 1), KIND_PRICED));
/// assert_eq!(sealed.open(&key), Ok(sale.into()));
/// let mut part = *sealed.part;
/// part[0] ^= 1;
/// let changed = SealedSale { part: &part, ..sealed };
/// assert_eq!(changed.open(&key), Err(Ground::Tag.into()));
///
/// // The kind is not sealed.
/// let other = SealedSale { kind: KIND_UNPRICED, ..sealed };
/// let clock = Detail::Unpriced { clock: [149, 0, 0, 0, 64, 1] };
/// assert_eq!(other.open(&key)?.detail, clock);
/// # Ok::<(), Refusal>(())
/// ```
#[derive(Clone, Copy, Debug, PartialEq, Eq, Hash)]
pub struct SealedSale<'a> {
    /// [`KIND_UNPRICED`] or [`KIND_PRICED`]. It says how the last six bytes of the record are read
    /// and is not sealed: where it was changed in the store, a clock is read as price and day, or
    /// these as a clock, and no tag tells. Nothing else depends on it.
    pub kind: u8,
    /// Nonce, sealed record and tag.
    pub part: &'a [u8; SALE_LEN],
}

impl SealedSale<'_> {
    /// Machine and sale number. They are no secret, and not known to be true before
    /// [`open`](Self::open) has opened the sale.
    pub const fn numbers(&self) -> (u32, u32) {
        let [a, b, c, d, e, f, g, h, ..] = *self.part;
        (
            u32::from_le_bytes([a, b, c, d]),
            u32::from_le_bytes([e, f, g, h]),
        )
    }

    /// The sale in the clear.
    ///
    /// # Errors
    ///
    /// [`Ground::Tag`](crate::Ground::Tag) where it was not sealed so with this key, and
    /// [`Ground::Unknown`](crate::Ground::Unknown), with the kind as its place, where it is of
    /// another kind than the two.
    pub fn open(&self, key: &Key) -> Result<StoredSale, Refusal> {
        let (nonce, parcel) = self.part.split_at(NONCE_LEN);
        let mut record = [0; SALE_LEN - NONCE_LEN - TAG_LEN];
        let (mode, rounds) = (Mode::Mro as u32, Rounds::Six.count());
        slices::open(mode, rounds, key.bytes(), nonce, &[], parcel, &mut record)?;
        let [a, b, c, d, low, high, means, rest @ ..] = record;
        let (machine, sale) = self.numbers();
        let detail = match self.kind {
            KIND_PRICED => {
                let [a, b, c, d, low, high] = rest;
                Detail::Priced {
                    price: u32::from_le_bytes([a, b, c, d]),
                    day: u16::from_le_bytes([low, high]),
                }
            }
            KIND_UNPRICED => Detail::Unpriced { clock: rest },
            // An archive that lets it pass is of a version that this crate does not know.
            other => return Err(Refusal::new(0, other.into())),
        };
        Ok(StoredSale {
            machine,
            sale,
            amount: u32::from_le_bytes([a, b, c, d]),
            column: u16::from_le_bytes([low, high]),
            means,
            detail,
        })
    }
}
