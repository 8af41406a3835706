//! Authenticated encryption with OPP and MRO over a masked BLAKE2b permutation.
//!
//! This crate is a safe wrapper over the proved library's archive, `libcalmbaize.a`. It needs no
//! standard library, allocates nothing and keeps nothing between calls.
//!
//! [`Aead`] holds mode, round count and key. [`Aead::seal`] turns a message into a parcel, the
//! ciphertext and then a tag of 32 bytes; [`Aead::open`] turns a parcel back into its message or
//! refuses it; [`Aead::open_old`] does the same to a parcel of a version before 0.4.0, and
//! [`Aead::convert`] turns such a one into a parcel of this version. [`Aead::diagnose`] tells why a
//! parcel won't open. A header is authenticated with the message and not sent. [`walk()`] and
//! [`jump()`] step the masks that the construction is built on; a mask is as secret as the key.
//! [`Store`] keeps sealed sales in a lent buffer.
//!
//! [`Aead::seal_run`] and [`Aead::open_run`] do what seal and open do, and take all masks from one run
//! in a lent buffer of words, as many as [`run_words`] tells. The words are as secret as the key: keep
//! them private, and overwrite them when done.
//!
//! | Mode | Repeated nonce | Passes over the message |
//! |---|---|---|
//! | [`Mode::Opp`] | never | one |
//! | [`Mode::Mro`] | tolerated: shows only that a message was repeated | two |
//!
//! ```
//! use calmbaize::{Aead, Ground, Header, Key, Mode, Nonce, Refusal, Rounds, TAG_LEN};
//!
//! let aead = Aead::new(Mode::Mro, Rounds::Six, Key::new([7; 32]));
//! let (nonce, header) = (Nonce::new([1; 16]), Header(b"machine 11"));
//! let message = b"150 cents, column 4";
//! let mut parcel = [0; 19 + TAG_LEN];
//! let len = aead.seal(&nonce, header, message, &mut parcel)?;
//! assert_eq!(len, parcel.len());
//!
//! let mut opened = [0; 19];
//! aead.open(&nonce, header, &parcel, &mut opened)?;
//! assert_eq!(&opened, message);
//!
//! parcel[0] ^= 1;
//! let answer = aead.open(&nonce, header, &parcel, &mut opened);
//! assert_eq!(answer, Err(Ground::Tag.into()));
//! assert_eq!(opened, [0; 19]);
//! # Ok::<(), Refusal>(())
//! ```
//!
//! Below it, [`slices`] has the calls with slices of any length, and [`ffi`] the C interface.

#![no_std]

mod aead;
mod diagnosis;
pub mod ffi;
mod key;
mod masks;
mod refusal;
mod sale;
mod settings;
pub mod slices;
mod store;

pub use aead::{run_words, Aead, Header};
pub use diagnosis::{Differs, Reason, Setting, Start};
pub use key::{Key, Nonce};
pub use masks::{jump, walk, Step};
pub use refusal::{Ground, Refusal};
pub use sale::{Detail, LookUp, Sale, SealedSale, StoredSale};
pub use settings::{Mode, Rounds};
pub use store::{Occupancy, Sales, Store};

/// Bytes of a key.
pub const KEY_LEN: usize = 32;
/// Bytes of a nonce.
pub const NONCE_LEN: usize = 16;
/// Bytes of a tag, by which a parcel is longer than its message.
pub const TAG_LEN: usize = 32;
/// Bytes of a block.
pub const BLOCK_LEN: usize = 128;
/// The longest header in bytes.
pub const MAX_HEADER_LEN: usize = 4096;
/// The longest message in bytes.
pub const MAX_MESSAGE_LEN: usize = 65_536;
/// The longest run, in words.
pub const MAX_RUN_WORDS: usize = 533;
/// The longest list of steps.
pub const MAX_STEPS: usize = 4096;
/// The largest net count; the smallest is its negative.
pub const MAX_COUNT: i32 = 65_536;
/// Bytes of a store's cell, of which its length is a multiple.
pub const CELL_LEN: usize = 64;
/// The shortest store in bytes.
pub const MIN_STORE_LEN: usize = 128;
/// The longest store in bytes.
pub const MAX_STORE_LEN: usize = 65_536;
/// Bytes of a sale in its cell: nonce, sealed record and tag.
pub const SALE_LEN: usize = 61;
/// Bytes at the end of a sale's nonce that the caller chooses.
pub const NONCE_TAIL_LEN: usize = 8;
/// A sale paid in coins, the only one that counts in the cash total.
pub const MEANS_COIN: u8 = 1;
/// A sale paid by card.
pub const MEANS_CARD: u8 = 2;
/// A sale with a clock and no price, as versions before 0.8.0 stored them.
pub const KIND_UNPRICED: u8 = 1;
/// A sale with price and day.
pub const KIND_PRICED: u8 = 2;
