//! The calls of a sale store.
//!
//! Each but [`format`], which checks the length alone, checks the store's form behind the key, so that
//! any bytes may be lent as a store: its length (18), its indices (19, with the cell that holds the
//! first wrong one) and its kinds (20, with the first cell that is wrong).

use super::value;
use crate::{ffi, LookUp, Refusal, Sale, NONCE_TAIL_LEN};

/// Makes `store` one with no sale: every cell free, chained upward from 1.
///
/// Every byte is written, whatever was there.
///
/// # Errors
///
/// Ground 18 where the length is not a store's. No byte of `store` changes then.
///
/// # Examples
///
/// ```
/// use calmbaize::{slices::store, Ground};
///
/// assert_eq!(store::format(&mut [0xaa; 256]), Ok(()));
/// assert_eq!(store::format(&mut [0xaa; 255]), Err(Ground::StoreLength.into()));
/// ```
pub fn format(store: &mut [u8]) -> Result<(), Refusal> {
    ffi::decode(call!(calmbaize_store_format; &mut store)).map(|_| ())
}

/// Seals `sale` into the first free cell of `store` and puts it at the front of the sales.
///
/// Returns the cell. The nonce is the sale's two numbers and `nonce_tail`.
///
/// # Errors
///
/// The first of the grounds 3, 18, 19, 20, 16 and 15 that holds, in this order. No byte of `store`
/// changes then.
///
/// # Examples
///
/// ```
/// use calmbaize::{slices::store, Ground, Refusal, Sale, MEANS_COIN};
///
/// let mut bytes = [0; 128];
/// store::format(&mut bytes)?;
/// let sale = Sale {
///     machine: 11, sale: 1, amount: 150, column: 4, means: MEANS_COIN, price: 149, day: 320,
/// };
/// assert_eq!(store::take(&[7; 32], &mut bytes, &[0; 8], &sale), Ok(1));
/// let again = store::take(&[7; 32], &mut bytes, &[1; 8], &sale);
/// assert_eq!(again, Err(Ground::SaleNumbers.into()));
/// # Ok::<(), Refusal>(())
/// ```
pub fn take(
    key: &[u8],
    store: &mut [u8],
    nonce_tail: &[u8; NONCE_TAIL_LEN],
    sale: &Sale,
) -> Result<u32, Refusal> {
    ffi::decode(call!(
        calmbaize_store_take; &key, &mut store, sale.machine, sale.sale,
        nonce_tail.as_ptr(), sale.amount, sale.column, sale.means, sale.price, sale.day
    ))
}

/// Takes a sale out of `store`, of two alike the first in the chain, and puts its cell, zeroed, at
/// the front of the free ones.
///
/// Returns the sale's amount.
///
/// # Errors
///
/// The first of the grounds 3, 18, 19, 20, 16 and 9 that holds, in this order; the place of 9 is the
/// cell. No byte of `store` changes then.
///
/// # Examples
///
/// ```
/// use calmbaize::{slices::store, Ground, Refusal, Sale, MEANS_COIN};
///
/// let mut bytes = [0; 128];
/// store::format(&mut bytes)?;
/// let sale = Sale {
///     machine: 11, sale: 1, amount: 150, column: 4, means: MEANS_COIN, price: 149, day: 320,
/// };
/// store::take(&[7; 32], &mut bytes, &[0; 8], &sale)?;
/// let refusal = store::cancel(&[8; 32], &mut bytes, 11, 1).unwrap_err();
/// assert_eq!((refusal.ground, refusal.place), (Ground::Tag, 1));
/// assert_eq!(store::cancel(&[7; 32], &mut bytes, 11, 1), Ok(150));
/// # Ok::<(), Refusal>(())
/// ```
pub fn cancel(key: &[u8], store: &mut [u8], machine: u32, sale: u32) -> Result<u32, Refusal> {
    ffi::decode(call!(calmbaize_store_cancel; &key, &mut store, machine, sale))
}

/// The cash total of `store`: the sum of the amounts whose means is
/// [`MEANS_COIN`](crate::MEANS_COIN).
///
/// # Errors
///
/// The first of the grounds 3, 18, 19, 20 and 9 that holds, in this order. 9 is for the first sale in
/// the chain, coin or not, that won't open; its place is the cell.
///
/// # Examples
///
/// ```
/// use calmbaize::{slices::store, Ground, Refusal, Sale, MEANS_CARD, MEANS_COIN};
///
/// let mut bytes = [0; 256];
/// store::format(&mut bytes)?;
/// let coin = Sale {
///     machine: 11, sale: 1, amount: 150, column: 4, means: MEANS_COIN, price: 149, day: 320,
/// };
/// store::take(&[7; 32], &mut bytes, &[0; 8], &coin)?;
/// store::take(&[7; 32], &mut bytes, &[0; 8], &Sale { sale: 2, means: MEANS_CARD, ..coin })?;
/// assert_eq!(store::total(&[7; 32], &bytes), Ok(150));
/// assert_eq!(store::total(&[7; 31], &bytes), Err(Ground::KeyLength.into()));
/// # Ok::<(), Refusal>(())
/// ```
pub fn total(key: &[u8], store: &[u8]) -> Result<u64, Refusal> {
    let mut total = 0;
    let answer = call!(calmbaize_store_total; &key, &store, &raw mut total);
    ffi::decode(answer).map(|_| total)
}

/// Where in `store` a sale's [`SALE_LEN`](crate::SALE_LEN) bytes begin, of two alike the first in
/// the chain.
///
/// # Errors
///
/// The first of the grounds 18, 19, 20 and 16 that holds, in this order.
///
/// # Examples
///
/// ```
/// use calmbaize::{slices::store, Ground, Refusal, Sale, MEANS_COIN};
///
/// let mut bytes = [0; 128];
/// store::format(&mut bytes)?;
/// let sale = Sale {
///     machine: 11, sale: 1, amount: 150, column: 4, means: MEANS_COIN, price: 149, day: 320,
/// };
/// store::take(&[7; 32], &mut bytes, &[0; 8], &sale)?;
/// assert_eq!(store::read(&bytes, 11, 1), Ok(67));
/// assert_eq!(store::read(&bytes, 11, 2), Err(Ground::SaleNumbers.into()));
/// # Ok::<(), Refusal>(())
/// ```
pub fn read(store: &[u8], machine: u32, sale: u32) -> Result<usize, Refusal> {
    value(call!(calmbaize_store_read; &store, machine, sale))
}

/// Amount and listed price of a sale in `store`, of two alike the first in the chain.
///
/// # Errors
///
/// Those of [`cancel`].
///
/// # Examples
///
/// ```
/// use calmbaize::{slices::store, Ground, LookUp, Refusal, Sale, MEANS_COIN};
///
/// let mut bytes = [0; 128];
/// store::format(&mut bytes)?;
/// let sale = Sale {
///     machine: 11, sale: 1, amount: 150, column: 4, means: MEANS_COIN, price: 149, day: 320,
/// };
/// store::take(&[7; 32], &mut bytes, &[0; 8], &sale)?;
/// let both = LookUp::Priced { amount: 150, price: 149 };
/// assert_eq!(store::look_up(&[7; 32], &bytes, 11, 1), Ok(both));
/// let refusal = store::look_up(&[8; 32], &bytes, 11, 1).unwrap_err();
/// assert_eq!((refusal.ground, refusal.place), (Ground::Tag, 1));
/// # Ok::<(), Refusal>(())
/// ```
pub fn look_up(key: &[u8], store: &[u8], machine: u32, sale: u32) -> Result<LookUp, Refusal> {
    let (mut amount, mut price) = (0, 0);
    let answer = call!(
        calmbaize_store_look_up; &key, &store, machine, sale, &raw mut amount, &raw mut price
    );
    ffi::decode_look_up(answer, amount, price)
}
