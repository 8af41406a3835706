//! The calls as C has them: slices of any length, mode and round count as plain numbers, and every
//! ground checked by the library.
//!
//! They are for those who do not know the lengths beforehand. Here nothing but the order tells
//! one slice from another; [`Aead`](crate::Aead), [`walk`](crate::walk()), [`jump`](crate::jump())
//! and [`Store`](crate::Store) tell them apart by type.

/// Makes a C call. A buffer, with `&` or `&mut` before its name, goes as its pointer and its length.
macro_rules! call {
    ($function:ident; $($argument:tt)*) => {
        call!(@ $function [] $($argument)*,)
    };
    (@ $function:ident [$($done:tt)*]) => {
        // SAFETY: each pointer is valid for its length, or for what the call takes, and a mutable
        // borrow overlaps no other.
        unsafe { crate::ffi::$function($($done)*) }
    };
    (@ $function:ident [$($done:tt)*] &mut $buffer:ident, $($rest:tt)*) => {
        call!(@ $function [$($done)* $buffer.as_mut_ptr(), $buffer.len(),] $($rest)*)
    };
    (@ $function:ident [$($done:tt)*] &$buffer:ident, $($rest:tt)*) => {
        call!(@ $function [$($done)* $buffer.as_ptr(), $buffer.len(),] $($rest)*)
    };
    (@ $function:ident [$($done:tt)*] $argument:expr, $($rest:tt)*) => {
        call!(@ $function [$($done)* $argument,] $($rest)*)
    };
}

pub mod store;

use crate::{ffi, Reason, Refusal};

/// Encrypts and authenticates `message`, authenticates `header`, and writes the parcel to the
/// first `message.len() + TAG_LEN` bytes of `output`.
///
/// Returns the length of the parcel. The rest of `output` is unchanged.
///
/// # Errors
///
/// The first of the grounds 1, 2, 3, 4, 5, 6 and 7 that holds, in this order. No byte of `output`
/// changes then.
///
/// # Examples
///
/// ```
/// use calmbaize::{slices, Ground};
///
/// let mut parcel = [0; 64];
/// assert_eq!(slices::seal(1, 4, &[0; 32], &[0; 16], b"", b"tea", &mut parcel), Ok(35));
/// let short = slices::seal(1, 4, &[0; 31], &[0; 16], b"", b"tea", &mut parcel);
/// assert_eq!(short, Err(Ground::KeyLength.into()));
/// ```
pub fn seal(
    mode: u32,
    rounds: u32,
    key: &[u8],
    nonce: &[u8],
    header: &[u8],
    message: &[u8],
    output: &mut [u8],
) -> Result<usize, Refusal> {
    value(call!(calmbaize_seal; mode, rounds, &key, &nonce, &header, &message, &mut output))
}

/// Verifies and decrypts `parcel` and writes its message to the first `parcel.len() - TAG_LEN`
/// bytes of `output`.
///
/// Returns the length of the message. The rest of `output` is unchanged. It succeeds exactly where
/// `parcel` is what [`seal`] writes for that message under the same settings.
///
/// # Errors
///
/// The first of the grounds 1, 2, 3, 4, 5, 8, 6, 7 and 9 that holds, in this order. On 9 the bytes
/// that the message would have filled are zero and the rest is unchanged; on every other one no
/// byte of `output` changes.
///
/// # Examples
///
/// ```
/// use calmbaize::{slices, Ground};
///
/// let mut message = [0xaa; 8];
/// let answer = slices::open(1, 4, &[0; 32], &[0; 16], b"", &[1; 36], &mut message);
/// assert_eq!(answer, Err(Ground::Tag.into()));
/// assert_eq!(message, [0, 0, 0, 0, 0xaa, 0xaa, 0xaa, 0xaa]);
/// ```
pub fn open(
    mode: u32,
    rounds: u32,
    key: &[u8],
    nonce: &[u8],
    header: &[u8],
    parcel: &[u8],
    output: &mut [u8],
) -> Result<usize, Refusal> {
    value(call!(calmbaize_open; mode, rounds, &key, &nonce, &header, &parcel, &mut output))
}

/// Verifies and decrypts `parcel` as [`open`] does, but under the old start, that of versions before
/// 0.4.0. No call seals under it.
///
/// # Errors
///
/// Those of [`open`], with the same effects: a parcel of [`seal`] is refused with 9, as one of the
/// old start is by [`open`].
///
/// # Examples
///
/// ```
/// use calmbaize::{slices, Ground};
///
/// // What version 0.3.0 sealed with a key and a nonce of zeros: an empty message.
/// let old = [0; 32];
/// assert_eq!(slices::open_old(1, 4, &[0; 32], &[0; 16], b"", &old, &mut []), Ok(0));
/// let answer = slices::open(1, 4, &[0; 32], &[0; 16], b"", &old, &mut []);
/// assert_eq!(answer, Err(Ground::Tag.into()));
/// ```
pub fn open_old(
    mode: u32,
    rounds: u32,
    key: &[u8],
    nonce: &[u8],
    header: &[u8],
    parcel: &[u8],
    output: &mut [u8],
) -> Result<usize, Refusal> {
    value(call!(calmbaize_open_old; mode, rounds, &key, &nonce, &header, &parcel, &mut output))
}

/// Seals the message of `parcel`, one of the old start, again under the new start with the same
/// settings, and writes the new parcel to the first `parcel.len()` bytes of `output`.
///
/// Returns that length. The rest of `output` is unchanged. Given room, it succeeds exactly where
/// [`open_old`] opens `parcel`, and writes what [`seal`] writes for that message.
///
/// # Errors
///
/// The first of the grounds 1, 2, 3, 4, 5, 8, 6 and 7 that holds, in this order; then, of a parcel
/// that [`open_old`] refuses, 17 where [`open`] opens it and 9 where it does not. No byte of `output`
/// changes then: unlike those two, 9 clears nothing.
///
/// # Examples
///
/// ```
/// use calmbaize::{slices, Ground};
///
/// // What version 0.3.0 sealed with a key and a nonce of zeros: an empty message.
/// let (old, mut new, mut again) = ([0; 32], [0; 32], [0xaa; 32]);
/// assert_eq!(slices::convert(1, 4, &[0; 32], &[0; 16], b"", &old, &mut new), Ok(32));
/// assert_eq!(slices::open(1, 4, &[0; 32], &[0; 16], b"", &new, &mut []), Ok(0));
/// let answer = slices::convert(1, 4, &[0; 32], &[0; 16], b"", &new, &mut again);
/// assert_eq!(answer, Err(Ground::DoneAlready.into()));
/// assert_eq!(again, [0xaa; 32]);
/// ```
pub fn convert(
    mode: u32,
    rounds: u32,
    key: &[u8],
    nonce: &[u8],
    header: &[u8],
    parcel: &[u8],
    output: &mut [u8],
) -> Result<usize, Refusal> {
    value(call!(calmbaize_convert; mode, rounds, &key, &nonce, &header, &parcel, &mut output))
}

/// Tells why `parcel` won't open: tries it under the settings asked, then under the others of the
/// sixteen in the order of [`Setting::from_number`](crate::Setting::from_number), and names the first
/// that opens it, as [`open`] does, or [`open_old`] where its start is the old one.
///
/// # Errors
///
/// The first of the grounds 1, 2, 3, 4, 5, 8 and 6 that holds, in this order.
///
/// # Examples
///
/// ```
/// use calmbaize::{slices, Ground, Reason};
///
/// // What version 0.3.0 sealed with a key and a nonce of zeros: an empty message.
/// let old = [0; 32];
/// let asked = slices::diagnose(true, 1, 4, &[0; 32], &[0; 16], b"", &old);
/// assert_eq!(asked, Ok(Reason::AsAsked));
/// let reason = slices::diagnose(false, 1, 4, &[0; 32], &[0; 16], b"", &old)?;
/// assert_eq!(reason.to_string(), "opens with old start, OPP, 4 rounds: start differs");
/// let short = slices::diagnose(false, 1, 4, &[0; 32], &[0; 16], b"", &old[1..]);
/// assert_eq!(short, Err(Ground::InputTooShort.into()));
/// # Ok::<(), calmbaize::Refusal>(())
/// ```
pub fn diagnose(
    old_start: bool,
    mode: u32,
    rounds: u32,
    key: &[u8],
    nonce: &[u8],
    header: &[u8],
    parcel: &[u8],
) -> Result<Reason, Refusal> {
    ffi::decode_diagnosis(call!(
        calmbaize_diagnose; old_start, mode, rounds, &key, &nonce, &header, &parcel
    ))
}

/// Seals as [`seal`] does, the same parcel, with all masks from one run of words, which it makes in
/// `words`.
///
/// The first [`run_words`](crate::run_words)`(header.len(), message.len())` of `words` hold the run
/// then, and the rest is unchanged. What `words` held before does not matter. The masks are as secret
/// as the key: keep `words` private, and overwrite it when done.
///
/// # Errors
///
/// Those of [`seal`], and 7 too where `words` is shorter than the run. No byte of `output` and no word
/// changes then.
///
/// # Examples
///
/// ```
/// use calmbaize::{run_words, slices, Ground};
///
/// let (mut parcel, mut words) = ([0; 35], [0; run_words(0, 3)]);
/// let answer = slices::seal_run(1, 4, &[0; 32], &[0; 16], b"", b"tea", &mut parcel, &mut words);
/// assert_eq!(answer, Ok(35));
/// let few = &mut words[1..];
/// let answer = slices::seal_run(1, 4, &[0; 32], &[0; 16], b"", b"tea", &mut parcel, few);
/// assert_eq!(answer, Err(Ground::OutputTooShort.into()));
/// ```
#[expect(clippy::too_many_arguments, reason = "they are those of the C call")]
pub fn seal_run(
    mode: u32,
    rounds: u32,
    key: &[u8],
    nonce: &[u8],
    header: &[u8],
    message: &[u8],
    output: &mut [u8],
    words: &mut [u64],
) -> Result<usize, Refusal> {
    value(call!(
        calmbaize_seal_run; mode, rounds, &key, &nonce, &header, &message, &mut output, &mut words
    ))
}

/// Opens as [`open`] does, with all masks from one run of words, which it makes in `words`. It opens
/// what [`open`] opens.
///
/// The first [`run_words`](crate::run_words)`(header.len(), parcel.len() - TAG_LEN)` of `words` hold
/// the run then, and the rest is unchanged. What `words` held before does not matter. The masks are as
/// secret as the key: keep `words` private, and overwrite it when done.
///
/// # Errors
///
/// Those of [`open`], and 7 too where `words` is shorter than the run. On 9 `output` is cleared as
/// [`open`] clears it, and `words` hold the run; on every other one no byte of `output` and no word
/// changes.
///
/// # Examples
///
/// ```
/// use calmbaize::{run_words, slices, Ground};
///
/// let (mut message, mut words) = ([0xaa; 5], [0; run_words(0, 4)]);
/// let parcel = [1; 36];
/// let answer = slices::open_run(1, 4, &[0; 32], &[0; 16], b"", &parcel, &mut message, &mut words);
/// assert_eq!(answer, Err(Ground::Tag.into()));
/// assert_eq!(message, [0, 0, 0, 0, 0xaa]);
/// ```
#[expect(clippy::too_many_arguments, reason = "they are those of the C call")]
pub fn open_run(
    mode: u32,
    rounds: u32,
    key: &[u8],
    nonce: &[u8],
    header: &[u8],
    parcel: &[u8],
    output: &mut [u8],
    words: &mut [u64],
) -> Result<usize, Refusal> {
    value(call!(
        calmbaize_open_run; mode, rounds, &key, &nonce, &header, &parcel, &mut output, &mut words
    ))
}

/// Writes the block reached from `start` by the step bytes `steps` to the first
/// [`BLOCK_LEN`](crate::BLOCK_LEN) bytes of `output`.
///
/// Returns that length. The rest of `output` is unchanged.
///
/// # Errors
///
/// The first of the grounds 10, 13, 12 and 7 that holds, in this order. No byte of `output`
/// changes then.
///
/// # Examples
///
/// ```
/// use calmbaize::{slices, Ground};
///
/// let mut reached = [0; 128];
/// assert_eq!(slices::walk(&[1; 128], &[1, 3, 4, 6], &mut reached), Ok(128));
/// assert_eq!(reached, [1; 128]);
/// let refusal = slices::walk(&[1; 128], &[1, 7], &mut reached).unwrap_err();
/// assert_eq!((refusal.ground, refusal.place), (Ground::Step, 1));
/// ```
pub fn walk(start: &[u8], steps: &[u8], output: &mut [u8]) -> Result<usize, Refusal> {
    value(call!(calmbaize_walk; &start, &steps, &mut output))
}

/// Writes the block after `alpha`, then `beta`, then `gamma` steps from `start`, back steps where
/// a count is negative, to the first [`BLOCK_LEN`](crate::BLOCK_LEN) bytes of `output`.
///
/// Returns that length. The rest of `output` is unchanged.
///
/// # Errors
///
/// The first of the grounds 10, 11 and 7 that holds, in this order. No byte of `output` changes
/// then.
///
/// # Examples
///
/// ```
/// use calmbaize::{slices, Ground};
///
/// let mut reached = [0; 128];
/// assert_eq!(slices::jump(&[1; 128], 2, 0, -1, &mut reached), Ok(128));
/// let short = slices::jump(&[1; 128], 2, 0, -1, &mut reached[..127]);
/// assert_eq!(short, Err(Ground::OutputTooShort.into()));
/// ```
pub fn jump(
    start: &[u8],
    alpha: i32,
    beta: i32,
    gamma: i32,
    output: &mut [u8],
) -> Result<usize, Refusal> {
    value(call!(calmbaize_jump; &start, alpha, beta, gamma, &mut output))
}

// A value of 32 bits is a `usize` on every machine that can hold the longest message.
const _: () = assert!(usize::BITS >= 32);

/// A length or an offset, where that is what success answers.
fn value(answer: u64) -> Result<usize, Refusal> {
    ffi::decode(answer).map(|value| value as usize)
}
