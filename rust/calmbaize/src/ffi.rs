//! The C interface as `calmbaize.h` declares it.
//!
//! Pointers may be null where the length is 0. What a call writes must not overlap another buffer.
//! Words are counted as such, and aligned as `u64` is.

use crate::{LookUp, Reason, Refusal, KIND_PRICED, KIND_UNPRICED};

extern "C" {
    /// See [`slices::seal`](crate::slices::seal).
    pub fn calmbaize_seal(
        mode: u32,
        rounds: u32,
        key: *const u8,
        key_len: usize,
        nonce: *const u8,
        nonce_len: usize,
        header: *const u8,
        header_len: usize,
        input: *const u8,
        input_len: usize,
        output: *mut u8,
        output_len: usize,
    ) -> u64;

    /// See [`slices::open`](crate::slices::open).
    pub fn calmbaize_open(
        mode: u32,
        rounds: u32,
        key: *const u8,
        key_len: usize,
        nonce: *const u8,
        nonce_len: usize,
        header: *const u8,
        header_len: usize,
        input: *const u8,
        input_len: usize,
        output: *mut u8,
        output_len: usize,
    ) -> u64;

    /// See [`slices::open_old`](crate::slices::open_old).
    pub fn calmbaize_open_old(
        mode: u32,
        rounds: u32,
        key: *const u8,
        key_len: usize,
        nonce: *const u8,
        nonce_len: usize,
        header: *const u8,
        header_len: usize,
        input: *const u8,
        input_len: usize,
        output: *mut u8,
        output_len: usize,
    ) -> u64;

    /// See [`slices::convert`](crate::slices::convert).
    pub fn calmbaize_convert(
        mode: u32,
        rounds: u32,
        key: *const u8,
        key_len: usize,
        nonce: *const u8,
        nonce_len: usize,
        header: *const u8,
        header_len: usize,
        input: *const u8,
        input_len: usize,
        output: *mut u8,
        output_len: usize,
    ) -> u64;

    /// See [`slices::diagnose`](crate::slices::diagnose).
    pub fn calmbaize_diagnose(
        old_start: bool,
        mode: u32,
        rounds: u32,
        key: *const u8,
        key_len: usize,
        nonce: *const u8,
        nonce_len: usize,
        header: *const u8,
        header_len: usize,
        input: *const u8,
        input_len: usize,
    ) -> u64;

    /// See [`slices::seal_run`](crate::slices::seal_run).
    pub fn calmbaize_seal_run(
        mode: u32,
        rounds: u32,
        key: *const u8,
        key_len: usize,
        nonce: *const u8,
        nonce_len: usize,
        header: *const u8,
        header_len: usize,
        input: *const u8,
        input_len: usize,
        output: *mut u8,
        output_len: usize,
        words: *mut u64,
        words_len: usize,
    ) -> u64;

    /// See [`slices::open_run`](crate::slices::open_run).
    pub fn calmbaize_open_run(
        mode: u32,
        rounds: u32,
        key: *const u8,
        key_len: usize,
        nonce: *const u8,
        nonce_len: usize,
        header: *const u8,
        header_len: usize,
        input: *const u8,
        input_len: usize,
        output: *mut u8,
        output_len: usize,
        words: *mut u64,
        words_len: usize,
    ) -> u64;

    /// See [`slices::walk`](crate::slices::walk).
    pub fn calmbaize_walk(
        start: *const u8,
        start_len: usize,
        steps: *const u8,
        steps_len: usize,
        output: *mut u8,
        output_len: usize,
    ) -> u64;

    /// See [`slices::jump`](crate::slices::jump).
    pub fn calmbaize_jump(
        start: *const u8,
        start_len: usize,
        alpha: i32,
        beta: i32,
        gamma: i32,
        output: *mut u8,
        output_len: usize,
    ) -> u64;

    /// See [`slices::store::format`](crate::slices::store::format).
    pub fn calmbaize_store_format(store: *mut u8, store_len: usize) -> u64;

    /// See [`slices::store::take`](crate::slices::store::take). `nonce_tail` has
    /// [`NONCE_TAIL_LEN`](crate::NONCE_TAIL_LEN) bytes.
    pub fn calmbaize_store_take(
        key: *const u8,
        key_len: usize,
        store: *mut u8,
        store_len: usize,
        machine: u32,
        sale: u32,
        nonce_tail: *const u8,
        amount: u32,
        column: u16,
        means: u8,
        price: u32,
        day: u16,
    ) -> u64;

    /// See [`slices::store::cancel`](crate::slices::store::cancel).
    pub fn calmbaize_store_cancel(
        key: *const u8,
        key_len: usize,
        store: *mut u8,
        store_len: usize,
        machine: u32,
        sale: u32,
    ) -> u64;

    /// See [`slices::store::total`](crate::slices::store::total). Where refused, `*total` is
    /// unchanged.
    pub fn calmbaize_store_total(
        key: *const u8,
        key_len: usize,
        store: *const u8,
        store_len: usize,
        total: *mut u64,
    ) -> u64;

    /// See [`slices::store::read`](crate::slices::store::read).
    pub fn calmbaize_store_read(store: *const u8, store_len: usize, machine: u32, sale: u32)
        -> u64;

    /// See [`slices::store::look_up`](crate::slices::store::look_up). `*price` is written for a sale
    /// that has one; where refused, `*amount` and `*price` are unchanged.
    pub fn calmbaize_store_look_up(
        key: *const u8,
        key_len: usize,
        store: *const u8,
        store_len: usize,
        machine: u32,
        sale: u32,
        amount: *mut u32,
        price: *mut u32,
    ) -> u64;
}

/// Takes an answer apart: the value of a success, such as the bytes written, or the refusal.
///
/// No answer makes it panic: what this version does not know is
/// [`Ground::Unknown`](crate::Ground::Unknown).
pub const fn decode(answer: u64) -> Result<u32, Refusal> {
    let (number, value) = ((answer >> 32) as u32, answer as u32);
    match number {
        0 => Ok(value),
        _ => Err(Refusal::new(number, value)),
    }
}

/// Takes an answer of [`calmbaize_diagnose`] apart.
///
/// No answer makes it panic: a reason that this version does not know is
/// [`Ground::Unknown`](crate::Ground::Unknown), with the value as its place.
pub fn decode_diagnosis(answer: u64) -> Result<Reason, Refusal> {
    let value = decode(answer)?;
    Reason::from_value(value).ok_or(Refusal::new(0, value))
}

/// Takes an answer of [`calmbaize_store_look_up`] apart, with what that has written.
///
/// No answer makes it panic: a kind that this version does not know is
/// [`Ground::Unknown`](crate::Ground::Unknown), with the kind as its place.
pub fn decode_look_up(answer: u64, amount: u32, price: u32) -> Result<LookUp, Refusal> {
    let kind = decode(answer)?;
    if kind == KIND_PRICED.into() {
        Ok(LookUp::Priced { amount, price })
    } else if kind == KIND_UNPRICED.into() {
        Ok(LookUp::Unpriced { amount })
    } else {
        Err(Refusal::new(0, kind))
    }
}
