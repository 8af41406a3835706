//! The calls of `c/baseline.h` and `c/avx2.h`, which answer as those of `calmbaize.h` do.

#![no_std]

/// The type of seal, both opens and convert: mode and rounds, then key, nonce, header, input and
/// output, each with its length.
pub type Sealing = unsafe extern "C" fn(
    u32,
    u32,
    *const u8,
    usize,
    *const u8,
    usize,
    *const u8,
    usize,
    *const u8,
    usize,
    *mut u8,
    usize,
) -> u64;

/// The type of the calls that lend a run of words: the arguments of [`Sealing`], then the words with
/// their count.
pub type RunSealing = unsafe extern "C" fn(
    u32,
    u32,
    *const u8,
    usize,
    *const u8,
    usize,
    *const u8,
    usize,
    *const u8,
    usize,
    *mut u8,
    usize,
    *mut u64,
    usize,
) -> u64;

/// Declares foreign calls that take the arguments of [`Sealing`], each with those of its own behind them.
#[macro_export]
macro_rules! sealing {
    ($($(#[$note:meta])* $scope:vis fn $name:ident($($word:ident: $type:ty),*);)*) => {
        extern "C" {
            $($(#[$note])* $scope fn $name(
                mode: u32,
                rounds: u32,
                key: *const u8,
                key_len: usize,
                nonce: *const u8,
                nonce_len: usize,
                header: *const u8,
                header_len: usize,
                input: *const u8,
                input_len: usize,
                output: *mut u8,
                output_len: usize,
                $($word: $type),*
            ) -> u64;)*
        }
    };
}

sealing! {
    /// Seals; the arguments are those of `calmbaize_seal`.
    pub fn baseline_seal();

    /// Opens; the arguments are those of `calmbaize_open`.
    pub fn baseline_open();

    /// Opens under the old start; the arguments are those of `calmbaize_open_old`.
    pub fn baseline_open_old();

    /// Converts; the arguments are those of `calmbaize_convert`.
    pub fn baseline_convert();

    /// Seals from a run of words; the arguments are those of `calmbaize_seal_run`.
    pub fn baseline_seal_run(words: *mut u64, words_len: usize);

    /// Opens from a run of words; the arguments are those of `calmbaize_open_run`.
    pub fn baseline_open_run(words: *mut u64, words_len: usize);

    /// Seals under the old start, which the library has no call for; the arguments are those of
    /// `calmbaize_seal`.
    pub fn baseline_seal_old();

    /// Seals from a run of words by AVX2, in OPP alone; the arguments are those of
    /// `calmbaize_seal_run`. The processor must have AVX2.
    #[cfg(target_arch = "x86_64")]
    pub fn avx2_opp_seal_run(words: *mut u64, words_len: usize);

    /// Opens from a run of words by AVX2, in OPP alone; the arguments are those of
    /// `calmbaize_open_run`. The processor must have AVX2.
    #[cfg(target_arch = "x86_64")]
    pub fn avx2_opp_open_run(words: *mut u64, words_len: usize);
}

extern "C" {
    /// Diagnoses; the arguments are those of `calmbaize_diagnose`.
    pub fn baseline_diagnose(
        old_start: bool,
        mode: u32,
        rounds: u32,
        key: *const u8,
        key_len: usize,
        nonce: *const u8,
        nonce_len: usize,
        header: *const u8,
        header_len: usize,
        input: *const u8,
        input_len: usize,
    ) -> u64;

    /// Walks; the arguments are those of `calmbaize_walk`.
    pub fn baseline_walk(
        start: *const u8,
        start_len: usize,
        steps: *const u8,
        steps_len: usize,
        output: *mut u8,
        output_len: usize,
    ) -> u64;

    /// Jumps; the arguments are those of `calmbaize_jump`.
    pub fn baseline_jump(
        start: *const u8,
        start_len: usize,
        alpha: i32,
        beta: i32,
        gamma: i32,
        output: *mut u8,
        output_len: usize,
    ) -> u64;

    /// Formats a store; the arguments are those of `calmbaize_store_format`.
    pub fn baseline_store_format(store: *mut u8, store_len: usize) -> u64;

    /// The BLAKE2b permutation, any number of rounds.
    pub fn baseline_permute(rounds: u32, s: *mut [u64; 16]);
}

/// The type of take: key, store, machine, sale, the nonce's tail, amount, column, means, price and day.
pub type Take = unsafe extern "C" fn(
    *const u8,
    usize,
    *mut u8,
    usize,
    u32,
    u32,
    *const u8,
    u32,
    u16,
    u8,
    u32,
    u16,
) -> u64;

/// The type of cancel: key, store, machine and sale.
pub type Cancel = unsafe extern "C" fn(*const u8, usize, *mut u8, usize, u32, u32) -> u64;

/// The type of total: key, store and total.
pub type Total = unsafe extern "C" fn(*const u8, usize, *const u8, usize, *mut u64) -> u64;

/// The type of read: store, machine and sale.
pub type Read = unsafe extern "C" fn(*const u8, usize, u32, u32) -> u64;

/// The type of look_up: key, store, machine, sale, amount and price.
pub type LookUp =
    unsafe extern "C" fn(*const u8, usize, *const u8, usize, u32, u32, *mut u32, *mut u32) -> u64;

/// The calls on a filled store, as someone has them.
#[derive(Clone, Copy)]
#[allow(missing_docs)]
pub struct Store {
    pub take: Take,
    pub cancel: Cancel,
    pub total: Total,
    pub read: Read,
    pub look_up: LookUp,
}

/// Declares the calls on a filled store of one build, and puts them together.
macro_rules! store {
    ($(#[$note:meta])* $scope:vis const $build:ident =
        $take:ident $cancel:ident $total:ident $read:ident $look_up:ident) => {
        extern "C" {
            /// Takes a sale; the arguments are those of `calmbaize_store_take`.
            $scope fn $take(
                key: *const u8,
                key_len: usize,
                store: *mut u8,
                store_len: usize,
                machine: u32,
                sale: u32,
                nonce_tail: *const u8,
                amount: u32,
                column: u16,
                means: u8,
                price: u32,
                day: u16,
            ) -> u64;

            /// Cancels a sale; the arguments are those of `calmbaize_store_cancel`.
            $scope fn $cancel(
                key: *const u8,
                key_len: usize,
                store: *mut u8,
                store_len: usize,
                machine: u32,
                sale: u32,
            ) -> u64;

            /// Adds up the coins; the arguments are those of `calmbaize_store_total`.
            $scope fn $total(
                key: *const u8,
                key_len: usize,
                store: *const u8,
                store_len: usize,
                total: *mut u64,
            ) -> u64;

            /// Finds a sale; the arguments are those of `calmbaize_store_read`.
            $scope fn $read(store: *const u8, store_len: usize, machine: u32, sale: u32) -> u64;

            /// Looks a sale up; the arguments are those of `calmbaize_store_look_up`.
            $scope fn $look_up(
                key: *const u8,
                key_len: usize,
                store: *const u8,
                store_len: usize,
                machine: u32,
                sale: u32,
                amount: *mut u32,
                price: *mut u32,
            ) -> u64;
        }

        $(#[$note])*
        $scope const $build: Store = Store {
            take: $take,
            cancel: $cancel,
            total: $total,
            read: $read,
            look_up: $look_up,
        };
    };
}

store! {
    /// The store's calls, which see a sound store without marks.
    pub const STORE = baseline_store_take baseline_store_cancel
        baseline_store_total baseline_store_read baseline_store_look_up
}

store! {
    /// Those that look at every store by marks.
    pub const BY_MARKS = marks_baseline_store_take marks_baseline_store_cancel
        marks_baseline_store_total marks_baseline_store_read marks_baseline_store_look_up
}

/// What clang compiles, where there is one.
#[cfg(clang)]
mod clang {
    use super::Store;

    store! {
        pub(super) const STORE = clang_baseline_store_take clang_baseline_store_cancel
            clang_baseline_store_total clang_baseline_store_read clang_baseline_store_look_up
    }

    store! {
        pub(super) const BY_MARKS = clang_marks_baseline_store_take clang_marks_baseline_store_cancel
            clang_marks_baseline_store_total clang_marks_baseline_store_read
            clang_marks_baseline_store_look_up
    }

    sealing! {
        pub(super) fn clang_avx2_opp_seal_run(words: *mut u64, words_len: usize);
        pub(super) fn clang_avx2_opp_open_run(words: *mut u64, words_len: usize);
    }
}

/// `avx2_opp_seal_run` and `avx2_opp_open_run` as clang compiles them, where there is a clang.
pub fn avx2_by_clang() -> Option<(RunSealing, RunSealing)> {
    #[cfg(clang)]
    return Some((
        clang::clang_avx2_opp_seal_run,
        clang::clang_avx2_opp_open_run,
    ));
    #[cfg(not(clang))]
    None
}

/// [`STORE`] and [`BY_MARKS`] as clang compiles them, where there is a clang.
pub fn stores_by_clang() -> Option<[Store; 2]> {
    #[cfg(clang)]
    return Some([clang::STORE, clang::BY_MARKS]);
    #[cfg(not(clang))]
    None
}
