//! The library's archive for x86-64-v3, which the build script links under names of its own, and
//! whether the processor can run it.

#[cfg(wide)]
baseline::sealing! {
    pub fn wide_seal();
    pub fn wide_open();
    pub fn wide_seal_run(words: *mut u64, words_len: usize);
    pub fn wide_open_run(words: *mut u64, words_len: usize);
}

/// Whether the processor has what x86-64-v3 asks for, AVX2 among it.
#[cfg(target_arch = "x86_64")]
pub fn runs() -> bool {
    use std::arch::is_x86_feature_detected as has;
    has!("avx2")
        && has!("bmi1")
        && has!("bmi2")
        && has!("f16c")
        && has!("fma")
        && has!("lzcnt")
        && has!("movbe")
}

/// Whether the processor has what x86-64-v3 asks for: no other kind has.
#[cfg(not(target_arch = "x86_64"))]
pub fn runs() -> bool {
    false
}

/// Why the archive for x86-64-v3 is not measured, where it is not.
pub fn missing() -> Option<&'static str> {
    if !runs() {
        Some("the processor has no AVX2: the archive for x86-64-v3 and the AVX2 C are not measured")
    } else if !cfg!(wide) {
        Some("no archive for x86-64-v3 was found: it is not measured")
    } else {
        None
    }
}

/// Why what clang makes is not measured, where it is not.
pub fn clang_missing() -> Option<&'static str> {
    let missing = baseline::stores_by_clang().is_none();
    missing.then_some("no clang was found: the C by clang is not measured")
}

/// Why anything is not measured, a line for each.
pub fn all_missing() -> impl Iterator<Item = &'static str> {
    missing().into_iter().chain(clang_missing())
}
