//! The paper's figures, of its AVX2 code on Haswell: table 2, cycles per byte for long messages.

use reference::{MRO, OPP};

/// The figure for a setting, where the paper has one.
pub fn avx2(setting: (u32, u32)) -> Option<f64> {
    match setting {
        (OPP, 4) => Some(0.55),
        (MRO, 4) => Some(1.06),
        (OPP, 6) => Some(0.75),
        (MRO, 6) => Some(1.39),
        _ => None,
    }
}
