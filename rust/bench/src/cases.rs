//! What is measured: who makes the calls, with which settings and sizes.

use crate::calls;
use crate::diagnoses;
use crate::measure::Case;
use crate::sodium::Sodium;
use crate::stores;
use crate::table::grouped;
use reference::{MRO, OPP};
use std::fmt;

/// Message lengths in bytes. The first is a sale record.
pub const LENGTHS: [usize; 5] = [13, 128, 1024, 4096, 65_536];
/// The longest messages.
pub const LONG: Size = Size::Bytes(65_536);

/// The key of every case.
pub const KEY: [u8; 32] = [0x42; 32];
/// The nonce of every case, or as many of its bytes as are needed.
pub const NONCE: [u8; 24] = [0x24; 24];

/// Who does the work.
#[derive(Clone, Copy, Debug, PartialEq, Eq)]
pub enum Implementation {
    /// The library's stepping engine, on the baseline archive.
    Library,
    /// Its run engine.
    LibraryRun,
    /// The stepping engine on the archive for x86-64-v3.
    Wide,
    /// The run engine on that.
    WideRun,
    ScalarC,
    ScalarCRun,
    /// OPP alone, from a run.
    Avx2C,
    /// The same source, by clang.
    Avx2Clang,
    /// The store's calls alone, by clang.
    ScalarClang,
    /// The store's calls alone, which look at every store by marks.
    MarksC,
    /// The same source, by clang.
    MarksClang,
    Reference,
    XChaCha,
    AesGcm,
}

impl Implementation {
    /// Whether it has the mode.
    pub fn has(self, setting: Setting) -> bool {
        let in_opp_alone = matches!(self, Self::Avx2C | Self::Avx2Clang);
        !in_opp_alone || setting.is_some_and(|(mode, _)| mode == OPP)
    }

    /// Whether only a processor with AVX2 runs it.
    pub fn needs_avx2(self) -> bool {
        matches!(
            self,
            Self::Wide | Self::WideRun | Self::Avx2C | Self::Avx2Clang
        )
    }

    /// Whether only clang makes it.
    pub fn needs_clang(self) -> bool {
        matches!(self, Self::Avx2Clang | Self::ScalarClang | Self::MarksClang)
    }

    /// Whether it is a cipher of its own, which has no mode and no rounds.
    pub fn is_cipher(self) -> bool {
        matches!(self, Self::XChaCha | Self::AesGcm)
    }

    /// Whose it is, on which archive and by which engine.
    pub fn parts(self) -> [&'static str; 3] {
        match self {
            Self::Library => ["Calmbaize", BASELINE, STEPPING],
            Self::LibraryRun => ["Calmbaize", BASELINE, "run"],
            Self::Wide => ["Calmbaize", "x86-64-v3", STEPPING],
            Self::WideRun => ["Calmbaize", "x86-64-v3", "run"],
            Self::ScalarC => ["scalar C", "", STEPPING],
            Self::ScalarCRun => ["scalar C", "", "run"],
            Self::Avx2C => ["AVX2 C", "", ""],
            Self::Avx2Clang => ["AVX2 C by clang", "", ""],
            Self::ScalarClang => ["scalar C by clang", "", ""],
            Self::MarksC => ["C by marks", "", ""],
            Self::MarksClang => ["C by marks by clang", "", ""],
            Self::Reference => ["second implementation", "", ""],
            Self::XChaCha => ["XChaCha20-Poly1305", "", ""],
            Self::AesGcm => ["AES-256-GCM", "", ""],
        }
    }
}

/// What a name does not say: the archive for every x86-64, and the engine that has no other name.
const BASELINE: &str = "baseline";
const STEPPING: &str = "stepping";

impl fmt::Display for Implementation {
    fn fmt(&self, f: &mut fmt::Formatter<'_>) -> fmt::Result {
        let said = |part: &&str| !["", BASELINE, STEPPING].contains(part);
        let parts: Vec<&str> = self.parts().into_iter().filter(said).collect();
        f.write_str(&parts.join(", "))
    }
}

/// Mode and round count; libsodium's ciphers and the store have none.
pub type Setting = Option<(u32, u32)>;

/// The name of a mode.
pub fn mode_name(mode: u32) -> &'static str {
    match mode {
        OPP => "OPP",
        MRO => "MRO",
        other => unreachable!("no mode {other} is measured"),
    }
}

/// The name of a setting.
pub fn setting_name((mode, rounds): (u32, u32)) -> String {
    format!("{}, {rounds} rounds", mode_name(mode))
}

/// How much a call is given: a message's bytes, or a store's cells.
#[derive(Clone, Copy, Debug, PartialEq, Eq)]
pub enum Size {
    Bytes(usize),
    /// Taken upwards from cell 1.
    Cells(usize),
    /// Taken in a fixed order that is none.
    Shuffled(usize),
}

impl Size {
    /// The same in bytes.
    pub fn bytes(self) -> usize {
        match self {
            Self::Bytes(bytes) => bytes,
            Self::Cells(cells) | Self::Shuffled(cells) => cells * stores::CELL,
        }
    }

    /// A store of so many cells in the same order.
    pub fn with_cells(self, cells: usize) -> Self {
        match self {
            Self::Shuffled(_) => Self::Shuffled(cells),
            _ => Self::Cells(cells),
        }
    }
}

impl fmt::Display for Size {
    fn fmt(&self, f: &mut fmt::Formatter<'_>) -> fmt::Result {
        match self {
            Self::Bytes(bytes) => write!(f, "{} bytes", grouped(*bytes)),
            Self::Cells(cells) => write!(f, "{} cells", grouped(*cells)),
            Self::Shuffled(cells) => write!(f, "{} cells shuffled", grouped(*cells)),
        }
    }
}

/// A case's name.
#[derive(Clone, Copy, Debug, PartialEq, Eq)]
pub struct Key {
    pub implementation: Implementation,
    pub setting: Setting,
    /// A name in the table of calls, or in that of the store's.
    pub call: &'static str,
    pub size: Size,
}

impl Key {
    /// That of a call by its name.
    pub fn new(
        implementation: Implementation,
        setting: Setting,
        call: &'static str,
        size: Size,
    ) -> Self {
        Self {
            implementation,
            setting,
            call,
            size,
        }
    }
}

impl fmt::Display for Key {
    fn fmt(&self, f: &mut fmt::Formatter<'_>) -> fmt::Result {
        write!(f, "{}: ", self.implementation)?;
        if let Some(setting) = self.setting {
            write!(f, "{}, ", setting_name(setting))?;
        }
        write!(f, "{}, {}", self.call, self.size)
    }
}

/// All cases that are wanted. Those that are compared stand side by side.
pub fn all(sodium: Option<&Sodium>, wanted: &dyn Fn(Key) -> bool) -> Vec<Case> {
    let mut cases = Vec::new();
    let lengths = [0].into_iter().chain(LENGTHS);
    for call in calls::all() {
        for len in lengths.clone() {
            for setting in reference::settings() {
                cases.extend(call.cases(setting, len, wanted));
            }
            let sodium = sodium.iter();
            cases.extend(sodium.flat_map(|sodium| sodium.cases(&call, len, wanted)));
        }
    }
    cases.extend(lengths.flat_map(|len| diagnoses::all(len, wanted)));
    cases.extend(stores::all(wanted));
    cases
}
