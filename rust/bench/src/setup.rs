//! Where, when and by which compilers it was measured.

use crate::counter;
use crate::sodium::Sodium;
use std::path::{Path, PathBuf};
use std::process::Command;
use std::time::{SystemTime, UNIX_EPOCH};
use std::{env, fs};

/// What stands at the head of the page.
pub struct Setup {
    pub date: String,
    pub processor: String,
    pub gigahertz: f64,
    pub batches: usize,
    pub versions: Versions,
    /// When the gate had proved each crate, and when the prover was done, in seconds from its start.
    pub gate: Vec<(String, u64)>,
}

impl Setup {
    /// That of this machine and moment.
    pub fn here(sodium: Option<&Sodium>, batches: usize, gate: Vec<(String, u64)>) -> Self {
        Self {
            date: date(),
            processor: processor(),
            gigahertz: counter::speed(),
            batches,
            versions: Versions::here(sodium),
            gate,
        }
    }
}

/// By what the measured code was made. The build script has asked the compilers that it and cargo take.
pub struct Versions {
    pub prover: String,
    /// The compiler in the prover's kit, which makes the archives.
    pub kit_clang: String,
    pub cc: String,
    pub clang: String,
    pub rustc: String,
    pub sodium: String,
}

impl Versions {
    fn here(sodium: Option<&Sodium>) -> Self {
        let [prover, kit_clang, cc, clang, rustc, sodium] = [
            first_line("rt".as_ref(), "version"),
            kits_clang().map_or(String::new(), |clang| first_line(&clang, "--version")),
            env!("BENCH_CC").into(),
            env!("BENCH_CLANG").into(),
            env!("BENCH_RUSTC").into(),
            sodium.map_or(String::new(), |sodium| sodium.version().into()),
        ]
        .map(|version| match version {
            version if version.is_empty() => "unknown".into(),
            version => version,
        });
        Self {
            prover,
            kit_clang,
            cc,
            clang,
            rustc,
            sodium,
        }
    }
}

/// The first line that a program prints, or nothing.
fn first_line(program: &Path, word: &str) -> String {
    let output = Command::new(program).arg(word).output();
    let printed = output.map_or(Vec::new(), |output| output.stdout);
    let printed = String::from_utf8_lossy(&printed);
    printed.lines().next().unwrap_or_default().into()
}

/// Where the prover's kit has its compiler, as tools/kit.sh finds it.
fn kits_clang() -> Option<PathBuf> {
    let path = env::var_os("PATH")?;
    let mut programs = env::split_paths(&path).map(|folder| folder.join("rt"));
    let rt = programs.find(|program| program.is_file())?;
    let rt = fs::canonicalize(rt).ok()?;
    let kit = rt.parent()?.parent()?;
    Some(kit.join("toolchain/bin/clang"))
}

/// The gate's times: a line for each crate, and one for the whole, its name and its seconds.
pub fn gate_times(path: &str) -> Result<Vec<(String, u64)>, String> {
    let text = fs::read_to_string(path).map_err(|error| format!("{path}: {error}"))?;
    let time = |line: &str| {
        let (name, seconds) = line.split_once(' ')?;
        Some((name.into(), seconds.trim().parse().ok()?))
    };
    let times = text.lines().map(|line| time(line).ok_or(line));
    let times: Result<_, &str> = times.collect();
    times.map_err(|line| format!("{path}: no name and seconds: {line}"))
}

fn processor() -> String {
    let info = fs::read_to_string("/proc/cpuinfo").unwrap_or_default();
    let mut models = info.lines().filter(|line| line.starts_with("model name"));
    let model = models.next().and_then(|line| line.split_once(": "));
    model
        .map_or("unknown processor", |(_, name)| name)
        .to_string()
}

/// Today's date in UTC, by the proleptic Gregorian calendar counted from 1 March of year 0.
fn date() -> String {
    let since = SystemTime::now()
        .duration_since(UNIX_EPOCH)
        .unwrap_or_default();
    let days = since.as_secs() / 86_400 + 719_468;
    let (era, day_of_era) = (days / 146_097, days % 146_097);
    let year_of_era =
        (day_of_era - day_of_era / 1460 + day_of_era / 36_524 - day_of_era / 146_096) / 365;
    let day_of_year = day_of_era - (365 * year_of_era + year_of_era / 4 - year_of_era / 100);
    let month_from_march = (5 * day_of_year + 2) / 153;
    let day = day_of_year - (153 * month_from_march + 2) / 5 + 1;
    let month = (month_from_march + 2) % 12 + 1;
    let year = era * 400 + year_of_era + u64::from(month <= 2);
    format!("{year}-{month:02}-{day:02}")
}
