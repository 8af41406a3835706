//! The page of results, for a reader. All figures are in the table beside it.

use crate::calls::{CONVERT, OPEN, OPEN_OLD, SEAL};
use crate::cases::Implementation::{
    self, AesGcm, Avx2C, Avx2Clang, Library, LibraryRun, Reference, ScalarC, Wide, WideRun, XChaCha,
};
use crate::cases::{setting_name, Key, Setting, Size, LENGTHS, LONG};
use crate::counter;
use crate::measure::Samples;
use crate::paper;
use crate::ratios::{Ratio, MARKS, QUICKEST};
use crate::setup::Setup;
use crate::stores::{CALLS, SIZES};
use crate::table::{grouped, Table};
use crate::verdicts;
use crate::wide;
use reference::{MRO, OPP};
use std::fmt::Write;

/// What stands below the figures of long messages.
const NAMES: &str = "Calmbaize alone is the stepping engine on the archive in `dist/`: `calmbaize_seal`, \
    `calmbaize_open`, and what opens and converts parcels of the old start. \"run\" is the run engine, \
    `calmbaize_seal_run` and `calmbaize_open_run`, and x86-64-v3 the archive in `dist/x86-64-v3/`; each call \
    grows its run of words. The AVX2 C is OPP written by hand with intrinsics, four blocks side by side \
    (`c/avx2.c`), with the arguments of the run engine's calls; it grows the same run. The paper's figures \
    are of its AVX2 code on Haswell, for sealing and opening alike.\n\n";

/// What stands below the figures of the store.
const STORES: &str = "In brackets the time by the C that looks at every store by marks, and by the quickest C, \
    which as Calmbaize sees a sound store without (`c/store.c`, compiled twice). Half of the cells are sales. \
    Cancel, read and look-up are of the sale that is last in its chain. Sales have a price; where they are of both \
    kinds, those in every other cell have none. The cells that a call changes are put back before \
    the next, which is timed with it. The reads of damaged stores are refused; a long chain has all cells, or all \
    but one.\n\n";

/// The page, as Markdown.
pub fn page(setup: &Setup, samples: &Samples, ratios: &[Ratio]) -> String {
    let mut page = heading(setup);
    let long = format!("Cycles per byte, {LONG}");
    section(&mut page, &long, &long_messages(samples), NAMES);
    for missing in wide::all_missing() {
        write!(page, "Here {missing}.\n\n").expect("a string takes all");
    }
    section(
        &mut page,
        "Cycles per call, 13 bytes",
        &short_messages(samples),
        "",
    );
    let title = "Other implementations, sealing, cycles per byte over the message's bytes";
    section(&mut page, title, &others(samples), "");
    let title = "The store, cycles per call";
    section(&mut page, title, &stores(samples), STORES);
    section(
        &mut page,
        "Bounds and aims",
        &verdicts::table(ratios),
        verdicts::TEXT,
    );
    gate(&mut page, &setup.gate);
    page
}

fn heading(setup: &Setup) -> String {
    let versions = &setup.versions;
    format!(
        "# Benchmarks\n\n\
         Measured on {} on an {} by `make bench`. Cycles are those of {}, {:.2} GHz. Each figure is the \
         median of {} batches of calls; all take turns batch by batch. Headers are empty.\n\n\
         The archives are by {} of the prover's kit ({}), the C by {}, the AVX2 C and the \
         store's once more by {}, the second implementation by {}; libsodium {}.\n\n\
         ![Cycles per byte over length](benchmarks.svg)\n\n\
         [benchmarks.csv](benchmarks.csv) has all figures: every call at every length, every ratio, and the \
         gate's seconds by crate.\n\n",
        setup.date,
        setup.processor,
        counter::NAME,
        setup.gigahertz,
        setup.batches,
        versions.kit_clang,
        versions.prover,
        versions.cc,
        versions.clang,
        versions.rustc,
        versions.sodium,
    )
}

fn section(page: &mut String, title: &str, table: &Table, text: &str) {
    write!(page, "## {title}\n\n{table}\n{text}").expect("a string takes all");
}

/// Which figure of which call stands in a column.
type Column = (Implementation, &'static [&'static str]);

/// Every mode and round count, the figures of a column's calls side by side.
fn by_setting(
    columns: &[Column],
    figure: impl Fn(Key) -> Option<String>,
    size: Size,
) -> Vec<Vec<String>> {
    let row = |setting| {
        let cell = |&(implementation, calls): &Column| {
            let key = |&call| Key::new(implementation, Some(setting), call, size);
            let figures: Option<Vec<String>> = calls.iter().map(|call| figure(key(call))).collect();
            figures.map_or(String::new(), |figures| figures.join(" / "))
        };
        [setting_name(setting)]
            .into_iter()
            .chain(columns.iter().map(cell))
            .collect()
    };
    reference::settings().map(row).collect()
}

fn headed(columns: &[Column]) -> Vec<String> {
    let name =
        |(implementation, calls): &Column| format!("{implementation}: {}", calls.join(" / "));
    [String::new()]
        .into_iter()
        .chain(columns.iter().map(name))
        .collect()
}

/// A case's cycles per byte.
fn per_byte(samples: &Samples, key: Key) -> Option<String> {
    let cycles = samples.cycles(key)?;
    Some(format!("{:.2}", cycles / key.size.bytes() as f64))
}

/// A case's cycles.
fn per_call(samples: &Samples, key: Key) -> Option<String> {
    let cycles = samples.cycles(key)?;
    Some(grouped(cycles.round() as usize))
}

const BOTH: &[&str] = &[SEAL, OPEN];

fn long_messages(samples: &Samples) -> Table {
    let columns = [
        (Library, BOTH),
        (Library, &[OPEN_OLD, CONVERT]),
        (LibraryRun, BOTH),
        (WideRun, BOTH),
        (ScalarC, BOTH),
        (Avx2C, BOTH),
        (Avx2Clang, BOTH),
    ];
    let mut heading = headed(&columns);
    heading.push("the paper's AVX2".into());
    let mut table = Table::new(1, heading);
    let rows = by_setting(&columns, |key| per_byte(samples, key), LONG);
    for (mut row, setting) in rows.into_iter().zip(reference::settings()) {
        row.push(paper::avx2(setting).map_or(String::new(), |figure| format!("{figure:.2}")));
        table.row(row);
    }
    table
}

fn short_messages(samples: &Samples) -> Table {
    let who = [
        Library, LibraryRun, Wide, WideRun, ScalarC, Avx2C, Avx2Clang,
    ];
    let columns = who.map(|who| (who, BOTH));
    let mut table = Table::new(1, headed(&columns));
    let rows = by_setting(
        &columns,
        |key| per_call(samples, key),
        Size::Bytes(LENGTHS[0]),
    );
    rows.into_iter().for_each(|row| table.row(row));
    table
}

/// Who seals, over all lengths. Those without a figure have no row.
fn others(samples: &Samples) -> Table {
    let [opp, mro] = [Some((OPP, 4)), Some((MRO, 6))];
    let all: [(Setting, &[Implementation]); 3] = [
        (
            opp,
            &[Library, WideRun, ScalarC, Avx2C, Avx2Clang, Reference],
        ),
        (mro, &[Library, WideRun, ScalarC, Reference]),
        (None, &[XChaCha, AesGcm]),
    ];
    let names = ["", "implementation"].map(String::from).into_iter();
    let mut table = Table::new(2, names.chain(LENGTHS.map(grouped)).collect());
    for (setting, implementations) in all {
        let name = setting.map_or("libsodium".into(), setting_name);
        for &who in implementations {
            let key = |&len| Key::new(who, setting, SEAL, Size::Bytes(len));
            let figures = LENGTHS.iter().map(|len| per_byte(samples, key(len)));
            if let Some(figures) = figures.collect::<Option<Vec<String>>>() {
                let names = [name.clone(), who.to_string()].into_iter();
                table.row(names.chain(figures).collect());
            }
        }
    }
    table
}

/// Calmbaize's cycles, and in brackets the ratios to the C versions.
fn stores(samples: &Samples) -> Table {
    let sizes = SIZES.map(|size| size.to_string());
    let mut table = Table::new(1, [String::new()].into_iter().chain(sizes).collect());
    for call in &CALLS {
        let figures = SIZES.map(|size| {
            let key = Key::new(Library, None, call.name, size);
            let cycles = per_call(samples, key)?;
            let [marks, quickest] = [&MARKS, &QUICKEST].map(|builds| builds.ratio(samples, key));
            Some(format!("{cycles} ({:.2}, {:.2})", marks?, quickest?))
        });
        let figures = figures.map(Option::unwrap_or_default);
        table.row([call.name.to_string()].into_iter().chain(figures).collect());
    }
    table
}

/// When all crates were proved, and when the prover was done with all.
fn gate(page: &mut String, times: &[(String, u64)]) {
    if times.is_empty() {
        return;
    }
    let (whole, proofs): (Vec<_>, Vec<_>) = times.iter().partition(|(name, _)| name == "whole");
    let [proved, done] = [&proofs, &whole].map(|times| {
        let last = times.iter().map(|(_, seconds)| *seconds as usize).max();
        grouped(last.unwrap_or_default())
    });
    write!(
        page,
        "## The gate's time\n\n\
         All {} crates were proved after {proved} s, beside tries of must-fail edits. The other edits were tried, and the tests and the program run, after {done} s. Nothing was kept from an earlier run.\n",
        proofs.len(),
    )
    .expect("a string takes all");
}
