//! Cycles per byte and per call: the library's engines and archives beside the second
//! implementation, a version in scalar C, one of OPP by AVX2, libsodium's ciphers and the paper's
//! figures; and the calls of the store beside the scalar C.

mod buffer;
mod calls;
mod cases;
mod counter;
mod csv;
mod diagnoses;
mod measure;
mod paper;
mod plot;
mod ratios;
mod report;
mod sealing;
mod setup;
mod sodium;
mod stores;
mod table;
mod verdicts;
mod wide;

use measure::Samples;
use ratios::Ratio;
use setup::Setup;
use sodium::Sodium;
use std::fs;
use std::path::{Path, PathBuf};
use std::process::ExitCode;

const USAGE: &str = "\
usage: bench [OPTIONS]

options:
  --docs FOLDER   write BENCHMARKS.md, benchmarks.csv and benchmarks.svg there
  --gate FILE     the gate's times: a line for each crate, and one for the whole, its name and its seconds
  --batches N     batches of calls for each figure [500]; 0 makes each call and measures nothing

The status is 1 where a timed call does not answer what it has to, or where a ratio is above
its bound or was not measured, and 2 where the benchmarks could not run. An aim that is not
reached changes no status.";

/// So often are ratios above their bounds measured again.
const AGAIN: usize = 3;

/// What is asked for.
struct Options {
    docs: Option<PathBuf>,
    gate: Vec<(String, u64)>,
    batches: usize,
}

fn main() -> ExitCode {
    let options = match parse(std::env::args().skip(1)) {
        Ok(options) => options,
        Err(message) => {
            eprintln!("bench: {message}\n\n{USAGE}");
            return ExitCode::from(2);
        }
    };
    let (messages, status) = outcome(run(options));
    for message in messages {
        eprintln!("bench: {message}");
    }
    ExitCode::from(status)
}

/// The lines and the status that the program ends with: what is wrong, or that it could not run.
fn outcome(faults: Result<Vec<String>, String>) -> (Vec<String>, u8) {
    match faults {
        Ok(faults) => {
            let status = u8::from(!faults.is_empty());
            (faults, status)
        }
        Err(message) => (vec![message], 2),
    }
}

fn parse(mut args: impl Iterator<Item = String>) -> Result<Options, String> {
    let mut options = Options {
        docs: None,
        gate: Vec::new(),
        batches: 500,
    };
    while let Some(option) = args.next() {
        let value = args
            .next()
            .ok_or_else(|| format!("{option} needs a value"))?;
        match option.as_str() {
            "--docs" => options.docs = Some(value.into()),
            "--gate" => options.gate = setup::gate_times(&value)?,
            "--batches" => options.batches = batches(&value)?,
            _ => return Err(format!("no option '{option}'")),
        }
    }
    Ok(options)
}

fn batches(text: &str) -> Result<usize, String> {
    let number = text.parse();
    number.map_err(|_| format!("no number of batches: {text}"))
}

/// Measures, writes the page, and gives back what is wrong: a call, or ratios above their bounds.
fn run(options: Options) -> Result<Vec<String>, String> {
    let sodium = Sodium::load();
    if sodium.is_none() {
        eprintln!("bench: no libsodium found: install libsodium-dev for its rows");
    }
    for missing in wide::all_missing() {
        eprintln!("bench: {missing}");
    }
    let (sodium, batches) = (sodium.as_ref(), options.batches);
    let (samples, ratios) = match measured(sodium, batches) {
        Ok(measured) => measured,
        Err(fault) => return Ok(vec![fault]),
    };
    if batches == 0 {
        return Ok(Vec::new());
    }
    let setup = Setup::here(sodium, batches, options.gate);
    let page = report::page(&setup, &samples, &ratios);
    print!("{page}");
    if let Some(docs) = options.docs {
        write(&docs, "BENCHMARKS.md", &page)?;
        write(
            &docs,
            "benchmarks.csv",
            &csv::rows(&setup, &samples, &ratios),
        )?;
        write(&docs, "benchmarks.svg", &plot::svg(&samples))?;
    }
    eprintln!("bench: {}", summary(&ratios));
    Ok(faults(&ratios))
}

/// How many ratios are above their bounds, and how many reach their aims.
fn summary(ratios: &[Ratio]) -> String {
    let above = ratios.iter().filter(|ratio| ratio.is_above()).count();
    let aims: Vec<bool> = ratios.iter().filter_map(Ratio::reaches).collect();
    let reached = aims.iter().filter(|&&reached| reached).count();
    let (all, aims) = (ratios.len(), aims.len());
    format!("{all} ratios, {above} above their bounds; {reached} of {aims} aims reached")
}

/// Times all calls, and once more those whose ratios are above their bounds, of which the least counts.
fn measured(sodium: Option<&Sodium>, batches: usize) -> Result<(Samples, Vec<Ratio>), String> {
    let samples = Samples::take(&mut cases::all(sodium, &|_| true), batches)?;
    if batches == 0 {
        return Ok((samples, Vec::new()));
    }
    let mut ratios = Ratio::all(&samples);
    for _ in 0..AGAIN {
        let above = ratios.iter_mut().filter(|ratio| ratio.is_above());
        let mut above: Vec<&mut Ratio> = above.filter(|ratio| ratio.measured.is_some()).collect();
        if above.is_empty() {
            break;
        }
        eprintln!("bench: above their bounds, measured again: {}", above.len());
        let needed = |key| above.iter().any(|ratio| ratio.needs(key));
        let again = Samples::take(&mut cases::all(sodium, &needed), batches)?;
        above.iter_mut().for_each(|ratio| ratio.again(&again));
    }
    Ok((samples, ratios))
}

/// What got worse: a line for each ratio above its bound. An aim is none.
fn faults(ratios: &[Ratio]) -> Vec<String> {
    ratios.iter().filter_map(Ratio::fault).collect()
}

fn write(folder: &Path, name: &str, text: &str) -> Result<(), String> {
    let path = folder.join(name);
    fs::write(&path, text).map_err(|error| format!("{}: {error}", path.display()))
}

#[cfg(test)]
mod tests {
    use super::*;
    use crate::cases::{Implementation, Key};

    /// The lines and the status where one call, sealing with OPP and four rounds from a run on the
    /// archive for x86-64-v3, takes so long, and each call that needs AVX2 40 and each other 100.
    fn ends(time: f64) -> (Vec<String>, u8) {
        let seal = |key: Key| (key.call, key.setting) == (calls::SEAL, Some((reference::OPP, 4)));
        let ratios = Ratio::made_up(|key| match key.implementation {
            Implementation::WideRun if seal(key) => Some(time),
            who if who.needs_avx2() => Some(40.0),
            _ => Some(100.0),
        });
        outcome(Ok(faults(&ratios)))
    }

    #[test]
    fn a_ratio_above_its_bound_fails_and_is_named() {
        let (lines, status) = ends(48.0);
        assert_eq!(status, 1);
        let worse =
            "got worse: Calmbaize, x86-64-v3, run: OPP, 4 rounds, seal, 65,536 bytes, by AVX2 C";
        let by_cc = format!("{worse}: 1.200, above its bound of 1.15");
        let by_clang = format!("{worse} by clang: 1.200, above its bound of 1.10");
        assert_eq!(lines, [by_cc, by_clang]);
    }

    #[test]
    fn an_aim_that_is_missed_fails_nothing() {
        for time in [40.0, 43.0] {
            assert_eq!(ends(time), (Vec::new(), 0), "{time}");
        }
    }

    #[test]
    fn what_could_not_run_is_told_apart() {
        assert_eq!(outcome(Err("why".into())), (vec!["why".into()], 2));
    }
}
