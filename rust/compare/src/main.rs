//! Holds the proved library, or the scalar C version, against the second implementation, and any
//! of the three against answers written down.
//!
//! The last line is 'N passed, M failed', and the exit status is 1 where anything failed.

mod call;
mod calls;
mod case;
mod child;
mod conversion;
mod damage;
mod diagnosis;
mod edges;
mod entry;
mod good;
mod grounds;
mod guard;
mod known;
mod library;
mod masks;
mod maskwalk;
mod met;
mod options;
mod pages;
mod prng;
mod random;
mod replay;
mod report;
mod runs;
mod stores;
mod text;

use library::{Library, ARCHIVE};
use options::{Options, GUARD_CHILD, REPLAY_CHILD, USAGE};
use prng::Prng;
use report::Tally;
use std::process::ExitCode;
use std::time::Instant;

fn main() -> ExitCode {
    match options::parse(std::env::args().skip(1)).and_then(|options| run(&options)) {
        Ok(status) => status,
        Err(message) => {
            eprintln!("compare: {message}\n\n{USAGE}");
            ExitCode::from(2)
        }
    }
}

fn run(options: &Options) -> Result<ExitCode, String> {
    let library = match options.library.as_str() {
        "archive" => ARCHIVE.ok_or("built without the archive: use --library baseline")?,
        "baseline" => Library::Baseline,
        "reference" => Library::Reference,
        other => return Err(format!("no library '{other}'")),
    };
    match options.checks[0].as_str() {
        GUARD_CHILD => guard::child(library),
        REPLAY_CHILD => replay::child(library, &read(&options.files[0])?),
        _ => return all_checks(library, options),
    }
    Ok(ExitCode::SUCCESS)
}

fn all_checks(library: Library, options: &Options) -> Result<ExitCode, String> {
    println!("{}, seed {}", options.library, options.seed);
    let mut total = Tally::default();
    for name in &options.checks {
        let begin = Instant::now();
        let mut tally = check(name, library, options)?;
        if tally.passed + tally.failed == 0 {
            tally.record(false, || "nothing was checked".into());
        }
        println!("{name}: {} passed, {} failed", tally.passed, tally.failed);
        println!("  {:.1} s", begin.elapsed().as_secs_f64());
        total.add(&tally);
    }
    println!("{} passed, {} failed", total.passed, total.failed);
    Ok(ExitCode::from(u8::from(total.failed > 0)))
}

fn check(name: &str, library: Library, options: &Options) -> Result<Tally, String> {
    Ok(match name {
        "known" => known::run(library),
        "grounds" => grounds::run(library, options.seed),
        "edges" => edges::run(library, options.seed),
        "damage" => damage::run(library, options.seed),
        "diagnose" => diagnosis::run(library, options.seed),
        "run" => runs::run(library, options.seed),
        "masks" => masks::run(library, options.seed),
        "guard" => guard::run(&options.library),
        "store" => stores::history::run(library, options.seed),
        "store-damage" => stores::damage::run(library, options.seed),
        "random" => random::run(library, options.seed, options.calls),
        "permute" => permute(options.seed),
        "maskwalk" => {
            let program = options.maskwalk.as_deref();
            maskwalk::run(program.ok_or("maskwalk needs --maskwalk")?, options.seed)
        }
        "vectors" => vectors(options)?,
        _ => return Err(format!("no check '{name}'")),
    })
}

/// Every file, one after the other.
fn vectors(options: &Options) -> Result<Tally, String> {
    let mut total = Tally::default();
    for file in &options.files {
        read(file)?;
        println!("  {file}");
        total.add(&replay::run(&options.library, file, options.known_only));
    }
    Ok(total)
}

fn read(file: &str) -> Result<String, String> {
    std::fs::read_to_string(file).map_err(|error| format!("{file}: {error}"))
}

/// The one call of the scalar C version that the library does not have.
fn permute(seed: u64) -> Tally {
    let mut prng = Prng::new(seed);
    let mut tally = Tally::default();
    for n in 0..13_000 {
        let rounds = n % 13;
        let mut block: [u64; 16] = std::array::from_fn(|_| prng.next());
        let wanted = reference::permute(rounds, &block);
        // SAFETY: the pointer is to sixteen words.
        unsafe { baseline::baseline_permute(rounds, &mut block) };
        tally.record(block == wanted, || format!("{rounds} rounds"));
    }
    tally
}
