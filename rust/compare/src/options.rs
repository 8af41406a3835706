//! What the command line asks for.

use std::path::PathBuf;
use std::str::FromStr;

pub const USAGE: &str = "\
usage: compare [OPTIONS] CHECK...
       compare [OPTIONS] vectors FILE...

checks:
  known       known answers, and lengths at their limits
  grounds     every set of grounds that hold at once, and every round count
  edges       lengths around the edges of blocks and limits
  damage      parcels damaged in every way
  diagnose    every setting asked of parcels under every setting, damaged ones too
  run         seal and open by a run of words, over counts of whole blocks
  masks       orders of steps, jumps, runs of words, and the paper's polynomial
  guard       every buffer at the edge of a page that can't be touched
  random      random calls of all but the store
  store       histories of sale stores, held against a ledger too
  store-damage
              stores damaged in every way, and all shapes of small ones
  all         all of the above
  maskwalk    the program given by --maskwalk, on hundreds of inputs
  permute     the permutation of the scalar C version, 0 to 12 rounds
  vectors     the cases of each FILE, calls and their answers as text

options:
  --library archive|baseline|reference
                      what is compared [archive]; the second implementation itself is
                      held against known answers and vectors only
  --seed N            seed of the random choices [1]
  --calls N           number of random calls [200000]
  --maskwalk PATH     the program maskwalk
  --known-only        skip the cases of calls that are not known here, instead of failing";

/// What 'all' stands for.
const ALL: [&str; 11] = [
    "known",
    "grounds",
    "edges",
    "damage",
    "diagnose",
    "run",
    "masks",
    "guard",
    "random",
    "store",
    "store-damage",
];

/// Checks whose answers do not come from the second implementation, so that it can be held
/// against them.
const FIXED: [&str; 3] = ["known", "vectors", REPLAY_CHILD];

/// The child of the check guard.
pub const GUARD_CHILD: &str = "guard-child";
/// The child of the check vectors.
pub const REPLAY_CHILD: &str = "replay-child";

/// What is asked for.
pub struct Options {
    pub library: String,
    pub seed: u64,
    pub calls: u64,
    pub maskwalk: Option<PathBuf>,
    pub known_only: bool,
    pub checks: Vec<String>,
    /// The files of vectors.
    pub files: Vec<String>,
}

/// Takes the arguments in.
pub fn parse(mut args: impl Iterator<Item = String>) -> Result<Options, String> {
    let mut options = Options {
        library: "archive".into(),
        seed: 1,
        calls: 200_000,
        maskwalk: None,
        known_only: false,
        checks: Vec::new(),
        files: Vec::new(),
    };
    while let Some(arg) = args.next() {
        let mut value = || args.next().ok_or_else(|| format!("{arg} needs a value"));
        match arg.as_str() {
            "--library" => options.library = value()?,
            "--seed" => options.seed = number(&value()?)?,
            "--calls" => options.calls = number(&value()?)?,
            "--maskwalk" => options.maskwalk = Some(value()?.into()),
            "--known-only" => options.known_only = true,
            option if option.starts_with('-') => return Err(format!("no option '{option}'")),
            _ => options.positional(arg),
        }
    }
    options.hold_together().map(|()| options)
}

impl Options {
    /// A check, or a file behind a check that takes files.
    fn positional(&mut self, arg: String) {
        if self.takes_files() {
            self.files.push(arg);
        } else if arg == "all" {
            self.checks.extend(ALL.map(String::from));
        } else {
            self.checks.push(arg);
        }
    }

    fn takes_files(&self) -> bool {
        let last = self.checks.last().map(String::as_str);
        matches!(last, Some("vectors" | REPLAY_CHILD))
    }

    fn hold_together(&self) -> Result<(), String> {
        if self.checks.is_empty() {
            return Err("no check named".into());
        }
        if self.takes_files() && self.files.is_empty() {
            return Err("vectors needs a file".into());
        }
        let fixed = |check: &String| FIXED.contains(&check.as_str());
        if self.library == "reference" && !self.checks.iter().all(fixed) {
            return Err("the second implementation is not held against itself".into());
        }
        Ok(())
    }
}

fn number<T: FromStr>(text: &str) -> Result<T, String> {
    text.parse()
        .map_err(|_| format!("'{text}' is not a number"))
}
