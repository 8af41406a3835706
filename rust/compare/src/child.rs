//! Calls that may end the program by a signal, made in a child process.
//!
//! The child names each call before it makes it and says afterwards what came of it, a line each.
//! Its last line is `done`, so that one that ends early is seen, whatever its status is.

use crate::report::Tally;
use std::collections::BTreeMap;
use std::fmt::Display;
use std::io::{BufRead, BufReader};
use std::process::{Command, Stdio};

/// What a child said.
#[derive(Default)]
pub struct Said {
    pub tally: Tally,
    /// Cases not replayed, by the word of their call.
    pub unknown: BTreeMap<String, u64>,
    last: String,
    done: bool,
}

impl Said {
    fn line(&mut self, line: &str) {
        let (word, rest) = line.split_once(' ').unwrap_or((line, ""));
        match word {
            "call" => self.last = rest.into(),
            "passed" => self.tally.record(true, String::new),
            "failed" => self
                .tally
                .record(false, || format!("{}: {rest}", self.last)),
            "unknown" => *self.unknown.entry(rest.into()).or_default() += 1,
            "done" => self.done = true,
            _ => self
                .tally
                .record(false, || format!("a child said '{line}'")),
        }
    }
}

/// Runs this program again with `args`.
pub fn run(args: &[&str]) -> Said {
    let program = std::env::current_exe().expect("this program's path");
    let mut child = Command::new(program)
        .args(args)
        .stdout(Stdio::piped())
        .spawn()
        .expect("this program starts again");
    let stdout = child.stdout.take().expect("a piped standard output");
    let mut said = Said::default();
    for line in BufReader::new(stdout).lines().map_while(Result::ok) {
        said.line(&line);
    }
    let status = child.wait().expect("the child's status");
    if !(said.done && status.success()) {
        let last = std::mem::take(&mut said.last);
        let ended =
            || format!("{last}: the call did not return ({status}), nor was one made after it");
        said.tally.record(false, ended);
    }
    said
}

/// The child's part: `name` before a call.
pub fn call(name: impl Display) {
    println!("call {name}");
}

/// What came of it; `failure` says what was wrong.
pub fn outcome(result: Result<(), String>) {
    match result {
        Ok(()) => println!("passed"),
        Err(failure) => println!("failed {failure}"),
    }
}

/// Instead of both: a case whose call this program does not know.
pub fn unknown(word: &str) {
    println!("unknown {word}");
}

/// After the last call.
pub fn done() {
    println!("done");
}
