//! Cases written as text, replayed.

use crate::calls;
use crate::case::{cases, Case};
use crate::child;
use crate::library::Library;
use crate::report::Tally;
use crate::text::shortened;

/// Replays a file in a child process, since its buffers end at pages that can't be touched. Where
/// `known_only` is set, cases of other calls are skipped; else they fail.
pub fn run(library: &str, file: &str, known_only: bool) -> Tally {
    let said = child::run(&["--library", library, "replay-child", file]);
    let mut tally = said.tally;
    for (word, cases) in said.unknown {
        let text = format!("{cases} cases of '{word}', a call that is not known here");
        if known_only {
            println!("  skipped: {text}");
        } else {
            println!("  failed: {text}");
            tally.failed += cases;
        }
    }
    if tally.passed + tally.failed == 0 {
        tally.record(false, || "no case was replayed".into());
    }
    tally
}

/// The child: replays every case of a file's `text`.
pub fn child(library: Library, text: &str) {
    match cases(text) {
        Ok(cases) => cases
            .into_iter()
            .for_each(|(line, call, answer)| one(library, line, call, answer)),
        Err(wrong) => {
            child::call("the file");
            child::outcome(Err(wrong));
        }
    }
    child::done();
}

fn one(library: Library, line: usize, call: &str, answer: &str) {
    let (word, fields) = call.split_once(' ').unwrap_or((call, ""));
    let Some(entry) = calls::ALL.into_iter().find(|entry| entry.name == word) else {
        return child::unknown(&shortened(word));
    };
    child::call(format_args!("line {line}, {word}"));
    child::outcome(Case::new(entry, fields).and_then(|case| case.replay(library, answer)));
}
