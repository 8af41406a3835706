//! Which refusals of which entry points a run met.

use crate::call::Call;
use crate::entry::Entry;
use crate::report::Tally;
use std::collections::BTreeMap;

/// Calls by entry point and refusal, 0 for none.
pub struct Met(BTreeMap<(&'static str, u32), u64>);

impl Met {
    /// Every refusal that one of `entries` can give, met by no call yet.
    pub fn new(entries: impl Iterator<Item = &'static Entry>) -> Self {
        let numbers = |entry: &'static Entry| {
            let numbers = [0].iter().chain(entry.refused);
            numbers.map(|&number| ((entry.name, number), 0))
        };
        Self(entries.flat_map(numbers).collect())
    }

    /// Counts a call by its answer.
    pub fn add(&mut self, call: &Call, answer: u64) {
        let number = (answer >> 32) as u32;
        *self.0.entry((call.entry.name, number)).or_default() += 1;
    }

    /// Prints a line for each entry point.
    pub fn show(&self) {
        let mut lines: BTreeMap<&str, Vec<String>> = BTreeMap::new();
        for ((name, number), count) in &self.0 {
            let counts = lines.entry(name).or_default();
            counts.push(format!("{number}: {count}"));
        }
        for (name, counts) in lines {
            println!("  {name} by refusal, 0 for none: {}", counts.join(", "));
        }
    }

    /// Counts a refusal that no call met as failed.
    pub fn all(&self, tally: &mut Tally) {
        for ((name, number), count) in &self.0 {
            tally.record(*count > 0, || {
                format!("{name}: no call met refusal {number}")
            });
        }
    }
}
