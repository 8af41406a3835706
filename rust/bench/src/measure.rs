//! Timing the cases in turn.

use crate::cases::Key;
use crate::counter::count;
use std::hint::black_box;
use std::time::Instant;

/// A batch of calls takes about this many cycles or more, well above the cost of the two readings.
const BATCH_CYCLES: u64 = 100_000;

/// A case: its key, the call it measures and what that has to answer.
pub struct Case {
    key: Key,
    wanted: u64,
    call: Box<dyn FnMut() -> u64>,
}

impl Case {
    /// The case of `key`, which is said where the call does not answer what is wanted.
    pub fn new(key: Key, wanted: u64, call: impl FnMut() -> u64 + 'static) -> Self {
        let call = Box::new(call);
        Self { key, wanted, call }
    }

    /// Makes the call, and tells whether it answered what it has to.
    fn make(&mut self) -> bool {
        black_box((self.call)()) == self.wanted
    }
}

/// The cycles per call of every case, batch by batch.
pub struct Samples {
    series: Vec<(Key, Vec<f64>)>,
}

impl Samples {
    /// Samples that nothing was timed for.
    #[cfg(test)]
    pub fn made_up(series: Vec<(Key, Vec<f64>)>) -> Self {
        Self { series }
    }

    /// What was timed.
    pub fn keys(&self) -> impl Iterator<Item = Key> + '_ {
        self.series.iter().map(|(key, _)| *key)
    }

    /// Times `batches` batches of every case. The cases take turns, so that what slows the machine
    /// for a while slows them all.
    ///
    /// # Errors
    ///
    /// The case of a call that does not answer what it has to.
    pub fn take(cases: &mut [Case], batches: usize) -> Result<Self, String> {
        let sizes: Vec<u64> = cases.iter_mut().map(batch_size).collect::<Result<_, _>>()?;
        let mut series: Vec<(Key, Vec<f64>)> =
            cases.iter().map(|case| (case.key, Vec::new())).collect();
        let begin = Instant::now();
        for batch in 1..=batches {
            for ((case, size), (_, samples)) in cases.iter_mut().zip(&sizes).zip(&mut series) {
                samples.push(time(case, *size)? as f64 / *size as f64);
            }
            if batch % 100 == 0 {
                let seconds = begin.elapsed().as_secs_f64();
                eprintln!("bench: {batch} of {batches} batches, {seconds:.0} s");
            }
        }
        Ok(Self { series })
    }

    fn of(&self, key: Key) -> Option<&[f64]> {
        let found = self.series.iter().find(|(k, _)| *k == key);
        found.map(|(_, samples)| samples.as_slice())
    }

    /// The median cycles per call.
    pub fn cycles(&self, key: Key) -> Option<f64> {
        self.of(key).map(|samples| median(samples.to_vec()))
    }

    /// That of the cases which takes the least time, by the medians; nothing where one was not timed.
    pub fn quickest(&self, keys: &[Key]) -> Option<Key> {
        let times = keys.iter().map(|&key| Some((self.cycles(key)?, key)));
        let times: Vec<(f64, Key)> = times.collect::<Option<_>>()?;
        let least = times
            .into_iter()
            .min_by(|one, other| one.0.total_cmp(&other.0));
        least.map(|(_, key)| key)
    }

    /// The median, over the batches, of one case's time by the sum of others'. One that is named
    /// twice counts twice.
    pub fn ratio(&self, key: Key, by: &[Key]) -> Option<f64> {
        self.median_of(&[&[key], by].concat(), |times| {
            times[0] / times[1..].iter().sum::<f64>()
        })
    }

    /// The median, over the batches, of how the time grows from one case to another, by how it grows
    /// from a third to a fourth.
    pub fn growth(&self, from: Key, to: Key, by: [Key; 2]) -> Option<f64> {
        self.median_of(&[from, to, by[0], by[1]], |times| {
            (times[1] / times[0]) / (times[3] / times[2])
        })
    }

    /// The median, over the batches, of what is made of the cases' times.
    fn median_of(&self, keys: &[Key], figure: impl Fn(&[f64]) -> f64) -> Option<f64> {
        let series: Vec<&[f64]> = keys
            .iter()
            .map(|&key| self.of(key))
            .collect::<Option<_>>()?;
        let batches = 0..series.first()?.len();
        let times =
            |batch: usize| -> Vec<f64> { series.iter().map(|samples| samples[batch]).collect() };
        let figures = batches.map(|batch| figure(&times(batch)));
        Some(median(figures.collect()))
    }
}

fn batch_size(case: &mut Case) -> Result<u64, String> {
    let mut cycles = u64::MAX;
    for _ in 0..5 {
        cycles = cycles.min(time(case, 1)?);
    }
    Ok((BATCH_CYCLES / cycles.max(1)).max(1))
}

/// The cycles of `calls` calls, after one that brings code and buffers into the caches.
fn time(case: &mut Case, calls: u64) -> Result<u64, String> {
    let mut sound = case.make();
    let begin = count();
    for _ in 0..calls {
        sound &= case.make();
    }
    let cycles = count() - begin;
    let name = case.key;
    sound
        .then_some(cycles)
        .ok_or_else(|| format!("{name}: a timed call does not answer what it has to"))
}

fn median(mut values: Vec<f64>) -> f64 {
    values.sort_by(f64::total_cmp);
    values[values.len() / 2]
}

#[cfg(test)]
mod tests {
    use super::*;
    use crate::cases::{Implementation, Size};

    #[test]
    fn a_ratio_is_by_the_sum_of_the_others_in_the_same_batch() {
        let [whole, one, other, none] = [1, 2, 3, 4]
            .map(|len| Key::new(Implementation::Library, None, "seal", Size::Bytes(len)));
        let samples = Samples::made_up(vec![
            (whole, vec![30.0, 4.0, 60.0]),
            (one, vec![10.0, 1.0, 5.0]),
            (other, vec![5.0, 2.0, 15.0]),
        ]);
        assert_eq!(samples.ratio(whole, &[one]), Some(4.0));
        assert_eq!(samples.ratio(whole, &[one, other]), Some(2.0));
        assert_eq!(samples.ratio(whole, &[one, one, other]), Some(1.2));
        assert_eq!(samples.ratio(whole, &[one, none]), None);
        assert_eq!(samples.ratio(none, &[one]), None);
    }

    #[test]
    fn growth_is_by_that_of_the_quicker() {
        let [small, large, one, other] = [1, 2, 3, 4]
            .map(|len| Key::new(Implementation::Library, None, "seal", Size::Bytes(len)));
        let samples = Samples::made_up(vec![
            (small, vec![1.0, 3.0, 4.0]),
            (large, vec![8.0, 8.0, 80.0]),
            (one, vec![1.0, 2.0, 2.0]),
            (other, vec![2.0, 2.0, 9.0]),
        ]);
        assert_eq!(samples.quickest(&[large, one, small]), Some(one));
        assert_eq!(samples.growth(small, large, [one, other]), Some(4.0));
    }
}
