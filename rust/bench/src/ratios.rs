//! The ratios of times that have a bound, and those that have an aim beside it.
//!
//! A bound guards against a fall: above it the benchmarks fail. An aim is what is hoped for: it is
//! shown as reached or not, and fails nothing.

use crate::calls::{
    CONVERT, CONVERT_DONE, CONVERT_REFUSED, OPEN, OPEN_OLD, OPEN_OLD_REFUSED, OPEN_REFUSED, SEAL,
};
use crate::cases::Implementation::{
    Avx2C, Avx2Clang, Library, LibraryRun, MarksC, MarksClang, ScalarC, ScalarClang, WideRun,
    XChaCha,
};
use crate::cases::Size::{Bytes, Cells, Shuffled};
use crate::cases::{Implementation, Key, Setting, Size, LONG};
use crate::diagnoses;
use crate::measure::Samples;
use crate::stores::*;
use crate::wide;
use reference::{Start, MRO, OPP};
use std::fmt;

/// Calls of an implementation, what their time is held against, the most that it may be of that, and
/// the most that it is hoped to be.
pub struct Bound {
    of: Implementation,
    calls: &'static [&'static str],
    over: Over,
    sizes: &'static [Size],
    by: By,
    pub most: f64,
    pub aim: Option<f64>,
    /// What its calls and sizes are called, where they are not named one by one.
    named: &'static str,
}

/// With which settings.
#[derive(Clone, Copy)]
enum Over {
    All,
    Opp,
    /// Both modes with twelve rounds.
    Twelve,
    /// As a sale record is sealed.
    Sale,
    /// A store has none, and a diagnosis goes over several.
    Without,
}

/// What a time is held against.
#[derive(Clone, Copy)]
enum By {
    /// The same call of another.
    Who(Implementation),
    /// Other calls with the same settings and size, their times added up.
    Calls(&'static [&'static str]),
    /// Refused opens under the settings that the diagnosis tries, their times added up.
    Tried,
    /// The same call with so many rounds.
    Rounds(u32),
    /// The same call of one version, as the compiler that makes it quicker does.
    Quicker(&'static Builds),
    /// How the same call of that grows from stores of [`SMALLER`]; the time's own growth is held
    /// against it.
    Growth(&'static Builds),
}

/// A version of the store in C, by each compiler.
pub struct Builds {
    name: &'static str,
    by: [Implementation; 2],
}

/// That in c/store.c.
pub static QUICKEST: Builds = Builds {
    name: "quickest C",
    by: [ScalarC, ScalarClang],
};
/// That which looks at every store by marks.
pub static MARKS: Builds = Builds {
    name: "C by marks",
    by: [MarksC, MarksClang],
};

/// The cells from which stores grow.
const SMALLER: usize = 128;
const LARGEST: [Size; 2] = [Cells(1024), Shuffled(1024)];

const SOUND: [&str; 6] = [TAKE, CANCEL, READ, MIXED, LOOK_UP, TOTAL];
const DAMAGED: [&str; 5] = [RING, CROSSED, LONG_CROSSED, MISSING, NO_KIND];
/// All cells in one chain, which is walked to its end without marks and then with them.
const ONE_CHAIN: [&str; 2] = [LONG_RING, LONG_PAST];
const ANY_DAMAGE: [&str; 7] = [
    RING,
    CROSSED,
    LONG_CROSSED,
    MISSING,
    NO_KIND,
    LONG_RING,
    LONG_PAST,
];

/// All bounds, a line each.
#[rustfmt::skip]
pub static BOUNDS: [Bound; 22] = [
    of(Library, &[SEAL, OPEN]).by(By::Who(ScalarC), 1.15),
    of(Library, &[OPEN, OPEN_REFUSED]).by(By::Calls(&[SEAL]), 1.10),
    of(Library, &[OPEN_OLD]).by(By::Calls(&[OPEN]), 1.05),
    // A conversion may write nothing before the parcel is known to open.
    of(Library, &[CONVERT]).by(By::Calls(&[OPEN_OLD, OPEN_OLD, SEAL]), 1.10),
    of(Library, &[CONVERT_DONE, CONVERT_REFUSED]).by(By::Calls(&[OPEN_OLD, OPEN]), 1.10),
    of(Library, &diagnoses::NAMES).over(Over::Without).with(&[Bytes(13), LONG]).by(By::Tried, 1.10),
    of(Library, &diagnoses::NAMES).over(Over::Without).with(&[Bytes(13), LONG]).by(By::Who(ScalarC), 1.15),
    of(Library, &[SEAL, OPEN]).over(Over::Twelve).by(By::Rounds(4), 3.10),
    of(Library, &[SEAL, OPEN]).over(Over::Sale).with(&[Bytes(13)]).by(By::Who(XChaCha), 1.10),
    of(LibraryRun, &[SEAL, OPEN]).by(By::Who(Library), 1.05),
    of(WideRun, &[SEAL, OPEN]).by(By::Who(Library), 0.55).aim(0.45),
    of(WideRun, &[SEAL, OPEN]).over(Over::Opp).by(By::Who(Avx2C), 1.15).aim(1.0),
    of(WideRun, &[SEAL, OPEN]).over(Over::Opp).by(By::Who(Avx2Clang), 1.10).aim(1.0),
    // The message of a short parcel goes to a block on the stack, which is cleared before: dear beside one open.
    of(Library, &[diagnoses::AS_ASKED]).over(Over::Without).with(&[Bytes(13), LONG]).by(By::Tried, 1.25).aim(1.1),
    store(&SOUND, "store take, cancel, read, look-up, total").by(By::Quicker(&MARKS), 1.00),
    store(&SOUND, "store take, cancel, read, look-up, total").by(By::Quicker(&QUICKEST), 1.25),
    store(&DAMAGED, "store read, damaged").by(By::Quicker(&MARKS), 2.00),
    store(&ONE_CHAIN, "store read, damaged, one chain").by(By::Quicker(&MARKS), 2.10).aim(2.0),
    // Without marks it is known late, but no later than a long one.
    store(&[SHORT_RING], "store read of a short ring").by(By::Calls(&[LONG_RING]), 1.00),
    // Of reads alone, which are the check and little else: a quicker sealing would count as growth.
    store(&[READ], "store read").with(&LARGEST).by(By::Growth(&QUICKEST), 1.10),
    store(&ANY_DAMAGE, "store read, damaged, in order").with(&[Cells(1024)]).by(By::Growth(&QUICKEST), 1.10),
    // Small ones the library reads in 0.9 of the C's time; large shuffled ones make both wait for the second cache.
    store(&ANY_DAMAGE, "store read, damaged, shuffled").with(&[Shuffled(1024)]).by(By::Growth(&QUICKEST), 1.20).aim(1.1),
];

/// Calls of an implementation with all settings and the longest messages.
const fn of(of: Implementation, calls: &'static [&'static str]) -> Bound {
    Bound {
        of,
        calls,
        over: Over::All,
        sizes: &[LONG],
        by: By::Calls(&[]),
        most: 0.0,
        aim: None,
        named: "",
    }
}

/// The library's calls of the store, and what they are called.
const fn store(calls: &'static [&'static str], named: &'static str) -> Bound {
    let mut bound = of(Library, calls).over(Over::Without).with(&SIZES);
    bound.named = named;
    bound
}

impl Bound {
    const fn over(mut self, over: Over) -> Self {
        self.over = over;
        self
    }

    const fn with(mut self, sizes: &'static [Size]) -> Self {
        self.sizes = sizes;
        self
    }

    const fn by(mut self, by: By, most: f64) -> Self {
        self.by = by;
        self.most = most;
        self
    }

    const fn aim(mut self, aim: f64) -> Self {
        self.aim = Some(aim);
        self
    }

    /// Whether there is what it compares: the archive for x86-64-v3 needs a processor that runs it,
    /// and the AVX2 C by clang needs clang.
    fn counts(&self) -> bool {
        let who = match self.by {
            By::Who(who) => who,
            _ => self.of,
        };
        let wide = self.of != WideRun || wide::missing().is_none();
        let clang = !who.needs_clang() || wide::clang_missing().is_none();
        cfg!(feature = "archive") && wide && clang
    }

    /// All its ratios.
    fn ratios(&'static self, samples: &Samples) -> Vec<Ratio> {
        let mut ratios = Vec::new();
        for setting in self.over.settings() {
            for &call in self.calls {
                for &size in self.sizes {
                    let key = Key::new(self.of, setting, call, size);
                    ratios.push(Ratio {
                        key,
                        measured: self.by.ratio(samples, key),
                        taken: 1,
                        bound: self,
                    });
                }
            }
        }
        ratios
    }

    /// What is held, without who.
    pub fn what(&self) -> String {
        if !self.named.is_empty() {
            return self.named.into();
        }
        let calls = self.calls.join(", ");
        let sizes: Vec<String> = self.sizes.iter().map(ToString::to_string).collect();
        let sizes = sizes.join(", ");
        match self.over.to_string() {
            over if over.is_empty() => format!("{calls}; {sizes}"),
            over => format!("{calls}; {over}; {sizes}"),
        }
    }

    /// Whose it is, and against what it is held.
    pub fn sides(&self) -> [String; 2] {
        [self.of.to_string(), self.by.to_string()]
    }
}

impl Over {
    fn settings(self) -> Vec<Setting> {
        let all = reference::settings();
        match self {
            Self::All => all.map(Some).collect(),
            Self::Opp => all.filter(|&(mode, _)| mode == OPP).map(Some).collect(),
            Self::Twelve => vec![Some((OPP, 12)), Some((MRO, 12))],
            Self::Sale => vec![Some((MRO, 6))],
            Self::Without => vec![None],
        }
    }
}

impl fmt::Display for Over {
    fn fmt(&self, f: &mut fmt::Formatter<'_>) -> fmt::Result {
        f.write_str(match self {
            Self::All | Self::Without => "",
            Self::Opp => "OPP",
            Self::Twelve => "12 rounds",
            Self::Sale => "MRO, 6 rounds",
        })
    }
}

impl By {
    /// What the case of `key` is held against: the sum of these, or the quicker.
    fn keys(self, key: Key) -> Vec<Key> {
        match self {
            Self::Who(implementation) => {
                let setting = key.setting.filter(|_| !implementation.is_cipher());
                vec![Key {
                    implementation,
                    setting,
                    ..key
                }]
            }
            Self::Calls(calls) => calls.iter().map(|&call| Key { call, ..key }).collect(),
            Self::Tried => {
                let tried = diagnoses::tried(key.call).into_iter();
                tried.map(|under| refused_open(key, under)).collect()
            }
            Self::Rounds(rounds) => {
                let setting = key.setting.map(|(mode, _)| (mode, rounds));
                vec![Key { setting, ..key }]
            }
            Self::Quicker(builds) => builds.keys(key),
            Self::Growth(builds) => {
                let small = smaller(key);
                [vec![small], builds.keys(small), builds.keys(key)].concat()
            }
        }
    }

    /// The ratio of the case of `key`, where all that it needs was measured.
    fn ratio(self, samples: &Samples, key: Key) -> Option<f64> {
        match self {
            Self::Quicker(builds) => builds.ratio(samples, key),
            Self::Growth(builds) => {
                let small = smaller(key);
                let by = [
                    builds.quicker(samples, small)?,
                    builds.quicker(samples, key)?,
                ];
                samples.growth(small, key, by)
            }
            _ => samples.ratio(key, &self.keys(key)),
        }
    }
}

/// An open under a start with a mode and its rounds, which is refused.
fn refused_open(key: Key, (start, setting): (Start, (u32, u32))) -> Key {
    let call = match start {
        Start::New => OPEN_REFUSED,
        Start::Old => OPEN_OLD_REFUSED,
    };
    Key {
        call,
        setting: Some(setting),
        ..key
    }
}

/// The same call with the store from which it grows.
fn smaller(key: Key) -> Key {
    let size = key.size.with_cells(SMALLER);
    Key { size, ..key }
}

impl Builds {
    /// The same call of each that there is.
    fn keys(&self, key: Key) -> Vec<Key> {
        let clang = wide::clang_missing().is_none();
        let here = self.by.into_iter().filter(|by| clang || !by.needs_clang());
        here.map(|implementation| Key {
            implementation,
            ..key
        })
        .collect()
    }

    /// The same call of the quicker one.
    fn quicker(&self, samples: &Samples, key: Key) -> Option<Key> {
        samples.quickest(&self.keys(key))
    }

    /// The ratio of the case of `key` to the same call of the quicker one.
    pub fn ratio(&self, samples: &Samples, key: Key) -> Option<f64> {
        samples.ratio(key, &[self.quicker(samples, key)?])
    }
}

impl fmt::Display for By {
    fn fmt(&self, f: &mut fmt::Formatter<'_>) -> fmt::Result {
        match self {
            Self::Who(who) => who.fmt(f),
            Self::Calls(calls) => f.write_str(&calls.join(" + ")),
            Self::Tried => f.write_str("refused opens under the settings tried"),
            Self::Rounds(rounds) => write!(f, "{rounds} rounds"),
            Self::Quicker(builds) => f.write_str(builds.name),
            Self::Growth(builds) => write!(f, "growth of {} from {SMALLER} cells", builds.name),
        }
    }
}

/// A ratio of a case's time to another's, or to the sum of others'. It is taken batch by batch, and
/// its median counts.
pub struct Ratio {
    pub key: Key,
    /// What it is, where all its cases were measured.
    pub measured: Option<f64>,
    /// How often it was measured.
    pub taken: u32,
    pub bound: &'static Bound,
}

impl Ratio {
    /// All that can be measured, in the order of the bounds.
    pub fn all(samples: &Samples) -> Vec<Self> {
        let bounds = BOUNDS.iter().filter(|bound| bound.counts());
        bounds.flat_map(|bound| bound.ratios(samples)).collect()
    }

    /// What it is held against, by name.
    pub fn by(&self) -> String {
        self.bound.by.to_string()
    }

    /// All cases that it is held against.
    fn others(&self) -> Vec<Key> {
        self.bound.by.keys(self.key)
    }

    /// Whether it is above its bound. One that was not measured is too, since nothing tells that it
    /// is not.
    pub fn is_above(&self) -> bool {
        !self.measured.is_some_and(|ratio| ratio <= self.bound.most)
    }

    /// Whether its aim is reached, where it has one.
    pub fn reaches(&self) -> Option<bool> {
        let aim = self.bound.aim?;
        Some(self.measured.is_some_and(|ratio| ratio <= aim))
    }

    /// Whether a case has to be measured again with this one: its own and those that it is held
    /// against, each among all cases of the same call and size, as it was before.
    pub fn needs(&self, case: Key) -> bool {
        let same = |key: &Key| (key.call, key.size) == (case.call, case.size);
        same(&self.key) || self.others().iter().any(same)
    }

    /// What it is once it is measured again: the lesser. Noise makes one measurement worse, a fall all.
    pub fn again(&mut self, samples: &Samples) {
        let again = self.bound.by.ratio(samples, self.key);
        let both = self.measured.into_iter().chain(again);
        self.measured = both.min_by(f64::total_cmp);
        self.taken += 1;
    }

    /// What got worse, if it did.
    pub fn fault(&self) -> Option<String> {
        let (most, name) = (self.bound.most, format!("{}, by {}", self.key, self.by()));
        self.is_above().then(|| match self.measured {
            Some(ratio) => format!("got worse: {name}: {ratio:.3}, above its bound of {most:.2}"),
            None => format!("not measured: {name}"),
        })
    }
}

#[cfg(test)]
impl Ratio {
    /// All that have a bound, where the calls take these times.
    pub fn made_up(time: impl Fn(Key) -> Option<f64>) -> Vec<Self> {
        let nothing = Samples::made_up(Vec::new());
        let ratios = BOUNDS.iter().flat_map(|bound| bound.ratios(&nothing));
        let keys = ratios.flat_map(|ratio| [vec![ratio.key], ratio.others()].concat());
        let series = keys.filter_map(|key| Some((key, vec![time(key)?])));
        let samples = Samples::made_up(series.collect());
        let bounds = BOUNDS.iter();
        bounds.flat_map(|bound| bound.ratios(&samples)).collect()
    }
}

#[cfg(test)]
mod tests {
    use super::*;
    use crate::cases;
    use std::cell::RefCell;

    fn ratio(measured: Option<f64>) -> Ratio {
        let nothing = Samples::made_up(Vec::new());
        let bound = BOUNDS.iter().find(|bound| bound.aim.is_some());
        let bound = bound.expect("a bound with an aim");
        let mut ratios = bound.ratios(&nothing);
        Ratio {
            measured,
            ..ratios.remove(0)
        }
    }

    #[test]
    fn ratios_above_their_bound_are_faults() {
        for measured in [0.2, 0.55] {
            assert_eq!(ratio(Some(measured)).fault(), None, "{measured}");
        }
        for measured in [Some(0.551), Some(f64::INFINITY), Some(f64::NAN), None] {
            assert!(ratio(measured).fault().is_some(), "{measured:?}");
        }
    }

    #[test]
    fn of_two_measurements_the_lesser_counts() {
        for (first, second, least) in [(0.7, 0.5, 0.5), (0.5, 0.7, 0.5), (f64::NAN, 0.5, 0.5)] {
            let mut ratio = ratio(Some(first));
            let others = ratio.others().into_iter().map(|key| (key, vec![1.0]));
            let own = [(ratio.key, vec![second])];
            let samples = Samples::made_up(own.into_iter().chain(others).collect());
            ratio.again(&samples);
            assert_eq!((ratio.measured, ratio.taken), (Some(least), 2));
        }
    }

    #[test]
    fn every_ratio_is_of_cases_that_are_measured() {
        let keys = RefCell::new(Vec::new());
        cases::all(None, &|key| {
            keys.borrow_mut().push(key);
            false
        });
        let keys = keys.into_inner();
        let nothing = Samples::made_up(Vec::new());
        for ratio in Ratio::all(&nothing) {
            for key in [vec![ratio.key], ratio.others()].concat() {
                let measured = key.implementation.is_cipher() || keys.contains(&key);
                assert!(measured, "{key}");
                assert!(ratio.needs(key), "{key}");
            }
        }
    }

    /// The bounds that are broken where the calls take these times, and by how many ratios.
    fn broken(time: impl Fn(Key) -> Option<f64>) -> Vec<(String, usize)> {
        let mut broken: Vec<(String, usize)> = Vec::new();
        for ratio in Ratio::made_up(time).iter().filter(|ratio| ratio.is_above()) {
            let name = format!("{} by {}", ratio.key.implementation, ratio.by());
            match broken.iter_mut().find(|(known, _)| *known == name) {
                Some((_, count)) => *count += 1,
                None => broken.push((name, 1)),
            }
        }
        broken
    }

    #[test]
    fn conversions_may_take_a_tenth_more_than_their_parts() {
        let each = reference::settings().count();
        let convert = "Calmbaize by open old start + open old start + seal";
        let refuse = "Calmbaize by open old start + open";
        for (times, faults) in [
            ([1121.0, 120.0, 120.0], vec![]),
            ([1123.0, 120.0, 120.0], vec![(convert.to_string(), each)]),
            ([1121.0, 122.0, 120.0], vec![(refuse.to_string(), each)]),
            ([1121.0, 120.0, 122.0], vec![(refuse.to_string(), each)]),
        ] {
            let broken = broken(|key| match (key.implementation, key.call) {
                (Library, SEAL) => Some(1000.0),
                (Library, OPEN) => Some(100.0),
                (Library, OPEN_OLD) => Some(10.0),
                (Library, CONVERT) => Some(times[0]),
                (Library, CONVERT_DONE) => Some(times[1]),
                (Library, CONVERT_REFUSED) => Some(times[2]),
                _ => None,
            });
            let of_conversions = broken.into_iter().filter(|(name, _)| name.contains(" + "));
            assert_eq!(of_conversions.collect::<Vec<_>>(), faults, "{times:?}");
        }
    }

    #[test]
    fn diagnoses_may_take_a_tenth_more_than_the_opens_they_try() {
        for (times, as_asked, above) in [
            ([1209.0, 9679.0, 9679.0], 124.0, 0),
            ([1211.0, 9679.0, 9679.0], 124.0, 1),
            ([1209.0, 9681.0, 9679.0], 124.0, 1),
            ([1209.0, 9679.0, 9681.0], 124.0, 1),
            ([1209.0, 9679.0, 9679.0], 126.0, 1),
        ] {
            let broken = broken(|key| match (key.implementation, key.call) {
                (Library, OPEN_REFUSED) => Some(100.0),
                (Library, OPEN_OLD_REFUSED) => Some(1000.0),
                (Library, diagnoses::AS_ASKED) => Some(as_asked),
                (Library, call) => {
                    let place = diagnoses::NAMES.iter().position(|&name| name == call);
                    place.map(|i| times[i])
                }
                _ => None,
            });
            let mut by_trials = broken.iter().filter(|(name, _)| name.contains("tried"));
            let lengths = by_trials.next().map_or(0, |(_, ratios)| *ratios);
            assert_eq!(lengths, 2 * above, "{times:?}");
        }
    }

    #[test]
    fn engines_are_held_against_each_other_and_against_avx2() {
        let (both, opp) = (
            2 * reference::settings().count(),
            reference::settings().count(),
        );
        let named = |name: &str, count| vec![(name.to_string(), count)];
        for (run, wide_run, [avx2, by_clang], faults) in [
            (105.0, 55.0, [48.0, 50.0], vec![]),
            (
                106.0,
                55.0,
                [48.0, 50.0],
                named("Calmbaize, run by Calmbaize", both),
            ),
            (
                105.0,
                56.0,
                [49.0, 51.0],
                named("Calmbaize, x86-64-v3, run by Calmbaize", both),
            ),
            (
                105.0,
                55.0,
                [47.0, 50.0],
                named("Calmbaize, x86-64-v3, run by AVX2 C", opp),
            ),
            (
                105.0,
                55.0,
                [48.0, 49.0],
                named("Calmbaize, x86-64-v3, run by AVX2 C by clang", opp),
            ),
        ] {
            let broken = broken(|key| match key.implementation {
                LibraryRun => Some(run),
                WideRun => Some(wide_run),
                Avx2C => Some(avx2),
                Avx2Clang => Some(by_clang),
                _ => Some(100.0),
            });
            assert_eq!(broken, faults);
        }
    }

    #[test]
    fn the_store_is_held_against_the_quicker_build_of_each_version() {
        let reads = |key: &Key| key.implementation == Library && key.call == READ;
        for (library, by_marks, quickest, by) in [
            ([100.0, 800.0], [100.0, 800.0], [80.0, 640.0], vec![]),
            (
                [100.0, 800.0],
                [99.0, 800.0],
                [80.0, 640.0],
                vec!["C by marks"],
            ),
            (
                [100.0, 800.0],
                [100.0, 800.0],
                [80.0, 639.0],
                vec!["quickest C"],
            ),
            (
                [80.0, 800.0],
                [100.0, 800.0],
                [80.0, 700.0],
                vec!["growth of quickest C from 128 cells"],
            ),
        ] {
            let ratios = Ratio::made_up(|key| {
                let time = match key.implementation {
                    Library => library,
                    MarksC => by_marks,
                    ScalarC => quickest,
                    _ => [1000.0; 2],
                };
                Some(time[usize::from(key.size.bytes() > SMALLER * CELL)])
            });
            let mut above: Vec<String> = Vec::new();
            above.extend(
                ratios
                    .iter()
                    .filter(|ratio| reads(&ratio.key) && ratio.is_above())
                    .map(Ratio::by),
            );
            above.dedup();
            assert_eq!(above, by);
        }
    }

    #[test]
    fn bounds_count_where_both_sides_can_be_measured() {
        let nothing = Samples::made_up(Vec::new());
        let ratios = Ratio::all(&nothing);
        let counted = |by| {
            let by_it = |ratio: &&Ratio| matches!(ratio.bound.by, By::Who(who) if who == by);
            ratios.iter().filter(by_it).count()
        };
        let wide = cfg!(feature = "archive") && wide::missing().is_none();
        let clang = baseline::avx2_by_clang().is_some();
        let opp = reference::settings().count();
        assert_eq!(counted(Avx2C), if wide { opp } else { 0 });
        assert_eq!(counted(Avx2Clang), if wide && clang { opp } else { 0 });
    }
}
