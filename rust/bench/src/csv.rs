//! All that was measured, one row each.

use crate::cases::{mode_name, Key, Size};
use crate::measure::Samples;
use crate::ratios::Ratio;
use crate::setup::Setup;

/// The columns. Those that a row has nothing for are empty; no name has a comma.
const HEADING: &str =
    "what,call,library,archive,engine,mode,rounds,bytes,cycles,cycles_per_byte,ns,by,ratio,taken,bound,aim,seconds";

/// The table, as text: the calls' times, the ratios that have a bound, and the gate's seconds.
pub fn rows(setup: &Setup, samples: &Samples, ratios: &[Ratio]) -> String {
    let cycles = |key| samples.cycles(key).unwrap_or(f64::NAN);
    let times = samples
        .keys()
        .map(|key| time(key, cycles(key), setup.gigahertz));
    let gate = setup.gate.iter();
    let gate = gate.map(|(name, seconds)| format!("gate,{name},,,,,,,,,,,,,,,{seconds}\n"));
    let rows = times.chain(ratios.iter().map(ratio)).chain(gate);
    format!("{HEADING}\n") + &rows.collect::<String>()
}

/// The row of a call's time.
fn time(key: Key, cycles: f64, gigahertz: f64) -> String {
    let ns = cycles / gigahertz;
    let per_byte = match key.size.bytes() {
        0 => String::new(),
        bytes => format!("{:.3}", cycles / bytes as f64),
    };
    format!("time,{},{cycles:.0},{per_byte},{ns:.0},,,,,,\n", names(key))
}

/// The row of a ratio.
fn ratio(ratio: &Ratio) -> String {
    let figure =
        |figure: Option<f64>| figure.map_or(String::new(), |figure| format!("{figure:.3}"));
    let (measured, aim) = (figure(ratio.measured), figure(ratio.bound.aim));
    let (by, bound) = (ratio.by().replace(", ", " "), ratio.bound.most);
    let (names, taken) = (names(ratio.key), ratio.taken);
    format!("ratio,{names},,,,{by},{measured},{taken},{bound:.3},{aim},\n")
}

/// Call with the order of a store, library, archive, engine, mode, rounds and bytes.
fn names(key: Key) -> String {
    let [library, archive, engine] = key.implementation.parts();
    let (mode, rounds) = key.setting.map_or(Default::default(), |(mode, rounds)| {
        (mode_name(mode), rounds.to_string())
    });
    let order = match key.size {
        Size::Shuffled(_) => " shuffled",
        _ => "",
    };
    format!(
        "{}{order},{library},{archive},{engine},{mode},{rounds},{}",
        key.call,
        key.size.bytes()
    )
}

#[cfg(test)]
mod tests {
    use super::*;
    use crate::setup::Setup;

    #[test]
    fn every_row_has_every_column() {
        let ratios = Ratio::made_up(|_| Some(1.0));
        let series = ratios.iter().map(|ratio| (ratio.key, vec![1.0]));
        let samples = Samples::made_up(series.collect());
        let setup = Setup::here(None, 1, vec![("words-edits".into(), 42)]);
        let rows = rows(&setup, &samples, &ratios);
        assert_eq!(rows.lines().count(), 1 + 2 * ratios.len() + 1);
        let columns = HEADING.split(',').count();
        for row in rows.lines() {
            assert_eq!(row.split(',').count(), columns, "{row}");
        }
    }
}
