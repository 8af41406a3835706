//! The table of bounds and aims: what was measured, and whether it is within them.

use crate::ratios::{Ratio, BOUNDS};
use crate::table::Table;

/// What stands below the bounds.
pub const TEXT: &str = "A ratio is the median of the ratios batch by batch; the least and the most of each row \
    are shown, over all modes and round counts where none is named. A bound guards against a fall: `make bench` \
    fails where a ratio is above it, and says which. Such a ratio is first measured again, up to three times, \
    and the least counts, since noise makes one measurement worse and a fall all. An aim fails nothing. Times that \
    are joined by + are added up. Of the store's C, by two compilers where there is a clang, the build with \
    the lesser median counts.\n\n";

/// A row for each bound that counts.
pub fn table(ratios: &[Ratio]) -> Table {
    let heading = [
        "calls", "of", "by", "measured", "bound", "kept", "aim", "reached",
    ];
    let mut table = Table::new(3, heading.map(String::from).to_vec());
    for bound in &BOUNDS {
        let held: Vec<&Ratio> = ratios
            .iter()
            .filter(|ratio| std::ptr::eq(ratio.bound, bound))
            .collect();
        if held.is_empty() {
            continue;
        }
        let [of, by] = bound.sides();
        let aim = bound.aim.map_or(String::new(), |aim| format!("{aim:.2}"));
        table.row(vec![
            bound.what(),
            of,
            by,
            range(&held),
            format!("{:.2}", bound.most),
            kept(&held),
            aim,
            reached(&held),
        ]);
    }
    table
}

/// Whether all are within the bound, and how many were measured again.
fn kept(ratios: &[&Ratio]) -> String {
    let above = ratios.iter().filter(|ratio| ratio.is_above()).count();
    let again = ratios.iter().filter(|ratio| ratio.taken > 1).count();
    match (above, again) {
        (0, 0) => "yes".into(),
        (0, again) => format!("yes, {again} measured again"),
        (above, _) => format!("not by {above} of {}", ratios.len()),
    }
}

/// The least and the most.
fn range(ratios: &[&Ratio]) -> String {
    let mut measured: Vec<f64> = ratios.iter().filter_map(|ratio| ratio.measured).collect();
    measured.sort_by(f64::total_cmp);
    match measured[..] {
        [] => "none".into(),
        [only] => format!("{only:.3}"),
        [least, .., most] => format!("{least:.3} to {most:.3}"),
    }
}

/// By how many the aim is reached.
fn reached(ratios: &[&Ratio]) -> String {
    let reached: Vec<bool> = ratios.iter().filter_map(|ratio| ratio.reaches()).collect();
    match (
        reached.iter().filter(|&&reached| reached).count(),
        reached.len(),
    ) {
        (_, 0) => String::new(),
        (all, len) if all == len => "yes".into(),
        (some, len) => format!("by {some} of {len}"),
    }
}

#[cfg(test)]
mod tests {
    use super::*;
    use crate::cases::Implementation::{Avx2C, WideRun};

    /// The row of the AVX2 C in the table of bounds, where all calls take these times.
    fn row(wide_run: f64, avx2: f64) -> String {
        let ratios = Ratio::made_up(|key| match key.implementation {
            WideRun => Some(wide_run),
            Avx2C => Some(avx2),
            _ => Some(100.0),
        });
        let table = table(&ratios).to_string();
        let mut rows = table.lines().filter(|row| row.contains("| AVX2 C  "));
        let row = rows.next().expect("a row by the AVX2 C");
        row.split_whitespace().collect::<Vec<_>>().join(" ")
    }

    #[test]
    fn bounds_and_aims_have_their_verdicts() {
        for (times, verdict) in [
            ((50.0, 50.0), "1.000 to 1.000 | 1.15 | yes | 1.00 | yes |"),
            (
                (55.0, 50.0),
                "1.100 to 1.100 | 1.15 | yes | 1.00 | by 0 of 8 |",
            ),
            (
                (60.0, 50.0),
                "1.200 to 1.200 | 1.15 | not by 8 of 8 | 1.00 | by 0 of 8 |",
            ),
        ] {
            let row = row(times.0, times.1);
            assert!(row.contains(verdict), "{row}");
        }
    }

    #[test]
    fn what_was_measured_again_is_said() {
        let mut ratios = Ratio::made_up(|_| Some(1.0));
        ratios[0].taken = 2;
        let table = table(&ratios).to_string();
        let again = table
            .lines()
            .filter(|row| row.contains("yes, 1 measured again"));
        assert_eq!(again.count(), 1);
    }
}
