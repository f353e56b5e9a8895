//! The calendar's functions: each at times in and out of the range, at year edges, and at
//! patterns that are no time at all.

use super::Family;
use crate::case::Case;
use crate::inputs::{LAST, UTC, YEARS, odd_bits, time_bits};
use crate::lower::export;
use crate::run::Run;
use crate::whole;

pub const FAMILIES: &[Family] =
    &[Family { name: "calendar", run: times }, Family { name: "calendar_years", run: years }];

const OF_TIME: [&str; 12] = [
    "DAYT", "TWDY", "YFRT", "DWYR", "INLP", "MFRT", "DFRT", "WKDY", "HFRT", "MINT", "SFRT", "MSFT",
];
const OF_YEAR: [&str; 3] = ["DIYR", "DFYR", "TFYR"];

fn all(run: &mut Run, tags: &[&str], word: u64) {
    for tag in tags {
        run.check(&Case::Export { export: export(tag).unwrap(), zone: &[], args: [word, 0, 0, 0] });
    }
}

fn times(run: &mut Run) {
    for word in odd_bits() {
        all(run, &OF_TIME, word);
    }
    for year in YEARS {
        let start = whole::day_number(year.into(), 1, 1);
        for day in start - 1..start + 366 {
            for ms in [0, 1, 86_399_999] {
                all(run, &OF_TIME, ((day * whole::MS_PER_DAY + ms) as f64).to_bits());
            }
        }
    }
    for _ in 0..run.times(60_000) {
        // Local times go a day beyond the range.
        let beyond = run.random.between(-86_399_000, 86_399_000);
        let word = match run.random.below(3) {
            0 => time_bits(&mut run.random, &UTC),
            1 => ((run.random.pick(&[LAST, -LAST]) + beyond) as f64).to_bits(),
            _ => (run.random.between(-(1 << 53), 1 << 53) as f64).to_bits(),
        };
        all(run, &OF_TIME, word);
    }
}

fn years(run: &mut Run) {
    for word in odd_bits() {
        all(run, &OF_YEAR, word);
    }
    for year in -3000..3000 {
        all(run, &OF_YEAR, f64::from(year).to_bits());
    }
    for _ in 0..run.times(50_000) {
        let year = match run.random.below(3) {
            0 => run.random.between(-300_000, 300_000) as f64,
            1 => run.random.between(-(1 << 53), 1 << 53) as f64,
            _ => f64::from_bits(run.random.next()),
        };
        all(run, &OF_YEAR, year.to_bits());
    }
}
