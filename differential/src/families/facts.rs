//! What 01 states of the original, held to whole numbers: the mean year, the floors of quotients,
//! the year's estimate at every year's edge, and the corners of its small functions.

use super::Family;
use crate::case::Case;
use crate::lower::export;
use crate::run::Run;
use crate::whole;
use original::exports::{calendar, make};

pub const FAMILIES: &[Family] = &[
    Family { name: "fact_year_edges", run: year_edges },
    Family { name: "fact_floors", run: floors },
    Family { name: "fact_estimate", run: estimate },
    Family { name: "fact_corners", run: corners },
];

/// The mean year as utils.rs writes it.
const MEAN_YEAR: f64 = 12.0 * 30.436_875 * 86_400_000.0;

/// "For whole |t| below 2^53 and divisors 1,000, 60,000, 3,600,000 and 86,400,000 that floor is
/// exact": at random and about multiples of the divisor.
fn floors(run: &mut Run) {
    const BOUND: i64 = (1 << 53) - 1;
    for divisor in [1000, 60_000, 3_600_000, 86_400_000] {
        for _ in 0..run.times(1_000_000) {
            let t = if run.random.once_in(2) {
                run.random.between(-BOUND, BOUND)
            } else {
                let multiple = run.random.between(-BOUND / divisor, BOUND / divisor) * divisor;
                (multiple + run.random.between(-2, 2)).clamp(-BOUND, BOUND)
            };
            let floor = (t as f64 / divisor as f64).floor();
            let exact = t.div_euclid(divisor);
            run.fact(floor as i64 == exact, || format!("floor of {t} / {divisor} is {floor}"));
        }
    }
}

/// Every year of the range: its first millisecond, and one either side, through every function of
/// a time.
fn year_edges(run: &mut Run) {
    let tags = ["YFRT", "DWYR", "INLP", "MFRT", "DFRT", "DAYT", "WKDY"];
    let exports = tags.map(|tag| export(tag).unwrap());
    for year in -271_821..=275_761i128 {
        let start = whole::day_number(year, 1, 1) * whole::MS_PER_DAY;
        for t in start - 1..=start + 1 {
            let found = calendar::year_from_time(t as f64);
            let due = if t < start { year - 1 } else { year };
            run.fact(i128::from(found) == due, || format!("year of {t} is {found}"));
        }
        if year % 16 == 0 || year.abs() < 20 || (9990..10_010).contains(&year) {
            for export in exports {
                let args = [(start as f64).to_bits(), 0, 0, 0];
                run.check(&Case::Export { export, zone: &[], args });
            }
        }
    }
}

/// The estimate is never below the year, and at most one above it: "then steps back a year at
/// most". By the operations as written in utils.rs, at every year's edge.
fn estimate(run: &mut Run) {
    run.fact(MEAN_YEAR == 31_556_952_000.0, || format!("the mean year is {MEAN_YEAR}"));
    for year in -271_821..=275_761i64 {
        let start = (whole::day_number(year.into(), 1, 1) * whole::MS_PER_DAY) as i64;
        for (t, due) in [(start - 1, year - 1), (start, year), (start + 1, year)] {
            let guess = ((t as f64 + MEAN_YEAR / 2.0) / MEAN_YEAR).floor() as i64 + 1970;
            let exact = (2 * i128::from(t) + 31_556_952_000).div_euclid(63_113_904_000) + 1970;
            let holds = i128::from(guess) == exact && (guess == due || guess == due + 1);
            run.fact(holds, || format!("the estimate at {t} is {guess}"));
        }
    }
}

/// The corners that 01 names one by one.
fn corners(run: &mut Run) {
    let same = |a: f64, b: f64| a.to_bits() == b.to_bits() || a.is_nan() && b.is_nan();
    for (given, due) in [
        (8.64e15, 8.64e15),
        (8.64e15 + 1.0, f64::NAN),
        (-8.64e15 - 1.0, f64::NAN),
        (0.9, 0.0),
        (-0.9, 0.0),
        (-0.0, 0.0),
        (f64::INFINITY, f64::NAN),
        (f64::NAN, f64::NAN),
        (-1.5, -1.0),
    ] {
        let found = make::time_clip(given);
        run.fact(same(found, due), || format!("time_clip of {given} is {found}"));
    }
    for (given, due) in
        [(-0.5, 1900.0), (0.0, 1900.0), (99.9, 1999.0), (100.0, 100.0), (-1.0, -1.0)]
    {
        let found = make::make_full_year(given);
        run.fact(same(found, due), || format!("make_full_year of {given} is {found}"));
    }
    // "1 April -271821 lies before the range and still has its day number."
    let found = make::make_day(-271_821.0, 3.0, 1.0);
    run.fact(found == -100_000_019.0, || format!("make_day of 1 April -271821 is {found}"));
}
