//! Wrong makers: the builder and setters with MakeDay, MakeTime or MakeDate by other operations
//! than the original's, which are f64's, one rounding each.

use crate::bite::{Bite, Wrong, WrongAnswer};
use crate::case::Case;
use crate::expected::present;
use crate::outcome::Outcome;
use crate::paper;
use crate::standard::slots;
use crate::whole;
use original::exports::{Setter, make};

const fn answer(name: &'static str, wrong: WrongAnswer) -> Bite {
    Bite { name, wrong: Wrong::Answer(wrong) }
}

pub const MAKERS: &[Bite] = &[
    answer("builder: MakeDate fused", |c, _| built(c, &Makers { date: fused, ..ORIGINAL })),
    answer("builder: MakeDay in 128 bits", |c, _| built(c, &WIDE_DAY)),
    answer("full year: MakeDay in 128 bits", |c, _| was_set(c, Setter::FullYear, &WIDE_DAY)),
    answer("month: MakeDay in 128 bits", |c, _| was_set(c, Setter::Month, &WIDE_DAY)),
    answer("builder: MakeTime in 128 bits", |c, _| built(c, &WIDE_TIME)),
    answer("hours: MakeTime in 128 bits", |c, _| was_set(c, Setter::Hours, &WIDE_TIME)),
    answer("minutes: MakeTime in 128 bits", |c, _| was_set(c, Setter::Minutes, &WIDE_TIME)),
    answer("seconds: MakeTime in 128 bits", |c, _| was_set(c, Setter::Seconds, &WIDE_TIME)),
];

/// What a date is put together by.
struct Makers {
    day: fn(f64, f64, f64) -> f64,
    time: fn(f64, f64, f64, f64) -> f64,
    date: fn(f64, f64) -> f64,
}

const ORIGINAL: Makers =
    Makers { day: make::make_day, time: make::make_time, date: make::make_date };
const WIDE_DAY: Makers = Makers { day: wide_day, ..ORIGINAL };
const WIDE_TIME: Makers = Makers { time: wide_time, ..ORIGINAL };

fn fused(day: f64, time: f64) -> f64 {
    day.mul_add(86_400_000.0, time)
}

fn wide_day(year: f64, month: f64, date: f64) -> f64 {
    let fields = [year, month, date];
    if fields.iter().any(|x| !x.is_finite()) {
        return f64::NAN;
    }
    let [year, month, date] = fields.map(whole::truncated);
    (whole::make([year, month, date, 0, 0, 0, 0]) / whole::MS_PER_DAY) as f64
}

fn wide_time(hour: f64, minute: f64, second: f64, millisecond: f64) -> f64 {
    let fields = [hour, minute, second, millisecond];
    if fields.iter().any(|x| !x.is_finite()) {
        return f64::NAN;
    }
    let [hour, minute, second, millisecond] = fields.map(whole::truncated);
    whole::make([1970, 0, 1, hour, minute, second, millisecond]) as f64
}

/// Year, month, date, hour, minute, second and millisecond put together and clipped.
fn put_together(f: [f64; 7], by: &Makers) -> Outcome {
    let date = (by.date)((by.day)(f[0], f[1], f[2]), (by.time)(f[3], f[4], f[5], f[6]));
    Outcome::time(make::time_clip(date))
}

fn built(case: &Case, by: &Makers) -> Option<Outcome> {
    let Case::BuildUtc { record } = *case else {
        return None;
    };
    let mut parts = paper::builder_parts(&paper::field_record(record, 7).ok()?);
    parts[0] = make::make_full_year(parts[0]);
    Some(put_together(parts, by))
}

fn was_set(case: &Case, wanted: Setter, by: &Makers) -> Option<Outcome> {
    let Case::SetUtc { setter, time, record } = *case else {
        return None;
    };
    let places = slots(setter);
    let fields = paper::field_record(record, places.len()).ok()?;
    let t = paper::time_value(time).ok()?.filter(|_| setter == wanted)? as f64;
    Some(put_together(paper::setter_parts(&fields, present(None, t), places.start), by))
}

#[cfg(test)]
mod tests {
    use super::*;
    use crate::bite::caught;
    use crate::case::SETTERS;

    /// With the original's makers nothing is wrong, so that a bite is caught for its maker alone.
    #[test]
    fn the_originals_makers_are_right() {
        fn right(case: &Case, _: &Outcome) -> Option<Outcome> {
            let set = SETTERS.iter().find_map(|row| was_set(case, row.0, &ORIGINAL));
            set.or_else(|| built(case, &ORIGINAL))
        }
        assert_eq!(caught(&answer("nothing wrong", right), 1), None);
    }
}
