//! A calendar in whole numbers, by another method than the original's and the standard's formula:
//! years counted from March in cycles of 400. From it, what 01 says a text denotes, the written
//! texts, and the field makers, builder and setters in the exact domain.

use crate::paper::{Form, Record, Zone};

pub const MS_PER_DAY: i128 = 86_400_000;
/// The last millisecond of the range.
pub const LAST: i128 = 8_640_000_000_000_000;

/// The day number of a date; the month is 1 to 12, the day is any whole number.
pub fn day_number(year: i128, month: i128, day: i128) -> i128 {
    // A year that starts in March has its leap day last.
    let y = if month <= 2 { year - 1 } else { year };
    let cycle = y.div_euclid(400);
    let year_of_cycle = y.rem_euclid(400);
    let day_of_year = (153 * ((month + 9) % 12) + 2) / 5 + day - 1;
    let day_of_cycle = 365 * year_of_cycle + year_of_cycle / 4 - year_of_cycle / 100 + day_of_year;
    146_097 * cycle + day_of_cycle - 719_468
}

/// Year, month 1 to 12 and day of a day number.
pub fn date_of(day: i128) -> (i128, i128, i128) {
    let z = day + 719_468;
    let cycle = z.div_euclid(146_097);
    let d = z.rem_euclid(146_097);
    let year_of_cycle = (d - d / 1460 + d / 36_524 - d / 146_096) / 365;
    let day_of_year = d - (365 * year_of_cycle + year_of_cycle / 4 - year_of_cycle / 100);
    let m = (5 * day_of_year + 2) / 153;
    let month = if m < 10 { m + 3 } else { m - 9 };
    let year = 400 * cycle + year_of_cycle + i128::from(month <= 2);
    (year, month, day_of_year - (153 * m + 2) / 5 + 1)
}

/// A time taken apart.
#[derive(Clone, Copy, Debug, PartialEq, Eq)]
pub struct Parts {
    pub day: i128,
    pub weekday: i128,
    pub year: i128,
    /// 1 to 12.
    pub month: i128,
    pub date: i128,
    pub within_day: i128,
    pub hour: i128,
    pub minute: i128,
    pub second: i128,
    pub millisecond: i128,
}

/// The parts of a time in milliseconds.
pub fn parts(t: i128) -> Parts {
    let (day, ms) = (t.div_euclid(MS_PER_DAY), t.rem_euclid(MS_PER_DAY));
    let (year, month, date) = date_of(day);
    Parts {
        day,
        weekday: (day + 4).rem_euclid(7),
        year,
        month,
        date,
        within_day: ms,
        hour: ms / 3_600_000,
        minute: ms / 60_000 % 60,
        second: ms / 1000 % 60,
        millisecond: ms % 1000,
    }
}

/// The milliseconds that the list gives at a time read as an instant: "the last record not after
/// the asked second decides; before the first, the first does. A second beyond 64 bits takes the
/// nearest end."
pub fn offset_at(zone: &[Record], t: i128) -> i128 {
    let second = t.div_euclid(1000).clamp(i64::MIN.into(), i64::MAX.into()) as i64;
    let decides = zone.iter().rev().find(|r| r.0 <= second).unwrap_or(&zone[0]);
    1000 * i128::from(decides.1)
}

/// TimeClip in whole numbers: `None` is NaN.
pub fn clip(t: i128) -> Option<i128> {
    (-LAST..=LAST).contains(&t).then_some(t)
}

/// MakeDate of MakeDay and MakeTime: year, month (January is 0), date, hour, minute, second and
/// millisecond, each any whole number.
pub fn make(f: [i128; 7]) -> i128 {
    let year = f[0] + f[1].div_euclid(12);
    let day = day_number(year, f[1].rem_euclid(12) + 1, 1) + f[2] - 1;
    day * MS_PER_DAY + f[3] * 3_600_000 + f[4] * 60_000 + f[5] * 1000 + f[6]
}

/// A time taken apart into what `make` makes it of.
pub fn apart(t: i128) -> [i128; 7] {
    let p = parts(t);
    [p.year, p.month - 1, p.date, p.hour, p.minute, p.second, p.millisecond]
}

/// The instant that 01 says a text denotes.
pub fn instant(form: &Form, zone: &[Record]) -> i128 {
    let fields = [
        form.year,
        form.month - 1,
        form.day,
        form.hour,
        form.minute,
        form.second,
        form.millisecond,
    ];
    let written = make(fields.map(i128::from));
    match form.zone {
        Zone::Utc => written,
        Zone::Local => written - offset_at(zone, written),
        Zone::Ahead(minutes) => written - 60_000 * i128::from(minutes),
    }
}

const DAYS: [&str; 7] = ["Sun", "Mon", "Tue", "Wed", "Thu", "Fri", "Sat"];
const MONTHS: [&str; 12] =
    ["Jan", "Feb", "Mar", "Apr", "May", "Jun", "Jul", "Aug", "Sep", "Oct", "Nov", "Dec"];

/// "ISO years 0 to 9999 have four digits, others a sign and six."
pub fn iso_text(t: i128) -> String {
    let p = parts(t);
    let year = match p.year {
        0..=9999 => format!("{:04}", p.year),
        y if y < 0 => format!("-{:06}", -y),
        y => format!("+{y:06}"),
    };
    let Parts { month, date, hour, minute, second, millisecond, .. } = p;
    format!("{year}-{month:02}-{date:02}T{hour:02}:{minute:02}:{second:02}.{millisecond:03}Z")
}

/// "UTC and local years have a `-` if negative and at least four digits."
fn long_year(year: i128) -> String {
    let sign = if year < 0 { "-" } else { "" };
    format!("{sign}{:04}", year.abs())
}

pub fn utc_text(t: i128) -> String {
    let p = parts(t);
    let (weekday, month) = (DAYS[p.weekday as usize], MONTHS[p.month as usize - 1]);
    let (date, year) = (p.date, long_year(p.year));
    format!("{weekday}, {date:02} {month} {year} {:02}:{:02}:{:02} GMT", p.hour, p.minute, p.second)
}

/// The suffix is looked up at the local time, as the original does it.
pub fn local_text(t: i128, zone: &[Record]) -> String {
    let local = t + offset_at(zone, t);
    let p = parts(local);
    let (weekday, month) = (DAYS[p.weekday as usize], MONTHS[p.month as usize - 1]);
    let (date, year) = (p.date, long_year(p.year));
    let suffix = offset_at(zone, local) / 1000;
    let sign = if suffix < 0 { '-' } else { '+' };
    let (hours, minutes) = (suffix.abs() / 3600, suffix.abs() / 60 % 60);
    format!(
        "{weekday} {month} {date:02} {year} {:02}:{:02}:{:02} GMT{sign}{hours:02}{minutes:02}",
        p.hour, p.minute, p.second
    )
}

/// What whole numbers say of fields given as f64.
#[derive(Clone, Copy, Debug, PartialEq, Eq)]
pub enum Made {
    /// The time value before TimeClip.
    Time(i128),
    /// A field is not finite.
    Nan,
    /// Outside the exact domain.
    Unsaid,
}

/// The bounds of the exact domain for month, date, hour, minute, second and millisecond.
const BOUNDS: [i128; 7] =
    [i128::MAX, 6_000_000, 1_000_000, 1_000_000, 10_000_000, 1_000_000_000, 1_000_000_000_000];

/// Fields as f64, truncated, and made where they are in the exact domain.
pub fn make_fields(fields: [f64; 7]) -> Made {
    if fields.iter().any(|x| !x.is_finite()) {
        return Made::Nan;
    }
    if fields[0].abs() >= 1e15 {
        return Made::Unsaid;
    }
    let whole = fields.map(truncated);
    let year = whole[0] + whole[1].div_euclid(12);
    let inside = (1..7).all(|i| whole[i].abs() <= BOUNDS[i]) && year.abs() <= 280_000;
    if inside { Made::Time(make(whole)) } else { Made::Unsaid }
}

/// The whole number of an f64 without its fraction; far beyond every domain here, a bound.
pub fn truncated(x: f64) -> i128 {
    x.clamp(-1e30, 1e30) as i128
}

/// MakeFullYear of a year as f64, which is finite: "truncated 0 to 99 into 1900 to 1999".
pub fn full_year(year: f64) -> f64 {
    let y = truncated(year);
    if (0..=99).contains(&y) { (1900 + y) as f64 } else { y as f64 }
}
