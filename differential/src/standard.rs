//! What the standard says in whole numbers of builder, setters and the functions below the C
//! interface, in the exact domain; nothing outside it.

use crate::expected::year_unclaimed;
use crate::lower::Export;
use crate::outcome::NAN;
use crate::paper::Record;
use crate::whole::{self, Made, Parts};
use original::exports::Setter;

/// A time value's bits after TimeClip.
fn clipped(t: i128) -> u64 {
    whole::clip(t).map_or(NAN, |t| (t as f64).to_bits())
}

/// Made fields, back from local time where a list is given, then clipped.
fn finished(list: Option<&[Record]>, made: Made) -> Option<u64> {
    match made {
        Made::Unsaid => None,
        Made::Nan => Some(NAN),
        Made::Time(t) => Some(clipped(list.map_or(t, |list| t - whole::offset_at(list, t)))),
    }
}

/// The field builder: MakeFullYear, MakeDay, MakeTime, MakeDate, UTC(t) and TimeClip.
pub fn build(list: Option<&[Record]>, mut parts: [f64; 7]) -> Option<u64> {
    if parts[0].is_finite() {
        parts[0] = whole::full_year(parts[0]);
    }
    finished(list, whole::make_fields(parts))
}

/// Where a setter's arguments go among year, month, date, hour, minute, second, millisecond.
pub fn slots(setter: Setter) -> std::ops::Range<usize> {
    match setter {
        Setter::Milliseconds => 6..7,
        Setter::Seconds => 5..7,
        Setter::Minutes => 4..7,
        Setter::Hours => 3..7,
        Setter::Date => 2..3,
        Setter::Month => 1..3,
        Setter::FullYear => 0..3,
    }
}

/// A setter: the present parts of the local time, the given ones put in their places.
pub fn set(
    setter: Setter,
    list: Option<&[Record]>,
    time: Option<i64>,
    put: impl Fn([f64; 7]) -> [f64; 7],
) -> Option<u64> {
    let local = match time {
        None if setter == Setter::FullYear => 0,
        None => return Some(NAN),
        Some(t) => i128::from(t) + list.map_or(0, |list| whole::offset_at(list, t.into())),
    };
    let present = whole::apart(local).map(|n| n as f64);
    finished(list, whole::make_fields(put(present)))
}

/// No equality with the original is claimed: `make_full_year` from 2^53 on, and a year estimate
/// whose sum with 1970 is beyond i32, where the original stops or wraps by how it was built.
pub fn unclaimed(export: &Export, args: [u64; 4]) -> bool {
    let x = f64::from_bits(args[0]);
    match export.tag {
        "MKFY" => year_unclaimed(x),
        "YFRT" | "DWYR" | "INLP" | "MFRT" | "DFRT" => {
            ((x + 15_778_476_000.0) / 31_556_952_000.0).floor() > f64::from(i32::MAX - 1970)
        }
        _ => false,
    }
}

/// The whole number that the word's f64 is, below 2^53 in magnitude.
fn whole_number(word: u64) -> Option<i128> {
    let x = f64::from_bits(word);
    let is_whole = x.abs() < 9_007_199_254_740_992.0 && (x as i64) as f64 == x;
    is_whole.then_some(x as i128)
}

fn float(n: i128) -> u64 {
    (n as f64).to_bits()
}

fn integer(n: i128) -> u64 {
    n as i64 as u64
}

/// A function below the C interface.
pub fn below(export: &Export, args: [u64; 4], list: &[Record]) -> Option<u64> {
    match export.tag {
        "DIYR" | "DFYR" | "TFYR" => year_function(export.tag, whole_number(args[0])?),
        "MKTM" | "MKDY" | "MKDT" | "MKFY" | "CLIP" => maker(export.tag, args),
        "ZACC" => Some(u64::from(!list.is_empty())),
        "ZOFF" => Some(offset(list, 1000 * i128::from(args[0] as i64))),
        "LOFF" | "LOCT" | "UTCT" => local(export.tag, whole_number(args[0])?, list),
        "DAYT" | "TWDY" | "YFRT" | "DWYR" | "INLP" | "MFRT" | "DFRT" | "WKDY" | "HFRT" | "MINT"
        | "SFRT" | "MSFT" => Some(time_function(export.tag, whole::parts(whole_number(args[0])?))),
        "PRC4" | "PRC8" => digits(args[0], args[1]),
        "PAD2" | "PAD3" | "PAD4" | "PAD5" | "PAD6" => {
            let width = usize::from(export.tag.as_bytes()[3] - b'0');
            let text = format!("{:0width$}", args[0]);
            Some(text.bytes().rev().fold(0, |word, b| word << 8 | u64::from(b)))
        }
        _ => None,
    }
}

/// The functions of a time, from its parts. Two floats; the others are whole numbers.
fn time_function(tag: &str, p: Parts) -> u64 {
    let new_year = whole::day_number(p.year, 1, 1);
    let leap = whole::day_number(p.year + 1, 1, 1) - new_year == 366;
    match tag {
        "DAYT" => float(p.day),
        "TWDY" => float(p.within_day),
        "YFRT" => integer(p.year),
        "DWYR" => integer(p.day - new_year),
        "INLP" => integer(leap.into()),
        "MFRT" => integer(p.month - 1),
        "DFRT" => integer(p.date),
        "WKDY" => integer(p.weekday),
        "HFRT" => integer(p.hour),
        "MINT" => integer(p.minute),
        "SFRT" => integer(p.second),
        "MSFT" => integer(p.millisecond),
        _ => unreachable!("not a function of a time"),
    }
}

/// The functions of a year, within a million years: beyond, a sum may be rounded.
fn year_function(tag: &str, year: i128) -> Option<u64> {
    if year.abs() > 285_000 {
        return None;
    }
    let day = whole::day_number(year, 1, 1);
    Some(match tag {
        "DIYR" => integer(whole::day_number(year + 1, 1, 1) - day),
        "DFYR" => float(day),
        _ => float(day * whole::MS_PER_DAY),
    })
}

/// The makers in the exact domain; a NaN or an infinity in is a NaN out, but for MakeFullYear.
fn maker(tag: &str, args: [u64; 4]) -> Option<u64> {
    let x = args.map(f64::from_bits);
    match tag {
        "MKTM" => made(whole::make_fields([1970.0, 0.0, 1.0, x[0], x[1], x[2], x[3]])),
        "MKDY" => match whole::make_fields([x[0], x[1], x[2], 0.0, 0.0, 0.0, 0.0]) {
            Made::Time(t) => Some(float(t / whole::MS_PER_DAY)),
            other => made(other),
        },
        "MKDT" if !(x[0].is_finite() && x[1].is_finite()) => Some(NAN),
        "MKDT" => {
            let t = whole_number(args[0])? * whole::MS_PER_DAY + whole_number(args[1])?;
            (t.abs() < 1 << 53).then(|| float(t))
        }
        "MKFY" if x[0].is_finite() => Some(whole::full_year(x[0]).to_bits()),
        "MKFY" => Some(crate::outcome::bits(x[0])),
        _ => Some(if x[0].abs() <= 8.64e15 { clipped(whole::truncated(x[0])) } else { NAN }),
    }
}

fn made(made: Made) -> Option<u64> {
    match made {
        Made::Time(t) => Some(float(t)),
        Made::Nan => Some(NAN),
        Made::Unsaid => None,
    }
}

fn offset(list: &[Record], t: i128) -> u64 {
    integer(whole::offset_at(list, t) / 1000)
}

/// Local time and back, while the sum stays below 2^53.
fn local(tag: &str, t: i128, list: &[Record]) -> Option<u64> {
    let by = whole::offset_at(list, t);
    if (t.abs() + by.abs()) >= 1 << 53 {
        return None;
    }
    Some(match tag {
        "LOFF" => offset(list, t),
        "LOCT" => float(t + by),
        _ => float(t - by),
    })
}

/// Digits joined: the bytes, low one first, are as many digits.
fn digits(word: u64, count: u64) -> Option<u64> {
    let bytes = &word.to_le_bytes()[..count as usize];
    let plain = bytes.iter().all(u8::is_ascii_digit);
    plain.then(|| bytes.iter().fold(0, |n, b| 10 * n + u64::from(b - b'0')))
}
