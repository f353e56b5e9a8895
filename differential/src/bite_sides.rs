//! Wrong readings of 01's table, and a wrong original: caught by the right stand-in, or by the two
//! sides parting from each other.

use crate::bite::{Bite, Wrong};
use crate::bite_decimals;
use crate::expected::{RIGHT, Sides, with_zeros};
use crate::paper::{self, Fields, Form, Record, Zone};
use crate::texts::decimals_of;
use crate::whole;
use ::original::exports::{self as original, Setter, ZoneList};

const fn sides(name: &'static str, sides: Sides) -> Bite {
    Bite { name, wrong: Wrong::Sides(sides) }
}

pub const SIDES: &[Bite] = &[
    sides("reading: hour 24 before 8", Sides { text: hour_24_before_8, ..RIGHT }),
    sides("reading: bounds digit by digit", Sides { text: bounds_early, ..RIGHT }),
    sides("reading: a byte above 127 is 5", Sides { text: high_bytes, ..RIGHT }),
    sides("reading: small t and z", Sides { text: small_letters, ..RIGHT }),
    sides("reading: offset hour 24", Sides { text: offset_hour_24, ..RIGHT }),
    sides("reading: three decimals demanded", Sides { text: three_demanded, ..RIGHT }),
    sides("reading: .5 is 5 ms", Sides { text: tenths_as_thousandths, ..RIGHT }),
    sides("reading: a fourth decimal", Sides { text: fourth_decimal, ..RIGHT }),
    sides("reading: no decimal is 0", Sides { text: no_decimal, ..RIGHT }),
    sides("reading: short decimals kept as three", Sides { text: kept_as_three, ..RIGHT }),
    sides("reading: offset at the instant", Sides { instant: offset_at_instant, ..RIGHT }),
    sides("reading: 1,025 records", Sides { zone_list: one_more_record, ..RIGHT }),
    sides("reading: equal seconds", Sides { zone_list: equal_seconds, ..RIGHT }),
    sides("reading: subnormals are 0", Sides { time_value: subnormals, ..RIGHT }),
    sides("reading: own bits counted", Sides { field_record: own_bits, ..RIGHT }),
    sides("reading: absent first field is NaN", Sides { setter_parts: absent_first_nan, ..RIGHT }),
    sides("original: one millisecond off", Sides { parse: off_by_one, ..RIGHT }),
    sides("original: accepts one more day", Sides { parse: one_more_day, ..RIGHT }),
    sides("original: accepts short decimals", Sides { parse: short_accepted, ..RIGHT }),
    sides("original: refuses .500 too", Sides { parse: half_refused, ..RIGHT }),
    sides("original: local setter as UTC", Sides { set: set_as_utc, ..RIGHT }),
];

fn hour_24_before_8(text: &[u8]) -> Result<Form, u32> {
    let shorter = || text.len().checked_sub(1).map(|n| paper::text(&text[..n]));
    match paper::text(text) {
        Err(8) if shorter() == Some(Err(7)) => Err(7),
        right => right,
    }
}

/// `2023-3` is 7 as soon as its first digit is read.
fn bounds_early(text: &[u8]) -> Result<Form, u32> {
    match paper::text(text) {
        Err(5) if paper::text(&[text, b"0"].concat()) == Err(7) => Err(7),
        right => right,
    }
}

fn high_bytes(text: &[u8]) -> Result<Form, u32> {
    if text.is_ascii() { paper::text(text) } else { Err(5) }
}

fn small_letters(text: &[u8]) -> Result<Form, u32> {
    paper::text(&text.to_ascii_uppercase())
}

fn offset_hour_24(text: &[u8]) -> Result<Form, u32> {
    match text.strip_suffix(b"+24") {
        Some(start) => paper::text(&[start, b"+23"].concat()),
        None => paper::text(text),
    }
}

/// The reading of before, as the Rust's: a parting that 02 names.
fn three_demanded(text: &[u8]) -> Result<Form, u32> {
    bite_decimals::three_demanded(text).map_or_else(|| paper::text(text), Err)
}

fn tenths_as_thousandths(text: &[u8]) -> Result<Form, u32> {
    let form = paper::text(text)?;
    let millisecond = if form.decimals == 1 { form.millisecond / 100 } else { form.millisecond };
    Ok(Form { millisecond, ..form })
}

fn fourth_decimal(text: &[u8]) -> Result<Form, u32> {
    match decimals_of(text) {
        Some((start, 4)) => paper::text(&[&text[..start + 3], &text[start + 4..]].concat()),
        _ => paper::text(text),
    }
}

fn no_decimal(text: &[u8]) -> Result<Form, u32> {
    match decimals_of(text) {
        Some((_, 0)) => paper::text(&with_zeros(text, 0)),
        _ => paper::text(text),
    }
}

fn kept_as_three(text: &[u8]) -> Result<Form, u32> {
    paper::text(text).map(|form| if form.is_short() { Form { decimals: 3, ..form } } else { form })
}

/// The standard's instant: a parting that 01 names.
fn offset_at_instant(form: &Form, list: &[Record]) -> i128 {
    let t = whole::instant(form, list);
    let written = whole::instant(&Form { zone: Zone::Utc, ..*form }, list);
    if form.zone == Zone::Local { written - whole::offset_at(list, t) } else { t }
}

fn one_more_record(bytes: &[u8]) -> Result<Vec<Record>, u32> {
    let fits = bytes.len() == 12 * 1025;
    paper::zone_list(if fits { &bytes[..12 * 1024] } else { bytes })
}

fn equal_seconds(bytes: &[u8]) -> Result<Vec<Record>, u32> {
    match bytes.len() {
        24 if bytes[..8] == bytes[12..20] => paper::zone_list(&bytes[12..]),
        _ => paper::zone_list(bytes),
    }
}

fn subnormals(bits: u64) -> Result<Option<i64>, u32> {
    if f64::from_bits(bits).is_subnormal() { Ok(Some(0)) } else { paper::time_value(bits) }
}

/// Only the bits that the call has are counted for the length.
fn own_bits(bytes: &[u8], bits: usize) -> Result<Fields, u32> {
    match paper::field_record(bytes, bits) {
        Err(4) => Err(3),
        right => right,
    }
}

/// The Rust's own call without its first argument: a parting that 01 names.
fn absent_first_nan(fields: &Fields, present: [f64; 7], first: usize) -> [f64; 7] {
    let mut parts = paper::setter_parts(fields, present, first);
    parts[first] = fields[0].unwrap_or(f64::NAN);
    parts
}

fn off_by_one(text: &[u8], zone: &ZoneList) -> Option<i64> {
    original::parse(text, zone).map(|t| t + i64::from(text.ends_with(b"-23:59")))
}

fn one_more_day(text: &[u8], zone: &ZoneList) -> Option<i64> {
    original::parse(text, zone).or_else(|| (text == b"-271821-04-19").then_some(0))
}

fn short_accepted(text: &[u8], zone: &ZoneList) -> Option<i64> {
    let form = paper::text(text).ok().filter(Form::is_short);
    let text = form.map_or(text.to_vec(), |form| with_zeros(text, form.decimals));
    original::parse(&text, zone)
}

/// What the original answers where the zeros are written in counts, too.
fn half_refused(text: &[u8], zone: &ZoneList) -> Option<i64> {
    original::parse(text, zone).filter(|_| !text.ends_with(b".500"))
}

fn set_as_utc(setter: Setter, _: Option<&ZoneList>, t: f64, args: &[f64]) -> f64 {
    original::set(setter, None, t, args)
}
