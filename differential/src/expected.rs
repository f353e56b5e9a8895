//! What each call must leave behind: the number by the reading of 01's table, the value and the
//! text by the original. Where whole numbers say it too, the original is held to them. Where 02
//! parts from the original, it is asked with what is missing written in.

use crate::case::{Case, setter_row};
use crate::lower::Export;
use crate::outcome::{Outcome, bits};
use crate::paper::{self, Fields, Form, Record};
use crate::standard;
use crate::whole;
use ::original::exports::{self as original, Setter, ZoneList, calendar, local};

/// What is expected of a case.
pub enum Expected {
    Outcome(Outcome),
    /// The original and document 01 part here: what each says.
    Parting(String),
    /// The papers claim no equality with the original here.
    Unclaimed,
}

impl Expected {
    /// The outcome, for cases where the original and 01 are known to agree.
    pub fn outcome(self) -> Option<Outcome> {
        match self {
            Expected::Outcome(outcome) => Some(outcome),
            _ => None,
        }
    }
}

/// The two sides that say what is due: the reading of 01 and the original. A bite puts a wrong
/// function in the place of one.
#[derive(Clone, Copy)]
pub struct Sides {
    pub zone_list: fn(&[u8]) -> Result<Vec<Record>, u32>,
    pub time_value: fn(u64) -> Result<Option<i64>, u32>,
    pub field_record: fn(&[u8], usize) -> Result<Fields, u32>,
    pub setter_parts: fn(&Fields, [f64; 7], usize) -> [f64; 7],
    pub text: fn(&[u8]) -> Result<Form, u32>,
    pub instant: fn(&Form, &[Record]) -> i128,
    pub parse: fn(&[u8], &ZoneList) -> Option<i64>,
    pub set: fn(Setter, Option<&ZoneList>, f64, &[f64]) -> f64,
}

/// The sides as they are.
pub const RIGHT: Sides = Sides {
    zone_list: paper::zone_list,
    time_value: paper::time_value,
    field_record: paper::field_record,
    setter_parts: paper::setter_parts,
    text: paper::text,
    instant: whole::instant,
    parse: original::parse,
    set: original::set,
};

/// The expected outcome of a case.
pub fn expected(case: &Case) -> Expected {
    expected_by(&RIGHT, case)
}

/// The expected outcome by the given sides.
pub fn expected_by(sides: &Sides, case: &Case) -> Expected {
    match accepted(sides, case) {
        Err(number) => Expected::Outcome(Outcome::refused(number, case.out())),
        Ok(list) => match *case {
            Case::Read { text, .. } => read(sides, &list, text, None),
            Case::Rewrite { text, out, .. } => read(sides, &list, text, Some(out)),
            Case::Export { export, args, .. } => below(export, args, &list),
            Case::BuildUtc { record } => build(sides, None, record),
            Case::BuildLocal { record, .. } => build(sides, Some(&list), record),
            Case::SetUtc { setter, time, record } => set(sides, setter, None, time, record),
            Case::Set { setter, time, record, .. } => set(sides, setter, Some(&list), time, record),
            _ => write(sides, case, &list),
        },
    }
}

/// The rows of the table that stand before the reading of a text: zone list, time value, field
/// record. A call that takes no list has an empty one here.
fn accepted(sides: &Sides, case: &Case) -> Result<Vec<Record>, u32> {
    let list = match case {
        Case::Read { zone, .. }
        | Case::Rewrite { zone, .. }
        | Case::ToString { zone, .. }
        | Case::BuildLocal { zone, .. }
        | Case::Set { zone, .. } => (sides.zone_list)(zone)?,
        Case::Export { zone, .. } => (sides.zone_list)(zone).unwrap_or_default(),
        _ => Vec::new(),
    };
    match *case {
        Case::ToIsoString { time, .. }
        | Case::ToUtcString { time, .. }
        | Case::ToString { time, .. }
        | Case::SetUtc { time, .. }
        | Case::Set { time, .. } => {
            (sides.time_value)(time)?;
        }
        _ => {}
    }
    match *case {
        Case::BuildUtc { record } | Case::BuildLocal { record, .. } => {
            (sides.field_record)(record, 7)?;
        }
        Case::SetUtc { setter, record, .. } | Case::Set { setter, record, .. } => {
            (sides.field_record)(record, setter_row(setter).3)?;
        }
        _ => {}
    }
    Ok(list)
}

/// Reading, and rewriting where an output is lent.
fn read(sides: &Sides, list: &[Record], text: &[u8], out: Option<&[u8]>) -> Expected {
    let form = (sides.text)(text);
    let says = form.and_then(|form| whole::clip((sides.instant)(&form, list)).ok_or(9u32));
    let short = form.ok().filter(Form::is_short);
    let zone = &ZoneList::new(list);
    let does = match short {
        Some(form) => (sides.parse)(&with_zeros(text, form.decimals), zone),
        None => (sides.parse)(text, zone),
    };
    if let Some(t) = short.and_then(|_| (sides.parse)(text, zone)) {
        return Expected::Parting(format!("02: the original refuses short decimals; it gives {t}"));
    }
    match (says, does) {
        (Err(number), None) => Expected::Outcome(Outcome::refused(number, out.unwrap_or(&[]))),
        (Ok(t), Some(v)) if t == i128::from(v) => match out {
            None => Expected::Outcome(Outcome::time(v as f64)),
            Some(out) => written(
                v as f64,
                original::to_iso_string(v as f64).unwrap(),
                whole::iso_text(t),
                out,
            ),
        },
        _ => Expected::Parting(format!("01 says {says:?}, the original {does:?}")),
    }
}

/// The text with the zeros that its decimals lack written in behind them: `.5` is `.500`. The
/// original reads no fewer than three.
pub fn with_zeros(text: &[u8], decimals: usize) -> Vec<u8> {
    let point = text.iter().position(|b| *b == b'.').expect("decimals stand after a point");
    let (start, rest) = text.split_at(point + 1 + decimals);
    [start, &b"000"[decimals..], rest].concat()
}

/// A text by the original, held to the text by whole numbers.
fn written(t: f64, text: Vec<u8>, by_whole_numbers: String, out: &[u8]) -> Expected {
    if text != by_whole_numbers.as_bytes() {
        let text = String::from_utf8_lossy(&text);
        return Expected::Parting(format!("01 says {by_whole_numbers}, the original {text}"));
    }
    Expected::Outcome(Outcome::text(t, &text, out))
}

/// The three writers. The time value is accepted.
fn write(sides: &Sides, case: &Case, list: &[Record]) -> Expected {
    let (time, out) = match *case {
        Case::ToIsoString { time, out }
        | Case::ToUtcString { time, out }
        | Case::ToString { time, out, .. } => (time, out),
        _ => unreachable!("not a writer"),
    };
    let t = f64::from_bits(time);
    let whole = (sides.time_value)(time).unwrap().map(i128::from);
    let said = |text: fn(i128) -> String| whole.map_or("Invalid Date".into(), text);
    // "A writer that succeeds returns the time it was given (-0 as 0)."
    let value = t + 0.0;
    match case {
        Case::ToIsoString { .. } => match (original::to_iso_string(t), whole) {
            (None, None) => Expected::Outcome(Outcome::refused(10, out)),
            (Some(text), Some(t)) => written(value, text, whole::iso_text(t), out),
            (does, _) => Expected::Parting(format!("01 says {whole:?}, the original {does:?}")),
        },
        Case::ToUtcString { .. } => {
            written(value, original::to_utc_string(t), said(whole::utc_text), out)
        }
        _ => {
            let says = whole.map_or("Invalid Date".into(), |t| whole::local_text(t, list));
            written(value, original::to_string(t, &ZoneList::new(list)), says, out)
        }
    }
}

/// A value by the original, held to whole numbers where they say it.
fn valued(t: f64, by_whole_numbers: Option<u64>) -> Expected {
    match by_whole_numbers {
        Some(says) if says != bits(t) => {
            let says = f64::from_bits(says);
            Expected::Parting(format!("the standard says {says:?}, the original {t:?}"))
        }
        _ => Expected::Outcome(Outcome::time(t)),
    }
}

/// "Rust equality is claimed only for |year| below 2^53."
pub fn year_unclaimed(year: f64) -> bool {
    year.is_finite() && year.abs() >= 9_007_199_254_740_992.0
}

/// The field builder. The gaps before the last given field are written in; the rest is left out of
/// the original's call.
fn build(sides: &Sides, list: Option<&[Record]>, record: &[u8]) -> Expected {
    let fields = (sides.field_record)(record, 7).unwrap();
    if fields[0].is_some_and(year_unclaimed) {
        return Expected::Unclaimed;
    }
    let parts = paper::builder_parts(&fields);
    let t = match list {
        None => original::build_utc(&parts[..up_to_last_given(&fields)]),
        // "Locally, a year alone equals the Rust call with month 0, and no field gives NaN."
        Some(list) => {
            let args = &parts[..up_to_last_given(&fields).max(2)];
            original::build_local(&ZoneList::new(list), args)
        }
    };
    valued(t, standard::build(list, parts))
}

/// How many fields there are up to the last one given.
fn up_to_last_given(fields: &Fields) -> usize {
    fields.iter().rposition(Option::is_some).map_or(0, |last| last + 1)
}

/// A setter. Without its first argument the original takes NaN for it, so the call always has that
/// argument, the present value where it is absent; gaps are written in likewise.
fn set(
    sides: &Sides,
    setter: Setter,
    list: Option<&[Record]>,
    time: u64,
    record: &[u8],
) -> Expected {
    let fields = (sides.field_record)(record, setter_row(setter).3).unwrap();
    let t = f64::from_bits(time);
    let zone = list.map(ZoneList::new);
    let places = standard::slots(setter);
    let put = |present| (sides.setter_parts)(&fields, present, places.start);
    let parts = put(present(zone.as_ref(), t));
    let args = &parts[places.clone()][..up_to_last_given(&fields).max(1)];
    let answer = (sides.set)(setter, zone.as_ref(), t, args);
    valued(answer, standard::set(setter, list, (sides.time_value)(time).unwrap(), put))
}

/// A date's present parts, by the original's own functions: year, month, date, hour, minute, second
/// and millisecond.
pub fn present(zone: Option<&ZoneList>, t: f64) -> [f64; 7] {
    // set_full_year starts from 0 with no shift; the others answer NaN whatever is filled in.
    let t = match zone {
        _ if t.is_nan() => 0.0,
        Some(zone) => local::local_time(t, zone),
        None => t,
    };
    [
        f64::from(calendar::year_from_time(t)),
        f64::from(calendar::month_from_time(t)),
        f64::from(calendar::date_from_time(t)),
        f64::from(calendar::hour_from_time(t)),
        f64::from(calendar::min_from_time(t)),
        f64::from(calendar::sec_from_time(t)),
        f64::from(calendar::ms_from_time(t)),
    ]
}

/// A function below the C interface; the list is empty where it was not accepted.
fn below(export: &Export, args: [u64; 4], list: &[Record]) -> Expected {
    if standard::unclaimed(export, args) {
        return Expected::Unclaimed;
    }
    let zone = (!list.is_empty()).then(|| ZoneList::new(list));
    let value = (export.original)(args, zone.as_ref());
    match standard::below(export, args, list) {
        Some(says) if says != value && !both_zero(says, value) => {
            Expected::Parting(format!("the standard says {says:016x}, the original {value:016x}"))
        }
        _ => Expected::Outcome(Outcome::value(value)),
    }
}

/// Whole numbers have one zero, f64 has two.
fn both_zero(a: u64, b: u64) -> bool {
    a << 1 == 0 && b << 1 == 0
}
