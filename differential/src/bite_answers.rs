//! Wrong answers: slips that look plausible, idle programs, and careless buffers.

use crate::bite::{Bite, Wrong, WrongAnswer};
use crate::case::Case;
use crate::expected::{expected, present};
use crate::inputs::list_bytes;
use crate::outcome::Outcome;
use crate::paper::{self, Zone};
use crate::standard::slots;
use crate::whole;
use original::exports::Setter;

/// A bite of the answers.
pub const fn answer(name: &'static str, wrong: WrongAnswer) -> Bite {
    Bite { name, wrong: Wrong::Answer(wrong) }
}

pub const ANSWERS: &[Bite] = &[
    answer("offset read as later", offset_as_later),
    answer("clipped before the offset", clipped_before_offset),
    answer("hour 24 free", hour_24_free),
    answer("-000000 is year 0", minus_zero_year),
    answer("2023-02-31 refused", day_of_month_checked),
    answer("reads the year only", year_only),
    answer("refuses every text", |c, o| text_of(c).map(|_| Outcome::refused(6, &o.out))),
    answer("local text read as UTC", local_as_utc),
    answer("6 where 8 is due", |_, o| renumbered(o, 8, 6)),
    answer("8 where 6 is due", |_, o| renumbered(o, 6, 8)),
    answer("6 where 5 is due", |_, o| renumbered(o, 5, 6)),
    answer("5 where 7 is due", |_, o| renumbered(o, 7, 5)),
    answer("7 where 9 is due", |_, o| renumbered(o, 9, 7)),
    answer("3 where 4 is due", |_, o| renumbered(o, 4, 3)),
    answer("10 is an invalid text", |_, o| renumbered(o, 10, 0)),
    answer("11 for an output just long enough", |c, o| {
        (o.length > 0 && o.length == c.out().len()).then(|| Outcome::refused(11, c.out()))
    }),
    answer("record judged before the time", record_before_time),
    answer("record skipped at a NaN date", record_skipped_at_nan),
    answer("record looked up strictly before", records_a_second_late),
    answer("before the first record, no offset", no_offset_before_first),
    answer("1,024 records refused", |c, o| {
        (c.zone().len() == 12 * 1024).then(|| Outcome::refused(1, &o.out))
    }),
    answer("suffix looked up at the instant", suffix_at_instant),
    answer("setter returns its date", setter_idle),
    answer("absent first field is NaN", |c, _| setter_first_as(c, f64::NAN)),
    answer("absent first field is 0", |c, _| setter_first_as(c, 0.0)),
    answer("absent first field from the instant", absent_first_at_instant),
    answer("absent first field: later ones ignored", later_ignored),
    answer("first field of NaN as absent", nan_first_as_absent),
    answer("no field: the local date given back", |c, o| match *c {
        Case::Set { time, record: [0], .. } if !f64::from_bits(time).is_nan() => setter_idle(c, o),
        _ => None,
    }),
    answer("full year of NaN is NaN", |c, o| {
        full_year_of_nan(c, o).then(|| Outcome::time(f64::NAN))
    }),
    answer("absent full year of a NaN date is NaN", |c, o| {
        (full_year_of_nan(c, o) && c.input()[0] & 1 == 0).then(|| Outcome::time(f64::NAN))
    }),
    answer("full year of NaN from 0 shifted in", |c, o| match *c {
        Case::Set { setter, zone, record, .. } if full_year_of_nan(c, o) => {
            by(Case::Set { setter, zone, time: 0, record })
        }
        _ => None,
    }),
    answer("the builder's absent year is 1970", |c, _| match *c {
        Case::BuildUtc { .. } | Case::BuildLocal { .. } => first_as(c, 1970.0),
        _ => None,
    }),
    answer("builder keeps years 0 to 99", builder_keeps_short_years),
    answer("builder counts months from 1", builder_months_from_one),
    answer("writes 1970 for every date", |c, o| match *c {
        Case::ToIsoString { out, .. } if o.number == 0 => {
            Some(Outcome::text(f64::from_bits(o.value), b"1970-01-01T00:00:00.000Z", out))
        }
        _ => None,
    }),
    answer("seconds truncated before 1970", seconds_truncated),
    answer("year 10000 without a sign", |c, o| match *c {
        Case::ToIsoString { out, .. } if o.out.first() == Some(&b'+') && o.length == 27 => {
            Some(Outcome::text(f64::from_bits(o.value), &o.out[1..27], out))
        }
        _ => None,
    }),
    answer("NaN with its sign", |_, o| {
        (o.value == 0x7FF8_0000_0000_0000).then(|| Outcome { value: 0xFFF8 << 48, ..o.clone() })
    }),
    answer("-0 returned by a writer", |c, o| match *c {
        Case::ToUtcString { time, .. } if time == 1 << 63 => {
            Some(Outcome { value: time, ..o.clone() })
        }
        _ => None,
    }),
    answer("length one too long", |_, o| {
        (o.length > 0).then(|| Outcome { length: o.length + 1, ..o.clone() })
    }),
    answer("byte past the text cleared", |_, o| {
        let mut wrong = o.clone();
        *wrong.out.get_mut(o.length).filter(|_| o.number == 0)? = 0;
        Some(wrong)
    }),
    answer("output touched by a refusal", |_, o| {
        let mut wrong = o.clone();
        *wrong.out.first_mut().filter(|_| o.number == 11)? = b'0';
        Some(wrong)
    }),
    answer("value given with a refusal", |_, o| {
        (o.number == 9).then(|| Outcome { value: 0, ..o.clone() })
    }),
    Bite { name: "a byte beside a slice written", wrong: Wrong::Guard },
];

/// The right outcome of another case.
pub fn by(case: Case) -> Option<Outcome> {
    expected(&case).outcome()
}

fn renumbered(o: &Outcome, from: u32, to: u32) -> Option<Outcome> {
    (o.number == from).then(|| Outcome { number: to, ..o.clone() })
}

/// The text that a call is given.
pub fn text_of<'a>(case: &Case<'a>) -> Option<&'a [u8]> {
    match *case {
        Case::Read { text, .. } | Case::Rewrite { text, .. } => Some(text),
        _ => None,
    }
}

/// The same call with another text.
pub fn with_text<'a>(case: &Case<'a>, text: &'a [u8]) -> Option<Case<'a>> {
    match *case {
        Case::Read { zone, .. } => Some(Case::Read { zone, text }),
        Case::Rewrite { zone, out, .. } => Some(Case::Rewrite { zone, text, out }),
        _ => None,
    }
}

/// The same call with another list.
fn with_zone<'a>(case: &Case<'a>, zone: &'a [u8]) -> Option<Case<'a>> {
    match *case {
        Case::Read { text, .. } => Some(Case::Read { zone, text }),
        Case::Rewrite { text, out, .. } => Some(Case::Rewrite { zone, text, out }),
        Case::ToString { time, out, .. } => Some(Case::ToString { zone, time, out }),
        Case::BuildLocal { record, .. } => Some(Case::BuildLocal { zone, record }),
        Case::Set { setter, time, record, .. } => Some(Case::Set { setter, zone, time, record }),
        _ => None,
    }
}

/// The same call with another record.
fn with_record<'a>(case: &Case<'a>, record: &'a [u8]) -> Option<Case<'a>> {
    match *case {
        Case::BuildUtc { .. } => Some(Case::BuildUtc { record }),
        Case::BuildLocal { zone, .. } => Some(Case::BuildLocal { zone, record }),
        Case::SetUtc { setter, time, .. } => Some(Case::SetUtc { setter, time, record }),
        Case::Set { setter, zone, time, .. } => Some(Case::Set { setter, zone, time, record }),
        _ => None,
    }
}

/// The date that a setter is given.
fn setter_date(case: &Case) -> Option<f64> {
    match *case {
        Case::SetUtc { time, .. } | Case::Set { time, .. } => Some(f64::from_bits(time)),
        _ => None,
    }
}

fn offset_as_later(case: &Case, _: &Outcome) -> Option<Outcome> {
    let mut text = text_of(case)?.to_vec();
    let t = text.iter().position(|b| *b == b'T')?;
    let sign = t + text[t..].iter().position(|b| b"+-".contains(b))?;
    text[sign] = if text[sign] == b'+' { b'-' } else { b'+' };
    by(with_text(case, &text)?)
}

fn clipped_before_offset(case: &Case, o: &Outcome) -> Option<Outcome> {
    let form = paper::text(text_of(case)?).ok()?;
    let list = paper::zone_list(case.zone()).ok()?;
    let written = whole::instant(&paper::Form { zone: Zone::Utc, ..form }, &list);
    let out_of_range = o.number == 0 && whole::clip(written).is_none();
    out_of_range.then(|| Outcome::refused(9, case.out()))
}

fn hour_24_free(case: &Case, o: &Outcome) -> Option<Outcome> {
    let text = String::from_utf8(text_of(case)?.to_vec()).ok()?;
    let right = by(with_text(case, text.replace("T24", "T23").as_bytes())?)?;
    let accepted = o.number == 7 && right.number == 0 && matches!(case, Case::Read { .. });
    accepted.then(|| Outcome::time(f64::from_bits(right.value) + 3_600_000.0))
}

fn minus_zero_year(case: &Case, _: &Outcome) -> Option<Outcome> {
    let rest = text_of(case)?.strip_prefix(b"-000000")?;
    by(with_text(case, &[b"+000000", rest].concat())?)
}

fn day_of_month_checked(case: &Case, o: &Outcome) -> Option<Outcome> {
    let form = paper::text(text_of(case)?).ok()?;
    let day = whole::day_number(form.year.into(), form.month.into(), form.day.into());
    let exists = whole::date_of(day).2 == i128::from(form.day);
    (o.number == 0 && !exists).then(|| Outcome::refused(7, case.out()))
}

fn year_only(case: &Case, o: &Outcome) -> Option<Outcome> {
    let text = text_of(case)?;
    let year = if text.first()?.is_ascii_digit() { 4 } else { 7 };
    (o.number == 0).then(|| by(with_text(case, &text[..year])?))?
}

fn local_as_utc(case: &Case, _: &Outcome) -> Option<Outcome> {
    paper::zone_list(case.zone()).ok()?;
    text_of(case)?;
    by(with_zone(case, &list_bytes(&[(0, 0)]))?)
}

fn record_before_time(case: &Case, o: &Outcome) -> Option<Outcome> {
    let (Case::SetUtc { setter, record, .. } | Case::Set { setter, record, .. }) = *case else {
        return None;
    };
    let first = by(Case::SetUtc { setter, time: 0, record })?;
    (o.number == 2 && first.number != 0).then_some(first)
}

fn record_skipped_at_nan(case: &Case, o: &Outcome) -> Option<Outcome> {
    let skipped = setter_date(case)?.is_nan() && [3, 4].contains(&o.number);
    skipped.then(|| Outcome::time(f64::NAN))
}

/// The list with every second changed.
fn moved(case: &Case, by: impl Fn(usize, i64) -> Option<i64>) -> Option<Vec<u8>> {
    let mut list = paper::zone_list(case.zone()).ok()?;
    for (i, record) in list.iter_mut().enumerate() {
        record.0 = by(i, record.0)?;
    }
    Some(list_bytes(&list))
}

fn records_a_second_late(case: &Case, _: &Outcome) -> Option<Outcome> {
    let zone = moved(case, |_, second| second.checked_add(1))?;
    by(with_zone(case, &zone)?)
}

fn no_offset_before_first(case: &Case, _: &Outcome) -> Option<Outcome> {
    let list = paper::zone_list(case.zone()).ok()?;
    let zone = list_bytes(&[&[(i64::MIN, 0)], &list[..]].concat());
    by(with_zone(case, &zone)?).filter(|o| o.number != 1)
}

fn suffix_at_instant(case: &Case, o: &Outcome) -> Option<Outcome> {
    let Case::ToString { time, out, .. } = *case else {
        return None;
    };
    let list = paper::zone_list(case.zone()).ok()?;
    let t = i128::from(paper::time_value(time).ok()??);
    let offset = (whole::offset_at(&list, t) / 1000) as i32;
    let text = whole::local_text(t, &[(i64::MIN, offset)]);
    (o.number == 0).then(|| Outcome::text(f64::from_bits(o.value), text.as_bytes(), out))
}

fn setter_idle(case: &Case, o: &Outcome) -> Option<Outcome> {
    let date = setter_date(case)?;
    (o.number == 0).then(|| Outcome::time(date + 0.0))
}

/// With the absent first field given as `value`.
fn first_as(case: &Case, value: f64) -> Option<Outcome> {
    let (&map, later) = case.input().split_first().filter(|(map, _)| *map & 1 == 0)?;
    let record = [&[map | 1], &value.to_le_bytes()[..], later].concat();
    by(with_record(case, &record)?)
}

fn setter_first_as(case: &Case, value: f64) -> Option<Outcome> {
    setter_date(case)?;
    first_as(case, value)
}

/// The present value is that of the UTC date.
fn absent_first_at_instant(case: &Case, o: &Outcome) -> Option<Outcome> {
    let Case::Set { setter, time, .. } = *case else {
        return None;
    };
    let value = || present(None, f64::from_bits(time))[slots(setter).start];
    (o.number == 0).then(|| first_as(case, value()))?
}

fn later_ignored(case: &Case, o: &Outcome) -> Option<Outcome> {
    setter_date(case).filter(|_| o.number == 0)?;
    (case.input()[0] & 1 == 0).then(|| by(with_record(case, &[0])?))?
}

fn nan_first_as_absent(case: &Case, _: &Outcome) -> Option<Outcome> {
    setter_date(case)?;
    let (&map, fields) = case.input().split_first().filter(|(map, _)| *map & 1 == 1)?;
    let (first, later) = fields.split_first_chunk()?;
    let record = [&[map & !1], later].concat();
    f64::from_le_bytes(*first).is_nan().then(|| by(with_record(case, &record)?))?
}

fn full_year_of_nan(case: &Case, o: &Outcome) -> bool {
    let full_year = matches!(
        case,
        Case::SetUtc { setter: Setter::FullYear, .. } | Case::Set { setter: Setter::FullYear, .. }
    );
    full_year && o.number == 0 && setter_date(case).is_some_and(f64::is_nan)
}

/// A record with one field replaced.
fn with_field(record: &[u8], bit: u8, change: impl Fn(f64) -> f64) -> Option<Vec<u8>> {
    let place = 1 + 8 * (record.first()? & ((1 << bit) - 1)).count_ones() as usize;
    let field = record.get(place..place + 8)?;
    let value = f64::from_le_bytes(field.try_into().unwrap());
    let mut other = record.to_vec();
    other[place..place + 8].copy_from_slice(&change(value).to_le_bytes());
    (record[0] >> bit & 1 == 1).then_some(other)
}

fn builder_keeps_short_years(case: &Case, o: &Outcome) -> Option<Outcome> {
    let Case::BuildUtc { record } = *case else {
        return None;
    };
    let year = paper::field_record(record, 7).ok()?[0]?;
    let kept = (0.0..100.0).contains(&year) && o.number == 0;
    // 400 years later the calendar is the same, and MakeFullYear leaves the year alone.
    let record = with_field(record, 0, |y| y + 400.0)?;
    let later = by(Case::BuildUtc { record: &record })?;
    kept.then(|| Outcome::time(f64::from_bits(later.value) - 12_622_780_800_000.0))
}

fn builder_months_from_one(case: &Case, _: &Outcome) -> Option<Outcome> {
    let Case::BuildUtc { record } = *case else {
        return None;
    };
    let record = with_field(record, 1, |month| month - 1.0)?;
    by(Case::BuildUtc { record: &record })
}

fn seconds_truncated(case: &Case, o: &Outcome) -> Option<Outcome> {
    let Case::ToUtcString { time, out } = *case else {
        return None;
    };
    let t = f64::from_bits(time);
    let later = ((t / 1000.0).trunc() * 1000.0).to_bits();
    let shown = by(Case::ToUtcString { time: later, out })?;
    (t < 0.0).then_some(Outcome { value: o.value, ..shown })
}
