//! The reading of 01 on every row and trap that the papers name, and the parts of the harness.

use crate::case::{Case, Line, SETTERS, tags};
use crate::expected::{expected, with_zeros};
use crate::inputs::{NANS, UTC, list_bytes};
use crate::outcome::NAN;
use crate::paper;
use crate::random::Random;
use crate::whole;
use ::original::exports::{self as original, Setter, ZoneList};

fn number(text: &str) -> u32 {
    read(text).0
}

/// Number and value of a text under the list (0, 0).
fn read(text: &str) -> (u32, u64) {
    let case = Case::Read { zone: &list_bytes(&UTC), text: text.as_bytes() };
    let outcome = expected(&case).outcome().expect("the original and 01 agree");
    (outcome.number, outcome.value)
}

fn record(map: u8, fields: &[f64]) -> Vec<u8> {
    let mut bytes = vec![map];
    bytes.extend(fields.iter().flat_map(|x| x.to_le_bytes()));
    bytes
}

#[test]
fn bounds_come_after_all_digits() {
    assert_eq!(number("2023-3"), 5);
    assert_eq!(number("2023-1x"), 6);
    assert_eq!(number("2023-13x"), 7);
    assert_eq!(number("2023-00"), 7);
    assert_eq!(number("2023-01-32"), 7);
    assert_eq!(number("2023T25"), 7);
    assert_eq!(number("2023T2"), 5);
    assert_eq!(number("2023T2x"), 6);
    assert_eq!(number("2023T23:60"), 7);
    assert_eq!(number("2023T23:59:60"), 7);
    assert_eq!(number("2023T23:59+24"), 7);
    assert_eq!(number("2023T23:59+23:60"), 7);
}

#[test]
fn minus_zero_year_is_7_whatever_follows() {
    for rest in ["", "x", "-01", "-13", "T00:00Z"] {
        assert_eq!(number(&format!("-000000{rest}")), 7);
    }
    assert_eq!(number("-00000"), 5);
    assert_eq!(number("-00000x"), 6);
    assert_eq!(number("+000000"), 0);
}

#[test]
fn eight_only_after_day_z_and_offset_minute() {
    for text in ["2023-01-01x", "2023-01-01-", "2023T00:00Zx", "2023T00:00Z0", "2023T00:00+01:00x"]
    {
        assert_eq!(number(text), 8, "{text}");
    }
    for text in [
        "2023x",
        "2023-01x",
        "2023T00:00x",
        "2023T00:00:00x",
        "2023T00:00:00.000x",
        "2023T00:00+01x",
        "2023T00:00+0100",
        "2023T00x",
        "2023T00:00:00,000",
        "20231",
        "2023-011",
    ] {
        assert_eq!(number(text), 6, "{text}");
    }
}

#[test]
fn hour_24_stands_after_8() {
    assert_eq!(number("2023T24:01Zx"), 8);
    assert_eq!(number("2023T24:01x"), 6);
    assert_eq!(number("2023T24:01"), 7);
    assert_eq!(number("2023T24:01Z"), 7);
    assert_eq!(number("2023T24:00:01"), 7);
    assert_eq!(number("2023T24:00:00.001-05:00"), 7);
    assert_eq!(number("2023T24:00:00.000-05:30"), 0);
    // The row stands before 9.
    assert_eq!(number("+999999T24:01"), 7);
    assert_eq!(number("+999999T24:00"), 9);
}

#[test]
fn ends_are_5() {
    let whole = "2023-02-28T12:34:56.789+01:30";
    for (length, due) in [
        (0, 5),
        (3, 5),
        (4, 0),
        (5, 5),
        (6, 5),
        (7, 0),
        (8, 5),
        (10, 0),
        (11, 5),
        (12, 5),
        (13, 5),
        (14, 5),
        (15, 5),
        (16, 0),
        (17, 5),
        (18, 5),
        (19, 0),
        (20, 5),
        (21, 0),
        (22, 0),
        (23, 0),
        (24, 5),
        (25, 5),
        (26, 0),
        (27, 5),
        (28, 5),
        (29, 0),
    ] {
        assert_eq!(number(&whole[..length]), due, "{}", &whole[..length]);
    }
}

#[test]
fn decimals_are_one_to_three() {
    for (decimals, ms) in [
        (".5", 500.0),
        (".50", 500.0),
        (".500", 500.0),
        (".0", 0.0),
        (".9", 900.0),
        (".05", 50.0),
        (".99", 990.0),
        (".005", 5.0),
        (".789", 789.0),
    ] {
        for zone in ["", "Z", "+00", "-00:00"] {
            let text = format!("1970-01-01T00:00:00{decimals}{zone}");
            assert_eq!(read(&text), (0, f64::to_bits(ms)), "{text}");
        }
    }
    assert_eq!(read("1970-01-01T00:00:00.5+01:00"), (0, (-3_599_500.0f64).to_bits()));
}

#[test]
fn what_decimals_are_refused_for() {
    for (end, due) in [
        (".", 5),
        (".Z", 6),
        (".+01", 6),
        (".x", 6),
        ("..5", 6),
        (".5000", 6),
        (".50000", 6),
        (".500.", 6),
        (".5.", 6),
        (".5x", 6),
        (".5 ", 6),
        (".5:", 6),
        (".5/", 6),
        (".5+", 5),
        (".5+0", 5),
        (".5+24", 7),
        (".50+23:60", 7),
        (".5+01x", 6),
        (".5Zx", 8),
        (".50+01:00x", 8),
    ] {
        assert_eq!(number(&format!("2023T12:00:00{end}")), due, "{end}");
    }
}

#[test]
fn hour_24_takes_decimals_that_are_0() {
    for end in [".0", ".00", ".000", ".0Z", ".00-05:30", ".0+05"] {
        assert_eq!(number(&format!("2023T24:00:00{end}")), 0, "{end}");
    }
    for end in [".1", ".10", ".01", ".1Z", ".01+05", ".10-05:30"] {
        assert_eq!(number(&format!("2023T24:00:00{end}")), 7, "{end}");
    }
    assert_eq!(read("1970-01-01T24:00:00.0"), (0, 86_400_000f64.to_bits()));
    // 5, 6 and 8 stand before that row, and it stands before 9.
    assert_eq!(number("2023T24:00:00.1+"), 5);
    assert_eq!(number("2023T24:00:00.1x"), 6);
    assert_eq!(number("2023T24:00:00.1Zx"), 8);
    assert_eq!(number("+999999T24:00:00.1"), 7);
    assert_eq!(number("+999999T24:00:00.0"), 9);
}

#[test]
fn the_form_keeps_how_many_decimals() {
    let form = |end: &str| paper::text(format!("2023T12:00{end}").as_bytes()).unwrap();
    for (end, decimals, ms) in
        [("", 0, 0), (":00", 0, 0), (":00.5", 1, 500), (":00.05Z", 2, 50), (":00.050+01", 3, 50)]
    {
        let form = form(end);
        assert_eq!((form.decimals, form.millisecond), (decimals, ms), "{end}");
        assert_eq!(form.is_short(), [1, 2].contains(&decimals), "{end}");
    }
}

/// Where 02 parts from the Rust.
#[test]
fn the_original_refuses_short_decimals() {
    let zone = &ZoneList::new(&UTC);
    let parse = |text: &[u8]| original::parse(text, zone);
    for zone in ["", "Z", "+00", "-00:00"] {
        for decimals in [".5", ".50", ".0", ".00"] {
            let text = format!("1970-01-01T00:00:00{decimals}{zone}");
            assert_eq!(parse(text.as_bytes()), None, "{text}");
        }
        assert_eq!(parse(format!("1970-01-01T00:00:00.500{zone}").as_bytes()), Some(500));
    }
    assert_eq!(with_zeros(b"2023T12:00:00.5Z", 1), b"2023T12:00:00.500Z");
    assert_eq!(with_zeros(b"2023T12:00:00.05", 2), b"2023T12:00:00.050");
}

#[test]
fn rewriting_prints_three_decimals() {
    let zone = &list_bytes(&UTC);
    for (text, due) in [
        ("2023-01-01T12:00:00.5Z", "2023-01-01T12:00:00.500Z"),
        ("2023-01-01T12:00:00.05+01:00", "2023-01-01T11:00:00.050Z"),
        ("2023-01-01T24:00:00.0", "2023-01-02T00:00:00.000Z"),
    ] {
        let case = Case::Rewrite { zone, text: text.as_bytes(), out: &[0; 24] };
        let outcome = expected(&case).outcome().unwrap();
        assert_eq!((outcome.number, outcome.length), (0, 24), "{text}");
        assert_eq!(outcome.out, due.as_bytes(), "{text}");
    }
}

#[test]
fn strange_bytes_get_no_number_of_their_own() {
    let zone = &list_bytes(&UTC);
    for (text, due) in [
        (&b"\xff"[..], 6),
        (b"2023\x80", 6),
        (b"2023-01-01\xff", 8),
        (b"2023-01-01t00:00", 8),
        (b"2023T00:00z", 6),
        (b"2023T00:00Z\xc3", 8),
        (b"\0", 6),
        (b"2023\r", 6),
    ] {
        let outcome = expected(&Case::Read { zone, text }).outcome().unwrap();
        assert_eq!(outcome.number, due, "{}", text.escape_ascii());
        assert_eq!((outcome.value, outcome.length), (NAN, 0));
    }
}

#[test]
fn nine_is_after_the_offset() {
    assert_eq!(read("+275760-09-13T01:00:00+01:00"), (0, 8.64e15f64.to_bits()));
    assert_eq!(number("+275760-09-13T00:00:00.001Z"), 9);
    assert_eq!(number("-271821-04-19T23:00-01:00"), 0);
    assert_eq!(number("-271821-04-19T23:00+01:00"), 9);
    assert_eq!(number("+999999-12-31T23:59:59.999-23:59"), 9);
    assert_eq!(read("+275760-09-13T00:00:00.0Z"), (0, 8.64e15f64.to_bits()));
    assert_eq!(number("+275760-09-13T00:00:00.1Z"), 9);
    assert_eq!(number("+275760-09-13T00:00:00.01Z"), 9);
    assert_eq!(number("-271821-04-19T23:59:59.9Z"), 9);
    assert_eq!(number("-271821-04-19T23:59:59.9-00:01"), 0);
}

#[test]
fn the_records_rows_in_order() {
    let good = &list_bytes(&UTC);
    let set = |zone: &[u8], time: f64, record: &[u8]| {
        let case = Case::Set { setter: Setter::Month, zone, time: time.to_bits(), record };
        expected(&case).outcome().unwrap().number
    };
    // 1, 2, 3, 4, each with all the later faults there too.
    assert_eq!(set(&[], 0.5, &[]), 1);
    assert_eq!(set(good, 0.5, &[]), 2);
    assert_eq!(set(good, 0.0, &[]), 3);
    assert_eq!(set(good, 0.0, &[0b1000_0000]), 3);
    assert_eq!(set(good, 0.0, &record(0b1000_0000, &[1.0])), 4);
    assert_eq!(set(good, 0.0, &record(0b100, &[1.0])), 4);
    // A NaN date skips neither.
    assert_eq!(set(good, f64::NAN, &[1]), 3);
    assert_eq!(set(good, f64::NAN, &record(0b100, &[1.0])), 4);
    assert_eq!(set(good, f64::NAN, &record(1, &[1.0])), 0);
}

#[test]
fn time_values() {
    for bits in NANS {
        assert_eq!(paper::time_value(bits), Ok(None));
    }
    assert_eq!(paper::time_value((-0.0f64).to_bits()), Ok(Some(0)));
    for t in [f64::INFINITY, -f64::INFINITY, 0.5, 5e-324, -5e-324, 8.64e15 + 1.0, -8.64e15 - 1.0] {
        assert_eq!(paper::time_value(t.to_bits()), Err(2), "{t}");
    }
    assert_eq!(paper::time_value(8.64e15f64.to_bits()), Ok(Some(8_640_000_000_000_000)));
}

#[test]
fn writers_rows() {
    let nan = f64::NAN.to_bits();
    let number = |case: &Case| expected(case).outcome().unwrap().number;
    assert_eq!(number(&Case::ToIsoString { time: nan, out: &[] }), 10);
    assert_eq!(number(&Case::ToIsoString { time: 0, out: &[0; 23] }), 11);
    assert_eq!(number(&Case::ToIsoString { time: 0, out: &[0; 24] }), 0);
    assert_eq!(number(&Case::ToUtcString { time: nan, out: &[0; 11] }), 11);
    assert_eq!(number(&Case::ToUtcString { time: nan, out: &[0; 12] }), 0);
    let minus_zero = Case::ToUtcString { time: 1 << 63, out: &[7; 30] };
    let outcome = expected(&minus_zero).outcome().unwrap();
    assert_eq!((outcome.number, outcome.value, outcome.length), (0, 0, 29));
    assert_eq!(outcome.out[29], 7);
}

fn value(case: &Case) -> f64 {
    f64::from_bits(expected(case).outcome().unwrap().value)
}

#[test]
fn absent_fields_of_the_builder() {
    let zone = &list_bytes(&[(0, 3600)]);
    // No field, or no year, is NaN; a year alone is its first moment.
    assert!(value(&Case::BuildUtc { record: &[0] }).is_nan());
    assert!(value(&Case::BuildLocal { zone, record: &[0] }).is_nan());
    assert!(value(&Case::BuildUtc { record: &record(0b10, &[3.0]) }).is_nan());
    assert_eq!(value(&Case::BuildUtc { record: &record(1, &[70.0]) }), 0.0);
    assert_eq!(value(&Case::BuildLocal { zone, record: &record(1, &[70.0]) }), -3_600_000.0);
}

/// 2 January 1970, 01:01:01.001.
const TIME: f64 = 90_061_001.0;

#[test]
fn absent_fields_of_a_setter() {
    let set = |setter, map, fields: &[f64]| {
        let (time, record) = (TIME.to_bits(), &record(map, fields));
        value(&Case::SetUtc { setter, time, record })
    };
    // The first keeps its present value where later ones are given.
    assert_eq!(set(Setter::Seconds, 0b10, &[5.0]), 90_061_005.0);
    assert_eq!(set(Setter::Minutes, 0b10, &[5.0]), 90_065_001.0);
    assert_eq!(set(Setter::Hours, 0b10, &[5.0]), 90_301_001.0);
    assert_eq!(set(Setter::Hours, 0b1010, &[5.0, 7.0]), 90_301_007.0);
    assert_eq!(set(Setter::Month, 0b10, &[15.0]), 14.0 * 86_400_000.0 + 3_661_001.0);
    assert_eq!(set(Setter::FullYear, 0b10, &[1.0]), 32.0 * 86_400_000.0 + 3_661_001.0);
    assert_eq!(set(Setter::FullYear, 0b100, &[1.0]), 3_661_001.0);
    // A gap keeps the present value: hours 5, minute as it was, second 7.
    let hours = set(Setter::Hours, 0b101, &[5.0, 7.0]);
    assert_eq!(hours, 86_400_000.0 + 5.0 * 3_600_000.0 + 60_000.0 + 7000.0 + 1.0);
    // A first field that is given is taken, NaN too.
    assert_eq!(set(Setter::Seconds, 0b11, &[2.0, 5.0]), 90_062_005.0);
    for (setter, ..) in SETTERS {
        assert!(set(setter, 1, &[f64::NAN]).is_nan(), "{setter:?}");
    }
}

#[test]
fn a_record_with_no_field() {
    let zone = &list_bytes(&[(0, 7200), (3600, 3600)]);
    for (setter, ..) in SETTERS {
        let utc = |t: f64| value(&Case::SetUtc { setter, time: t.to_bits(), record: &[0] });
        let local = |t: f64| value(&Case::Set { setter, zone, time: t.to_bits(), record: &[0] });
        assert_eq!(utc(TIME), TIME, "{setter:?}");
        assert_eq!(local(TIME), TIME, "{setter:?}");
        // 02:00 local time comes twice and is taken for the later one.
        assert_eq!(local(0.0), 3_600_000.0, "{setter:?}");
        // set_full_year of NaN starts from 0 with no shift in; the way out is shifted.
        if setter == Setter::FullYear {
            assert_eq!((utc(f64::NAN), local(f64::NAN)), (0.0, -7_200_000.0));
        } else {
            assert!(utc(f64::NAN).is_nan() && local(f64::NAN).is_nan(), "{setter:?}");
        }
    }
}

#[test]
fn full_year_of_nan_starts_from_0() {
    let zone = &list_bytes(&[(0, 3600)]);
    let set = |map, fields: &[f64]| {
        let (setter, time, record) = (Setter::FullYear, f64::NAN.to_bits(), &record(map, fields));
        value(&Case::Set { setter, zone, time, record })
    };
    assert_eq!(set(1, &[2024.0]), 1_704_067_200_000.0 - 3_600_000.0);
    assert_eq!(set(0b10, &[1.0]), 31.0 * 86_400_000.0 - 3_600_000.0);
}

/// Where 01 parts from the Rust: without its first argument the original's own call clears a date.
#[test]
fn the_original_without_a_first_argument_gives_nan() {
    let zone = &ZoneList::new(&[(0, 3600)]);
    for (setter, ..) in SETTERS {
        for t in [0.0, TIME, f64::NAN] {
            assert!(original::set(setter, None, t, &[]).is_nan(), "{setter:?} {t}");
            assert!(original::set(setter, Some(zone), t, &[]).is_nan(), "{setter:?} {t}");
        }
    }
}

#[test]
fn the_whole_calendar_counts_every_day() {
    let (mut year, mut month, mut date) = (-800, 1, 1);
    for day in whole::day_number(-800, 1, 1)..whole::day_number(2801, 1, 1) {
        assert_eq!(whole::date_of(day), (year, month, date));
        assert_eq!(whole::day_number(year, month, date), day);
        let leap = year % 4 == 0 && (year % 100 != 0 || year % 400 == 0);
        let last = match month {
            2 => 28 + i128::from(leap),
            4 | 6 | 9 | 11 => 30,
            _ => 31,
        };
        date += 1;
        if date > last {
            (month, date) = (month + 1, 1);
        }
        if month > 12 {
            (year, month) = (year + 1, 1);
        }
    }
    assert_eq!(whole::day_number(1970, 1, 1), 0);
}

#[test]
fn lines_come_back() {
    let zone = &list_bytes(&[(-5, 3600)]);
    let mut cases = vec![
        Case::Read { zone, text: b"2023" },
        Case::Rewrite { zone, text: b"", out: &[1, 2] },
        Case::ToIsoString { time: 5, out: &[] },
        Case::ToUtcString { time: 6, out: &[9] },
        Case::ToString { zone, time: 7, out: &[] },
        Case::BuildUtc { record: &[1] },
        Case::BuildLocal { zone, record: &[] },
    ];
    for (setter, ..) in SETTERS {
        cases.push(Case::SetUtc { setter, time: 8, record: &[0] });
        cases.push(Case::Set { setter, zone, time: 8, record: &[0] });
    }
    for export in crate::lower::EXPORTS {
        let mut args = [0; 4];
        args[..export.words].fill(0xFEDC_BA98_7654_3210);
        cases.push(Case::Export { export, zone: if export.listed { zone } else { &[] }, args });
    }
    assert_eq!(cases.len(), tags().len());
    for case in cases {
        let line = case.line();
        let parsed = Line::parse(&line).unwrap();
        assert_eq!(parsed.case().unwrap().line(), line);
    }
}

#[test]
fn tags_are_four_bytes_and_differ() {
    let mut all = tags();
    assert!(all.iter().all(|tag| tag.len() == 4));
    let count = all.len();
    all.sort_unstable();
    all.dedup();
    assert_eq!(all.len(), count);
}

#[test]
fn a_seed_gives_the_same_numbers() {
    let numbers = |seed, name| {
        let mut r = Random::new(seed, name);
        [r.next(), r.below(1000), r.between(-5, 5) as u64]
    };
    assert_eq!(numbers(1, "read"), numbers(1, "read"));
    assert_ne!(numbers(1, "read"), numbers(2, "read"));
    assert_ne!(numbers(1, "read"), numbers(1, "write"));
}
