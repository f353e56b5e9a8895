//! Document 01's marked table and its refusals, through the wrapper.

use zovattha::{
    Fields, FullYear, Hours, Month, Refusal, ZoneList, ZoneRecord, build_local, build_utc, read,
    rewrite_into, set_full_year, set_hours, set_utc_full_year, set_utc_hours, set_utc_month,
    to_iso_string, to_string, to_utc_string, write_iso_string, write_string, write_utc_string,
};

fn list(records: &[(i64, i32)]) -> ZoneList {
    let record = |(second, offset): &(i64, i32)| ZoneRecord { second: *second, offset: *offset };
    ZoneList::from_records(&records.iter().map(record).collect::<Vec<_>>()).unwrap()
}

#[test]
fn texts() {
    let utc = ZoneList::utc();
    for (text, expected) in [
        ("", Err(Refusal::TextEnds)),
        ("1970", Ok(0.0)),
        ("2024-02-29T12:00:00Z", Ok(1_709_208_000_000.0)),
        ("2023-02-31", Ok(1_677_801_600_000.0)),
        ("2023-12-31T24:00:00Z", Ok(1_704_067_200_000.0)),
        ("2023-12-31T24:00:01Z", Err(Refusal::TextField)),
        ("-000000", Err(Refusal::TextField)),
        ("+000000", Ok(-62_167_219_200_000.0)),
        ("+275760-09-13T01:00:00+01:00", Ok(zovattha::LAST_TIME)),
        ("-271821-04-20", Ok(-zovattha::LAST_TIME)),
        ("-271821-04-19", Err(Refusal::Instant)),
        ("2023-1x", Err(Refusal::TextByte)),
        ("2023-01-01x", Err(Refusal::TextRest)),
    ] {
        assert_eq!(read(&utc, text), expected, "{text}");
    }
}

#[test]
fn written() {
    let before_year_0 = -62_167_219_200_001.0;
    assert_eq!(to_iso_string(before_year_0).unwrap(), "-000001-12-31T23:59:59.999Z");
    assert_eq!(to_utc_string(before_year_0).unwrap(), "Fri, 31 Dec -0001 23:59:59 GMT");
    let house = list(&[(0, 7200), (3600, 3600)]);
    assert_eq!(to_string(&house, 0.0).unwrap(), "Thu Jan 01 1970 02:00:00 GMT+0100");
    assert_eq!(to_string(&house, f64::NAN).unwrap(), "Invalid Date");
    assert_eq!(to_iso_string(f64::NAN), Err(Refusal::NoTime));
    for time in [0.5, f64::INFINITY, zovattha::LAST_TIME + 1.0] {
        assert_eq!(to_iso_string(time), Err(Refusal::TimeValue));
        assert_eq!(to_utc_string(time), Err(Refusal::TimeValue));
        assert_eq!(to_string(&house, time), Err(Refusal::TimeValue));
    }
}

#[test]
fn set_and_built() {
    let utc = ZoneList::utc();
    let month = Month::new().month(1);
    assert_eq!(set_utc_month(1_706_659_200_000.0, &month), Ok(1_709_337_600_000.0));
    let year = FullYear::new().year(2024);
    assert_eq!(set_full_year(&utc, f64::NAN, &year), Ok(1_704_067_200_000.0));
    assert_eq!(set_utc_full_year(f64::NAN, &year), Ok(1_704_067_200_000.0));
    let hours = Hours::new().hour(20).minute(15);
    assert_eq!(set_utc_hours(0.0, &hours), Ok(72_900_000.0));
    assert_eq!(set_hours(&list(&[(0, 3600)]), 0.0, &hours), Ok(69_300_000.0));
    assert_eq!(set_utc_hours(0.5, &hours), Err(Refusal::TimeValue));
    assert_eq!(set_utc_hours(72_900_000.0, &Hours::new().minute(1)), Ok(72_060_000.0));
    assert_eq!(set_utc_hours(72_900_000.0, &Hours::new()), Ok(72_900_000.0));
    assert_eq!(set_hours(&list(&[(0, 7200), (3600, 3600)]), 0.0, &Hours::new()), Ok(3_600_000.0));
    assert_eq!(set_utc_full_year(f64::NAN, &FullYear::new()), Ok(0.0));
    assert!(set_utc_hours(0.0, &Hours::new().hour(f64::NAN)).unwrap().is_nan());
    assert_eq!(build_utc(&Fields::new().year(70)), 0.0);
    assert_eq!(build_local(&list(&[(0, 3600)]), &Fields::new().year(1970).hour(1)), 0.0);
    assert!(build_utc(&Fields::new()).is_nan());
}

/// Every setter is the one of its name: from one time, by one record with its first field alone.
#[test]
fn each_setter_sets_its_own_field() {
    use zovattha::*;
    let start = read(&ZoneList::utc(), "2024-02-29T12:34:56.789Z").unwrap();
    let house = list(&[(0, 3600)]);
    macro_rules! set {
        ($utc:ident, $local:ident, $fields:expr) => {{
            let (utc, local) = ($utc(start, &$fields), $local(&house, start, &$fields));
            [utc, local].map(|time| to_iso_string(time.unwrap()).unwrap())
        }};
    }
    let answers = [
        set!(set_utc_milliseconds, set_milliseconds, Milliseconds::new().millisecond(1)),
        set!(set_utc_seconds, set_seconds, Seconds::new().second(1)),
        set!(set_utc_minutes, set_minutes, Minutes::new().minute(1)),
        set!(set_utc_hours, set_hours, Hours::new().hour(1)),
        set!(set_utc_date, set_date, Date::new().date(1)),
        set!(set_utc_month, set_month, Month::new().month(11)),
        set!(set_utc_full_year, set_full_year, FullYear::new().year(1999)),
    ];
    let expected = [
        ["2024-02-29T12:34:56.001Z", "2024-02-29T12:34:56.001Z"],
        ["2024-02-29T12:34:01.789Z", "2024-02-29T12:34:01.789Z"],
        ["2024-02-29T12:01:56.789Z", "2024-02-29T12:01:56.789Z"],
        ["2024-02-29T01:34:56.789Z", "2024-02-29T00:34:56.789Z"],
        ["2024-02-01T12:34:56.789Z", "2024-02-01T12:34:56.789Z"],
        ["2024-12-29T12:34:56.789Z", "2024-12-29T12:34:56.789Z"],
        ["1999-03-01T12:34:56.789Z", "1999-03-01T12:34:56.789Z"],
    ];
    assert_eq!(answers, expected);
}

/// A lent output keeps what stood behind the text, and all of it where the call is turned back.
#[test]
fn lent_outputs() {
    let (utc, mut out) = (ZoneList::utc(), [b'~'; 40]);
    assert_eq!(write_iso_string(0.0, &mut out), Ok("1970-01-01T00:00:00.000Z"));
    assert_eq!(out[24..], [b'~'; 16]);
    assert_eq!(write_utc_string(0.0, &mut out), Ok("Thu, 01 Jan 1970 00:00:00 GMT"));
    assert_eq!(write_string(&utc, 0.0, &mut out), Ok("Thu Jan 01 1970 00:00:00 GMT+0000"));
    assert_eq!(out[33..], [b'~'; 7]);
    let mut short = [b'~'; 23];
    assert_eq!(write_iso_string(0.0, &mut short), Err(Refusal::Output));
    assert_eq!(rewrite_into(&utc, "1970", &mut short), Err(Refusal::Output));
    assert_eq!(rewrite_into(&utc, "197", &mut short), Err(Refusal::TextEnds));
    assert_eq!(write_string(&utc, 0.0, &mut []), Err(Refusal::Output));
    assert_eq!(short, [b'~'; 23]);
}

#[test]
fn numbers_and_words() {
    for (number, refusal) in (1..).zip(Refusal::ALL) {
        assert_eq!(refusal.number(), number);
        assert_eq!(Refusal::of_number(number), Some(refusal));
        assert!(refusal.to_string().starts_with(&format!("refused ({number}): ")));
    }
    assert_eq!(Refusal::of_number(0), None);
    assert_eq!(Refusal::of_number(12), None);
}
