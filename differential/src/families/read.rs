//! The reader: short texts one by one, every form and what may come after it, damaged copies,
//! edges of every field, offsets, and local times about a list's records.

use super::Family;
use crate::case::Case;
use crate::inputs::{UTC, broken_list, list, list_bytes, long_list};
use crate::paper::Record;
use crate::run::Run;
use crate::texts::{damaged, every_form, form};
use crate::whole;

pub const FAMILIES: &[Family] = &[
    Family { name: "read_short", run: short },
    Family { name: "read_damaged", run: every_damage },
    Family { name: "read_random", run: random },
    Family { name: "read_continued", run: continued },
    Family { name: "read_edges", run: edges },
    Family { name: "read_offsets", run: offsets },
    Family { name: "read_records", run: records },
];

/// Bytes of every kind that a text knows: digits low and high, marks, and a stranger.
const ALPHABET: &[u8] = b"0129-+:.TZx";

fn read(run: &mut Run, zone: &[u8], text: &[u8]) {
    run.check(&Case::Read { zone, text });
}

/// Every text over the alphabet that continues `prefix` by at most `more` bytes.
fn continuations(run: &mut Run, zone: &[u8], prefix: &mut Vec<u8>, more: usize) {
    read(run, zone, prefix);
    if more == 0 {
        return;
    }
    for &letter in ALPHABET {
        prefix.push(letter);
        continuations(run, zone, prefix, more - 1);
        prefix.pop();
    }
}

/// Every text of at most six bytes over the alphabet.
fn short(run: &mut Run) {
    continuations(run, &list_bytes(&UTC), &mut Vec::new(), 6);
}

/// Texts that end within and after each field.
const BEGINNINGS: &[&str] = &[
    "2023",
    "+00202",
    "+002023",
    "-00000",
    "-000000",
    "-27182",
    "2023-0",
    "2023-02",
    "2023-1",
    "2023-02-2",
    "2023-02-28",
    "2023-02-3",
    "2023T",
    "2023-02T",
    "2023-02-28T",
    "2023T2",
    "2023T24",
    "2023T24:",
    "2023T24:0",
    "2023T24:00",
    "2023T12:59",
    "2023T24:00:",
    "2023T24:00:0",
    "2023T24:00:00",
    "2023T12:00:59",
    "2023T12:00:00.",
    "2023T12:00:00.0",
    "2023T12:00:00.00",
    "2023T12:00:00.000",
    "2023T24:00:00.000",
    "2023T24:00:00.",
    "2023T24:00:00.0",
    "2023T24:00:00.1",
    "2023T12:00:00.5Z",
    "2023T12:00:00.50+01",
    "2023T12:00:00.5-01:5",
    "2023T12:00Z",
    "2023T12:00+",
    "2023T12:00+0",
    "2023T12:00+2",
    "2023T12:00+01",
    "2023T12:00+01:",
    "2023T12:00-01:5",
    "2023T12:00-01:59",
    "+275760-09-13T00:00:00.",
    "+275760-09-13T00:00:00.00",
    "-271821-04-2",
    "+275760-09-1",
    "2023T24:01",
    "2023T24:01Z",
    "2023T24:00:00.001Z",
    "2023T24:01+01",
];

/// Every short continuation of these.
fn continued(run: &mut Run) {
    let zone = &list_bytes(&[(0, 3600)]);
    for beginning in BEGINNINGS {
        continuations(run, zone, &mut beginning.as_bytes().to_vec(), 3);
    }
}

/// Every form, whole; each with every byte changed to every value, dropped, doubled, cut off
/// there, and every value put in there.
fn every_damage(run: &mut Run) {
    let zone = &list_bytes(&[(-1_000_000, -7200), (0, 3600)]);
    for (i, text) in every_form().into_iter().enumerate() {
        let text = text.into_bytes();
        read(run, zone, &text);
        for at in 0..=text.len() {
            read(run, zone, &text[..at]);
            // Every value for one form in eight; for the others the values that texts are made of.
            if i.is_multiple_of(8) {
                for value in 0..=255 {
                    changed(run, zone, &text, at, value);
                }
            } else {
                for &value in ALPHABET {
                    changed(run, zone, &text, at, value);
                }
            }
            if at < text.len() {
                let mut other = text.clone();
                other.remove(at);
                read(run, zone, &other);
                let mut other = text.clone();
                other.insert(at, text[at]);
                read(run, zone, &other);
            }
        }
    }
}

fn changed(run: &mut Run, zone: &[u8], text: &[u8], at: usize, value: u8) {
    let mut other = text.to_vec();
    if at < text.len() {
        other[at] = value;
        read(run, zone, &other);
        other[at] = text[at];
    }
    other.insert(at, value);
    read(run, zone, &other);
}

/// Every value of every two-digit field; the edges of the range and of the year's forms; leap days.
fn edges(run: &mut Run) {
    let lists: [&[Record]; 4] =
        [&UTC, &[(0, 86_399)], &[(0, -86_399)], &[(i64::MIN, 3600), (0, -3600)]];
    for list in lists {
        let zone = &list_bytes(list);
        for n in 0..100 {
            for text in [
                format!("2023-{n:02}"),
                format!("2023-02-{n:02}"),
                format!("2023T{n:02}:00"),
                format!("2023T23:{n:02}"),
                format!("2023T24:{n:02}Z"),
                format!("2023T23:59:{n:02}"),
                format!("2023T24:00:{n:02}"),
                format!("2023T00:00+{n:02}"),
                format!("2023T00:00-{n:02}:00"),
                format!("2023T00:00-00:{n:02}"),
                format!("2023T24:00:00.{n}"),
                format!("2023T24:00:00.{n:02}Z"),
                format!("2023T24:00:00.{n:03}"),
                format!("2023T00:00:00.9{n:02}Z"),
            ] {
                read(run, zone, text.as_bytes());
            }
        }
        years(run, zone);
        range_ends(run, zone);
    }
}

/// Years of both forms, with each month's last days.
fn years(run: &mut Run, zone: &[u8]) {
    for year in [
        "0000", "0001", "0004", "0099", "0100", "0400", "1899", "1900", "1970", "1999", "2000",
        "2023", "2024", "2100", "9999", "+000000", "-000001", "+009999", "+010000", "-000004",
        "-000100", "-000400", "+099999", "+100000", "-271820", "+275759", "-271821", "+275760",
        "-271822", "+275761", "-999999", "+999999", "-280000", "+280000",
    ] {
        read(run, zone, year.as_bytes());
        for month in 1..=12 {
            read(run, zone, format!("{year}-{month:02}").as_bytes());
            for day in [1, 28, 29, 30, 31] {
                for rest in ["", "T00:00", "T24:00", "T23:59:59.999", "T00:00Z", "T24:00Z"] {
                    read(run, zone, format!("{year}-{month:02}-{day:02}{rest}").as_bytes());
                }
            }
        }
    }
}

/// About both ends of the range, with every kind of zone.
fn range_ends(run: &mut Run, zone: &[u8]) {
    for end in [whole::LAST, -whole::LAST] {
        for shift in [0, 1, 1000, 60_000, 3_600_000, 86_399_000, 86_340_000, 86_400_000] {
            for t in [end - shift - 1, end - shift, end + shift, end + shift + 1] {
                let mut text = whole::iso_text(t);
                read(run, zone, text.as_bytes());
                text.pop();
                for suffix in ["", "+00", "-00:00", "+01:00", "-01:00", "+23:59", "-23:59", "+23"] {
                    read(run, zone, format!("{text}{suffix}").as_bytes());
                }
            }
        }
    }
}

/// All offsets, with hour alone and with minutes, also one past each bound.
fn offsets(run: &mut Run) {
    let zone = &list_bytes(&UTC);
    for start in ["1970-01-01T00:00", "+275760-09-13T00:00:00", "-271821-04-20T00:00:00.000"] {
        for sign in ['+', '-'] {
            for hour in 0..=24 {
                read(run, zone, format!("{start}{sign}{hour:02}").as_bytes());
                for minute in 0..=60 {
                    let text = format!("{start}{sign}{hour:02}:{minute:02}");
                    read(run, zone, text.as_bytes());
                }
            }
        }
    }
}

/// Local times about each record's second and about its local side.
fn records(run: &mut Run) {
    for round in 0..run.times(3000) {
        let list =
            if round == 0 { long_list(&mut run.random, 1024) } else { list(&mut run.random) };
        let zone = &list_bytes(&list);
        for &(second, offset) in list.iter().filter(|r| r.0.unsigned_abs() < 8_700_000_000_000) {
            for shift in [0, offset, -offset] {
                for ms in [-1000, -1, 0, 1, 1000] {
                    let t = (i128::from(second) + i128::from(shift)) * 1000 + ms;
                    let mut text = whole::iso_text(t);
                    text.pop();
                    read(run, zone, text.as_bytes());
                }
            }
        }
    }
}

/// Texts of every form and damaged copies, under lists of every kind.
fn random(run: &mut Run) {
    for _ in 0..run.times(40_000) {
        let list = list(&mut run.random);
        let bytes = list_bytes(&list);
        for _ in 0..20 {
            let text = form(&mut run.random, &list);
            read(run, &bytes, &text);
            let text = damaged(&mut run.random, text);
            read(run, &bytes, &text);
        }
        let text = form(&mut run.random, &list);
        let broken = broken_list(&mut run.random);
        read(run, &broken, &text);
        if run.done() {
            return;
        }
    }
}
