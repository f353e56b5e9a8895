//! A file made here, byte by byte; the machine's own files, against facts and against `date`.

use super::*;
use std::io::Write as _;
use std::path::{Path, PathBuf};
use std::process::{Command, Stdio};

/// A version 2 file: types by their offsets, changes by second and type, and the footer.
fn tzif(version: u8, offsets: &[i32], changes: &[(i64, u8)], leap: u32, footer: &str) -> Vec<u8> {
    let mut file = header(version, [0, 0, 0, 0, 1, 1]);
    file.extend([0; 7]);
    let count = |n: usize| u32::try_from(n).unwrap();
    file.extend(header(version, [0, 0, leap, count(changes.len()), count(offsets.len()), 4]));
    file.extend(changes.iter().flat_map(|(second, _)| second.to_be_bytes()));
    file.extend(changes.iter().map(|(_, kind)| kind));
    for offset in offsets {
        file.extend(offset.to_be_bytes());
        file.extend([0, 0]);
    }
    file.extend(b"ABC\0");
    file.extend(vec![0; leap as usize * 12]);
    file.extend(format!("\n{footer}\n").bytes());
    file
}

/// A header; the counts in the file's order.
fn header(version: u8, counts: [u32; 6]) -> Vec<u8> {
    let mut header = b"TZif".to_vec();
    header.push(version);
    header.extend([0; 15]);
    header.extend(counts.iter().flat_map(|count| count.to_be_bytes()));
    header
}

const CENTRAL_EUROPE: &str = "CET-1CEST,M3.5.0,M10.5.0/3";

/// Standard time at first, then summer time from an odd second of 2023 to that year's last Sunday of October,
/// then the rule.
fn made() -> Vec<u8> {
    tzif(b'2', &[3600, 7200], &[(1_680_000_000, 1), (1_698_541_200, 0)], 0, CENTRAL_EUROPE)
}

fn list_of(file: &[u8], years: RangeInclusive<i64>) -> Result<Vec<(i64, i32)>, TzifError> {
    let list = ZoneList::from_tzif(file, years)?;
    Ok(list.records().map(|record| (record.second, record.offset)).collect())
}

#[test]
fn what_is_told_and_what_follows_from_the_rule() {
    let expected = [
        (1_672_444_800, 3600),
        (1_680_000_000, 7200),
        (1_698_541_200, 3600),
        (1_711_846_800, 7200),
        (1_729_990_800, 3600),
    ];
    assert_eq!(list_of(&made(), 2023..=2024).unwrap(), expected);
    assert_eq!(list_of(&made(), 2023..=2023).unwrap(), expected[..3]);
}

#[test]
fn the_first_record_is_what_holds_at_the_start() {
    let in_2024 = [(1_703_980_800, 3600), (1_711_846_800, 7200), (1_729_990_800, 3600)];
    assert_eq!(list_of(&made(), 2024..=2024).unwrap(), in_2024);
    assert_eq!(list_of(&made(), 1970..=1970).unwrap(), [(-86_400, 3600)]);
}

#[test]
fn changes_that_keep_the_offset_are_left_out() {
    let file = tzif(b'3', &[0, 3600, 3600], &[(0, 1), (10, 2), (20, 0)], 0, "GMT0");
    assert_eq!(list_of(&file, 1970..=1980).unwrap(), [(-86_400, 0), (0, 3600), (20, 0)]);
}

#[test]
fn a_file_without_rule_covers_what_it_tells() {
    let file = tzif(b'2', &[0, 3600], &[(0, 1), (1_704_153_600, 0)], 0, "");
    assert_eq!(list_of(&file, 1970..=2023).unwrap().len(), 3);
    assert_eq!(list_of(&file, 1970..=2024), Err(TzifError::NoRule));
}

#[test]
fn faults_are_told_apart() {
    let years = || 2024..=2025;
    let good = made();
    for length in 0..good.len() {
        let error = list_of(&good[..length], years()).unwrap_err();
        assert!(matches!(error, TzifError::NotTzif | TzifError::Broken), "{length}: {error}");
    }
    assert_eq!(list_of(b"TZiX", years()), Err(TzifError::NotTzif));
    assert_eq!(list_of(&tzif(0, &[0], &[], 0, "GMT0"), years()), Err(TzifError::Version1));
    assert_eq!(list_of(&tzif(b'2', &[0], &[], 1, "GMT0"), years()), Err(TzifError::LeapSeconds));
    assert_eq!(list_of(&tzif(b'2', &[0], &[(0, 1)], 0, "GMT0"), years()), Err(TzifError::Broken));
    assert_eq!(list_of(&tzif(b'2', &[], &[], 0, "GMT0"), years()), Err(TzifError::Broken));
    let falling = tzif(b'2', &[0], &[(1, 0), (1, 0)], 0, "GMT0");
    assert_eq!(list_of(&falling, years()), Err(TzifError::Broken));
    let footer = tzif(b'2', &[0], &[], 0, "GMT");
    assert_eq!(list_of(&footer, years()), Err(TzifError::Footer("GMT".into())));
    let other = tzif(b'2', &[0, 60], &[(0, 1)], 0, "GMT0");
    assert_eq!(list_of(&other, 1969..=1971), Err(TzifError::Contradiction));
}

#[test]
fn spans_and_lists_have_bounds() {
    let file = tzif(b'2', &[3600], &[], 0, CENTRAL_EUROPE);
    assert_eq!(list_of(&file, 2024..=2534).unwrap().len(), 1 + 2 * 511);
    let longer = list_of(&file, 2024..=2536);
    assert_eq!(longer, Err(TzifError::List { records: 1 + 2 * 513 }));
    for years in [RangeInclusive::new(2025, 2024), 2024..=i64::MAX, i64::MIN..=2024] {
        assert_eq!(list_of(&file, years.clone()), Err(TzifError::Years(years)));
    }
    let far = tzif(b'2', &[86_400], &[], 0, "AAA-24");
    assert_eq!(list_of(&far, 2024..=2024), Err(TzifError::List { records: 1 }));
}

/// A counted file whose sizes are far larger than any memory is turned back, not followed.
#[test]
fn large_counts_are_no_sizes() {
    let mut file = header(b'2', [u32::MAX; 6]);
    file.extend([0; 100]);
    assert_eq!(TzFile::of_bytes(&file), Err(TzifError::Broken));
}

// ---- the machine's own files

fn zoneinfo() -> PathBuf {
    std::env::var_os("TZDIR").map_or_else(|| "/usr/share/zoneinfo".into(), PathBuf::from)
}

/// The contents of a zone's file, or a line that it is not at hand.
fn file_of(zone: &str) -> Option<Vec<u8>> {
    let file = std::fs::read(zoneinfo().join(zone)).ok();
    if file.is_none() {
        println!("not run: no {zone} in the tz database at hand");
    }
    file
}

#[test]
fn known_changes_of_known_zones() {
    let cases: [(&str, &[(i64, i32)]); 4] = [
        ("Europe/Vienna", &[(1_703_980_800, 3600), (1_711_846_800, 7200), (1_729_990_800, 3600)]),
        (
            "America/New_York",
            &[(1_703_980_800, -18000), (1_710_054_000, -14400), (1_730_613_600, -18000)],
        ),
        ("Asia/Kolkata", &[(1_703_980_800, 19800)]),
        (
            "Australia/Lord_Howe",
            &[(1_703_980_800, 39600), (1_712_415_600, 37800), (1_728_142_200, 39600)],
        ),
    ];
    for (zone, expected) in cases {
        if let Some(file) = file_of(zone) {
            assert_eq!(list_of(&file, 2024..=2024).unwrap(), expected, "{zone}");
        }
    }
}

/// Every zone of the database gives a list for the years that a unit may run.
#[test]
fn every_zone_has_a_list() {
    let mut zones = Vec::new();
    collect(&zoneinfo(), &mut zones);
    for path in &zones {
        let file = TzFile::of_bytes(&std::fs::read(path).unwrap());
        let file = file.unwrap_or_else(|error| panic!("{}: {error}", path.display()));
        for years in [1970..=2037, 2020..=2100] {
            file.zone_list(years).unwrap_or_else(|error| panic!("{}: {error}", path.display()));
        }
    }
    println!("{} files", zones.len());
}

/// The TZif files of a folder; those that count leap seconds stand in a folder of their own.
fn collect(folder: &Path, zones: &mut Vec<PathBuf>) {
    for entry in std::fs::read_dir(folder).into_iter().flatten().flatten() {
        let path = entry.path();
        if path.is_dir() {
            if !path.ends_with("right") {
                collect(&path, zones);
            }
        } else if std::fs::read(&path).is_ok_and(|bytes| bytes.starts_with(b"TZif")) {
            zones.push(path);
        }
    }
}

/// The system's own reader of these files, by `date`, gives the same offset beside every change and
/// in every month, from 1950 to 2090.
#[test]
fn the_same_as_date() {
    for zone in [
        "Europe/Vienna",
        "Europe/Dublin",
        "America/New_York",
        "America/Sao_Paulo",
        "America/St_Johns",
        "Africa/Casablanca",
        "Africa/Cairo",
        "Asia/Tehran",
        "Asia/Kathmandu",
        "Australia/Lord_Howe",
        "Pacific/Apia",
        "Pacific/Chatham",
        "Antarctica/Troll",
        "America/Nuuk",
        "Asia/Jerusalem",
        "America/Santiago",
        "UTC",
    ] {
        let Some(file) = file_of(zone) else { continue };
        let records = list_of(&file, 1950..=2090).unwrap();
        let mut seconds: Vec<i64> = (-240..1450).map(|month| month * 2_629_746 + 12_345).collect();
        seconds.extend(records[1..].iter().flat_map(|(second, _)| [second - 1, *second]));
        let Some(offsets) = ask_date(zone, &seconds) else {
            println!("not run: no date at hand that reads @seconds");
            return;
        };
        for (second, expected) in seconds.iter().zip(offsets) {
            let decides = records.iter().rev().find(|(start, _)| start <= second);
            assert_eq!(decides.unwrap().1, expected, "{zone} at {second}");
        }
    }
}

/// The offsets at these seconds, by `date`.
fn ask_date(zone: &str, seconds: &[i64]) -> Option<Vec<i32>> {
    let mut date = Command::new("date")
        .env("TZ", format!(":{}", zoneinfo().join(zone).display()))
        .args(["-f", "-", "+%::z"])
        .stdin(Stdio::piped())
        .stdout(Stdio::piped())
        .spawn()
        .ok()?;
    let lines: String = seconds.iter().map(|second| format!("@{second}\n")).collect();
    let mut input = date.stdin.take()?;
    let writer = std::thread::spawn(move || input.write_all(lines.as_bytes()));
    let output = date.wait_with_output().ok()?;
    writer.join().ok()?.ok()?;
    let text = String::from_utf8(output.stdout).ok()?;
    let offsets: Option<Vec<i32>> = text.lines().map(offset_of).collect();
    offsets.filter(|offsets| offsets.len() == seconds.len())
}

/// `+01:00:00` as seconds.
fn offset_of(text: &str) -> Option<i32> {
    let (sign, digits) = text.split_at_checked(1)?;
    let mut parts = digits.split(':').map(str::parse::<i32>);
    let mut next = || parts.next()?.ok();
    let seconds = next()? * 3600 + next()? * 60 + next()?;
    Some(if sign == "-" { -seconds } else { seconds })
}
