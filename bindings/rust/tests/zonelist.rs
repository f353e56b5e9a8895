//! The tool, as it is called: a list made from a file, shown, and held against a poster.

use std::fs::OpenOptions;
use std::process::{Command, Output, Stdio};

fn zonelist(words: &[&str]) -> Output {
    zonelist_into(Stdio::piped(), words)
}

fn zonelist_into(stdout: impl Into<Stdio>, words: &[&str]) -> Output {
    let tool = env!("CARGO_BIN_EXE_zonelist");
    Command::new(tool).args(words).stdout(stdout).output().expect("the tool runs")
}

fn text(bytes: &[u8]) -> &str {
    str::from_utf8(bytes).expect("plain text")
}

/// A version 2 file of one offset and a rule, in a folder that goes with the test.
fn central_europe(name: &str) -> String {
    let mut file = Vec::new();
    for (types, chars) in [(1_u32, 4_u32), (1, 4)] {
        file.extend(b"TZif2");
        file.extend([0; 15]);
        file.extend([0, 0, 0, 0, types, chars].iter().flat_map(|count| count.to_be_bytes()));
        file.extend(3600_i32.to_be_bytes());
        file.extend(b"\0\0CET\0");
    }
    file.extend(b"\nCET-1CEST,M3.5.0,M10.5.0/3\n");
    let path = format!("{}/{name}", env!("CARGO_TARGET_TMPDIR"));
    std::fs::write(&path, file).expect("the file is written");
    path
}

#[test]
fn a_list_is_made_and_shown() {
    let zone = central_europe("made.tzif");
    let made = zonelist(&["make", &zone, "2024", "2024"]);
    assert!(made.status.success(), "{}", text(&made.stderr));
    assert_eq!(made.stdout.len(), 3 * 12);
    let list = format!("{zone}.list");
    std::fs::write(&list, &made.stdout).unwrap();
    let shown = zonelist(&["show", &list]);
    let expected = "  \
  1703980800   3600  Sun Dec 31 2023 01:00:00 GMT+0100
  1711846800   7200  Sun Mar 31 2024 03:00:00 GMT+0200
  1729990800   3600  Sun Oct 27 2024 02:00:00 GMT+0100
";
    assert_eq!(text(&shown.stdout), expected);
}

#[test]
fn a_week_is_held_against_the_poster() {
    let zone = central_europe("week.tzif");
    let list = format!("{zone}.list");
    std::fs::write(&list, zonelist(&["make", &zone, "2024", "2024"]).stdout).unwrap();
    let week = zonelist(&["week", &list, "2024-03-28T20:15", "2024-03-28T02:30"]);
    let lines: Vec<_> = text(&week.stdout).lines().collect();
    assert_eq!(lines.len(), 14);
    let before =
        "2024-03-28T20:15:00.000  2024-03-28T19:15:00.000Z  Thu Mar 28 2024 20:15:00 GMT+0100";
    let after =
        "2024-03-31T20:15:00.000  2024-03-31T18:15:00.000Z  Sun Mar 31 2024 20:15:00 GMT+0200";
    assert_eq!((lines[0], lines[3]), (before, after));
    // 02:30 is skipped on the morning of the 31st, and only that line is marked.
    let marked: Vec<_> = lines.iter().filter(|line| line.ends_with("!!")).collect();
    assert_eq!(marked, [&lines[10]]);
    assert!(lines[10].starts_with("2024-03-31T02:30"));
}

#[test]
fn faults_are_said_in_a_line() {
    let zone = central_europe("faults.tzif");
    let list = format!("{zone}.list");
    std::fs::write(&list, zonelist(&["make", &zone, "2024", "2024"]).stdout).unwrap();
    for (words, fault) in [
        (&["make", &zone, "2024", "20x"][..], "not a year: 20x"),
        (&["make", &zone, "2025", "2024"], "no years to cover from 2025 to 2024"),
        (&["make", "Nowhere/Land", "2024", "2024"], "no such zone or file: Nowhere/Land"),
        (&["make", &list, "2024", "2024"], "this is not a TZif file"),
        (&["week", &list, "2024-03-28"], "a start is a local time, as 2024-03-28T20:15"),
        (&["week", &list, "2024-03-28T20:15Z"], "a start is a local time, as 2024-03-28T20:15"),
        (&["week", &list, "tonight"], "refused (6)"),
        (&["show", &zone], "refused (1)"),
    ] {
        let answer = zonelist(words);
        assert!(!answer.status.success(), "{words:?}");
        assert!(answer.stdout.is_empty(), "{words:?}");
        assert!(text(&answer.stderr).contains(fault), "{words:?}: {}", text(&answer.stderr));
    }
    assert!(text(&zonelist(&[]).stderr).starts_with("zonelist make"));
}

/// A list that is not written is a fault, be it ever so short. `/dev/full` takes no byte.
#[test]
fn a_full_disk_is_a_fault() {
    let zone = central_europe("full.tzif");
    let list = format!("{zone}.list");
    std::fs::write(&list, zonelist(&["make", &zone, "2024", "2024"]).stdout).unwrap();
    for words in [
        &["make", &zone, "2024", "2024"][..],
        &["show", &list],
        &["week", &list, "2024-03-28T20:15"],
    ] {
        let full = OpenOptions::new().write(true).open("/dev/full").unwrap();
        let answer = zonelist_into(full, words);
        assert_eq!(answer.status.code(), Some(1), "{words:?}");
        assert!(text(&answer.stderr).starts_with("standard output: "), "{words:?}");
    }
}
