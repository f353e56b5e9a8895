//! V8 on the same inputs, where node is at hand.

use crate::inputs::{self, Kind};
use crate::rows::{Group, Run};
use std::fmt::Write as _;
use std::io::Write as _;
use std::process::{Command, Stdio};

/// A call by its name in v8.mjs, and the row that it stands beside.
const CALLS: [(&str, Group, &str); 5] = [
    ("read", Group::Read, "`2024-02-29T12:00:00.000Z`"),
    ("iso", Group::Iso, "1970 to 2099"),
    ("utc", Group::Utc, "1970 to 2099"),
    ("build", Group::Build, "UTC, 7 fields"),
    ("hours", Group::Set, "hours, UTC, 1 field"),
];

/// Each line that the script prints: a name and a number or a version.
pub fn run() -> Option<Vec<(String, String)>> {
    let mut node = Command::new("node")
        .arg("bench/v8.mjs")
        .stdin(Stdio::piped())
        .stdout(Stdio::piped())
        .spawn()
        .ok()?;
    node.stdin.take()?.write_all(lines().as_bytes()).ok()?;
    let output = node.wait_with_output().ok().filter(|output| output.status.success())?;
    let text = String::from_utf8(output.stdout).ok()?;
    let pair =
        |line: &str| line.trim().split_once(' ').map(|(name, value)| (name.into(), value.into()));
    text.lines().map(pair).collect()
}

fn lines() -> String {
    let mut lines = String::new();
    for text in inputs::texts(Kind::Iso) {
        writeln!(lines, "text {text}").unwrap();
    }
    for time in inputs::times_of_today() {
        writeln!(lines, "time {time}").unwrap();
    }
    for [y, m, d, h, min, s, ms] in inputs::fields() {
        writeln!(lines, "fields {y} {m} {d} {h} {min} {s} {ms}").unwrap();
    }
    lines
}

/// The table beside V8.
pub fn table(run: &Run) -> String {
    let Some(lines) = &run.v8 else {
        return "\nV8 is left out: node is not at hand.\n".into();
    };
    let of =
        |name: &str| lines.iter().find(|(other, _)| other == name).map(|(_, value)| value.as_str());
    let mut out = format!("\n### Beside V8 {}\n\n", of("version").unwrap_or_default());
    out.push_str("| Call | V8, ns | Zovattha, ns | Ratio |\n|---|---|---|---|\n");
    for (name, group, like) in CALLS {
        let row = run.rows.iter().find(|row| row.group == group && row.name == like);
        let (Some(row), Some(theirs)) = (row, of(name).and_then(|ns| ns.parse::<f64>().ok()))
        else {
            continue;
        };
        let ratio = row.ours / theirs;
        writeln!(out, "| {}, {like} | {theirs:.1} | {:.1} | {ratio:.2} |", group.name(), row.ours)
            .unwrap();
    }
    out
}
