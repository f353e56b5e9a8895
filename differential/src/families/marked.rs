//! Document 01's marked table, row by row: the original must show each.

use super::Family;
use crate::case::Case;
use crate::expected::expected;
use crate::inputs::{UTC, list_bytes};
use crate::outcome::{NAN, Outcome};
use crate::run::Run;
use original::exports::Setter;

pub const FAMILIES: &[Family] = &[Family { name: "marked", run: marked }];

/// What a row gives.
pub enum Gives {
    Number(u32),
    Time(i64),
    Nan,
    Text(&'static str),
}

/// The reader's rows, under the list (0, 0).
const READ: [(&str, Gives); 11] = [
    ("", Gives::Number(5)),
    ("1970", Gives::Time(0)),
    ("2024-02-29T12:00:00Z", Gives::Time(1_709_208_000_000)),
    ("2023-02-31", Gives::Time(1_677_801_600_000)),
    ("2023-12-31T24:00:00Z", Gives::Time(1_704_067_200_000)),
    ("2023-12-31T24:00:01Z", Gives::Number(7)),
    ("-000000", Gives::Number(7)),
    ("+000000", Gives::Time(-62_167_219_200_000)),
    ("+275760-09-13T01:00:00+01:00", Gives::Time(8_640_000_000_000_000)),
    ("-271821-04-20", Gives::Time(-8_640_000_000_000_000)),
    ("-271821-04-19", Gives::Number(9)),
];

/// The program's rows: text, time value and ISO text.
const REWRITTEN: [(&str, Gives); 3] = [
    ("1970", Gives::Text("1970-01-01T00:00:00.000Z")),
    ("2023-02-31", Gives::Text("2023-03-03T00:00:00.000Z")),
    ("-000000", Gives::Number(7)),
];

pub fn row(run: &mut Run, case: &Case, gives: &Gives) {
    run.check(case);
    let outcome = expected(case).outcome();
    let holds = outcome.as_ref().is_some_and(|o| gives_this(o, gives));
    run.fact(holds, || format!("row: {}", case.line()));
}

fn gives_this(outcome: &Outcome, gives: &Gives) -> bool {
    match *gives {
        Gives::Number(number) => outcome.number == number,
        Gives::Time(t) => outcome.number == 0 && outcome.value == (t as f64).to_bits(),
        Gives::Nan => outcome.number == 0 && outcome.value == NAN,
        Gives::Text(text) => {
            outcome.number == 0 && outcome.out[..outcome.length] == *text.as_bytes()
        }
    }
}

/// A record of the first fields.
pub fn record(fields: &[f64]) -> Vec<u8> {
    let mut bytes = vec![(1u16 << fields.len()).wrapping_sub(1) as u8];
    bytes.extend(fields.iter().flat_map(|x| x.to_le_bytes()));
    bytes
}

fn marked(run: &mut Run) {
    let zone = &list_bytes(&UTC);
    let out = &[b'~'; 40];
    for (text, gives) in &READ {
        row(run, &Case::Read { zone, text: text.as_bytes() }, gives);
    }
    for (text, gives) in &REWRITTEN {
        row(run, &Case::Rewrite { zone, text: text.as_bytes(), out }, gives);
    }
    let time = (-62_167_219_200_001.0f64).to_bits();
    let iso = Gives::Text("-000001-12-31T23:59:59.999Z");
    row(run, &Case::ToIsoString { time, out }, &iso);
    let utc = Gives::Text("Fri, 31 Dec -0001 23:59:59 GMT");
    row(run, &Case::ToUtcString { time, out }, &utc);
    let (time, fields) = (1_706_659_200_000.0f64.to_bits(), &record(&[1.0]));
    let month = Case::SetUtc { setter: Setter::Month, time, record: fields };
    row(run, &month, &Gives::Time(1_709_337_600_000));
    let (time, fields) = (f64::NAN.to_bits(), &record(&[2024.0]));
    let year = Case::SetUtc { setter: Setter::FullYear, time, record: fields };
    row(run, &year, &Gives::Time(1_704_067_200_000));
    let zone = &list_bytes(&[(0, 7200), (3600, 3600)]);
    let local = Gives::Text("Thu Jan 01 1970 02:00:00 GMT+0100");
    row(run, &Case::ToString { zone, time: 0, out }, &local);
    setters_locally(run);
}

/// The setters' rows once more as local calls under the list (0, 0).
fn setters_locally(run: &mut Run) {
    let zone = &list_bytes(&UTC);
    for (setter, t, x, gives) in [
        (Setter::Month, 1_706_659_200_000.0, 1.0, 1_709_337_600_000),
        (Setter::FullYear, f64::NAN, 2024.0, 1_704_067_200_000),
    ] {
        let (time, record) = (f64::to_bits(t), &record(&[x]));
        row(run, &Case::Set { setter, zone, time, record }, &Gives::Time(gives));
    }
}
