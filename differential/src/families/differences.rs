//! docs/DIFFERENCES.md, row by row, where a row is a call: the original must show what it says. An
//! absent first field is written into its call, and so are the zeros that short decimals lack, which
//! shows what the port says. The stored sample takes every one of them.

use super::Family;
use super::marked::{Gives, record, row};
use crate::case::Case;
use crate::inputs::{UTC, list_bytes};
use crate::paper::Record;
use crate::run::Run;
use original::exports::Setter;

pub const FAMILIES: &[Family] = &[Family { name: "differences", run: differences }];

fn differences(run: &mut Run) {
    texts(run);
    short_decimals(run);
    local_dates(run);
    local_texts(run);
    fields(run);
    absent_first(run);
}

/// Texts under a list: local ones about a change of the offset, and forms.
fn texts(run: &mut Run) {
    let rows: [(&str, &[Record], Gives); 10] = [
        ("1970-01-01T01:00", &[(0, 0), (3600, 3600)], Gives::Time(0)),
        ("1970-01-01T01:00", &[(0, 3600), (3600, 0)], Gives::Time(3_600_000)),
        ("2025-04-05T20:15", &SYDNEY, Gives::Time(1_743_848_100_000)),
        ("2025-04-05T15:59", &SYDNEY, Gives::Time(1_743_829_140_000)),
        ("2025-03-09T06:59", &NEW_YORK, Gives::Time(1_741_521_540_000)),
        ("2025-03-09T07:00", &NEW_YORK, Gives::Time(1_741_518_000_000)),
        ("1970-01-01T00:00+01", &UTC, Gives::Time(-3_600_000)),
        ("2023-02-31", &UTC, Gives::Time(1_677_801_600_000)),
        ("2023T00:00+00", &UTC, Gives::Time(1_672_531_200_000)),
        ("0", &UTC, Gives::Number(5)),
    ];
    for (text, list, gives) in rows {
        let zone = &list_bytes(list);
        row(run, &Case::Read { zone, text: text.as_bytes() }, &gives);
    }
}

/// The smallest texts with one decimal and with two, by length and then by bytes; hour 24. More than
/// three decimals are read by V8 alone.
fn short_decimals(run: &mut Run) {
    let zone = &list_bytes(&UTC);
    for (text, gives) in [
        ("0000T00:00:00.0", Gives::Time(-62_167_219_200_000)),
        ("0000T00:00:00.00", Gives::Time(-62_167_219_200_000)),
        ("0000T24:00:00.0", Gives::Time(-62_167_132_800_000)),
        ("0000T24:00:00.1", Gives::Number(7)),
        ("0000T00:00:00.0000", Gives::Number(6)),
    ] {
        row(run, &Case::Read { zone, text: text.as_bytes() }, &gives);
    }
}

/// Summer time to 2025-04-05T16:00Z, from 2024-10-05T16:00Z on.
const SYDNEY: [Record; 2] = [(1_728_144_000, 39_600), (1_743_868_800, 36_000)];
/// Summer time from 2025-03-09T07:00Z on.
const NEW_YORK: [Record; 2] = [(1_730_613_600, -18_000), (1_741_503_600, -14_400)];

/// The builder and a setter at the local time 7200000, which comes twice.
fn local_dates(run: &mut Run) {
    let zone = &list_bytes(&[(0, 7200), (3600, 3600)]);
    let built = &record(&[1970.0, 0.0, 1.0, 2.0]);
    row(run, &Case::BuildLocal { zone, record: built }, &Gives::Time(3_600_000));
    let (setter, time, hour) = (Setter::Hours, 0, &record(&[2.0]));
    row(run, &Case::Set { setter, zone, time, record: hour }, &Gives::Time(3_600_000));
}

/// The local writer's suffix.
fn local_texts(run: &mut Run) {
    let rows: [(&[Record], &str); 2] = [
        (&[(0, 60), (1, 0)], "Thu Jan 01 1970 00:01:00 GMT+0000"),
        (&[(0, -30)], "Wed Dec 31 1969 23:59:30 GMT-0000"),
    ];
    for (list, text) in rows {
        let (zone, out) = (&list_bytes(list), &[b'~'; 36]);
        row(run, &Case::ToString { zone, time: 0, out }, &Gives::Text(text));
    }
}

/// 2^53, from which on f64 has not every whole number.
const TWO_53: f64 = 9_007_199_254_740_992.0;

/// The builder's fields far out.
fn fields(run: &mut Run) {
    let rows: [(&[f64], i64); 7] = [
        (&[292_278_994.0, 10.0, -106_751_991_242.0], -86_400_000),
        (&[-292_275_055.0, 3.0, 106_751_991_214.0], -86_400_000),
        (&[-4_503_599_627_368_527.0, 54_043_195_528_445_960.0], 20_995_200_000),
        (&[275_761.0, 0.0, -200.0], 8_639_992_137_600_000),
        (&[2_000_000.0, 0.0, -729_766_000.0], -45_705_600_000),
        (&[-400_000.0, 0.0, 146_816_529.0], 0),
        (&[1970.0, 1.0, TWO_53, -24.0 * TWO_53], 2_818_572_288),
    ];
    for (fields, t) in rows {
        row(run, &Case::BuildUtc { record: &record(fields) }, &Gives::Time(t));
    }
}

/// A setter's absent first field keeps its present value: hours with the minutes alone, then no
/// field at all. A date is cleared by a first field of NaN.
fn absent_first(run: &mut Run) {
    let minutes = &[&[0b10], &5f64.to_le_bytes()[..]].concat();
    let alone = Case::SetUtc { setter: Setter::Hours, time: 0, record: minutes };
    row(run, &alone, &Gives::Time(300_000));
    let (setter, bare, nan) = (Setter::Minutes, &[0], f64::NAN);
    let time = 90_061_001f64.to_bits();
    row(run, &Case::SetUtc { setter, time, record: bare }, &Gives::Time(90_061_001));
    row(run, &Case::SetUtc { setter, time, record: &record(&[nan]) }, &Gives::Nan);
    let zone = &list_bytes(&[(0, 7200), (3600, 3600)]);
    row(run, &Case::Set { setter, zone, time: 0, record: bare }, &Gives::Time(3_600_000));
    let (setter, time) = (Setter::FullYear, nan.to_bits());
    row(run, &Case::SetUtc { setter, time, record: bare }, &Gives::Time(0));
}
