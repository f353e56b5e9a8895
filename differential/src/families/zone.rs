//! The zone list: accepted and refused ones of every kind through every call that takes one, and
//! the lookup at each record's own second and one either side.

use super::Family;
use crate::case::{Case, SETTERS};
use crate::inputs::{broken_list, list, list_bytes, long_list};
use crate::lower::export;
use crate::paper::Record;
use crate::run::Run;

pub const FAMILIES: &[Family] =
    &[Family { name: "zone_rule", run: rule }, Family { name: "zone_lookup", run: lookup }];

/// Every call that takes a list, with inputs that would be accepted.
fn every_call(run: &mut Run, zone: &[u8]) {
    let out = &[b'~'; 36];
    let text = b"2024-02-29T12:00";
    run.check(&Case::Read { zone, text });
    run.check(&Case::Rewrite { zone, text, out });
    run.check(&Case::ToString { zone, time: 1e12f64.to_bits(), out });
    run.check(&Case::BuildLocal { zone, record: &[0] });
    for (setter, ..) in SETTERS {
        let mut record = vec![1];
        record.extend(7.0f64.to_le_bytes());
        run.check(&Case::Set { setter, zone, time: 0, record: &record });
    }
    run.check(&Case::Export { export: export("ZACC").unwrap(), zone, args: [0; 4] });
}

/// Lists at each bound of the rule, accepted and one past it.
fn bounds() -> Vec<Vec<Record>> {
    let mut lists = vec![
        vec![],
        vec![(0, 0)],
        vec![(0, 86_399)],
        vec![(0, 86_400)],
        vec![(0, -86_399)],
        vec![(0, -86_400)],
        vec![(0, i32::MIN)],
        vec![(0, i32::MAX)],
        vec![(5, 0), (5, 0)],
        vec![(5, 0), (4, 0)],
        vec![(5, 0), (6, 0)],
        vec![(i64::MIN, 0), (i64::MAX, 3600)],
        vec![(i64::MAX, 3600), (i64::MIN, 0)],
        vec![(-1, 0), (0, 0)],
        vec![(0, 0), (-1, 0)],
        vec![(i64::MAX, 0), (i64::MAX, 0)],
        vec![(i64::MAX - 1, -5), (i64::MAX, 5)],
        vec![(i64::MIN, -5), (i64::MIN + 1, 5)],
    ];
    for records in [2, 1023, 1024, 1025, 2048] {
        lists.push((0..records).map(|i| (i * 1000 - 500_000, 60)).collect());
    }
    lists
}

fn rule(run: &mut Run) {
    for list in bounds() {
        every_call(run, &list_bytes(&list));
    }
    // Every length in bytes up to three records, and about the longest.
    let long = list_bytes(&(0..1026).map(|i| (i, 0)).collect::<Vec<_>>());
    for length in (0..=40).chain(12_276..=12_312) {
        every_call(run, &long[..length]);
    }
    // A fault at the first, a middle and the last record of a full list.
    for at in [0, 1, 511, 1022, 1023] {
        for fault in 0..3 {
            let mut list: Vec<Record> = (0..1024).map(|i| (i * 10, 0)).collect();
            match fault {
                0 => list[at].1 = 86_400,
                1 => list[at].1 = -86_400,
                _ => list[at].0 = list[at.max(1) - 1].0 - i64::from(at == 0),
            }
            every_call(run, &list_bytes(&list));
        }
    }
    for _ in 0..run.times(20_000) {
        let zone = if run.random.once_in(4) {
            list_bytes(&list(&mut run.random))
        } else {
            broken_list(&mut run.random)
        };
        every_call(run, &zone);
    }
}

fn lookup(run: &mut Run) {
    let export = export("ZOFF").unwrap();
    for round in 0..run.times(4000) {
        let list = match round {
            0 | 1 => long_list(&mut run.random, 1024),
            _ => list(&mut run.random),
        };
        let zone = &list_bytes(&list);
        let seconds = list.iter().flat_map(|r| [r.0.saturating_sub(1), r.0, r.0.saturating_add(1)]);
        for second in seconds.chain([i64::MIN, -1, 0, 1, i64::MAX]) {
            run.check(&Case::Export { export, zone, args: [second as u64, 0, 0, 0] });
        }
    }
}
