//! The field builder: every map, every wrong length, fields in the exact domain, at its bounds and
//! beyond, UTC and local.

use super::Family;
use crate::case::Case;
use crate::inputs::{NANS, broken_list, list, list_bytes, record, time};
use crate::run::Run;
use crate::whole;

pub const FAMILIES: &[Family] =
    &[Family { name: "build_maps", run: maps }, Family { name: "build_random", run: random }];

fn build(run: &mut Run, zone: &[u8], record: &[u8]) {
    run.check(&Case::BuildUtc { record });
    run.check(&Case::BuildLocal { zone, record });
}

/// Every map with a record of the right length, one byte or one field more or less, and with
/// whole-number fields of every kind.
fn maps(run: &mut Run) {
    let zone = list_bytes(&[(-5000, 3600), (7000, -7200)]);
    for zone in [&zone[..], &[], &zone[..13]] {
        build(run, zone, &[]);
        for map in 0..=255 {
            for _ in 0..8 {
                let mut bytes = record(&mut run.random, map, 0);
                build(run, zone, &bytes);
                bytes.push(0);
                build(run, zone, &bytes);
                bytes.extend([0; 7]);
                build(run, zone, &bytes);
                bytes.truncate(bytes.len() - 9);
                build(run, zone, &bytes);
                bytes.truncate(bytes.len().saturating_sub(7));
                build(run, zone, &bytes);
            }
        }
    }
    for nan in NANS {
        let mut bytes = vec![1];
        bytes.extend(nan.to_le_bytes());
        build(run, &zone, &bytes);
    }
}

/// The fields of a time about a record of the list, given whole.
fn fields_of(run: &mut Run, list: &[(i64, i32)]) -> Vec<u8> {
    let p = whole::parts(time(&mut run.random, list).into());
    let mut bytes = vec![0x7F];
    for n in [p.year, p.month - 1, p.date, p.hour, p.minute, p.second, p.millisecond] {
        bytes.extend((n as f64).to_le_bytes());
    }
    bytes
}

fn random(run: &mut Run) {
    for _ in 0..run.times(10_000) {
        let list = list(&mut run.random);
        let zone = &list_bytes(&list);
        for _ in 0..10 {
            let map = if run.random.once_in(2) { 0x7F } else { run.random.next() as u8 & 0x7F };
            let bytes = record(&mut run.random, map, 0);
            build(run, zone, &bytes);
            let bytes = fields_of(run, &list);
            build(run, zone, &bytes);
        }
        let (broken, map) = (broken_list(&mut run.random), run.random.next() as u8);
        let mut bytes = record(&mut run.random, map, 0);
        bytes.truncate(run.random.below(bytes.len() as u64 + 1) as usize);
        build(run, &broken, &bytes);
        if run.done() {
            return;
        }
    }
}
