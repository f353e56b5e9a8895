//! Local time and back, and the offset at a time: at each record's second, one either side, and
//! at those moments' local times; at times far beyond 64 bits of seconds.

use super::Family;
use crate::case::Case;
use crate::inputs::{list, list_bytes, long_list, odd_bits, time_bits};
use crate::lower::export;
use crate::paper::Record;
use crate::run::Run;

pub const FAMILIES: &[Family] = &[Family { name: "local", run: local }];

fn call(run: &mut Run, zone: &[u8], word: u64) {
    for tag in ["LOFF", "LOCT", "UTCT"] {
        run.check(&Case::Export { export: export(tag).unwrap(), zone, args: [word, 0, 0, 0] });
    }
}

fn at_records(run: &mut Run, zone: &[u8], list: &[Record]) {
    for &(second, offset) in list {
        for shift in [0, i64::from(offset), -i64::from(offset)] {
            for ms in [-1000, -1, 0, 1, 999, 1000] {
                let t = (second as f64 + shift as f64) * 1000.0 + f64::from(ms);
                call(run, zone, t.to_bits());
            }
        }
    }
}

fn local(run: &mut Run) {
    for _ in 0..run.times(1500) {
        let list = list(&mut run.random);
        let zone = &list_bytes(&list);
        at_records(run, zone, &list);
        for word in odd_bits() {
            call(run, zone, word);
        }
        for _ in 0..20 {
            let word = time_bits(&mut run.random, &list);
            call(run, zone, word);
        }
    }
    let list = long_list(&mut run.random, 1024);
    at_records(run, &list_bytes(&list), &list);
}
