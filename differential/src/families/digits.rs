//! Digits joined by multiplication modulo 2^32 and 2^64, and digits written.

use super::Family;
use crate::case::Case;
use crate::lower::export;
use crate::run::Run;

pub const FAMILIES: &[Family] = &[Family { name: "digits", run: digits }];

fn call(run: &mut Run, tag: &str, a: u64, b: u64) {
    run.check(&Case::Export { export: export(tag).unwrap(), zone: &[], args: [a, b, 0, 0] });
}

/// A number's digits as a word, the first lowest.
fn word(number: u64, width: usize) -> u64 {
    let text = format!("{number:0width$}");
    text.bytes().rev().fold(0, |word, b| word << 8 | u64::from(b))
}

fn digits(run: &mut Run) {
    for number in 0..10_000 {
        call(run, "PRC4", word(number, 4), 4);
        call(run, "PAD4", number, 0);
    }
    for (tag, below, step) in
        [("PAD2", 100, 1), ("PAD3", 1000, 1), ("PAD5", 100_000, 7), ("PAD6", 1_000_000, 37)]
    {
        for number in (0..below).step_by(step).chain([below - 1]) {
            call(run, tag, number, 0);
        }
    }
    for _ in 0..run.times(100_000) {
        let number = run.random.below(1_000_000);
        call(run, "PRC8", word(number, 6), 6);
        let (any, count) = (run.random.next(), run.random.between(1, 8) as u64);
        call(run, "PRC8", any, count);
        call(run, "PRC4", any & 0xFFFF_FFFF, count.div_ceil(2));
    }
}
