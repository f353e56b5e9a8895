//! f64's own methods and casts, for every pattern: what the float helpers must equal.

use super::Family;
use crate::case::Case;
use crate::inputs::odd_bits;
use crate::lower::export;
use crate::random::Random;
use crate::run::Run;

pub const FAMILIES: &[Family] = &[Family { name: "floats", run: floats }];

const ONE: [&str; 7] = ["FLOR", "TRNC", "ABSF", "TOU1", "TOU2", "TOI4", "TOI8"];
/// What the calendar divides by.
const DIVISORS: [f64; 10] =
    [4.0, 7.0, 12.0, 24.0, 60.0, 100.0, 400.0, 1000.0, 86_400_000.0, 3_600_000.0];

fn one(run: &mut Run, tag: &str, word: u64) {
    run.check(&Case::Export { export: export(tag).unwrap(), zone: &[], args: [word, 0, 0, 0] });
}

fn two(run: &mut Run, tag: &str, a: u64, b: u64) {
    run.check(&Case::Export { export: export(tag).unwrap(), zone: &[], args: [a, b, 0, 0] });
}

/// Any pattern, or one of a size where whole numbers and fractions meet.
fn pattern(r: &mut Random) -> u64 {
    match r.below(4) {
        0 => r.next(),
        1 => r.pick(&odd_bits()),
        2 => {
            let exponent = r.between(1018, 1078) as u64;
            r.next() & 0x800F_FFFF_FFFF_FFFF | exponent << 52
        }
        _ => (r.between(-9_000_000_000_000_000, 9_000_000_000_000_000) as f64).to_bits(),
    }
}

fn floats(run: &mut Run) {
    for word in odd_bits() {
        for tag in ONE {
            one(run, tag, word);
        }
        for by in DIVISORS {
            two(run, "REMU", word, by.to_bits());
        }
    }
    for _ in 0..run.times(150_000) {
        let (a, b) = (pattern(&mut run.random), pattern(&mut run.random));
        let tag = run.random.pick(&ONE);
        one(run, tag, a);
        two(run, "REMU", a, b);
        let by = run.random.pick(&DIVISORS);
        two(run, "REMU", a, by.to_bits());
        // The sign of a NaN is left free: the date module asks only for signs of numbers.
        if !f64::from_bits(b).is_nan() {
            two(run, "CPSN", a, b);
        }
    }
}
