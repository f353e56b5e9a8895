//! The makers: fields in the exact domain, at its bounds, beyond it, and not finite.

use super::Family;
use crate::case::Case;
use crate::inputs::{SPANS, field, odd_bits};
use crate::lower::export;
use crate::run::Run;

pub const FAMILIES: &[Family] = &[Family { name: "make", run: make }];

fn call(run: &mut Run, tag: &str, fields: &[f64]) {
    let mut args = [0; 4];
    for (arg, x) in args.iter_mut().zip(fields) {
        *arg = x.to_bits();
    }
    run.check(&Case::Export { export: export(tag).unwrap(), zone: &[], args });
}

fn make(run: &mut Run) {
    let odd: Vec<f64> = odd_bits().into_iter().map(f64::from_bits).collect();
    for &x in &odd {
        call(run, "CLIP", &[x]);
        call(run, "MKFY", &[x]);
        for &y in &odd {
            call(run, "MKDT", &[x, y]);
            call(run, "MKDY", &[2024.0, x, y]);
            call(run, "MKDY", &[x, y, 1.0]);
            call(run, "MKTM", &[x, y, 0.0, 0.0]);
            call(run, "MKTM", &[0.0, 0.0, x, y]);
        }
    }
    for year in -200..300 {
        call(run, "MKFY", &[f64::from(year)]);
        call(run, "MKFY", &[f64::from(year) / 3.0]);
    }
    for _ in 0..run.times(150_000) {
        let f = SPANS.map(|(bound, low, high)| field(&mut run.random, bound, low, high));
        call(run, "MKDY", &f[..3]);
        call(run, "MKTM", &f[3..]);
        call(run, "MKFY", &f[..1]);
        let day = run.random.between(-104_000_000, 104_000_000) as f64;
        let ms = run.random.between(-100_000_000, 100_000_000) as f64;
        call(run, "MKDT", &[day, ms]);
        let any = f64::from_bits(run.random.next());
        call(run, "CLIP", &[any]);
        let near = run.random.between(-8_640_000_000_001_000, 8_640_000_000_001_000) as f64;
        let fraction = run.random.pick(&[0.0, 0.5, -0.5]);
        call(run, "CLIP", &[near + fraction]);
    }
}
