//! Huge fields that cancel: one field far out and another solved for, so that the answer is in the
//! range and shows what f64 rounded on the way. For the builder and each setter, UTC and local.

use super::Family;
use crate::case::{Case, SETTERS};
use crate::inputs::{list, list_bytes, time};
use crate::random::Random;
use crate::run::Run;
use crate::standard::slots;
use crate::whole;
use std::ops::Range;

pub const FAMILIES: &[Family] =
    &[Family { name: "build_cancel", run: build }, Family { name: "set_cancel", run: set }];

/// The milliseconds of year, month (of both the mean), date, hour, minute, second, millisecond.
const UNITS: [i128; 7] = [31_556_952_000, 2_629_746_000, 86_400_000, 3_600_000, 60_000, 1000, 1];

/// A setter's field is far out up to this power of two in milliseconds, a year beyond 64 bits; what
/// f64 rounds there is well within the range.
const FAR: u32 = 99;
/// The builder's: its year is below 2^53, its month beyond 12 × 2^52, where a twelfth is rounded.
const FAR_BUILT: u32 = 87;

/// A whole number of either sign and any size from 2^20 on, below 2^far milliseconds.
fn huge(r: &mut Random, field: usize, far: u32) -> f64 {
    let bits = r.between(21, i64::from(far - UNITS[field].ilog2()));
    let number = (1 << 63 | r.next()) as f64 * 2f64.powi(bits as i32 - 64);
    r.pick(&[-1.0, 1.0]) * number.floor()
}

/// A record of the fields at `places`: by whole numbers about the time `t`, where `base` has the
/// other fields and the absent ones. `given` has the bits of those given in any case.
fn record(
    r: &mut Random,
    base: [i128; 7],
    places: Range<usize>,
    mut given: u8,
    t: i128,
    far: u32,
) -> Vec<u8> {
    let (count, first) = (places.len() as u64, places.start);
    let solved = first + r.below(count) as usize;
    let mut fields = base.map(|n| n as f64);
    given |= 1 << (solved - first);
    if count > 1 {
        let other = first + (solved - first + 1 + r.below(count - 1) as usize) % places.len();
        fields[other] = huge(r, other, far);
        given |= 1 << (other - first);
    }
    fields[solved] = 0.0;
    let left = t - whole::make(fields.map(whole::truncated));
    fields[solved] = left.div_euclid(UNITS[solved]) as f64;
    let mut bytes = vec![given];
    for (bit, field) in fields[places].iter().enumerate() {
        if given >> bit & 1 == 1 {
            bytes.extend(field.to_le_bytes());
        }
    }
    bytes
}

/// Every pair of fields, the others given or absent.
fn build(run: &mut Run) {
    const ABSENT: [i128; 7] = [1970, 0, 1, 0, 0, 0, 0];
    for _ in 0..run.times(30_000) {
        let list = list(&mut run.random);
        let r = &mut run.random;
        let given = r.next() as u8 & 0x7F | 1;
        let own = whole::apart(time(r, &list).into());
        let base = std::array::from_fn(|i| if given >> i & 1 == 1 { own[i] } else { ABSENT[i] });
        let t = time(r, &list).into();
        let record = &record(r, base, 0..7, given, t, FAR_BUILT);
        run.check(&Case::BuildUtc { record });
        run.check(&Case::BuildLocal { zone: &list_bytes(&list), record });
    }
}

/// Every pair of a setter's fields, the others given or absent, the first too; of a setter with one
/// field, that field from the date to any other time.
fn set(run: &mut Run) {
    for _ in 0..run.times(6000) {
        let list = list(&mut run.random);
        let zone = &list_bytes(&list);
        for (setter, _, _, fields) in SETTERS {
            let r = &mut run.random;
            let (from, to) = (time(r, &list), time(r, &list).into());
            let given = r.next() as u8 & ((1 << fields) - 1);
            let record = &record(r, whole::apart(from.into()), slots(setter), given, to, FAR);
            let time = (from as f64).to_bits();
            run.check(&Case::SetUtc { setter, time, record });
            run.check(&Case::Set { setter, zone, time, record });
        }
    }
}

#[cfg(test)]
mod tests {
    use super::*;
    use crate::outcome::Outcome;
    use crate::paper;

    /// How many of a family's answers are in the range, of how many; and for year, month, date,
    /// hour, minute, second and millisecond the farthest of a call that is in the range.
    fn reach(family: &Family) -> (u64, u64, [f64; 7]) {
        let (mut inside, mut all, mut farthest) = (0, 0, [0f64; 7]);
        let mut collector = |case: &Case, outcome: &Outcome| {
            let (first, count) = match *case {
                Case::SetUtc { setter, .. } => (slots(setter).start, slots(setter).len()),
                Case::BuildUtc { .. } => (0, 7),
                _ => return,
            };
            all += 1;
            if f64::from_bits(outcome.value).is_nan() {
                return;
            }
            inside += 1;
            let fields = paper::field_record(case.input(), count).unwrap();
            for (far, field) in farthest[first..].iter_mut().zip(fields) {
                *far = far.max(field.unwrap_or(0.0).abs());
            }
        };
        (family.run)(&mut Run::collecting(family.name, 1, &mut collector));
        (inside, all, farthest)
    }

    #[test]
    fn fields_are_far_out_and_the_answer_is_in_the_range() {
        for (family, year) in FAMILIES.iter().zip([4e15, 1e19]) {
            let (inside, all, farthest) = reach(family);
            assert!(inside * 10 > all * 9, "{}: {inside} of {all}", family.name);
            let due = [year, 5.5e16, 1e17, 1e18, 1e20, 1e22, 1e24];
            let met = farthest.iter().zip(due).all(|(far, due)| *far > due);
            assert!(met, "{}: {farthest:?}", family.name);
        }
    }
}
