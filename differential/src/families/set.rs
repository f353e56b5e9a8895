//! The seven setters, UTC and local: every map, every wrong length, times of every kind, gaps,
//! absent first fields about a change of the offset, and fields in the exact domain and beyond.

use super::Family;
use crate::case::{Case, SETTERS};
use crate::inputs::{broken_list, list, list_bytes, long_list, odd_bits, record, time_bits};
use crate::run::Run;
use original::exports::Setter;

pub const FAMILIES: &[Family] = &[
    Family { name: "set_maps", run: maps },
    Family { name: "set_random", run: random },
    Family { name: "set_first_absent", run: first_absent },
];

fn set(run: &mut Run, setter: Setter, zone: &[u8], time: u64, record: &[u8]) {
    run.check(&Case::SetUtc { setter, time, record });
    run.check(&Case::Set { setter, zone, time, record });
}

/// The kind of a setter's first field: see `SPANS`.
fn first(setter: Setter) -> usize {
    match setter {
        Setter::FullYear => 0,
        Setter::Month => 1,
        Setter::Date => 2,
        Setter::Hours => 3,
        Setter::Minutes => 4,
        Setter::Seconds => 5,
        Setter::Milliseconds => 6,
    }
}

/// Every map, with the right length and wrong ones, on times accepted and not.
fn maps(run: &mut Run) {
    let zone = list_bytes(&[(-5000, 3600), (7000, -7200)]);
    let mut times = odd_bits();
    // At the local time of the second one the list has another offset.
    times.extend([1.7e12, 6.9e6].map(f64::to_bits));
    for (setter, ..) in SETTERS {
        for map in 0..=255 {
            for &time in &times {
                let bytes = record(&mut run.random, map, first(setter));
                set(run, setter, &zone, time, &bytes);
            }
            for time in [0, f64::NAN.to_bits(), f64::INFINITY.to_bits()] {
                let mut bytes = record(&mut run.random, map, first(setter));
                bytes.push(0);
                set(run, setter, &zone, time, &bytes);
                bytes.truncate(bytes.len() - 2);
                set(run, setter, &zone, time, &bytes);
                set(run, setter, &zone[..11], time, &bytes);
            }
        }
        set(run, setter, &zone, 0, &[]);
        set(run, setter, &[], 0, &[]);
    }
}

fn random(run: &mut Run) {
    for _ in 0..run.times(6000) {
        let list = list(&mut run.random);
        let zone = &list_bytes(&list);
        for (setter, _, _, fields) in SETTERS {
            for _ in 0..4 {
                let full = (1u16 << fields) - 1;
                let map =
                    if run.random.once_in(2) { full } else { run.random.next() as u16 & full };
                let time = time_bits(&mut run.random, &list);
                let bytes = record(&mut run.random, map as u8, first(setter));
                set(run, setter, zone, time, &bytes);
            }
        }
        let (setter, ..) = run.random.pick(&SETTERS);
        let broken = broken_list(&mut run.random);
        let (time, map) = (time_bits(&mut run.random, &list), run.random.next() as u8);
        let bytes = record(&mut run.random, map, first(setter));
        set(run, setter, &broken, time, &bytes);
        if run.done() {
            return;
        }
    }
}

/// The first field is absent, often every field is, on dates within half a day of a change of the
/// offset: the way back from local time may have another offset than the way there.
fn first_absent(run: &mut Run) {
    for _ in 0..run.times(2000) {
        let list = long_list(&mut run.random, 3);
        let zone = &list_bytes(&list);
        for (setter, _, _, fields) in SETTERS {
            let r = &mut run.random;
            let time = 1000 * r.pick(&list[1..]).0 + r.between(-43_200_000, 43_200_000);
            let later = r.next() as u8 & ((1 << fields) - 2);
            let map = r.pick(&[0, later]);
            let bytes = record(r, map, first(setter));
            set(run, setter, zone, (time as f64).to_bits(), &bytes);
        }
        if run.done() {
            return;
        }
    }
}

#[cfg(test)]
mod tests {
    use super::*;
    use crate::outcome::{NAN, Outcome};
    use std::collections::BTreeMap;

    /// Of each setter, local calls with no field that give another date than theirs.
    #[test]
    fn no_field_moves_local_dates_in_number() {
        let mut moved = BTreeMap::<&str, u64>::new();
        let mut collector = |case: &Case, outcome: &Outcome| {
            if let Case::Set { time, record: [0], .. } = *case {
                let kept = [NAN, (f64::from_bits(time) + 0.0).to_bits()].contains(&outcome.value);
                *moved.entry(case.tag()).or_default() += u64::from(!kept);
            }
        };
        first_absent(&mut Run::collecting("set_first_absent", 1, &mut collector));
        assert!(SETTERS.iter().all(|row| moved[row.2] > 200), "{moved:?}");
    }
}
