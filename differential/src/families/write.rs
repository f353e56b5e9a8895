//! The writers: outputs of every length, times of every kind, days of many years, and local texts
//! about a list's records.

use super::Family;
use crate::case::Case;
use crate::inputs::{LAST, UTC, YEARS, broken_list, list, list_bytes, odd_bits, time_bits};
use crate::run::Run;
use crate::whole;

pub const FAMILIES: &[Family] = &[
    Family { name: "write_lengths", run: lengths },
    Family { name: "write_days", run: days },
    Family { name: "write_random", run: random },
    Family { name: "write_parts", run: parts },
];

/// The three writers on one time and output.
fn write(run: &mut Run, zone: &[u8], time: u64, out: &[u8]) {
    run.check(&Case::ToIsoString { time, out });
    run.check(&Case::ToUtcString { time, out });
    run.check(&Case::ToString { zone, time, out });
}

/// Times whose texts have each length, and times that are refused, into outputs 0 to 40 long.
fn lengths(run: &mut Run) {
    let zones = [list_bytes(&UTC), list_bytes(&[(0, 86_399)]), list_bytes(&[(0, -30)])];
    let years = YEARS.map(|y| {
        let t = whole::day_number(y.into(), 6, 15) * whole::MS_PER_DAY;
        ((t as i64).clamp(-LAST, LAST) as f64).to_bits()
    });
    for time in odd_bits().into_iter().chain(years) {
        for length in 0..=40 {
            let out: Vec<u8> = (0..length).map(|i| 0x80 | i).collect();
            for zone in &zones {
                write(run, zone, time, &out);
            }
        }
    }
    for zone in [vec![], vec![0; 11], list_bytes(&[(0, 86_400)])] {
        for time in odd_bits() {
            run.check(&Case::ToString { zone: &zone, time, out: &[] });
        }
    }
}

/// Every day of the years at which something changes; each day of the week and month.
fn days(run: &mut Run) {
    let zone = &list_bytes(&[(0, 19_800), (1_000_000_000, -12_600)]);
    for year in YEARS {
        let start = whole::day_number(year.into(), 1, 1);
        for day in start - 1..start + 366 {
            for ms in [0, 86_399_999] {
                let t = day * whole::MS_PER_DAY + ms;
                let time = (t.clamp(-whole::LAST, whole::LAST) as f64).to_bits();
                write(run, zone, time, &[b'~'; 40]);
            }
        }
    }
}

fn random(run: &mut Run) {
    for _ in 0..run.times(12_000) {
        let list = list(&mut run.random);
        let zone = &list_bytes(&list);
        for _ in 0..10 {
            let time = time_bits(&mut run.random, &list);
            let length = if run.random.once_in(5) { run.random.below(41) } else { 36 };
            let out = vec![run.random.next() as u8; length as usize];
            write(run, zone, time, &out);
        }
        let (broken, time) = (broken_list(&mut run.random), time_bits(&mut run.random, &list));
        run.check(&Case::ToString { zone: &broken, time, out: &[b'~'; 36] });
        if run.done() {
            return;
        }
    }
}

/// date_string, time_string and time_zone_string joined are to_date_string_t; "lengths: ISO 24 or
/// 27, UTC 29 to 32, local 33 to 36, invalid 12"; "an offset of -30 s prints -0000".
fn parts(run: &mut Run) {
    use original::JsString;
    use original::exports::{ZoneList, local, to_iso_string, to_utc_string};
    for _ in 0..run.times(20_000) {
        let list = list(&mut run.random);
        let zone = ZoneList::new(&list);
        let tv = crate::inputs::time(&mut run.random, &list) as f64;
        let t = local::local_time(tv, &zone);
        let text = |part: JsString| part.to_std_string_lossy();
        let [date, time] = [local::date_string(t), local::time_string(t)].map(text);
        let joined = format!("{date} {time}{}", text(local::time_zone_string(t, &zone)));
        let text = text(local::to_date_string_t(tv, &zone));
        let lengths = [24, 27].contains(&to_iso_string(tv).unwrap().len())
            && (29..=32).contains(&to_utc_string(tv).len())
            && (33..=36).contains(&text.len());
        run.fact(joined == text && lengths, || format!("texts of {tv} under {list:?}"));
    }
    let zone = ZoneList::new(&[(0, -30)]);
    let suffix = local::time_zone_string(0.0, &zone).to_std_string_lossy();
    run.fact(suffix == "-0000", || "offset -30 s".into());
}
