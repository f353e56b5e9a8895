//! Rewriting: as the reader, then the ISO text into outputs of every length; and again.

use super::Family;
use crate::case::Case;
use crate::expected::expected;
use crate::inputs::{UTC, list, list_bytes, time};
use crate::run::Run;
use crate::texts::{damaged, every_form, fewer_zeros, form};
use crate::whole;

pub const FAMILIES: &[Family] = &[
    Family { name: "rewrite_lengths", run: lengths },
    Family { name: "rewrite_random", run: random },
    Family { name: "rewrite_pairs", run: pairs },
];

/// Every form, and one of each refusal, into outputs of every length 0 to 40.
fn lengths(run: &mut Run) {
    let zone = &list_bytes(&[(0, 3600)]);
    let refused = [
        "",
        "20",
        "2023-1x",
        "2023-13",
        "2023-01-01x",
        "2023T24:01",
        "2023T24:00:00.1",
        "2023T12:00:00.",
        "2023T12:00:00.5000",
        "+275761",
        "x",
    ];
    let forms = every_form();
    for text in forms.iter().map(String::as_str).chain(refused) {
        for length in 0..=40 {
            let out = vec![b'~'; length];
            run.check(&Case::Rewrite { zone, text: text.as_bytes(), out: &out });
        }
    }
}

fn random(run: &mut Run) {
    for _ in 0..run.times(40_000) {
        let list = list(&mut run.random);
        let zone = &list_bytes(&list);
        for _ in 0..5 {
            let mut text = form(&mut run.random, &list);
            if run.random.once_in(5) {
                text = damaged(&mut run.random, text);
            }
            let length = if run.random.once_in(4) { run.random.below(41) } else { 27 };
            let out = vec![run.random.next() as u8; length as usize];
            let case = Case::Rewrite { zone, text: &text, out: &out };
            run.check(&case);
            again(run, &case);
        }
        if run.done() {
            return;
        }
    }
}

/// Rewriting the written run again, under another list, gives the same bytes and instant.
fn again(run: &mut Run, case: &Case) {
    let Some(first) = expected(case).outcome().filter(|first| first.number == 0) else {
        return;
    };
    let other = list(&mut run.random);
    let zone = if run.random.once_in(2) { list_bytes(&UTC) } else { list_bytes(&other) };
    let written = &first.out[..first.length];
    let second = Case::Rewrite { zone: &zone, text: written, out: case.out() };
    run.check(&second);
    let same = expected(&second).outcome().as_ref() == Some(&first);
    run.fact(same, || format!("rewritten again it differs: {}", case.line()));
}

/// Two texts under one list rewrite to equal bytes exactly when they denote one instant: an ISO
/// text, and a text with an offset, and maybe fewer decimals, for the same moment or one beside it.
fn pairs(run: &mut Run) {
    let out = &[b'~'; 27];
    for _ in 0..run.times(50_000) {
        let list = list(&mut run.random);
        let zone = &list_bytes(&list);
        let t = i128::from(time(&mut run.random, &list));
        let minutes = run.random.between(-1439, 1439);
        let beside = i128::from(run.random.pick(&[0, 0, 1, -1, 60_000]));
        let mut other = whole::iso_text(t + beside + 60_000 * i128::from(minutes));
        other.pop();
        other = fewer_zeros(&mut run.random, other);
        let sign = if minutes < 0 { '-' } else { '+' };
        other += &format!("{sign}{:02}:{:02}", minutes.abs() / 60, minutes.abs() % 60);
        let first = whole::iso_text(t);
        let cases =
            [first.as_bytes(), other.as_bytes()].map(|text| Case::Rewrite { zone, text, out });
        cases.iter().for_each(|case| run.check(case));
        let written = cases.map(|case| expected(&case).outcome());
        let [Some(a), Some(b)] = written else {
            continue;
        };
        let equal = a.out[..a.length] == b.out[..b.length];
        let holds = b.number != 0 || equal == (beside == 0);
        run.fact(holds, || format!("{first} and {other}"));
    }
}
