//! Decimals of a second, one to three of them (02, change request 8): every value, what may and
//! may not follow, refusals further on, the range's ends, and at random. Each short text is held to
//! its twin of three decimals.

use super::Family;
use super::marked::{Gives, row};
use crate::case::Case;
use crate::expected::{expected, with_zeros};
use crate::inputs::{UTC, list, list_bytes};
use crate::paper::Record;
use crate::run::Run;
use crate::texts::{damaged, decimals_of, form};
use crate::whole;

pub const FAMILIES: &[Family] = &[
    Family { name: "decimals_values", run: values },
    Family { name: "decimals_followed", run: followed },
    Family { name: "decimals_refused", run: refused },
    Family { name: "decimals_range", run: range_ends },
    Family { name: "decimals_random", run: random },
];

/// Room for every ISO text.
const OUT: &[u8] = &[b'~'; 27];

/// Read and rewritten.
fn both(run: &mut Run, zone: &[u8], text: &[u8]) {
    run.check(&Case::Read { zone, text });
    rewritten(run, zone, text);
}

/// Read, which gives this, and rewritten.
fn gives(run: &mut Run, zone: &[u8], text: &[u8], gives: Gives) {
    row(run, &Case::Read { zone, text }, &gives);
    rewritten(run, zone, text);
}

/// Where the decimals are one or two, the twin must have the same outcome.
fn rewritten(run: &mut Run, zone: &[u8], text: &[u8]) {
    let case = Case::Rewrite { zone, text, out: OUT };
    run.check(&case);
    let Some((_, digits @ 1..=2)) = decimals_of(text) else {
        return;
    };
    let twin = Case::Rewrite { zone, text: &with_zeros(text, digits), out: OUT };
    let same = expected(&case).outcome() == expected(&twin).outcome();
    run.fact(same, || format!("not as with its zeros: {}", case.line()));
}

/// Every value of one, two and three digits.
fn values(run: &mut Run) {
    for (digits, worth) in [(1, 100), (2, 10), (3, 1)] {
        for value in 0..1000 / worth {
            one_value(run, &format!("{value:0digits$}"), worth * value);
        }
    }
}

/// Written decimals and their milliseconds, with every kind of zone.
fn one_value(run: &mut Run, decimals: &str, ms: i64) {
    let (utc, west) = (&list_bytes(&UTC), &list_bytes(&[(0, -3600)]));
    let text = format!("1970-01-01T00:00:00.{decimals}");
    gives(run, utc, text.as_bytes(), Gives::Time(ms));
    gives(run, west, text.as_bytes(), Gives::Time(ms + 3_600_000));
    for (suffix, ahead) in
        [("Z", 0), ("+00", 0), ("-00:00", 0), ("+01", 60), ("-23", -1380), ("-23:59", -1439)]
    {
        let text = format!("{text}{suffix}");
        gives(run, utc, text.as_bytes(), Gives::Time(ms - 60_000 * ahead));
    }
    both(run, west, format!("{text}Z").as_bytes());
    both(run, west, format!("2024-02-29T23:59:59.{decimals}+05:45").as_bytes());
}

/// What the table says of so many digits and then a byte, or the end.
fn due(digits: usize, next: Option<u8>) -> u32 {
    match (digits, next) {
        (4.., _) => 6,
        (0, None) => 5,
        (0..=2, Some(b'0'..=b'9')) | (1..=3, None | Some(b'Z')) => 0,
        (1..=3, Some(b'+' | b'-')) => 5,
        _ => 6,
    }
}

/// None to five digits, then every byte or the end, and what may stand behind that byte.
fn followed(run: &mut Run) {
    for list in [UTC, [(0, 3600)]] {
        let zone = &list_bytes(&list);
        for digits in ["", "5", "50", "507", "5070", "50700", "0", "00", "05", "000", "0000"] {
            for next in (0..=255).map(Some).chain([None]) {
                let written = [digits.as_bytes(), next.as_slice()].concat();
                let text = [b"2023-06-15T12:34:56.", &written[..]].concat();
                gives(run, zone, &text, Gives::Number(due(digits.len(), next)));
                let at_24 = [b"2023T24:00:00.", &written[..]].concat();
                both(run, zone, &at_24);
                for rest in ["0", "5Z", "01", "01:30", "Z"] {
                    both(run, zone, &[&text, rest.as_bytes()].concat());
                    both(run, zone, &[&at_24, rest.as_bytes()].concat());
                }
            }
        }
    }
}

/// What is turned back after one or two decimals or near them, and hour 24.
const TURNED_BACK: [(&str, u32); 35] = [
    ("T12:00:00.5+", 5),
    ("T12:00:00.5+0", 5),
    ("T12:00:00.5+0x", 6),
    ("T12:00:00.5+24", 7),
    ("T12:00:00.50-24:00", 7),
    ("T12:00:00.5+01:", 5),
    ("T12:00:00.5+01:5", 5),
    ("T12:00:00.50+23:60", 7),
    ("T12:00:00.5-00:60", 7),
    ("T12:00:00.5+0100", 6),
    ("T12:00:00.5+01x", 6),
    ("T12:00:00.5Zx", 8),
    ("T12:00:00.50Z0", 8),
    ("T12:00:00.5ZZ", 8),
    ("T12:00:00.5+01:00x", 8),
    ("T12:00:00.50-01:000", 8),
    ("T12:00:00.5.", 6),
    ("T12:00:00.5:", 6),
    ("T12:00:00.5z", 6),
    ("T12:00:00,5", 6),
    ("T12:00.5", 6),
    ("T12.5", 6),
    ("T12:00:60.5", 7),
    ("T24:00:00.1", 7),
    ("T24:00:00.01", 7),
    ("T24:00:00.10Z", 7),
    ("T24:00:00.5+05", 7),
    ("T24:00:00.5-05:00", 7),
    ("T24:00:01.0", 7),
    // The hour's row stands after the reading, and before 9.
    ("T24:00:00.5Zx", 8),
    ("T24:00:00.5+01:00x", 8),
    ("T24:00:00.5x", 6),
    ("T24:00:00.5+", 5),
    ("T24:00:00.5+1", 5),
    ("T24:00:00.50+24", 7),
];

fn refused(run: &mut Run) {
    let zone = &list_bytes(&UTC);
    for year in ["2023", "-000001", "+999999"] {
        for date in ["", "-02", "-02-31"] {
            for (clock, number) in TURNED_BACK {
                let text = format!("{year}{date}{clock}");
                gives(run, zone, text.as_bytes(), Gives::Number(number));
            }
        }
    }
    for (clock, t) in [
        ("T24:00:00.0", 86_400_000),
        ("T24:00:00.00", 86_400_000),
        ("T24:00:00.0Z", 86_400_000),
        ("T24:00:00.00-05:30", 106_200_000),
        ("T24:00:00.0+05", 68_400_000),
    ] {
        gives(run, zone, format!("1970{clock}").as_bytes(), Gives::Time(t));
    }
}

/// The ISO text of a time without its `Z`, and that without the last zeros of its decimals.
fn spellings(t: i128) -> Vec<String> {
    let mut text = whole::iso_text(t);
    text.pop();
    let mut all = vec![text.clone()];
    while text.ends_with('0') && !text.ends_with(".0") {
        text.pop();
        all.push(text.clone());
    }
    all
}

/// Texts about both ends of the range, in tenths, hundredths and thousandths.
fn about_the_ends() -> Vec<String> {
    let mut all = Vec::new();
    for end in [whole::LAST, -whole::LAST] {
        for shift in [0, 1000, 60_000, 3_600_000, 86_340_000, 86_399_000, 86_400_000] {
            for beside in [0, 1, -1, 10, -10, 90, -90, 100, -100, 900, -900] {
                all.extend(spellings(end - shift + beside));
                all.extend(spellings(end + shift + beside));
            }
        }
    }
    all
}

/// About both ends of the range, with every kind of zone.
fn range_ends(run: &mut Run) {
    let lists: [&[Record]; 4] =
        [&UTC, &[(0, 86_399)], &[(0, -86_399)], &[(i64::MIN, 3600), (0, -3600)]];
    for list in lists {
        let zone = &list_bytes(list);
        for text in about_the_ends() {
            for suffix in ["", "Z", "+00", "+01:00", "-01:00", "+23:59", "-23:59"] {
                both(run, zone, format!("{text}{suffix}").as_bytes());
            }
        }
    }
    the_ends_themselves(run);
}

/// The last texts of the range and the first ones past it.
fn the_ends_themselves(run: &mut Run) {
    let zone = &list_bytes(&UTC);
    for (text, due) in [
        ("+275760-09-13T00:00:00.0Z", Gives::Time(8_640_000_000_000_000)),
        ("+275760-09-13T00:00:00.00", Gives::Time(8_640_000_000_000_000)),
        ("+275760-09-13T00:00:00.1Z", Gives::Number(9)),
        ("+275760-09-13T00:00:00.01Z", Gives::Number(9)),
        ("+275760-09-12T23:59:59.9Z", Gives::Time(8_639_999_999_999_900)),
        ("+275760-09-12T24:00:00.0Z", Gives::Time(8_640_000_000_000_000)),
        ("+275760-09-13T00:00:00.9+00:01", Gives::Time(8_639_999_999_940_900)),
        ("-271821-04-20T00:00:00.0Z", Gives::Time(-8_640_000_000_000_000)),
        ("-271821-04-20T00:00:00.01Z", Gives::Time(-8_639_999_999_999_990)),
        ("-271821-04-19T23:59:59.9Z", Gives::Number(9)),
        ("-271821-04-19T23:59:59.99Z", Gives::Number(9)),
        ("-271821-04-19T23:59:59.9-00:01", Gives::Time(-8_639_999_999_940_100)),
    ] {
        gives(run, zone, text.as_bytes(), due);
    }
}

/// Texts of every form that have decimals, these cut to one or two, and damaged copies, under UTC
/// or lists of every kind.
fn random(run: &mut Run) {
    for _ in 0..run.times(2500) {
        let list = if run.random.once_in(2) { UTC.into() } else { list(&mut run.random) };
        let zone = &list_bytes(&list);
        for _ in 0..8 {
            let mut text = form(&mut run.random, &list);
            let Some((start, digits)) = decimals_of(&text) else {
                continue;
            };
            let kept = run.random.between(1, 2) as usize;
            text.drain(start + kept.min(digits)..start + digits);
            both(run, zone, &text);
            let copy = damaged(&mut run.random, text);
            both(run, zone, &copy);
        }
        if run.done() {
            return;
        }
    }
}

#[cfg(test)]
mod tests {
    use super::*;
    use crate::outcome::Outcome;
    use crate::random::Random;
    use std::collections::BTreeMap;

    #[test]
    fn forms_have_decimals_of_every_number() {
        let (r, mut counts) = (&mut Random::new(1, "forms"), [0; 5]);
        for _ in 0..20_000 {
            if let Some((_, digits)) = decimals_of(&form(r, &UTC)) {
                counts[digits] += 1;
            }
        }
        let [none, one, two, three, four] = counts;
        assert!(none.min(four) > 100 && one.min(two) > 1000, "{counts:?}");
        assert!(three > one.max(two) && one.min(two) > none.max(four), "{counts:?}");
    }

    #[test]
    fn short_texts_in_number_read_and_refused() {
        let mut counts = BTreeMap::<(usize, u32), u64>::new();
        let mut collector = |case: &Case, outcome: &Outcome| {
            if let Some((_, digits @ 1..=2)) = decimals_of(case.input()) {
                *counts.entry((digits, outcome.number)).or_default() += 1;
            }
        };
        random(&mut Run::collecting("decimals_random", 1, &mut collector));
        for (digits, number) in [1, 2].into_iter().flat_map(|d| [0, 5, 6, 7, 8, 9].map(|n| (d, n)))
        {
            let count = counts.get(&(digits, number)).copied().unwrap_or(0);
            let least = if number == 0 { 1000 } else { 10 };
            assert!(count > least, "{digits} decimals, {number}: {counts:?}");
        }
    }
}
