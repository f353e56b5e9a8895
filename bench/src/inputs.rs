//! The inputs: the same in every run.

use crate::random::Random;

/// How many inputs a row has: too many for the processor to learn their branches.
pub const INPUTS: usize = 65_536;

/// A whole number of a stretch, its end left out.
fn within(random: &mut Random, from: i64, to: i64) -> i64 {
    let width = u64::try_from(to - from).expect("a stretch");
    from + i64::try_from(random.next() % width).expect("below its width")
}

const MS_PER_YEAR: i64 = 31_556_952_000;
const LAST: i64 = 8_640_000_000_000_000;

/// Times of the years 1970 to 2099.
pub fn times_of_today() -> Vec<f64> {
    times(0, 130 * MS_PER_YEAR)
}

/// Times of the whole range.
pub fn times_of_the_range() -> Vec<f64> {
    times(-LAST, LAST + 1)
}

fn times(from: i64, to: i64) -> Vec<f64> {
    let mut random = Random(1);
    (0..INPUTS).map(|_| within(&mut random, from, to) as f64).collect()
}

/// A zone list of so many records, twice a year through the years 1970 to 2099, or as near to each
/// other as that many need.
pub fn zone(records: usize) -> Vec<(i64, i32)> {
    let step = 130 * MS_PER_YEAR / 1000 / i64::try_from(records).expect("a small number");
    let offset = |i| if i % 2 == 0 { 3600 } else { 7200 };
    (0..records).map(|i| (i64::try_from(i).expect("small") * step, offset(i))).collect()
}

/// How a text is written.
#[derive(Clone, Copy)]
pub enum Kind {
    Iso,
    Date,
    Local,
    Offset,
    LongYear,
}

pub const KINDS: [(Kind, &str); 5] = [
    (Kind::Iso, "2024-02-29T12:00:00.000Z"),
    (Kind::Date, "2024-02-29"),
    (Kind::Local, "2024-02-29T20:15"),
    (Kind::Offset, "2024-02-29T20:15:00+01:00"),
    (Kind::LongYear, "+012024-02-29T12:00:00.000Z"),
];

/// Texts of one kind.
pub fn texts(kind: Kind) -> Vec<String> {
    let mut random = Random(2);
    (0..INPUTS).map(|_| text(kind, &mut random)).collect()
}

/// Texts of all kinds, in no order.
pub fn mixed_texts() -> Vec<String> {
    let mut random = Random(3);
    let mut next = || {
        let kind = KINDS[random.next() as usize % KINDS.len()].0;
        text(kind, &mut random)
    };
    (0..INPUTS).map(|_| next()).collect()
}

fn text(kind: Kind, random: &mut Random) -> String {
    let mut n = |from, to| within(random, from, to);
    let date = format!("{:04}-{:02}-{:02}", n(1970, 2100), n(1, 13), n(1, 29));
    let (hour, minute, second, ms) = (n(0, 24), n(0, 60), n(0, 60), n(0, 1000));
    match kind {
        Kind::Iso => format!("{date}T{hour:02}:{minute:02}:{second:02}.{ms:03}Z"),
        Kind::Date => date,
        Kind::Local => format!("{date}T{hour:02}:{minute:02}"),
        Kind::Offset => {
            let sign = if n(0, 2) == 0 { '+' } else { '-' };
            format!("{date}T{hour:02}:{minute:02}:{second:02}{sign}{:02}:{:02}", n(0, 15), n(0, 60))
        }
        Kind::LongYear => {
            format!("+{:02}{date}T{hour:02}:{minute:02}:{second:02}.{ms:03}Z", n(1, 27))
        }
    }
}

/// The builder's fields: year, month, date, hour, minute, second, millisecond.
pub fn fields() -> Vec<[f64; 7]> {
    let mut random = Random(4);
    let bounds = [(1970, 2100), (0, 12), (1, 32), (0, 24), (0, 60), (0, 60), (0, 1000)];
    (0..INPUTS).map(|_| bounds.map(|(from, to)| within(&mut random, from, to) as f64)).collect()
}
