//! Wrong answers about decimals: what they are worth, how many there may be, where the reading goes
//! on behind them, and hour 24.

use crate::bite::Bite;
use crate::bite_answers::{answer, by, text_of, with_text};
use crate::case::Case;
use crate::outcome::Outcome;
use crate::texts::decimals_of;

pub const DECIMALS: &[Bite] = &[
    answer(".5 is 5 ms", |c, _| spelt(c, 1, |d| [b"00", d].concat())),
    answer(".50 is 50 ms", |c, _| spelt(c, 2, |d| [b"0", d].concat())),
    answer(".05 is .5", |c, _| spelt(c, 2, |d| d.strip_prefix(b"0").unwrap_or(d).to_vec())),
    answer("a fourth decimal left out", |c, _| spelt(c, 4, |d| d[..3].to_vec())),
    answer("no decimal is 0", |c, _| spelt(c, 0, |_| b"000".to_vec())),
    answer("three decimals demanded", |c, o| {
        let number = text_of(c).filter(|_| o.number != 1).and_then(three_demanded)?;
        Some(Outcome::refused(number, c.out()))
    }),
    answer("short decimals: a byte left out behind", |c, _| goes_on(c, |start, n| start + n + 1)),
    answer("short decimals: on where three end", |c, _| goes_on(c, |start, _| start + 3)),
    answer("short decimals: on at the point", |c, _| goes_on(c, |start, _| start)),
    answer("short decimals without zone are UTC", |c, _| {
        let (text, end) = short_end(c)?;
        (end == text.len()).then(|| by(with_text(c, &[text, b"Z"].concat())?))?
    }),
    answer("hour 24 free of one decimal", |c, o| {
        (o.number == 7).then(|| spelt(c, 1, |_| b"0".to_vec()))?
    }),
    answer("hour 24 refuses short decimals", |c, o| {
        let at_24 = short_end(c)?.0.windows(3).any(|three| three == b"T24");
        (o.number == 0 && at_24).then(|| Outcome::refused(7, c.out()))
    }),
    answer("rewriting prints as many decimals", as_many_printed),
];

/// The right outcome with the decimals written otherwise, where there are so many of them.
fn spelt(case: &Case, digits: usize, other: fn(&[u8]) -> Vec<u8>) -> Option<Outcome> {
    let text = text_of(case)?;
    let (start, found) = decimals_of(text)?;
    let (decimals, rest) = text[start..].split_at(found);
    let otherwise = || [&text[..start], &other(decimals), rest].concat();
    (found == digits).then(|| by(with_text(case, &otherwise())?))?
}

/// A text with one or two decimals, and where they end.
fn short_end<'a>(case: &Case<'a>) -> Option<(&'a [u8], usize)> {
    let text = text_of(case)?;
    let (start, digits) = decimals_of(text)?;
    matches!(digits, 1 | 2).then_some((text, start + digits))
}

/// The reading of before: a digit is needed at each of three places.
pub fn three_demanded(text: &[u8]) -> Option<u32> {
    let (start, digits) = decimals_of(text)?;
    let faulty = if start + digits == text.len() { 5 } else { 6 };
    matches!(digits, 1 | 2).then_some(faulty)
}

/// Behind one or two decimals the reading goes on at another place, by where they begin and how
/// many they are.
fn goes_on(case: &Case, place: fn(usize, usize) -> usize) -> Option<Outcome> {
    let (text, end) = short_end(case)?;
    let (start, digits) = decimals_of(text)?;
    let rest = text.get(place(start, digits)..).unwrap_or_default();
    by(with_text(case, &[&text[..end], &b"000"[digits..], rest].concat())?)
}

fn as_many_printed(case: &Case, o: &Outcome) -> Option<Outcome> {
    let Case::Rewrite { text, out, .. } = *case else {
        return None;
    };
    let (_, digits @ 1..=2) = decimals_of(text)? else {
        return None;
    };
    let kept = o.length.checked_sub(4 - digits)?;
    let shorter = [&o.out[..kept], b"Z"].concat();
    Some(Outcome::text(f64::from_bits(o.value), &shorter, out))
}
