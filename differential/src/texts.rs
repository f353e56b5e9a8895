//! Texts to be read: every form, edges, and damaged copies.

use crate::inputs::{YEARS, time};
use crate::paper::{self, Record};
use crate::random::Random;
use crate::whole;

/// Bytes that stand in texts or look as if they might.
pub const LETTERS: &[u8] = b"0123456789TZtz:.+-, /\0\x7f\x80\xff";

/// The written year: four digits, or a sign and six.
fn year(r: &mut Random) -> String {
    match r.below(8) {
        0 => format!("{}{:06}", r.pick(&['+', '-']), r.between(0, 999_999)),
        1 => format!("+{:06}", r.between(275_758, 275_762)),
        2 => format!("-{:06}", r.between(271_819, 271_823)),
        3 => format!("{}{:06}", r.pick(&['+', '-']), r.between(0, 3)),
        4 => {
            let y = r.pick(&YEARS);
            format!("{}{:06}", if y < 0 { '-' } else { '+' }, y.abs())
        }
        _ => format!("{:04}", r.between(0, 9999)),
    }
}

/// Two digits: mostly in the bounds, else at or past them.
fn two(r: &mut Random, low: i64, high: i64) -> String {
    let value = match r.below(24) {
        0 => r.between(0, 99),
        1 => high + 1,
        2 => 0,
        3 | 4 => high,
        _ => r.between(low, high),
    };
    format!("{value:02}")
}

/// A date; near the range's ends often the very months and days there.
fn date(r: &mut Random) -> String {
    let mut text = year(r);
    let near = text.len() == 7 && r.once_in(2);
    if r.once_in(8) {
        return text;
    }
    text.push('-');
    let plus = text.starts_with('+');
    match (near, plus) {
        (true, true) => text += "09",
        (true, false) => text += "04",
        _ => text += &two(r, 1, 12),
    }
    if r.once_in(8) {
        return text;
    }
    text.push('-');
    match (near, plus) {
        (true, true) => text += &format!("{:02}", r.between(11, 15)),
        (true, false) => text += &format!("{:02}", r.between(18, 21)),
        _ => text += &two(r, 1, 31),
    }
    text
}

/// Times of hour 24: accepted where all that follows is 0.
const HOUR_24: [&str; 9] = [
    "T24:00",
    "T24:00:00",
    "T24:00:00.000",
    "T24:00:00.001",
    "T24:00:00.0",
    "T24:00:00.00",
    "T24:00:00.1",
    "T24:00:00.10",
    "T24:01",
];

/// What stands after the point: mostly three digits, often one or two, now and then none or four.
fn decimals(r: &mut Random) -> String {
    let digits = match r.below(32) {
        0 => 0,
        1 => 4,
        2..=8 => 1,
        9..=15 => 2,
        _ => 3,
    };
    let value = if r.once_in(4) { 0 } else { r.between(0, 9999) };
    format!("{value:04}")[..digits].into()
}

/// A time, without its zone; hour 24 often with nothing after it.
fn clock(r: &mut Random) -> String {
    if r.once_in(12) {
        return r.pick(&HOUR_24).into();
    }
    let mut text = format!("T{}:{}", two(r, 0, 24), two(r, 0, 59));
    if r.once_in(3) {
        return text;
    }
    text += &format!(":{}", two(r, 0, 59));
    if r.once_in(3) {
        return text;
    }
    format!("{text}.{}", decimals(r))
}

/// What follows a time.
fn zone(r: &mut Random) -> String {
    match r.below(5) {
        0 | 1 => String::new(),
        2 => "Z".into(),
        3 => format!("{}{}", r.pick(&['+', '-']), two(r, 0, 23)),
        _ => format!("{}{}:{}", r.pick(&['+', '-']), two(r, 0, 23), two(r, 0, 59)),
    }
}

/// The text without some of the zeros that its decimals, and it, end with.
pub fn fewer_zeros(r: &mut Random, mut text: String) -> String {
    while text.ends_with('0') && !text.ends_with(".0") && r.once_in(2) {
        text.pop();
    }
    text
}

/// A text of some form, mostly accepted; one in six is a local time at a record's second, often
/// without last zeros of its decimals.
pub fn form(r: &mut Random, list: &[Record]) -> Vec<u8> {
    if r.once_in(6) {
        let mut text = whole::iso_text(time(r, list).into());
        text.pop();
        return fewer_zeros(r, text).into_bytes();
    }
    let mut text = date(r);
    if !r.once_in(4) {
        text += &clock(r);
        text += &zone(r);
    }
    text.into_bytes()
}

/// Where the decimals of a text begin and how many digits stand there, fourth and further ones
/// too, where the reading comes to them.
pub fn decimals_of(text: &[u8]) -> Option<(usize, usize)> {
    let start = text.iter().position(|b| *b == b'.')? + 1;
    // Up to the point alone, a text ends where a digit is needed.
    let comes = paper::text(&text[..start]) == Err(5);
    let digits = text[start..].iter().take_while(|b| b.is_ascii_digit()).count();
    comes.then_some((start, digits))
}

/// A copy with one thing wrong: a byte changed, dropped, doubled, put in, or the end cut off.
pub fn damaged(r: &mut Random, mut text: Vec<u8>) -> Vec<u8> {
    let at = r.below(text.len() as u64 + 1) as usize;
    let letter = r.pick(LETTERS);
    match r.below(5) {
        0 if at < text.len() => text[at] = letter,
        1 if at < text.len() => {
            text.remove(at);
        }
        2 if at < text.len() => text.insert(at, text[at]),
        3 => text.insert(at, letter),
        _ => text.truncate(at),
    }
    text
}

/// A time of every form.
const CLOCKS: [&str; 8] = [
    "T12:34",
    "T12:34:56",
    "T12:34:56.7",
    "T12:34:56.78",
    "T12:34:56.789",
    "T24:00",
    "T24:00:00.0",
    "T24:00:00.000",
];

/// One text of every form: each kind of year, date, time and zone.
pub fn every_form() -> Vec<String> {
    let mut all = Vec::new();
    for year in ["2024", "+002024", "-000001", "0000", "+275760", "-271821"] {
        for date in ["", "-02", "-02-29", "-04-20"] {
            all.push(format!("{year}{date}"));
            for clock in CLOCKS {
                for zone in ["", "Z", "+05", "-05", "+05:45", "-23:59"] {
                    all.push(format!("{year}{date}{clock}{zone}"));
                }
            }
        }
    }
    all
}
