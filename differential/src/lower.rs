//! The functions below the C interface, as the crate `exports` hands them out: a row for each.
//!
//! Every argument and every result is one 64-bit word: an f64 as its bits (a NaN handed out has
//! the bits 7FF8000000000000, a NaN handed in has any), a whole number in two's complement,
//! extended with its sign, a truth as 0 or 1, digits as bytes, the first lowest. A zone list is a
//! pointer and then a length in bytes, as in the C interface; but to `zone_accepted` only accepted
//! lists are lent.

use crate::library::if_linked;
use crate::outcome::bits;
use original::exports::{ZoneList, calendar, digits, local, make};

/// A zone list as it is lent: its pointer and its length.
type List = (*const u8, usize);

/// A function below the C interface.
pub struct Export {
    pub tag: &'static str,
    symbol: &'static str,
    /// Words after the zone list, if it takes one.
    pub words: usize,
    pub listed: bool,
    /// The archive's answer, where it has the function.
    pub linked: Option<unsafe fn(List, [u64; 4]) -> u64>,
    /// The original's answer; the list is there where it takes one and it is accepted.
    pub original: fn([u64; 4], Option<&ZoneList>) -> u64,
}

/// A word as an f64.
fn f(word: u64) -> f64 {
    f64::from_bits(word)
}

/// A whole number as a word, extended with its sign.
fn whole(n: impl Into<i64>) -> u64 {
    n.into() as u64
}

/// Digits as a word, the first byte lowest.
fn packed(text: &[u8]) -> u64 {
    text.iter().rev().fold(0, |word, b| word << 8 | u64::from(*b))
}

/// A row: the tag, the C function with the names of its words (`&` before a list's), and what the
/// original gives for them.
macro_rules! table {
    ($($tag:literal $export:ident($(&$zone:ident $(,)?)? $($word:ident),*) => $original:expr;)*) => {
        &[$(Export {
            tag: $tag,
            symbol: stringify!($export),
            words: <[&str]>::len(&[$(stringify!($word)),*]),
            listed: !<[&str]>::is_empty(&[$(stringify!($zone))?]),
            linked: if_linked!($export, |_list, [$($word,)* ..]| {
                unsafe extern "C" {
                    fn $export($($zone: *const u8, length: usize,)? $($word: u64),*) -> u64;
                }
                $(let $zone = _list;)?
                unsafe { $export($($zone.0, $zone.1,)? $($word),*) }
            }),
            original: |[$($word,)* ..], _list| {
                $(let $zone = _list;)?
                $original
            },
        }),*]
    };
}

/// Every export, by tag.
pub static EXPORTS: &[Export] = table! {
    // f64's own methods and saturating casts.
    "FLOR" exports_floor(x) => bits(f(x).floor());
    "TRNC" exports_trunc(x) => bits(f(x).trunc());
    "ABSF" exports_abs(x) => bits(f(x).abs());
    "CPSN" exports_copysign(x, sign) => bits(f(x).copysign(f(sign)));
    "REMU" exports_rem_euclid(x, by) => bits(f(x).rem_euclid(f(by)));
    "TOU1" exports_as_u8(x) => whole(f(x) as u8);
    "TOU2" exports_as_u16(x) => whole(f(x) as u16);
    "TOI4" exports_as_i32(x) => whole(f(x) as i32);
    "TOI8" exports_as_i64(x) => whole(f(x) as i64);
    // The calendar: time or year as f64 bits; whole results as whole numbers, f64 results as bits.
    "DAYT" exports_day(t) => bits(calendar::day(f(t)));
    "TWDY" exports_time_within_day(t) => bits(calendar::time_within_day(f(t)));
    "DIYR" exports_days_in_year(y) => whole(calendar::days_in_year(f(y)));
    "DFYR" exports_day_from_year(y) => bits(calendar::day_from_year(f(y)));
    "TFYR" exports_time_from_year(y) => bits(calendar::time_from_year(f(y)));
    "YFRT" exports_year_from_time(t) => whole(calendar::year_from_time(f(t)));
    "DWYR" exports_day_within_year(t) => whole(calendar::day_within_year(f(t)));
    "INLP" exports_in_leap_year(t) => whole(calendar::in_leap_year(f(t)));
    "MFRT" exports_month_from_time(t) => whole(calendar::month_from_time(f(t)));
    "DFRT" exports_date_from_time(t) => whole(calendar::date_from_time(f(t)));
    "WKDY" exports_week_day(t) => whole(calendar::week_day(f(t)));
    "HFRT" exports_hour_from_time(t) => whole(calendar::hour_from_time(f(t)));
    "MINT" exports_min_from_time(t) => whole(calendar::min_from_time(f(t)));
    "SFRT" exports_sec_from_time(t) => whole(calendar::sec_from_time(f(t)));
    "MSFT" exports_ms_from_time(t) => whole(calendar::ms_from_time(f(t)));
    // The makers: f64 bits throughout.
    "MKTM" exports_make_time(hour, min, sec, ms) => {
        bits(make::make_time(f(hour), f(min), f(sec), f(ms)))
    };
    "MKDY" exports_make_day(year, month, date) => bits(make::make_day(f(year), f(month), f(date)));
    "MKDT" exports_make_date(day, time) => bits(make::make_date(f(day), f(time)));
    "MKFY" exports_make_full_year(year) => bits(make::make_full_year(f(year)));
    "CLIP" exports_time_clip(time) => bits(make::time_clip(f(time)));
    // The zone list: accepted or not; the offset in seconds at a second (i64) and at a time (f64
    // bits); local time and back (f64 bits).
    "ZACC" exports_zone_accepted(&zone) => u64::from(zone.is_some());
    "ZOFF" exports_zone_offset(&zone, second) => whole(zone.unwrap().offset_at(second as i64));
    "LOFF" exports_local_timezone_offset_seconds(&zone, t) => {
        whole(local::local_timezone_offset_seconds(f(t), zone.unwrap()))
    };
    "LOCT" exports_local_time(&zone, t) => bits(local::local_time(f(t), zone.unwrap()));
    "UTCT" exports_utc_t(&zone, t) => bits(local::utc_t(f(t), zone.unwrap()));
    // Digits: process_4 takes 1 to 4 bytes (the value below 2^32), process_8 1 to 8; a pad takes
    // a number of at most so many digits.
    "PRC4" exports_process_4(val, len) => u64::from(digits::process_4(val as u32, len as usize));
    "PRC8" exports_process_8(val, len) => digits::process_8(val, len as usize);
    "PAD2" exports_pad_two(n) => packed(&digits::pad_two(n as u8));
    "PAD3" exports_pad_three(n) => packed(&digits::pad_three(n as u16));
    "PAD4" exports_pad_four(n) => packed(&digits::pad_four(n as u32));
    "PAD5" exports_pad_five(n) => packed(&digits::pad_five(n as u32));
    "PAD6" exports_pad_six(n) => packed(&digits::pad_six(n as u32));
};

/// The export of a tag.
pub fn export(tag: &str) -> Option<&'static Export> {
    EXPORTS.iter().find(|d| d.tag == tag)
}

/// Every export's C function, and whether it is linked.
pub fn all() -> Vec<(&'static str, bool)> {
    EXPORTS.iter().map(|export| (export.symbol, export.linked.is_some())).collect()
}
