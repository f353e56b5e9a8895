//! Inputs: times, zone lists, texts and records, at random and at their edges.

use crate::paper::Record;
use crate::random::Random;
use crate::whole;

/// The last millisecond of the range.
pub const LAST: i64 = 8_640_000_000_000_000;
/// The list (0, 0).
pub const UTC: [Record; 1] = [(0, 0)];

/// Years at which something changes: the sign, the number of digits, the range, leap rules.
pub const YEARS: [i64; 26] = [
    -1, 0, 1, 99, 100, 1899, 1900, 1969, 1970, 1971, 2000, 2023, 2024, 2100, 9999, 10_000, 99_999,
    100_000, -9999, -10_000, -99_999, -100_000, -271_821, 275_760, -271_820, 275_759,
];

/// A list as it is lent: 12 bytes a record, second then offset, low byte first.
pub fn list_bytes(records: &[Record]) -> Vec<u8> {
    let mut bytes = Vec::with_capacity(12 * records.len());
    for (second, offset) in records {
        bytes.extend(second.to_le_bytes());
        bytes.extend(offset.to_le_bytes());
    }
    bytes
}

/// A second for a record: anywhere in the range, at its ends, near now, at the 64-bit ends, at a
/// year's edge.
fn second(r: &mut Random) -> i64 {
    match r.below(7) {
        0 => r.between(-8_640_000_000_100, 8_640_000_000_100),
        1 => r.between(-100_000, 100_000),
        2 => i64::MIN + r.between(0, 2),
        3 => i64::MAX - r.between(0, 2),
        4 => r.pick(&[-1, 1]) * 8_640_000_000_000 + r.between(-100_000, 100_000),
        5 => {
            let year = i128::from(r.pick(&YEARS));
            (whole::day_number(year, 1, 1) * 86_400) as i64 + r.between(-2, 2)
        }
        _ => r.between(0, 2_000_000_000),
    }
}

fn offset(r: &mut Random) -> i32 {
    match r.below(7) {
        0 => 0,
        1 => 86_399,
        2 => -86_399,
        3 => r.between(-14, 14) as i32 * 3600,
        4 => r.between(-60, 60) as i32,
        5 => -30,
        _ => r.between(-86_399, 86_399) as i32,
    }
}

/// An accepted list of at most `records` records.
pub fn list_of(r: &mut Random, records: usize) -> Vec<Record> {
    let mut seconds: Vec<i64> = (0..records).map(|_| second(r)).collect();
    seconds.sort_unstable();
    seconds.dedup();
    seconds.into_iter().map(|s| (s, offset(r))).collect()
}

/// An accepted list, mostly short.
pub fn list(r: &mut Random) -> Vec<Record> {
    let records = r.pick(&[1, 1, 2, 2, 3, 5, 20]);
    list_of(r, records)
}

/// An accepted list of exactly so many records, seconds a step apart.
pub fn long_list(r: &mut Random, records: usize) -> Vec<Record> {
    let start = r.between(-4_000_000_000, 0);
    let step = r.between(1, 10_000_000);
    (0..records as i64).map(|i| (start + i * step, offset(r))).collect()
}

/// A list with a fault, as bytes: wrong length, too many or no records, seconds that stand or
/// fall, an offset one past its bound or far out.
pub fn broken_list(r: &mut Random) -> Vec<u8> {
    let mut records = list(r);
    let last = records.len() - 1;
    let at = r.below(records.len() as u64) as usize;
    match r.below(6) {
        0 => {
            let mut bytes = list_bytes(&records);
            let cut = r.between(1, 11) as usize;
            bytes.truncate(bytes.len() - cut);
            return bytes;
        }
        1 => return Vec::new(),
        2 => records[at].1 = r.pick(&[86_400, -86_400, i32::MAX, i32::MIN, 100_000]),
        3 => records.push((records[last].0, 0)),
        4 => records.push((records[last].0.saturating_sub(1), 0)),
        _ => {
            let mut bytes = list_bytes(&records);
            bytes.extend(vec![0; r.between(1, 11) as usize]);
            return bytes;
        }
    }
    list_bytes(&records)
}

/// A whole time in the range, often at the list's seconds or their local times.
pub fn time(r: &mut Random, list: &[Record]) -> i64 {
    if r.once_in(3) {
        let (second, offset) = r.pick(list);
        if second.unsigned_abs() < 8_640_000_086_400 {
            let shift = r.pick(&[0, i64::from(offset), -i64::from(offset)]);
            let near = second + shift + r.pick(&[0, 0, -1, 1]);
            return (near * 1000 + r.pick(&[0, 0, -1, 1, 999])).clamp(-LAST, LAST);
        }
    }
    match r.below(8) {
        0 => {
            let year = if r.once_in(2) { r.pick(&YEARS) } else { r.between(-271_821, 275_760) };
            let start = (whole::day_number(year.into(), 1, 1) * whole::MS_PER_DAY) as i64;
            (start + r.between(-2, 2)).clamp(-LAST, LAST)
        }
        1 => LAST - r.between(0, 200_000_000),
        2 => -LAST + r.between(0, 200_000_000),
        3 => r.between(-200_000_000, 200_000_000),
        4 => (r.between(-100_000_000, 100_000_000) * 86_400_000 + r.between(-1, 1))
            .clamp(-LAST, LAST),
        5 => r.between(0, 4_102_444_800_000),
        6 => leap_day(r),
        _ => r.between(-LAST, LAST),
    }
}

/// About the end of a February.
fn leap_day(r: &mut Random) -> i64 {
    let year = if r.once_in(2) { r.between(1800, 2200) } else { r.between(-271_820, 275_759) };
    let day = whole::day_number(year.into(), 2, i128::from(r.between(27, 31)));
    (day * whole::MS_PER_DAY) as i64 + r.pick(&[0, -1, 43_200_000])
}

/// NaN patterns: quiet and signalling, both signs, several payloads.
pub const NANS: [u64; 6] = [
    0x7FF8_0000_0000_0000,
    0xFFF8_0000_0000_0000,
    0x7FF0_0000_0000_0001,
    0xFFFF_FFFF_FFFF_FFFF,
    0x7FF8_DEAD_BEEF_0001,
    0xFFF4_0000_0000_0000,
];

/// Bits that are no ordinary time: infinities, fractions, both zeros, subnormals, past the range.
pub fn odd_bits() -> Vec<u64> {
    let floats = [
        f64::INFINITY,
        f64::NEG_INFINITY,
        0.0,
        -0.0,
        0.5,
        -0.5,
        0.1,
        -0.9999,
        1.5,
        5e-324,
        -5e-324,
        2.2e-308,
        8.64e15,
        -8.64e15,
        8.64e15 + 1.0,
        -8.64e15 - 1.0,
        8.64e15 - 0.5,
        1e300,
        -1e300,
        9_007_199_254_740_992.0,
        9.3e18,
        -9.3e18,
        86_400_000.5,
        -1.0,
        1.0,
        253_402_300_800_000.0,
        -62_167_219_200_001.0,
        -62_167_219_200_000.5,
    ];
    NANS.into_iter().chain(floats.map(f64::to_bits)).collect()
}

/// The bits of a time: mostly a time in the range, else something odd.
pub fn time_bits(r: &mut Random, list: &[Record]) -> u64 {
    match r.below(16) {
        0 => r.pick(&odd_bits()),
        1 => r.next(),
        2 => (time(r, list) as f64 + r.pick(&[0.5, -0.25, 0.001])).to_bits(),
        3 => NANS[r.below(6) as usize],
        _ => (time(r, list) as f64).to_bits(),
    }
}

/// A field's number: mostly ordinary, else at the bound of the exact domain, odd, or fractional.
pub fn field(r: &mut Random, bound: i64, low: i64, high: i64) -> f64 {
    match r.below(14) {
        0 => r.between(-bound, bound) as f64,
        1 => r.pick(&[bound, -bound, bound + 1, -bound - 1]) as f64,
        2 => r.pick(&[0.0, -0.0]),
        3 => r.between(-bound + 1, bound - 1) as f64 + r.below(1000) as f64 / 1000.0,
        4 => r.pick(&[
            f64::NAN,
            f64::INFINITY,
            f64::NEG_INFINITY,
            0.5,
            -0.5,
            -0.999,
            99.9,
            99.0,
            100.0,
            -1.0,
            5e-324,
            0.1,
            1e15,
            -1e15,
            1e18,
            1e300,
            9_007_199_254_740_991.0,
            // the ends of the fields of which a date is made in integers
            262_143.0,
            262_143.999,
            262_144.0,
            11.999,
            12.0,
        ]),
        _ => r.between(low, high) as f64,
    }
}

/// Bound of the exact domain and an ordinary span for year, month, date, hour, minute, second and
/// millisecond.
pub const SPANS: [(i64, i64, i64); 7] = [
    (280_000, -300, 2500),
    (6_000_000, -20, 30),
    (1_000_000, -40, 70),
    (1_000_000, -30, 50),
    (10_000_000, -100, 100),
    (1_000_000_000, -100, 100),
    (1_000_000_000_000, -2000, 2000),
];

/// A record of the fields whose bits stand, `first` being the span of bit 0.
pub fn record(r: &mut Random, map: u8, first: usize) -> Vec<u8> {
    let mut bytes = vec![map];
    for bit in 0..8 {
        if map >> bit & 1 == 1 {
            let (bound, low, high) = SPANS[(first + bit) % 7];
            bytes.extend(field(r, bound, low, high).to_bits().to_le_bytes());
        }
    }
    bytes
}
