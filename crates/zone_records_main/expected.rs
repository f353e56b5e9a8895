// The lists and the answers of zone_records_main. `expected lists` writes what stands in stdin; without an argument it reads such lists and
// writes what stdout has, by document 01's sentences: every record is judged and every record is asked, none is skipped.
use std::convert::TryInto;
use std::io::{Read, Write};

#[path = "../float_test/xorshift.rs"]
mod xorshift;

type Records = Vec<(i64, i32)>;

fn longest() -> Records {
    let mut next = xorshift::numbers();
    // at a second that is asked, one before it or one past it
    let mut records: Records = (0..1024)
        .map(|k| ((k << 31) - (1 << 40) + (next() % 3) as i64 - 1, (next() % 172_799) as i32 - 86_399))
        .collect();
    records[0].1 = -86_399;
    records[1023].1 = 86_399;
    records
}

fn lists() -> Vec<Records> {
    let all = longest();
    let one_more = [all.clone(), vec![(i64::MAX, 0)]].concat();
    let mut last_not_after = all.clone();
    last_not_after[1023].0 = all[1022].0;
    let mut last_too_large = all.clone();
    last_too_large[1023].1 = 86_400;
    vec![
        all,
        vec![],
        one_more,
        last_not_after,
        last_too_large,
        vec![(0, -86_400)],
        vec![(0, 86_400), (1, 0)],
        vec![(5, 0), (5, 0)],
        vec![(i64::MAX, 0), (i64::MIN, 0)],
        vec![(0, 3600)],
    ]
}

// "It has 1 to 1,024 records, seconds strictly rising, offsets within ±86,399 s."
fn is_zone_list(records: &[(i64, i32)]) -> bool {
    (1..=1024).contains(&records.len())
        && records.windows(2).all(|w| w[0].0 < w[1].0)
        && records.iter().all(|r| (-86_399..=86_399).contains(&r.1))
}

// "The last record not after the asked second decides; before the first, the first does."
fn offset_at(records: &[(i64, i32)], second: i64) -> i32 {
    let mut offset = records[0].1;
    for r in records {
        if r.0 <= second {
            offset = r.1;
        }
    }
    offset
}

fn answer(records: &[(i64, i32)]) {
    if !is_zone_list(records) {
        println!("refused");
        return;
    }
    let ends = (1i64 << 40) + (1 << 32);
    for second in (-ends..=ends).step_by(1 << 30) {
        println!("{}", offset_at(records, second));
    }
}

fn main() {
    if std::env::args().nth(1).as_deref() == Some("lists") {
        let mut out = std::io::stdout().lock();
        for records in lists() {
            out.write_all(&(records.len() as u16).to_le_bytes()).unwrap();
            for (second, offset) in records {
                out.write_all(&second.to_le_bytes()).unwrap();
                out.write_all(&offset.to_le_bytes()).unwrap();
            }
        }
        return;
    }
    let mut bytes = Vec::new();
    std::io::stdin().read_to_end(&mut bytes).unwrap();
    let mut rest = &bytes[..];
    while rest.len() >= 2 {
        let n = u16::from_le_bytes(rest[..2].try_into().unwrap()) as usize;
        let records: Records = rest[2..2 + 12 * n]
            .chunks_exact(12)
            .map(|r| (i64::from_le_bytes(r[..8].try_into().unwrap()), i32::from_le_bytes(r[8..].try_into().unwrap())))
            .collect();
        answer(&records);
        rest = &rest[2 + 12 * n..];
    }
}
