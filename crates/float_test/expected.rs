// Rust's own answers for float_test. `expected pairs` prints the pairs that stand in stdin; without an argument it reads such pairs and prints what stdout has.
use std::io::BufRead;

mod xorshift;

fn pairs() {
    let special = [
        0u64, 1, 2, 0xf_ffff_ffff_ffff, 0x10_0000_0000_0000, 0x3fdf_ffff_ffff_ffff, 0x3fe0_0000_0000_0000, 0x3fef_ffff_ffff_ffff, 0x3ff0_0000_0000_0000,
        0x3ff0_0000_0000_0001, 0x3ff8_0000_0000_0000, 0x400f_ffff_ffff_ffff, 0x4010_0000_0000_0000, 0x401c_0000_0000_0000, 0x402c_0000_0000_0000,
        0x4028_0000_0000_0000, 0x406f_e000_0000_0000, 0x406f_ffff_ffff_ffff, 0x4070_0000_0000_0000, 0x4072_c000_0000_0000, 0x408f_4000_0000_0000,
        0x40ef_ffe0_0000_0000, 0x40f0_0000_0000_0000, 0x4194_997a_0000_0000, 0x41df_ffff_ffc0_0000, 0x41e0_0000_0000_0000, 0x41e0_0000_0020_0000,
        0x432f_ffff_ffff_ffff, 0x4330_0000_0000_0000, 0x433e_b208_c2dc_0000, 0x433f_ffff_ffff_ffff, 0x4340_0000_0000_0000, 0x4340_0000_0000_0001,
        0x43df_ffff_ffff_ffff, 0x43e0_0000_0000_0000, 0x43e0_0000_0000_0001, 0x43f0_0000_0000_0000, 0x7e37_e43c_8800_759c, 0x7fef_ffff_ffff_ffff,
        0x7ff0_0000_0000_0000, 0x7ff0_0000_0000_0001, 0x7ff8_0000_0000_0000,
    ];
    let divisors = [0x401c_0000_0000_0000u64, 0xc01c_0000_0000_0000, 0x4194_997a_0000_0000, 0, 0x7ff0_0000_0000_0000, 1, 0x7ff8_0000_0000_0000];
    for (i, s) in special.iter().enumerate() {
        for (j, sign) in [0u64, 1 << 63].iter().enumerate() {
            for k in 0..3 {
                println!("{:016x} {:016x}", s | sign, divisors[(i + 2 * j + k * 3) % divisors.len()]);
            }
        }
    }
    // patterns at random, and whole numbers by whole numbers
    let mut next = xorshift::numbers();
    for _ in 0..100 {
        println!("{:016x} {:016x}", next(), next());
        let (t, d) = ((next() >> 10) as i64 - (1 << 53), (next() >> (11 + next() % 50)) + 1);
        println!("{:016x} {:016x}", (t as f64).to_bits(), (d as f64).to_bits());
        let near = f64::from_bits((next() >> 12) | ((1023 + next() % 70) << 52) | (next() & 1 << 63));
        println!("{:016x} {:016x}", near.to_bits(), (d as f64).to_bits());
    }
}

// every NaN is written as 7ff8000000000000
fn bits(x: f64) -> u64 {
    if x.is_nan() { 0x7ff8_0000_0000_0000 } else { x.to_bits() }
}

// a NaN has no sign here, which `copysign` would see
fn value(text: &str) -> f64 {
    let x = f64::from_bits(u64::from_str_radix(text, 16).unwrap());
    if x.is_nan() { f64::from_bits(0x7ff8_0000_0000_0000) } else { x }
}

fn main() {
    if std::env::args().len() > 1 {
        return pairs();
    }
    for line in std::io::stdin().lock().lines() {
        let line = line.unwrap();
        let (x, y) = (value(&line[..16]), value(&line[17..]));
        let integer = if x.is_nan() || x.trunc() == 0.0 { 0.0 } else { x.trunc() };
        let row = [
            bits(x.floor()), bits(x.trunc()), bits(x.abs()), bits(x.copysign(y)), bits(x.rem_euclid(y)), bits(integer), x.is_finite() as u64,
            x.is_nan() as u64, x as u8 as u64, x as u16 as u64, x as i32 as i64 as u64, x as i64 as u64,
        ];
        println!("{}", row.map(|n| format!("{n:016x}")).join(" "));
    }
}
