//! src/ffi.rs and include/zovattha.h say the same: names, how many arguments, numbers, the answer.

use std::collections::BTreeMap;
use zovattha::{Refusal, ffi};

const HEADER: &str = include_str!("../../../include/zovattha.h");
const FFI: &str = include_str!("../src/ffi.rs");

/// The functions declared in C, and how many arguments each has.
fn in_c() -> BTreeMap<String, usize> {
    let declarations = HEADER.lines().filter_map(|line| line.strip_prefix("zovattha_answer "));
    let functions = declarations.map(|line| {
        let (name, rest) = line.split_once('(').expect("a function");
        let (arguments, _) = rest.split_once(')').expect("on one line");
        (name.to_string(), arguments.split(',').count())
    });
    functions.collect()
}

/// The same in Rust. Setters are listed by their slices: each stands for a pointer and a length.
fn in_rust() -> BTreeMap<String, usize> {
    let functions = FFI.split("pub fn zovattha_").skip(1).map(|rest| {
        let (name, rest) = rest.split_once('(').expect("a function");
        let (arguments, after) = rest.split_once(')').expect("its end");
        let arguments: Vec<_> =
            arguments.split(',').map(str::trim).filter(|a| !a.is_empty()).collect();
        let is_short = after.starts_with(';');
        let slices = arguments.iter().filter(|argument| is_short && **argument != "time").count();
        (format!("zovattha_{name}"), arguments.len() + slices)
    });
    functions.collect()
}

#[test]
fn functions() {
    assert_eq!(in_c().len(), 21);
    assert_eq!(in_c(), in_rust());
}

#[test]
fn numbers() {
    let words = |line: &str| {
        let (name, rest) = line.trim().strip_prefix("ZOVATTHA_")?.split_once(" = ")?;
        let digits: String = rest.chars().take_while(char::is_ascii_digit).collect();
        Some((name.to_string(), digits.parse::<u32>().ok()?))
    };
    let numbers: Vec<_> = HEADER.lines().filter_map(words).collect();
    assert_eq!(numbers[0], ("DONE".into(), 0));
    let plain = |name: &str| name.replace('_', "").to_lowercase();
    let ours =
        Refusal::ALL.map(|refusal| (format!("{refusal:?}").to_lowercase(), refusal.number()));
    let theirs: Vec<_> = numbers[1..].iter().map(|(name, number)| (plain(name), *number)).collect();
    assert_eq!(theirs, ours);
}

#[test]
fn the_answer() {
    use std::mem::offset_of;
    assert_eq!(size_of::<ffi::Answer>(), 24);
    assert_eq!(offset_of!(ffi::Answer, number), 0);
    assert_eq!(offset_of!(ffi::Answer, value), 8);
    assert_eq!(offset_of!(ffi::Answer, length), 16);
}
