//! A stored sample of the original's answers, for a replay with no Rust at hand: the file `stdin`
//! has one line a case, the file `stdout` the answer on the line of the same number.

use crate::case::{Case, Line, tags};
use crate::expected::expected;
use crate::families;
use crate::outcome::Outcome;
use crate::run::Run;
use std::collections::{BTreeMap, BTreeSet};
use std::fs;
use std::path::Path;

/// No line is longer than this, so that a reader needs no more room.
const LONGEST: usize = 1024;
/// How many cases of each function and number a family gives unless said.
pub const EACH: usize = 24;

/// Every family gives its cases; of each function and each number up to `each` of every family are
/// kept, in the order of the functions, no line twice. `only` names the tags; empty, it means all.
pub fn write(folder: &str, seed: u64, each: usize, only: &[String]) -> Result<bool, String> {
    let mut kept: BTreeMap<&str, Vec<(String, String)>> = BTreeMap::new();
    for family in families::all() {
        gather(family, seed, each, &mut kept);
    }
    let (mut inputs, mut answers) = (String::new(), String::new());
    let mut counts = Vec::new();
    let wanted = |tag: &&str| only.is_empty() || only.iter().any(|name| name == tag);
    for tag in tags().into_iter().filter(wanted) {
        let lines = kept.remove(tag).unwrap_or_default();
        counts.push(format!("{tag} {}", lines.len()));
        for (input, answer) in lines {
            inputs += &(input + "\n");
            answers += &(answer + "\n");
        }
    }
    let folder = Path::new(folder);
    let put = |name: &str, text: &str| {
        fs::write(folder.join(name), text).map_err(|e| format!("{name}: {e}"))
    };
    put("stdin", &inputs)?;
    put("stdout", &answers)?;
    println!("{} cases: {}", inputs.lines().count(), counts.join(", "));
    Ok(counts.iter().all(|count| !count.ends_with(" 0")))
}

/// One family's cases, at most `each` of every function and number; the rarer ones, found later,
/// are kept as well as the first.
fn gather(
    family: families::Family,
    seed: u64,
    each: usize,
    kept: &mut BTreeMap<&'static str, Vec<(String, String)>>,
) {
    let mut counts: BTreeMap<(&str, u32), usize> = BTreeMap::new();
    let mut seen: BTreeSet<String> =
        kept.values().flatten().map(|(input, _)| input.clone()).collect();
    let mut passed: u64 = 0;
    let mut collector = |case: &Case, outcome: &Outcome| {
        passed += 1;
        let count = counts.entry((case.tag(), outcome.number)).or_default();
        // The first ones, then one here and there, so that not only the beginning is seen.
        let taken = *count < each / 2 || passed.is_multiple_of(97);
        let short = case.zone().len() < LONGEST / 4;
        if *count < each && taken && short {
            let line = case.line();
            if line.len() <= LONGEST && seen.insert(line.clone()) {
                *count += 1;
                kept.entry(case.tag()).or_default().push((line, outcome.line()));
            }
        }
    };
    let mut run = Run::collecting(family.name, seed, &mut collector);
    (family.run)(&mut run);
}

/// The original's answers to the cases of a file `stdin`, as its file `stdout`.
pub fn answer(folder: &str) -> Result<bool, String> {
    let folder = Path::new(folder);
    let inputs = fs::read_to_string(folder.join("stdin")).map_err(|e| format!("stdin: {e}"))?;
    let mut answers = String::new();
    for input in inputs.lines() {
        let line = Line::parse(input)?;
        let due = expected(&line.case()?).outcome().ok_or(format!("no one answer: {input}"))?;
        answers += &(due.line() + "\n");
    }
    fs::write(folder.join("stdout"), answers).map_err(|e| format!("stdout: {e}"))?;
    Ok(true)
}

/// Holds a stored sample to the original once more: true where every answer is still its.
pub fn check(folder: &str) -> Result<bool, String> {
    let get = |name: &str| {
        fs::read_to_string(Path::new(folder).join(name)).map_err(|e| format!("{name}: {e}"))
    };
    let (inputs, answers) = (get("stdin")?, get("stdout")?);
    let mut wrong = usize::from(inputs.lines().count() != answers.lines().count());
    for (input, answer) in inputs.lines().zip(answers.lines()) {
        let line = Line::parse(input)?;
        let due = expected(&line.case()?).outcome().map(|outcome| outcome.line());
        if due.as_deref() != Some(answer) {
            println!("stored {answer}, due {due:?}\n    differential/run --case '{input}'");
            wrong += 1;
        }
    }
    println!("{} stored answers, {wrong} wrong", inputs.lines().count());
    Ok(wrong == 0)
}

#[cfg(test)]
mod tests {
    use super::*;

    #[test]
    fn a_sample_has_every_row_of_the_tables() {
        for name in ["marked", "differences"] {
            let family = *families::all().iter().find(|family| family.name == name).unwrap();
            let (mut kept, mut all) = (BTreeMap::new(), BTreeSet::new());
            gather(family, 1, EACH, &mut kept);
            let mut collector = |case: &Case, _: &Outcome| {
                all.insert(case.line());
            };
            (family.run)(&mut Run::collecting(name, 1, &mut collector));
            assert_eq!(kept.values().flatten().count(), all.len(), "{name}");
        }
    }
}
