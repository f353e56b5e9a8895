//! The differential run: the original date code as oracle, beside the proved archive.
//!
//! See README.md for the modes.

mod bite;
mod bite_answers;
mod bite_decimals;
mod bite_makers;
mod bite_sides;
mod case;
mod expected;
mod families;
#[allow(dead_code, reason = "an archive may lack a function that is declared")]
#[path = "../../bindings/rust/src/ffi.rs"]
mod ffi;
mod hex;
mod inputs;
mod library;
mod lower;
mod outcome;
mod paper;
mod random;
mod run;
mod sample;
mod standard;
#[cfg(test)]
mod tests;
mod texts;
mod whole;

use families::Family;
use library::{Library, Subject};
use run::{Run, Tally};
use std::process::ExitCode;
use std::sync::Mutex;
use std::sync::atomic::{AtomicUsize, Ordering};
use std::time::Instant;

/// What the words of the command ask for.
struct Options {
    seed: u64,
    scale: u64,
    threads: usize,
    only: Option<String>,
    trace: bool,
    /// Of a sample: how many cases of each function and number a family gives.
    each: usize,
    /// Of a sample: the tags, all where there is none.
    tags: Vec<String>,
    mode: Mode,
}

enum Mode {
    Compare,
    Case(String),
    Bite,
    Sample(String),
    Answers(String),
    Stored(String),
    List,
}

/// The quick run's scale: well below a minute on two cores.
const QUICK: u64 = 3;

const USAGE: &str = "words: [--quick | --long N] [--seed S] [--threads N] [--only FAMILY] \
                     [--trace] \
                     [--case LINE | --bite | --sample FOLDER [--each N] [--tags A,B] | \
                     --answers FOLDER | --stored FOLDER | --list]";

fn options() -> Result<Options, String> {
    let threads = std::thread::available_parallelism().map_or(1, |n| n.get());
    let mut options = Options {
        seed: 1,
        scale: QUICK,
        threads,
        only: None,
        trace: false,
        each: sample::EACH,
        tags: Vec::new(),
        mode: Mode::Compare,
    };
    let mut words = std::env::args().skip(1);
    while let Some(word) = words.next() {
        let mut next = || words.next().ok_or(format!("{word} needs a word after it"));
        let number = |w: String| w.parse::<u64>().map_err(|e| format!("{w}: {e}"));
        match word.as_str() {
            "--quick" => options.scale = QUICK,
            "--long" => options.scale = number(next()?)?.max(1),
            "--seed" => options.seed = number(next()?)?,
            "--threads" => options.threads = number(next()?)?.max(1) as usize,
            "--only" => options.only = Some(next()?),
            "--trace" => options.trace = true,
            "--case" => options.mode = Mode::Case(next()?),
            "--bite" => options.mode = Mode::Bite,
            "--sample" => options.mode = Mode::Sample(next()?),
            "--answers" => options.mode = Mode::Answers(next()?),
            "--stored" => options.mode = Mode::Stored(next()?),
            "--tags" => options.tags = next()?.split(',').map(str::to_string).collect(),
            "--each" => options.each = number(next()?)? as usize,
            "--list" => options.mode = Mode::List,
            _ => return Err(USAGE.into()),
        }
    }
    Ok(options)
}

fn main() -> ExitCode {
    let good = options().and_then(|options| match &options.mode {
        Mode::Compare => Ok(compare(&options)),
        Mode::Case(line) => run::replay(line, &Library),
        Mode::Bite => Ok(bite::all(options.seed, options.threads)),
        Mode::Sample(folder) => sample::write(folder, options.seed, options.each, &options.tags),
        Mode::Answers(folder) => sample::answer(folder),
        Mode::Stored(folder) => sample::check(folder),
        Mode::List => {
            families::all().iter().for_each(|family| println!("{}", family.name));
            Ok(true)
        }
    });
    match good {
        Ok(true) => ExitCode::SUCCESS,
        Ok(false) => ExitCode::FAILURE,
        Err(what) => {
            eprintln!("{what}");
            ExitCode::from(2)
        }
    }
}

/// Which functions the archives have, in plain lines.
fn show_archives() {
    let known: Vec<_> = [library::all(), lower::all()].concat();
    for (archive, all) in [("the archive", library::all()), ("the exports below it", lower::all())] {
        let absent: Vec<_> =
            all.iter().filter(|(_, there)| !there).map(|(name, _)| *name).collect();
        println!("{}: {} of {} functions linked", archive, all.len() - absent.len(), all.len());
        if !absent.is_empty() {
            println!("not in {archive} yet: {}", absent.join(" "));
        }
    }
    for symbol in env!("LINKED_SYMBOLS").split_whitespace() {
        if known.iter().all(|(name, _)| *name != symbol) {
            println!("in an archive but not known here: {symbol}");
        }
    }
}

/// Runs the families that are asked for, several at a time, and hands each tally on.
fn run_all(
    options: &Options,
    subject: &dyn Subject,
    finished: &(dyn Fn(Family, Tally, Instant) + Sync),
) {
    let families: Vec<Family> = families::all()
        .into_iter()
        .filter(|f| options.only.as_ref().is_none_or(|name| f.name.starts_with(name.as_str())))
        .collect();
    let next = AtomicUsize::new(0);
    std::thread::scope(|scope| {
        for _ in 0..options.threads {
            scope.spawn(|| {
                while let Some(family) = families.get(next.fetch_add(1, Ordering::Relaxed)) {
                    let start = Instant::now();
                    let mut run = Run::new(family.name, options.seed, options.scale, subject)
                        .traced(options.trace);
                    (family.run)(&mut run);
                    finished(*family, run.tally, start);
                }
            });
        }
    });
}

/// The comparison: true where nothing differs.
fn compare(options: &Options) -> bool {
    show_archives();
    println!("seed {}, scale {}, {} threads", options.seed, options.scale, options.threads);
    let start = Instant::now();
    let sum = Mutex::new(Tally::default());
    run_all(options, &Library, &|family, tally, start| {
        show_family(family, &tally, start);
        let mut sum = sum.lock().unwrap();
        sum.cases += tally.cases;
        sum.compared += tally.compared;
        sum.unclaimed += tally.unclaimed;
        sum.facts += tally.facts;
        sum.failed += tally.failed;
    });
    let sum = sum.into_inner().unwrap();
    println!(
        "{} cases to the oracle, {} compared with the archives, {} unclaimed, {} facts, {} failed, {:.1} s",
        sum.cases,
        sum.compared,
        sum.unclaimed,
        sum.facts,
        sum.failed,
        start.elapsed().as_secs_f64()
    );
    if sum.cases + sum.facts == 0 {
        println!("no family has a name that begins so");
    }
    sum.failed == 0 && sum.cases + sum.facts > 0
}

/// A family's counts, and its smallest failures with the words that replay them.
fn show_family(family: Family, tally: &Tally, start: Instant) {
    let seconds = start.elapsed().as_secs_f64();
    let Tally { cases, compared, facts, failed, .. } = tally;
    let mut text = format!(
        "{:18} {cases:>10} cases {compared:>10} compared {facts:>9} facts {failed:>6} failed {seconds:>6.1} s",
        family.name
    );
    for failure in tally.smallest().iter().take(5) {
        text += &format!("\n  {}\n    {}", failure.what, failure.how_to_replay());
    }
    println!("{text}");
}
