//! One family's run: cases counted, answers compared, failures kept with the smallest first.

use crate::case::{Case, Line};
use crate::expected::{Expected, RIGHT, Sides, expected, expected_by};
use crate::library::{Nothing, Subject};
use crate::outcome::Outcome;
use crate::random::Random;
use std::panic::catch_unwind;
use std::time::{Duration, Instant};

/// A failure: the case's line, or a fact's words, and what is wrong with it.
#[derive(Clone, Debug)]
pub struct Failure {
    pub line: String,
    pub what: String,
}

impl Failure {
    /// The command that replays a case; of a fact, its words.
    pub fn how_to_replay(&self) -> String {
        match Line::parse(&self.line) {
            Ok(line) if line.case().is_ok() => format!("differential/run --case '{}'", self.line),
            _ => self.line.clone(),
        }
    }
}

/// How many of a family's failures are kept: the smallest ones.
const KEPT: usize = 1000;

/// What a family found.
#[derive(Default)]
pub struct Tally {
    /// Cases put to the oracle.
    pub cases: u64,
    /// Of these, compared with the subject.
    pub compared: u64,
    /// Of these, cases where the papers claim no equality.
    pub unclaimed: u64,
    /// Facts held, beside the cases.
    pub facts: u64,
    /// Every failure counted, the smallest ones kept.
    pub failed: u64,
    pub failures: Vec<Failure>,
}

impl Tally {
    /// The kept failures, the smallest case first, none twice.
    pub fn smallest(&self) -> Vec<Failure> {
        let mut sorted = self.failures.clone();
        sort(&mut sorted);
        sorted.dedup_by(|a, b| a.line == b.line);
        sorted
    }

    fn fail(&mut self, line: String, what: String) {
        self.failed += 1;
        self.failures.push(Failure { line, what });
        if self.failures.len() == 2 * KEPT {
            sort(&mut self.failures);
            self.failures.truncate(KEPT);
        }
    }
}

/// By length of line, then by the line itself.
fn sort(failures: &mut [Failure]) {
    failures.sort_by(|a, b| (a.line.len(), &a.line).cmp(&(b.line.len(), &b.line)));
}

/// Takes each case with its expected outcome.
pub type Collector<'a> = &'a mut dyn FnMut(&Case, &Outcome);

/// A family at work.
pub struct Run<'a> {
    pub random: Random,
    pub tally: Tally,
    subject: &'a dyn Subject,
    sides: &'a Sides,
    name: &'static str,
    /// How many times the quick run's random cases.
    scale: u64,
    /// Say each case before the subject is asked.
    trace: bool,
    /// Stop at the first failure.
    first_only: bool,
    /// Where each case goes besides, with its expected outcome.
    collector: Option<Collector<'a>>,
    shown: Instant,
}

impl<'a> Run<'a> {
    pub fn new(name: &'static str, seed: u64, scale: u64, subject: &'a dyn Subject) -> Self {
        Self {
            random: Random::new(seed, name),
            tally: Tally::default(),
            subject,
            sides: &RIGHT,
            name,
            scale,
            trace: false,
            first_only: false,
            collector: None,
            shown: Instant::now(),
        }
    }

    /// The oracle alone, each case handed on with its outcome.
    pub fn collecting(name: &'static str, seed: u64, collector: Collector<'a>) -> Self {
        Self { collector: Some(collector), ..Self::new(name, seed, 1, &Nothing) }
    }

    /// Says each case before the subject is asked: where the archive's code ends the process, the
    /// last line is the case.
    pub fn traced(mut self, trace: bool) -> Self {
        self.trace = trace;
        self
    }

    /// For a bite: by sides that may be wrong, to the first failure.
    pub fn bitten(mut self, sides: &'a Sides) -> Self {
        self.sides = sides;
        self.first_only = true;
        self
    }

    /// How often a random step is taken whose quick count is `quick`.
    pub fn times(&self, quick: u64) -> u64 {
        quick * self.scale
    }

    /// Nothing more need be tried.
    pub fn done(&self) -> bool {
        self.first_only && self.tally.failed > 0
    }

    /// One case: what is expected, then what the subject answers, whole.
    pub fn check(&mut self, case: &Case) {
        if self.done() {
            return;
        }
        self.tally.cases += 1;
        self.show_progress();
        let sides = self.sides;
        let Ok(due) = catch_unwind(|| expected_by(sides, case)) else {
            return self.fail(case.line(), "STOPPED: the original, or the reading of 01".into());
        };
        match due {
            Expected::Unclaimed => self.tally.unclaimed += 1,
            Expected::Parting(what) => self.fail(case.line(), format!("PARTING: {what}")),
            Expected::Outcome(outcome) => {
                if let Some(collector) = &mut self.collector {
                    collector(case, &outcome);
                }
                self.compare(case, &outcome);
            }
        }
    }

    fn compare(&mut self, case: &Case, outcome: &Outcome) {
        if self.trace {
            eprintln!("{}", case.line());
        }
        let Some(answered) = self.subject.answer(case) else {
            return;
        };
        self.tally.compared += 1;
        if let Some(what) = answered.spoiled {
            self.fail(case.line(), what);
        } else if answered.outcome != *outcome {
            let (due, got) = (outcome.line(), answered.outcome.line());
            self.fail(case.line(), format!("due {due}, got {got}"));
        }
    }

    /// A fact about the original that is no call of a function: it holds, or what is wrong.
    pub fn fact(&mut self, holds: bool, what: impl FnOnce() -> String) {
        self.tally.facts += 1;
        if !holds {
            self.fail(what(), "FACT: does not hold of the original".into());
        }
    }

    fn fail(&mut self, line: String, what: String) {
        self.tally.fail(line, what);
    }

    fn show_progress(&mut self) {
        if self.tally.cases.is_multiple_of(65_536) && self.shown.elapsed() > Duration::from_secs(5)
        {
            eprintln!("  {} {} cases so far", self.name, self.tally.cases);
            self.shown = Instant::now();
        }
    }
}

/// One case from its line: prints what is due and what the subject answers; true where they agree.
pub fn replay(line: &str, subject: &dyn Subject) -> Result<bool, String> {
    let line = Line::parse(line)?;
    let case = line.case()?;
    println!("{}", case.plainly());
    let mut run = Run::new("case", 0, 1, subject);
    match expected(&case) {
        Expected::Outcome(outcome) => println!("due {}", outcome.line()),
        Expected::Parting(what) => println!("the original and 01 part: {what}"),
        Expected::Unclaimed => println!("no equality is claimed here"),
    }
    match subject.answer(&case) {
        Some(answered) => println!("got {}", answered.outcome.line()),
        None => println!("not in the archive yet"),
    }
    run.check(&case);
    for failure in run.tally.smallest() {
        println!("DIFFERENT: {}", failure.what);
    }
    Ok(run.tally.failed == 0)
}
