//! Bites: named wrong versions, of the answers, of the reading of 01, of the original's side. The
//! run must catch each; a stand-in that answers by the right sides takes the archive's place.

use crate::bite_answers::ANSWERS;
use crate::bite_decimals::DECIMALS;
use crate::bite_makers::MAKERS;
use crate::bite_sides::SIDES;
use crate::case::Case;
use crate::expected::{RIGHT, Sides, expected};
use crate::families;
use crate::library::{Answered, Subject};
use crate::outcome::Outcome;
use crate::run::Run;
use std::sync::atomic::{AtomicUsize, Ordering};

/// A wrong outcome for a case whose right one is given; the right one where the mistake does not
/// show.
pub type WrongAnswer = fn(&Case, &Outcome) -> Option<Outcome>;

/// What is wrong.
#[derive(Clone, Copy)]
pub enum Wrong {
    /// The subject's answers.
    Answer(WrongAnswer),
    /// A byte beside a lent slice is written.
    Guard,
    /// One of the sides that say what is due.
    Sides(Sides),
}

/// A wrong version with a name.
#[derive(Clone, Copy)]
pub struct Bite {
    pub name: &'static str,
    pub wrong: Wrong,
}

/// Answers by the right sides, but for what is wrong.
struct StandIn {
    wrong: Wrong,
}

impl Subject for StandIn {
    fn answer(&self, case: &Case) -> Option<Answered> {
        let right = expected(case).outcome()?;
        let spoiled = matches!(self.wrong, Wrong::Guard).then(|| "a byte beside it".to_string());
        let outcome = match self.wrong {
            Wrong::Answer(wrong) => wrong(case, &right).unwrap_or(right),
            _ => right,
        };
        Some(Answered { outcome, spoiled })
    }
}

/// The family that catches a bite first, with the line that showed it.
pub fn caught(bite: &Bite, seed: u64) -> Option<(&'static str, String)> {
    let subject = StandIn { wrong: bite.wrong };
    let sides = match bite.wrong {
        Wrong::Sides(sides) => sides,
        _ => RIGHT,
    };
    families::all().into_iter().find_map(|family| {
        let mut run = Run::new(family.name, seed, 1, &subject).bitten(&sides);
        (family.run)(&mut run);
        let failure = run.tally.smallest().into_iter().next()?;
        Some((family.name, failure.line))
    })
}

/// A right stand-in must pass every family; then each bite must be caught. True where all is so.
pub fn all(seed: u64, threads: usize) -> bool {
    let right = Bite { name: "nothing wrong", wrong: Wrong::Sides(RIGHT) };
    if let Some((family, line)) = caught(&right, seed) {
        println!("the right stand-in fails in {family}: {line}");
        return false;
    }
    let bites: Vec<Bite> = [ANSWERS, DECIMALS, MAKERS, SIDES].concat();
    let (next, missed) = (AtomicUsize::new(0), AtomicUsize::new(0));
    std::thread::scope(|scope| {
        for _ in 0..threads {
            scope.spawn(|| {
                while let Some(bite) = bites.get(next.fetch_add(1, Ordering::Relaxed)) {
                    match caught(bite, seed) {
                        Some((family, line)) => {
                            println!("{:38} caught by {family}: {line:.80}", bite.name);
                        }
                        None => {
                            println!("{:38} NOT CAUGHT", bite.name);
                            missed.fetch_add(1, Ordering::Relaxed);
                        }
                    }
                }
            });
        }
    });
    let missed = missed.into_inner();
    println!("{} wrong versions, {missed} not caught", bites.len());
    missed == 0
}
