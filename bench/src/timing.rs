//! Timing: rounds in turn, the best of each side kept.

use std::time::Instant;

/// Rounds of each side in one pass. The best round is the one that nothing else disturbed.
const ROUNDS: usize = 8;

/// Nanoseconds for each input, the best of all rounds, both sides taking turns.
pub fn both(inputs: usize, mut ours: impl FnMut(usize), mut theirs: impl FnMut(usize)) -> Pair {
    let mut pair = Pair { ours: f64::INFINITY, theirs: f64::INFINITY };
    for _ in 0..ROUNDS {
        pair.ours = pair.ours.min(round(inputs, &mut ours));
        pair.theirs = pair.theirs.min(round(inputs, &mut theirs));
    }
    pair
}

/// The same for one side alone.
pub fn one(inputs: usize, mut call: impl FnMut(usize)) -> f64 {
    (0..2 * ROUNDS).map(|_| round(inputs, &mut call)).fold(f64::INFINITY, f64::min)
}

#[derive(Clone, Copy)]
pub struct Pair {
    pub ours: f64,
    pub theirs: f64,
}

fn round(inputs: usize, call: &mut impl FnMut(usize)) -> f64 {
    let start = Instant::now();
    (0..inputs).for_each(call);
    start.elapsed().as_secs_f64() * 1e9 / inputs as f64
}
