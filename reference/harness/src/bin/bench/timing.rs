//! Two calls that do the same work, timed in turn: the least time of many rounds. A table's pairs are gone over again
//! and again, so that a spell in which the machine is slow falls on no row alone.

use std::time::Instant;

/// Times that a table's pairs are gone over.
const PASSES: usize = 20;

/// Rounds of a pair in each pass, in which each call is timed once.
const ROUNDS: usize = 40;

/// Rounds before these, not timed: a processor that was idle, or did something else, takes some time to reach its
/// speed.
const WARMING: usize = 20;

/// Two calls that do the same work, and how many units of it.
pub struct Pair<'a> {
    pub name: String,
    pub units: usize,
    pub library: Box<dyn FnMut() + 'a>,
    pub reference: Box<dyn FnMut() + 'a>,
}

/// Nanoseconds of each call.
#[derive(Clone, Copy)]
pub struct Times {
    pub library: u64,
    pub reference: u64,
}

/// The least times of each pair.
pub fn least(pairs: &mut [Pair]) -> Vec<Times> {
    let mut best = vec![Times { library: u64::MAX, reference: u64::MAX }; pairs.len()];
    for _ in 0..PASSES {
        for (pair, best) in pairs.iter_mut().zip(&mut best) {
            pair.time(best);
        }
    }
    best
}

impl Pair<'_> {
    /// The rounds of one pass: lowers what was the least so far.
    fn time(&mut self, best: &mut Times) {
        for _ in 0..WARMING {
            (self.library)();
            (self.reference)();
        }
        for _ in 0..ROUNDS {
            best.library = best.library.min(nanoseconds(&mut self.library));
            best.reference = best.reference.min(nanoseconds(&mut self.reference));
        }
    }
}

fn nanoseconds(call: &mut dyn FnMut()) -> u64 {
    let start = Instant::now();
    call();
    start.elapsed().as_nanos() as u64
}
