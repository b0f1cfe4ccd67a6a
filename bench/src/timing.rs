//! Rounds taken in turns, and their medians.

use std::hint::black_box;
use std::time::Instant;

/// How many rounds each side has.
const ROUNDS: usize = 31;

/// How long a round should take, in nanoseconds.
const ROUND: f64 = 2.0e6;

fn once(work: &mut dyn FnMut(), turns: usize) -> f64 {
    let start = Instant::now();
    for _ in 0..turns {
        work();
    }
    black_box(start.elapsed().as_nanos() as f64 / turns as f64)
}

fn median(mut times: Vec<f64>) -> f64 {
    times.sort_by(f64::total_cmp);
    times[times.len() / 2]
}

/// The median times of one call of each, in nanoseconds, and the median ratio of two rounds that follow one another.
pub struct Compared {
    pub ours: f64,
    pub theirs: f64,
    pub ratio: f64,
}

/// How often a call is made in a round.
fn turns(work: &mut dyn FnMut()) -> usize {
    let first = once(work, 1).min(once(work, 1));
    ((ROUND / first) as usize).clamp(1, 100_000)
}

pub fn in_turns(ours: &mut dyn FnMut(), theirs: &mut dyn FnMut()) -> Compared {
    let (our_turns, their_turns) = (turns(ours), turns(theirs));
    let rounds: Vec<(f64, f64)> = (0..ROUNDS)
        .map(|_| (once(ours, our_turns), once(theirs, their_turns)))
        .collect();
    Compared {
        ours: median(rounds.iter().map(|round| round.0).collect()),
        theirs: median(rounds.iter().map(|round| round.1).collect()),
        ratio: median(rounds.iter().map(|round| round.0 / round.1).collect()),
    }
}
