//! Both sides of a piece of work in turns: the best of several, so that a load on the machine falls on both.

use std::hint::black_box;
use std::time::Instant;

/// A turn repeats short work for about so many seconds, as the clock is too coarse for one run of it.
const TURN: f64 = 0.002;

/// Seconds of the best turn of each side.
pub fn best_of(
    turns: usize,
    mut proved: impl FnMut() -> u64,
    mut plain: impl FnMut() -> u64,
) -> (f64, f64) {
    let mut best = (f64::MAX, f64::MAX);
    for _ in 0..turns {
        let first = turn(&mut best.0, &mut proved);
        let second = turn(&mut best.1, &mut plain);
        assert_eq!(first, second, "the two sides disagree");
    }
    best
}

/// Seconds of one side's best turn.
pub fn best_alone(turns: usize, mut work: impl FnMut() -> u64) -> f64 {
    let mut best = f64::MAX;
    for _ in 0..turns {
        turn(&mut best, &mut work);
    }
    best
}

fn turn(best: &mut f64, work: &mut impl FnMut() -> u64) -> u64 {
    let start = Instant::now();
    let result = work();
    let once = start.elapsed().as_secs_f64();
    *best = best.min(once);
    let repeats = (TURN / once) as u32;
    if repeats > 0 {
        let start = Instant::now();
        for _ in 0..repeats {
            black_box(work());
        }
        *best = best.min(start.elapsed().as_secs_f64() / f64::from(repeats));
    }
    result
}
