//! The shortest of several repetitions.

use std::time::Instant;

/// What one repetition comes to, and how many there are. Short ones are the more likely to be left
/// alone by the machine, and many of them make sure of it.
#[derive(Clone, Copy)]
pub struct Work {
    pub units: usize,
    pub repetitions: usize,
}

/// Seconds a unit of work of each side. All are timed in turn, so that what else the machine does
/// falls on all, and every second time backwards, so that none always finds the caches as the same
/// other left them. The first turn of each is not timed: it brings the inputs into the caches.
pub fn in_turn<const N: usize>(work: Work, mut sides: [&mut dyn FnMut(); N]) -> [f64; N] {
    for side in &mut sides {
        side();
    }
    let mut best = [f64::INFINITY; N];
    for repetition in 0..work.repetitions {
        for turn in 0..N {
            let side = if repetition % 2 == 0 {
                turn
            } else {
                N - 1 - turn
            };
            best[side] = best[side].min(seconds(sides[side]) / work.units as f64);
        }
    }
    best
}

fn seconds(work: &mut dyn FnMut()) -> f64 {
    let start = Instant::now();
    work();
    start.elapsed().as_secs_f64()
}
