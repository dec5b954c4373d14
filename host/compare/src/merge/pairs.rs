//! The nine pairs of what the checks of two batches come to, and how often each is met.

use std::sync::atomic::{AtomicUsize, Ordering};

use crate::house::Relation::{Bin, Fld};
use crate::report::Tally;
use crate::verdict::apart::Outcome;

/// What the first comes to, and the second.
pub type Pair = [Outcome; 2];

pub const PAIRS: [Pair; 9] = [
    [None, None],
    [None, Some(Bin)],
    [None, Some(Fld)],
    [Some(Bin), None],
    [Some(Bin), Some(Bin)],
    [Some(Bin), Some(Fld)],
    [Some(Fld), None],
    [Some(Fld), Some(Bin)],
    [Some(Fld), Some(Fld)],
];

/// Comparisons that `Met::are_frequent` makes.
pub const OF_ALL_PAIRS: u64 = PAIRS.len() as u64;

#[derive(Default)]
pub struct Met([AtomicUsize; PAIRS.len()]);

impl Met {
    pub fn add(&self, pair: Pair) {
        for (count, of) in self.0.iter().zip(PAIRS) {
            count.fetch_add(usize::from(of == pair), Ordering::Relaxed);
        }
    }

    /// Each is one in so many merges at least.
    pub fn are_frequent(&self, tally: &mut Tally, one_in: usize, merges: usize) {
        for (count, pair) in self.0.iter().zip(PAIRS) {
            let count = count.load(Ordering::Relaxed);
            let place = || format!("{count} of {merges} merges are of {pair:?}");
            tally.same(place, one_in * count >= merges, true);
        }
    }
}
