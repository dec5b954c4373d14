//! The filler and the test of the ten step conditions. The original has no filler: what is filled
//! goes before its `check_row`, and before a reading of document 01's conditions in this crate.

mod broken;
pub mod conditions;
pub mod cycles;
pub mod derived;
pub mod filled;
mod flips;
mod refusals;

use crate::report::Test;

pub fn tests() -> Vec<Test> {
    let mut tests = filled::tests();
    tests.extend(broken::tests());
    tests.extend(flips::tests());
    tests.extend(refusals::tests());
    tests
}

/// Batches filled by the product and judged by the original.
pub fn batches_filled() -> usize {
    filled::batches_filled()
}
