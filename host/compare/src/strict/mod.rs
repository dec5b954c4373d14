//! The strict flag listing of document 02, request 6. The original does not have it: what is shared comes
//! from the original's matrices, the eight rows that are added are written out here, and both are evaluated
//! with this crate's own product.

mod choices;
pub mod cycles;
mod damaged;
mod filled;
pub mod flags;
mod is_known;
mod judges;
mod near;
mod programs;
pub mod rows;
mod words;

use crate::report::Test;
use crate::verdict::known::Known;
use crate::verdict::refusals;

pub fn tests() -> Vec<Test> {
    let mut tests = words::tests();
    tests.extend(is_known::tests());
    tests.extend(flags::tests());
    tests.extend(choices::tests());
    tests.extend(filled::tests());
    tests.extend(damaged::tests());
    tests.extend(programs::tests());
    tests.extend(near::tests());
    tests.extend(refusals::with_listing(Known::Strict));
    tests
}

/// Batches on which the verdicts of both listings are held against each other.
pub fn batches_judged() -> usize {
    choices::batches_judged()
        + filled::batches_judged()
        + damaged::batches_judged()
        + programs::batches_judged()
}
