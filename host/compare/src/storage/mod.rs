//! Packed storage of a batch, against a reading of document 02 by single bits.

mod above_one;
mod by_original;
mod call;
mod choices;
mod each_place;
mod every_entry;
mod reading;
mod single_bits;
mod trips;

use crate::columns::SIZES;
use crate::numbers::Numbers;
use crate::parallel::at_sizes;
use crate::report::{Tally, Test};

pub fn tests() -> Vec<Test> {
    let mut tests = every_entry::tests();
    tests.extend(each_place::tests());
    tests.extend(single_bits::tests());
    tests.extend(trips::tests());
    tests.extend(above_one::tests());
    tests.extend(choices::tests());
    tests.extend(by_original::tests());
    tests
}

/// Runs so many parts of each size, each with numbers of its own.
fn at_every_size(
    tally: &mut Tally,
    test: u64,
    parts: [usize; 9],
    each: impl Fn(&mut Tally, Numbers, usize, usize) + Sync,
) {
    at_sizes(tally, test, SIZES, parts, each);
}
