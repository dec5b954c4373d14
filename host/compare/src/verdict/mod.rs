//! The check, the sums of a row, the bit test, the listing reader and the search for a row.

pub mod answer;
mod any_listing;
pub mod apart;
pub mod batches;
mod bits;
pub mod boundary;
mod cases;
mod circuit;
pub mod constraints;
pub mod damages;
pub mod each_column;
mod each_row;
pub mod forms;
pub mod instructions;
pub mod judge;
pub mod known;
pub mod lent;
pub mod listings;
pub mod named;
pub mod one_word;
mod packing;
mod pool;
pub mod programs;
pub mod reader;
pub mod refusals;
pub mod scratch;
mod search;
mod sums;

use crate::report::Test;

pub fn tests() -> Vec<Test> {
    let mut tests = circuit::tests();
    tests.extend(each_row::tests());
    tests.extend(named::tests());
    tests.extend(each_column::tests());
    tests.extend(any_listing::tests());
    tests.extend(one_word::tests());
    tests.extend(apart::tests());
    tests.extend(packing::tests());
    tests.extend(refusals::tests());
    tests.extend(scratch::tests());
    tests.extend(sums::tests());
    tests.extend(bits::tests());
    tests.extend(reader::tests());
    tests.extend(search::tests());
    tests
}

/// Batches on which the product's verdict is held against the original's.
pub fn batches_judged() -> usize {
    circuit::batches_judged()
        + each_row::batches_judged()
        + each_column::batches_judged()
        + any_listing::batches_judged()
        + one_word::batches_judged()
        + apart::batches_judged()
        + scratch::batches_judged()
}
