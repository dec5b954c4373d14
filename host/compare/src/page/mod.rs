//! A row laid out on pages, against a layout written from document 02.

mod buffers;
mod call;
mod columns;
mod house;
mod lengths;
mod lines;
mod order;
mod refusals;
mod samples;

use crate::report::Test;

pub fn tests() -> Vec<Test> {
    let mut tests = samples::tests();
    tests.extend(house::tests());
    tests.extend(lengths::tests());
    tests.extend(columns::tests());
    tests.extend(refusals::tests());
    tests.extend(buffers::tests());
    tests.extend(order::tests());
    tests
}

/// Rows whose pages are held against the layout, the samples and the control of a refusal not counted.
pub fn rows_laid_out() -> usize {
    house::rows() + lengths::rows() + columns::rows()
}
