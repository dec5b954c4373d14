//! Merges of any two batches of every size, every word of what is written.

use super::call::{Call, OF_A_CALL};
use super::{any_two, Element, SIZES};
use crate::numbers::Numbers;
use crate::parallel::in_parts;
use crate::report::{test, Tally, Test};
use crate::verdict::batches;

/// Merges of each size.
const MERGES: [usize; 8] = [2_000, 1_000, 500, 250, 120, 60, 30, 16];

/// What the lower columns hold, and the public ones.
const ELEMENTS: [[Element; 2]; 4] = [
    [Numbers::dense; 2],
    [batches::element; 2],
    [Numbers::bit, Numbers::dense],
    [Numbers::bit; 2],
];

pub fn tests() -> Vec<Test> {
    let of_size = |(cpi, merges): (usize, usize)| {
        test(
            format!("merging, {merges} times two batches of {cpi}, every word"),
            merges as u64 * OF_A_CALL,
            move |tally| of_size(tally, cpi, merges),
        )
    };
    SIZES.into_iter().zip(MERGES).map(of_size).collect()
}

pub fn merges() -> usize {
    MERGES.iter().sum()
}

fn of_size(tally: &mut Tally, cpi: usize, merges: usize) {
    in_parts(tally, merges, |tally, part| {
        let mut numbers = Numbers::for_part(140, (cpi << 32 | part) as u64);
        let given = any_two(&mut numbers, cpi, ELEMENTS[part % ELEMENTS.len()]);
        let mut call = Call::over(&mut numbers, cpi, given);
        call.writes(tally, &|| format!("merge {part} of {cpi}"));
    });
}
