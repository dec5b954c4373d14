//! Rows of other listings: of 0 to 300 terms, as many as fill pages and one more or less, and the
//! longest that there can be.

use super::call::{Call, OF_A_ROW, OF_WHAT_IS_READ};
use crate::columns::SIZES;
use crate::numbers::Numbers;
use crate::parallel::in_parts;
use crate::report::{test, Tally, Test};
use crate::verdict::batches::{self, Batch};
use crate::verdict::listings::{of_lengths, MOST_WORDS};

/// The first line stands on the first page: 59 terms fill it, 119 fill two.
const EDGES: [usize; 20] = [
    0, 0, 1, 2, 58, 59, 60, 61, 118, 119, 120, 178, 179, 180, 238, 239, 240, 298, 299, 300,
];

/// Rows of a listing: those of the lengths above, short ones and any.
const SHORT: usize = 4;
const ANY: usize = 4;
const ROWS: usize = EDGES.len() + SHORT + ANY;

/// Listings over batches of each size.
const LISTINGS: [usize; 9] = [240, 120, 60, 60, 40, 40, 20, 20, 10];

pub fn tests() -> Vec<Test> {
    let of_size = |(cpi, listings): (usize, usize)| {
        let of_a_listing = ROWS as u64 * OF_A_ROW + OF_WHAT_IS_READ;
        test(
            format!(
                "pages, {listings} listings of {ROWS} rows of 0 to 300 terms, batches of {cpi}"
            ),
            listings as u64 * of_a_listing,
            move |tally| random(tally, cpi, listings),
        )
    };
    let mut tests: Vec<Test> = SIZES.into_iter().zip(LISTINGS).map(of_size).collect();
    tests.push(test(
        format!("pages, a row of {} terms, and one of none", MOST_WORDS - 2),
        9 * (2 * OF_A_ROW + OF_WHAT_IS_READ),
        longest,
    ));
    tests
}

pub fn rows() -> usize {
    LISTINGS.into_iter().sum::<usize>() * ROWS + 9 * 2
}

fn random(tally: &mut Tally, cpi: usize, listings: usize) {
    in_parts(tally, listings, |tally, part| {
        let mut numbers = Numbers::for_part(92, (cpi << 32 | part) as u64);
        let mut lengths = EDGES.to_vec();
        lengths.extend((0..SHORT).map(|_| numbers.below(9) as usize));
        lengths.extend((0..ANY).map(|_| numbers.below(301) as usize));
        each_row(tally, cpi, &lengths, numbers);
    });
}

/// As many words as question 6 lets pass, two of them marks.
fn longest(tally: &mut Tally) {
    in_parts(tally, SIZES.len(), |tally, part| {
        let numbers = Numbers::for_part(93, part as u64);
        each_row(tally, SIZES[part], &[0, MOST_WORDS - 2], numbers);
    });
}

/// A listing of such rows over dense elements; the rows take turns with the cycles.
fn each_row(tally: &mut Tally, cpi: usize, lengths: &[usize], mut numbers: Numbers) {
    let listing = of_lengths(&mut numbers, lengths);
    let batch = Batch::of(cpi, batches::dense(&mut numbers, cpi)).words;
    let mut call = Call::of(cpi, &listing.words(), batch, numbers);
    for row in &listing.rows {
        let cycle = match call.numbers.below(4) {
            0 => 0,
            1 => cpi - 1,
            _ => call.numbers.below(cpi as u64) as usize,
        };
        call.lays_out(tally, row, cycle);
    }
    call.is_unchanged(tally);
}
