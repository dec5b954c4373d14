//! Buffers that are not exactly as long as the pages of the row that is asked for, 16.

use super::call::{Asked, Call, OF_A_REFUSAL};
use super::lines::PAGE;
use super::refusals::{circuit_call, ok, right_for};
use crate::columns::SIZES;
use crate::listing::{BIN_ROWS, FLD_ROWS};
use crate::numbers::Numbers;
use crate::report::{test, Tally, Test};
use crate::verdict::answer::{refusal, PAGE_LENGTH};
use crate::verdict::listings::{of_lengths, Listing, Row};
use crate::verdict::refusals::{other_lengths, zero_batch};

/// Numbers of terms whose pages are one, one, two, two, three and six.
const TERMS: [usize; 6] = [0, 59, 60, 119, 120, 300];

/// Numbers of bytes that are not those of a row.
const OTHERS: usize = 6 + 4;

pub fn tests() -> Vec<Test> {
    let of_circuit = (BIN_ROWS + FLD_ROWS) * OTHERS;
    let of_lengths = 9 * TERMS.len() * OTHERS;
    vec![
        test(
            "pages refused, buffers of other lengths for each row of the circuit, 16",
            of_circuit as u64 * OF_A_REFUSAL,
            each_row,
        ),
        test(
            "pages refused, buffers of other lengths for one to six pages, 16",
            of_lengths as u64 * OF_A_REFUSAL,
            one_to_six_pages,
        ),
    ]
}

/// Nothing, a byte, a line or a page too few or too many, half and twice as many.
fn other_bytes(right: usize) -> Vec<usize> {
    let mut others = other_lengths(right).to_vec();
    others.extend([right - 60, right + 60, right - PAGE, right + PAGE]);
    others
}

/// The length is asked before the cycle, which is wrong in half of the calls.
fn refuses(tally: &mut Tally, call: &mut Call, rows: &[Row]) {
    for row in rows {
        let right = right_for(row);
        for (i, bytes) in other_bytes(right.bytes).into_iter().enumerate() {
            let cycle = [0, call.cpi - 1, call.cpi, usize::MAX][i % 4];
            let asked = Asked {
                cycle,
                bytes,
                ..right
            };
            call.refuses(tally, asked, ok(right.bytes), refusal(PAGE_LENGTH));
        }
    }
}

fn each_row(tally: &mut Tally) {
    let listing = Listing::of_circuit();
    refuses(tally, &mut circuit_call(1, &listing), &listing.rows);
}

fn one_to_six_pages(tally: &mut Tally) {
    for cpi in SIZES {
        let mut numbers = Numbers::for_part(99, cpi as u64);
        let listing = of_lengths(&mut numbers, &TERMS);
        let mut call = Call::of(cpi, &listing.words(), zero_batch(cpi), numbers);
        refuses(tally, &mut call, &listing.rows);
    }
}
