//! Each row of the circuit, over elements of every sort, in batches of every size.

use super::call::{Call, OF_A_ROW, OF_WHAT_IS_READ};
use crate::columns::SIZES;
use crate::listing::{BIN_ROWS, FLD_ROWS};
use crate::numbers::Numbers;
use crate::original::Gf128;
use crate::parallel::in_parts;
use crate::report::{test, Tally, Test};
use crate::verdict::batches::{self, Batch, COLUMNS};
use crate::verdict::listings::Listing;

const ROWS: usize = BIN_ROWS + FLD_ROWS;

/// Sorts of elements, and batches of each, of one cycle and of each larger size.
const SORTS: usize = 4;
const SINGLE: usize = 6 * SORTS;
const LARGER: usize = SORTS;

/// Cycles of a larger batch: the first, the last and three drawn.
const CYCLES: usize = 5;

pub fn tests() -> Vec<Test> {
    SIZES.into_iter().map(of_size).collect()
}

fn of_size(cpi: usize) -> Test {
    let (batches, calls) = (batches(cpi), calls(cpi));
    test(
        format!("pages, each row of the circuit, cycles: {calls}, batches of {cpi}: {batches}"),
        (batches * ROWS * calls) as u64 * OF_A_ROW + batches as u64 * OF_WHAT_IS_READ,
        move |tally| circuit(tally, cpi),
    )
}

pub fn rows() -> usize {
    let rows = |cpi| batches(cpi) * ROWS * calls(cpi);
    SIZES.into_iter().map(rows).sum()
}

fn batches(cpi: usize) -> usize {
    match cpi {
        1 => SINGLE,
        _ => LARGER,
    }
}

/// Calls for a row in a batch, each in a cycle.
fn calls(cpi: usize) -> usize {
    match cpi {
        1 => 1,
        _ => CYCLES,
    }
}

fn circuit(tally: &mut Tally, cpi: usize) {
    let listing = Listing::of_circuit();
    in_parts(tally, batches(cpi), |tally, part| {
        let mut numbers = Numbers::for_part(91, (cpi << 32 | part) as u64);
        let batch = Batch::of(cpi, elements(&mut numbers, cpi, part % SORTS)).words;
        let mut call = Call::of(cpi, &listing.words(), batch, numbers);
        for row in &listing.rows {
            for i in 0..calls(cpi) {
                let drawn = call.numbers.below(cpi as u64) as usize;
                let cycle = [0, cpi - 1, drawn][i.min(2)];
                call.lays_out(tally, row, cycle);
            }
        }
        call.is_unchanged(tally);
    });
}

fn elements(numbers: &mut Numbers, cpi: usize, sort: usize) -> Vec<Gf128> {
    let element = |_| Gf128(batches::element(numbers));
    match sort {
        0 => batches::dense(numbers, cpi),
        1 => batches::bits(numbers, cpi),
        2 => vec![Gf128(0); COLUMNS * cpi],
        _ => (0..COLUMNS * cpi).map(element).collect(),
    }
}
