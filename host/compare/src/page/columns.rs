//! A listing that names every column on every side, so that every column's segment is seen.

use std::array::from_fn;

use super::call::{Call, OF_A_ROW, OF_WHAT_IS_READ};
use crate::columns::SIZES;
use crate::house::{Coefficient, Relation, Term};
use crate::numbers::Numbers;
use crate::parallel::in_parts;
use crate::report::{test, Tally, Test};
use crate::verdict::batches::{self, Batch, COLUMNS};
use crate::verdict::listings::{Listing, Row};

/// Columns of a row, each of them on its three sides: 300 terms.
const OF_A_ROW_NAMED: usize = 100;
const ROWS: usize = 41;

/// The first ones are of bin.
const BIN: usize = 20;

/// The first cycle, the last and one drawn.
const CYCLES: usize = 3;

pub fn tests() -> Vec<Test> {
    let rows = (CYCLES * ROWS) as u64;
    vec![test(
        "pages, every column on every side, batches of the nine sizes",
        9 * (rows * OF_A_ROW + OF_WHAT_IS_READ),
        every_column,
    )]
}

pub fn rows() -> usize {
    9 * CYCLES * ROWS
}

fn every_column(tally: &mut Tally) {
    let listing = all_named();
    in_parts(tally, SIZES.len(), |tally, part| {
        let cpi = SIZES[part];
        let mut numbers = Numbers::for_part(94, part as u64);
        let batch = Batch::of(cpi, batches::dense(&mut numbers, cpi)).words;
        let drawn = numbers.below(cpi as u64) as usize;
        let mut call = Call::of(cpi, &listing.words(), batch, numbers);
        for cycle in [0, cpi - 1, drawn] {
            for row in &listing.rows {
                call.lays_out(tally, row, cycle);
            }
        }
        call.is_unchanged(tally);
    });
}

fn all_named() -> Listing {
    let rows = (0..ROWS).map(|i| {
        let first = i * OF_A_ROW_NAMED;
        let columns = first..COLUMNS.min(first + OF_A_ROW_NAMED);
        let (relation, row) = match i.checked_sub(BIN) {
            None => (Relation::Bin, 26 * i),
            Some(row) => (Relation::Fld, row),
        };
        let sides = from_fn(|side| columns.clone().map(|column| term(column, side)).collect());
        Row {
            relation,
            row,
            sides,
        }
    });
    let listing = Listing {
        rows: rows.collect(),
    };
    assert_eq!(listing.words().len(), ROWS + 3 * COLUMNS);
    listing
}

/// A column's three coefficients differ; all exponents and zero take turns.
fn term(column: usize, side: usize) -> Term {
    let coefficient = match (column + 21 * side) % 65 {
        64 => Coefficient::Zero,
        k => Coefficient::Power(k as u32),
    };
    Term {
        column,
        coefficient,
    }
}
