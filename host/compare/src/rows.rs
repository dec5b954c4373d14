//! The way back from a batch row to its cycle and row, for every size of a batch, with its refusals.

use crate::columns::{no, refused_sizes, CYCLES, REFUSED_SIZES, SIZES};
use crate::house::Relation;
use crate::listing;
use crate::original::{self, CircuitSpec};
use crate::report::{test, Tally, Test};
use crate::verdict::answer::{COLUMN, SIZE};

const RELATIONS: [Relation; 2] = [Relation::Bin, Relation::Fld];

/// Batch rows of both relations in all nine sizes.
const BATCH_ROWS: u64 = CYCLES * (512 + 32);

pub fn tests() -> Vec<Test> {
    vec![
        test(
            "row way back, every batch row",
            2 * BATCH_ROWS,
            every_batch_row,
        ),
        test(
            "row way back, the original's terms in every batch row",
            BATCH_ROWS,
            original_terms,
        ),
        test(
            "row way back, sizes refused",
            REFUSED_SIZES * 2 * 4,
            sizes_refused,
        ),
        test("row way back, rows refused", 9 * 2 * 6 * 2, rows_refused),
    ]
}

/// 0 is bin; the numbers tried for fld go through several.
fn relation_number(relation: Relation, any: usize) -> u32 {
    match relation {
        Relation::Bin => 0,
        Relation::Fld => any as u32 | 1,
    }
}

/// Cycle and row of a batch row, as the product answers.
fn back(cpi: usize, relation: Relation, batch_row: usize) -> [product::Answer; 2] {
    let number = relation_number(relation, batch_row);
    // Any part but 0 is the cycle.
    let cycle = batch_row as u32 | 1;
    [cycle, 0].map(|part| product::row_way_back(cpi, number, batch_row, part))
}

/// Batch rows are counted cycle by cycle, and in a cycle row by row, padding included.
fn every_batch_row(tally: &mut Tally) {
    for cpi in SIZES {
        for relation in RELATIONS {
            let mut batch_row = 0;
            for cycle in 0..cpi {
                for row in 0..relation.padded_rows() {
                    let [seen_cycle, seen_row] = back(cpi, relation, batch_row);
                    let place = || format!("{relation:?} batch row {batch_row} of {cpi} cycles");
                    tally.same(place, seen_cycle, Ok(cycle as u64));
                    tally.same(place, seen_row, Ok(row as u64));
                    batch_row += 1;
                }
            }
        }
    }
}

/// Side, column and value.
type Term = (usize, usize, u128);

/// A row's terms, in order.
type Terms = Vec<Term>;

/// The terms of each row of the original's matrices.
fn terms(spec: &CircuitSpec, relation: Relation) -> Vec<Terms> {
    let mut rows = vec![Terms::new(); relation.padded_rows() * spec.cpi];
    for (side, matrix) in listing::sides(spec, relation).into_iter().enumerate() {
        for &(row, column, value) in &matrix.entries {
            rows[row].push((side, column, value.0));
        }
    }
    for row in &mut rows {
        row.sort_unstable();
    }
    rows
}

/// A batch row of the original has the terms of the row, in the cycle, that the product names.
fn original_terms(tally: &mut Tally) {
    let circuit = original::build_circuit();
    for cpi in SIZES {
        let geometry = original::geometry(cpi);
        let batched = original::build_circuit_batched(cpi);
        for relation in RELATIONS {
            let rows = terms(&circuit, relation);
            for (batch_row, right) in terms(&batched, relation).into_iter().enumerate() {
                let place =
                    || format!("terms of {relation:?} batch row {batch_row} of {cpi} cycles");
                let seen = match back(cpi, relation, batch_row) {
                    [Ok(cycle), Ok(row)] => {
                        let map = |column| geometry.map_z_col(column, cycle as usize);
                        let term = |&(side, column, value): &Term| (side, map(column), value);
                        let mut terms: Terms = rows[row as usize].iter().map(term).collect();
                        terms.sort_unstable();
                        Some(terms)
                    }
                    _ => None,
                };
                tally.same(place, seen, Some(right));
            }
        }
    }
}

/// The size is asked first, whatever the batch row is.
fn sizes_refused(tally: &mut Tally) {
    for cpi in refused_sizes() {
        for relation in RELATIONS {
            for batch_row in [0, usize::MAX] {
                let place = || format!("{relation:?} batch row {batch_row} of {cpi} cycles");
                for seen in back(cpi, relation, batch_row) {
                    tally.same(place, seen, no(SIZE));
                }
            }
        }
    }
}

fn rows_refused(tally: &mut Tally) {
    for cpi in SIZES {
        for relation in RELATIONS {
            let end = relation.padded_rows() * cpi;
            for batch_row in [end, end + 1, 2 * end, 1 << 32, usize::MAX - 1, usize::MAX] {
                let place = || format!("{relation:?} batch row {batch_row} of {cpi} cycles");
                for seen in back(cpi, relation, batch_row) {
                    tally.same(place, seen, no(COLUMN));
                }
            }
        }
    }
}
