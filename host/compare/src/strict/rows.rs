//! The strict listing from document 02, request 6: its eight rows written out, behind the bin rows of the
//! original's own matrices.

use crate::house::{Coefficient, Relation, Term};
use crate::original::{self, Gf128, SparseMatrix};
use crate::verdict::batches::{batch_column, ONE_COLUMN};
use crate::verdict::judge::Judge;
use crate::verdict::listings::{Listing, Row};

pub const LOAD: usize = 770;
pub const STORE: usize = 771;
pub const BYTE: usize = 776;
pub const HALF: usize = 777;
pub const WORD: usize = 778;

/// The columns of A and of B, each with coefficient 1. C is empty.
pub const ADDED: [(&[usize], &[usize]); 8] = [
    (&[LOAD], &[STORE]),
    (&[BYTE], &[HALF]),
    (&[BYTE], &[WORD]),
    (&[HALF], &[WORD]),
    (&[BYTE], &[ONE_COLUMN, LOAD]),
    (&[HALF], &[ONE_COLUMN, LOAD]),
    (&[WORD], &[ONE_COLUMN, LOAD]),
    (&[LOAD], &[ONE_COLUMN, BYTE, HALF, WORD]),
];

/// The bin row that the first of them is, the word that it starts at, and the words of all eight.
pub const FIRST: usize = 483;
pub const FIRST_WORD: usize = 2218;
pub const ADDED_WORDS: usize = 30;

/// Rows of a cycle, those of bin among them, and words of the whole listing.
pub const ROWS: usize = 522;
pub const BIN_ROWS: usize = 491;
pub const WORDS: usize = 3529;

pub fn listing() -> Listing {
    let mut listing = Listing::of_circuit();
    let added = (FIRST..).zip(ADDED).map(|(row, (a, b))| Row {
        relation: Relation::Bin,
        row,
        sides: [terms(a), terms(b), vec![]],
    });
    listing.rows.splice(FIRST..FIRST, added);
    listing
}

fn terms(columns: &[usize]) -> Vec<Term> {
    let term = |&column: &usize| Term {
        column,
        coefficient: Coefficient::Power(0),
    };
    columns.iter().map(term).collect()
}

/// The original's matrices of a batch, with the eight rows in the padding of each cycle.
pub fn judge(cpi: usize) -> Judge {
    let mut spec = original::build_circuit_batched(cpi);
    for cycle in 0..cpi {
        for (row, (a, b)) in (FIRST..).zip(ADDED) {
            let batch_row = Relation::Bin.padded_rows() * cycle + row;
            let add = |matrix: &mut SparseMatrix, columns: &[usize]| {
                let at = |&column: &usize| batch_column(cpi, column, cycle);
                let entry = |column| (batch_row, at(column), Gf128(1));
                matrix.entries.extend(columns.iter().map(entry));
            };
            add(&mut spec.a_bin, a);
            add(&mut spec.b_bin, b);
        }
    }
    Judge::with_spec(&listing(), spec)
}
