//! The original's matrices row by row, evaluated with a product of this crate's own: says which row
//! is the first that does not hold, which the original does not.

use std::array::from_fn;
use std::mem::take;

use super::answer::{Counts, Verdict};
use super::batches::WITNESS_COLUMNS;
use super::listings::Row;
use crate::house::{Relation, Term};
use crate::listing;
use crate::original::{CircuitSpec, Gf128, SparseMatrix};

/// Column and coefficient.
type Terms = Vec<(usize, u128)>;

pub struct Constraint {
    pub relation: Relation,
    pub batch_row: usize,
    pub sides: [Terms; 3],
}

/// The constraints of a batch in document 01's order: all bin, then all fld; inside each by cycle,
/// then row.
pub struct Constraints {
    pub in_order: Vec<Constraint>,
}

impl Constraints {
    /// The rows of one cycle that have a mark are told, for the matrices cannot tell a row without
    /// terms from one that is left out.
    pub fn of(spec: &CircuitSpec, marks: &[(Relation, usize)]) -> Constraints {
        let mut in_order = Vec::new();
        for relation in [Relation::Bin, Relation::Fld] {
            let mut sides = listing::sides(spec, relation).map(terms_by_row);
            for cycle in 0..spec.cpi {
                for &(_, row) in marks.iter().filter(|mark| mark.0 == relation) {
                    let batch_row = relation.padded_rows() * cycle + row;
                    in_order.push(Constraint {
                        relation,
                        batch_row,
                        sides: from_fn(|side| take(&mut sides[side][batch_row])),
                    });
                }
            }
        }
        Constraints { in_order }
    }

    /// The rows of a listing in a batch of one cycle.
    pub fn of_rows(rows: &[Row]) -> Constraints {
        Constraints {
            in_order: rows.iter().map(Constraint::of_row).collect(),
        }
    }

    /// Each constraint is counted as it is tested, under its own relation.
    pub fn verdict(&self, z: &[Gf128]) -> Verdict {
        let mut counts = Counts::default();
        for constraint in &self.in_order {
            counts.add(constraint.relation);
            if !constraint.holds(z) {
                return Verdict::Failed {
                    relation: constraint.relation,
                    batch_row: constraint.batch_row,
                    counts,
                };
            }
        }
        Verdict::Accepted { counts }
    }
}

impl Constraint {
    /// A row of a listing in a batch of one cycle.
    pub fn of_row(row: &Row) -> Constraint {
        let term = |term: &Term| (term.column, term.coefficient.value());
        Constraint {
            relation: row.relation,
            batch_row: row.row,
            sides: from_fn(|side| row.sides[side].iter().map(term).collect()),
        }
    }

    /// The columns below the one column that it names.
    pub fn witness_columns(&self) -> Vec<usize> {
        let terms = self.sides.iter().flatten();
        let columns = terms.map(|term| term.0);
        columns.filter(|&column| column < WITNESS_COLUMNS).collect()
    }

    pub fn holds(&self, z: &[Gf128]) -> bool {
        let [a, b, c] = from_fn(|side| sum(&self.sides[side], z));
        product(a, b) == c
    }
}

fn terms_by_row(matrix: &SparseMatrix) -> Vec<Terms> {
    let mut rows = vec![Terms::new(); matrix.rows];
    for &(row, column, value) in &matrix.entries {
        rows[row].push((column, value.0));
    }
    rows
}

fn sum(terms: &Terms, z: &[Gf128]) -> u128 {
    let value = |&(column, coefficient): &(usize, u128)| product(coefficient, z[column].0);
    terms.iter().map(value).fold(0, |sum, value| sum ^ value)
}

/// The product modulo t^128 + t^7 + t^2 + t + 1, one bit of the smaller factor at a time.
fn product(a: u128, b: u128) -> u128 {
    let (mut power, mut bits) = (a.max(b), a.min(b));
    let mut product = 0;
    while bits != 0 {
        if bits & 1 == 1 {
            product ^= power;
        }
        power = times_t(power);
        bits >>= 1;
    }
    product
}

fn times_t(a: u128) -> u128 {
    let carried = if a >> 127 == 1 { 0x87 } else { 0 };
    a << 1 ^ carried
}
