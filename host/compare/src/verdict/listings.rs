//! Listings as rows, and their two other forms: words for the product, matrices for the original.

use std::array::from_fn;
use std::ops::Range;

use super::answer::Counts;
use super::batches::{COLUMNS, ONE_COLUMN};
use crate::house::{self, Coefficient, Relation, Term, Word};
use crate::listing;
use crate::numbers::Numbers;
use crate::original::{self, CircuitSpec, Gf128, SparseMatrix};

/// The most words that question 6 lets pass.
pub const MOST_WORDS: usize = 16_384;

/// Marks there can be: 512 of bin and 32 of fld.
pub const MARKS: usize = 544;

/// Relation and row.
pub type Mark = (Relation, usize);

/// A mark and the terms of its three sides.
#[derive(PartialEq, Eq)]
pub struct Row {
    pub relation: Relation,
    pub row: usize,
    pub sides: [Vec<Term>; 3],
}

impl Row {
    pub fn mark(&self) -> Mark {
        (self.relation, self.row)
    }

    /// The mark, then the terms of A, of B and of C.
    pub fn words(&self) -> Vec<u32> {
        let mut words = vec![mark_word(self.relation, self.row)];
        for (side, terms) in (0..).zip(&self.sides) {
            words.extend(terms.iter().map(|term| term_word(side, *term)));
        }
        words
    }
}

pub struct Listing {
    pub rows: Vec<Row>,
}

impl Listing {
    /// The listing of the original's circuit.
    pub fn of_circuit() -> Listing {
        let spec = original::build_circuit();
        let rows = |relation: Relation| (0..relation.padded_rows()).map(move |row| (relation, row));
        let rows = rows(Relation::Bin)
            .chain(rows(Relation::Fld))
            .map(|(relation, row)| row_of(&spec, relation, row))
            // Every row of the circuit has terms; what has none is padding.
            .filter(|row| row.sides.iter().any(|terms| !terms.is_empty()))
            .collect();
        Listing { rows }
    }

    /// The rows of words that are in order.
    pub fn of_words(words: &[u32]) -> Listing {
        let mut rows: Vec<Row> = Vec::new();
        for &word in words {
            match house::read(word).expect("a word in order") {
                Word::Mark { relation, row } => rows.push(Row {
                    relation,
                    row,
                    sides: Default::default(),
                }),
                Word::Term { side, term } => {
                    let row = rows.last_mut().expect("a mark before it");
                    row.sides[side as usize].push(term);
                }
            }
        }
        Listing { rows }
    }

    pub fn words(&self) -> Vec<u32> {
        self.rows.iter().flat_map(Row::words).collect()
    }

    pub fn marks(&self) -> Vec<Mark> {
        self.rows.iter().map(Row::mark).collect()
    }

    /// The matrices of a batch: rows padded as the original pads them, columns by its own map.
    pub fn spec(&self, cpi: usize) -> CircuitSpec {
        let geometry = original::geometry(cpi);
        let [a_bin, b_bin, c_bin] = from_fn(|side| self.matrix(Relation::Bin, side, cpi));
        let [a_fld, b_fld, c_fld] = from_fn(|side| self.matrix(Relation::Fld, side, cpi));
        CircuitSpec {
            a_bin,
            b_bin,
            c_bin,
            a_fld,
            b_fld,
            c_fld,
            m: geometry.m,
            cpi,
        }
    }

    fn matrix(&self, relation: Relation, side: usize, cpi: usize) -> SparseMatrix {
        let geometry = original::geometry(cpi);
        let rows = relation.padded_rows();
        let mut matrix = SparseMatrix::empty(rows * cpi, geometry.m);
        for cycle in 0..cpi {
            for row in self.rows.iter().filter(|row| row.relation == relation) {
                let entry = |term: &Term| {
                    let column = geometry.map_z_col(term.column, cycle);
                    let value = Gf128(term.coefficient.value());
                    (rows * cycle + row.row, column, value)
                };
                matrix.entries.extend(row.sides[side].iter().map(entry));
            }
        }
        matrix
    }
}

fn row_of(spec: &CircuitSpec, relation: Relation, row: usize) -> Row {
    let sides = listing::sides(spec, relation).map(|matrix| {
        let entries = matrix.entries.iter().filter(|entry| entry.0 == row);
        entries
            .map(|&(_, column, value)| Term {
                column,
                coefficient: coefficient_of(value.0),
            })
            .collect()
    });
    Row {
        relation,
        row,
        sides,
    }
}

fn coefficient_of(value: u128) -> Coefficient {
    if value == 0 {
        return Coefficient::Zero;
    }
    assert!(
        value.is_power_of_two(),
        "the original's coefficient {value:#x}"
    );
    Coefficient::Power(value.trailing_zeros())
}

/// A row as it is asked for over the boundary: every relation but 0 is fld.
pub fn asked_for(numbers: &mut Numbers, (relation, row): Mark) -> product::Row {
    let relation = match relation {
        Relation::Bin => 0,
        Relation::Fld => [1, 2, 1 << 31, u32::MAX][numbers.below(4) as usize],
    };
    product::Row { relation, row }
}

pub fn mark_word(relation: Relation, row: usize) -> u32 {
    3 << 30 | (relation as u32) << 29 | row as u32
}

/// Side 0 is A, 1 B, 2 C.
pub fn term_word(side: u32, term: Term) -> u32 {
    let coefficient = match term.coefficient {
        Coefficient::Zero => 1 << 29,
        Coefficient::Power(k) => k << 12,
    };
    side << 30 | coefficient | term.column as u32
}

/// How long a random listing is.
#[derive(Clone, Copy)]
pub struct Shape {
    pub marks: usize,
    pub terms_of_a_side: u64,
}

pub fn shape(numbers: &mut Numbers) -> Shape {
    let marks = [0, 1, 2, 5, 20, 100, MARKS][numbers.below(7) as usize];
    let terms_of_a_side = [0, 1, 3, 8][numbers.below(4) as usize];
    Shape {
        marks,
        terms_of_a_side,
    }
}

/// Any rows with any terms.
pub fn random(numbers: &mut Numbers, shape: Shape) -> Listing {
    let row = |numbers: &mut Numbers| from_fn(|_| terms(numbers, shape.terms_of_a_side));
    let marks = some_marks(numbers, shape.marks);
    rows_with(numbers, marks, row)
}

/// Rows that hold on any batch whose columns `ones` are 1 in every cycle, whatever else it holds.
pub fn holding(numbers: &mut Numbers, shape: Shape, ones: &[usize]) -> Listing {
    let row = |numbers: &mut Numbers| holding_sides(numbers, shape.terms_of_a_side, ones);
    let marks = some_marks(numbers, shape.marks);
    rows_with(numbers, marks, row)
}

/// The same, with so many rows of each relation.
pub fn holding_of_each(
    numbers: &mut Numbers,
    rows: Counts,
    terms_of_a_side: u64,
    ones: &[usize],
) -> Listing {
    let row = |numbers: &mut Numbers| holding_sides(numbers, terms_of_a_side, ones);
    let marks = marks_of_each(numbers, rows);
    rows_with(numbers, marks, row)
}

/// Rows of so many terms, shared out between the sides. About half of the rows are of bin, and which
/// are is drawn.
pub fn of_lengths(numbers: &mut Numbers, lengths: &[usize]) -> Listing {
    let fld = lengths.len() / 2;
    let bin = lengths.len() - fld;
    let marks = marks_of_each(numbers, Counts { bin, fld });
    let first = numbers.below(lengths.len() as u64) as usize;
    let lengths = lengths[first..].iter().chain(&lengths[..first]);
    let row = |((relation, row), &length)| {
        let sides = shared_out(numbers, length);
        Row {
            relation,
            row,
            sides,
        }
    };
    let rows = marks.into_iter().zip(lengths).map(row).collect();
    Listing { rows }
}

fn shared_out(numbers: &mut Numbers, length: usize) -> [Vec<Term>; 3] {
    let mut ends = [(); 2].map(|()| numbers.below(length as u64 + 1) as usize);
    ends.sort_unstable();
    let [a, b] = ends;
    [a, b - a, length - b].map(|terms| (0..terms).map(|_| term(numbers)).collect())
}

/// Adds one term to one row, anywhere: it mostly does not hold any more.
pub fn spoil(numbers: &mut Numbers, listing: &mut Listing) {
    if listing.rows.is_empty() {
        return;
    }
    let row = numbers.below(listing.rows.len() as u64) as usize;
    let side = numbers.below(3) as usize;
    let term = term(numbers);
    listing.rows[row].sides[side].push(term);
}

fn rows_with(
    numbers: &mut Numbers,
    marks: Vec<Mark>,
    mut sides: impl FnMut(&mut Numbers) -> [Vec<Term>; 3],
) -> Listing {
    let rows = marks
        .into_iter()
        .map(|(relation, row)| Row {
            relation,
            row,
            sides: sides(numbers),
        })
        .collect();
    Listing { rows }
}

/// `count` of the marks there can be, in order.
fn some_marks(numbers: &mut Numbers, count: usize) -> Vec<Mark> {
    let chosen = some_of(numbers, count, 0..MARKS);
    chosen.into_iter().map(mark).collect()
}

/// So many of those of each relation, in order.
fn marks_of_each(numbers: &mut Numbers, rows: Counts) -> Vec<Mark> {
    let mut chosen = some_of(numbers, rows.bin, 0..512);
    chosen.extend(some_of(numbers, rows.fld, 512..MARKS));
    chosen.into_iter().map(mark).collect()
}

/// `count` of a range's numbers, in order.
fn some_of(numbers: &mut Numbers, count: usize, range: Range<usize>) -> Vec<usize> {
    let mut chosen: Vec<usize> = range.collect();
    // The first `count` of a shuffle.
    for i in 0..count {
        let j = i + numbers.below((chosen.len() - i) as u64) as usize;
        chosen.swap(i, j);
    }
    chosen.truncate(count);
    chosen.sort_unstable();
    chosen
}

pub fn mark(index: usize) -> Mark {
    match index.checked_sub(512) {
        None => (Relation::Bin, index),
        Some(row) => (Relation::Fld, row),
    }
}

fn terms(numbers: &mut Numbers, most: u64) -> Vec<Term> {
    let count = numbers.below(most + 1);
    (0..count).map(|_| term(numbers)).collect()
}

fn term(numbers: &mut Numbers) -> Term {
    let coefficient = match numbers.below(8) {
        0 => Coefficient::Zero,
        1 => Coefficient::Power(63),
        2 | 3 => Coefficient::Power(0),
        _ => Coefficient::Power(numbers.below(64) as u32),
    };
    let edges = [0, ONE_COLUMN - 1, ONE_COLUMN, ONE_COLUMN + 1, COLUMNS - 1];
    let column = match numbers.below(16) {
        at @ 0..=4 => edges[at as usize],
        _ => numbers.below(COLUMNS as u64) as usize,
    };
    Term {
        column,
        coefficient,
    }
}

/// Three sides with A·B = C: by a factor that is a power of two, or because a side is zero.
fn holding_sides(numbers: &mut Numbers, most: u64, ones: &[usize]) -> [Vec<Term>; 3] {
    let side = terms(numbers, most);
    let one = ones[numbers.below(ones.len() as u64) as usize];
    match numbers.below(5) {
        0 => [side, vec![], vec![]],
        1 => [vec![], side, vec![]],
        2 => [side, doubled(terms(numbers, most)), vec![]],
        kind => {
            let (k, product) = times_power(numbers, &side);
            let factor = vec![Term {
                column: one,
                coefficient: Coefficient::Power(k),
            }];
            if kind == 3 {
                [side, factor, product]
            } else {
                [factor, side, product]
            }
        }
    }
}

/// Every term twice: the sum is zero.
fn doubled(terms: Vec<Term>) -> Vec<Term> {
    terms.iter().chain(&terms).copied().collect()
}

/// A factor 2^k that leaves every exponent below 64, and the terms times it.
fn times_power(numbers: &mut Numbers, terms: &[Term]) -> (u32, Vec<Term>) {
    let exponent = |term: &Term| match term.coefficient {
        Coefficient::Zero => 0,
        Coefficient::Power(k) => k,
    };
    let largest = terms.iter().map(exponent).max().unwrap_or(0);
    let k = numbers.below(u64::from(64 - largest)) as u32;
    let times = |term: &Term| Term {
        column: term.column,
        coefficient: match term.coefficient {
            Coefficient::Zero => Coefficient::Zero,
            Coefficient::Power(exponent) => Coefficient::Power(exponent + k),
        },
    };
    (k, terms.iter().map(times).collect())
}
