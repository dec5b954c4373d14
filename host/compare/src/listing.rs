//! The house listing against the original's `build_circuit`.

use product::Known;

use crate::house::{self, Circuit, Entry, Matrices, Relation, Side, Word};
use crate::original::{self, CircuitSpec, SparseMatrix};
use crate::report::{test, Tally, Test};

pub const WORDS: usize = 3499;
pub const BIN_ROWS: usize = 483;
pub const BIN_TERMS: usize = 1735;
pub const FLD_ROWS: usize = 31;
pub const FLD_TERMS: usize = 1250;
const ZERO_TERMS: usize = 21;

/// Word indexes past the listing that are asked for.
const PAST: [usize; 5] = [WORDS, WORDS + 1, 16_384, 1 << 32, usize::MAX];

pub fn tests() -> Vec<Test> {
    let words = WORDS as u64;
    vec![
        test("P11 of the bench sheet", 8, bench_sheet),
        test("words past the listing are 0", PAST.len() as u64, past_end),
        test("each word's must-be-zero bits", words, words_readable),
        test("marks in order, terms in order", words, order_of_words),
        test("counts of rows and terms", 10, counts),
        test("shape of the matrices", 6 * 2 + 2, shape),
        test(
            "build_circuit, entries of bin",
            BIN_TERMS as u64 + 3,
            |tally| entries_of(tally, Relation::Bin),
        ),
        test(
            "build_circuit, entries of fld",
            FLD_TERMS as u64 + 3,
            |tally| entries_of(tally, Relation::Fld),
        ),
    ]
}

pub fn words() -> Vec<u32> {
    (0..WORDS).map(word).collect()
}

fn word(i: usize) -> u32 {
    product::listing_word(Known::House, i)
}

fn bench_sheet(tally: &mut Tally) {
    let first = [
        0xc000_0000,
        0x0000_0140,
        0x0000_01c0,
        0x4000_0180,
        0x4000_01c0,
        0x8000_01c1,
        0x8000_01c0,
    ];
    for (i, right) in first.into_iter().enumerate() {
        tally.same(|| format!("word {i}"), word(i), right);
    }
    tally.same(|| "the last word".into(), word(WORDS - 1), 0x4000_708f);
}

fn past_end(tally: &mut Tally) {
    for i in PAST {
        tally.same(|| format!("word {i}"), word(i), 0);
    }
}

fn words_readable(tally: &mut Tally) {
    for (i, word) in words().into_iter().enumerate() {
        let readable = house::read(word).map(|_| ());
        tally.same(|| format!("word {i}, {word:08x}"), readable, Ok(()));
    }
}

/// Where a word stands: relation and row of its mark, then the side. It only ever grows, by one row
/// at a time from bin row 0 on.
fn order_of_words(tally: &mut Tally) {
    let mut before: Option<(Relation, usize, Option<Side>)> = None;
    for (i, word) in words().into_iter().enumerate() {
        let (now, in_order) = match (house::read(word), before) {
            (Ok(Word::Mark { relation, row }), _) => (
                Some((relation, row, None)),
                (relation, row) == next_row(before),
            ),
            (Ok(Word::Term { side, .. }), Some((relation, row, last))) => {
                (Some((relation, row, Some(side))), last <= Some(side))
            }
            _ => (before, false),
        };
        tally.same(|| format!("word {i}, {word:08x} in order"), in_order, true);
        before = now;
    }
}

fn next_row(before: Option<(Relation, usize, Option<Side>)>) -> (Relation, usize) {
    match before {
        None => (Relation::Bin, 0),
        Some((Relation::Bin, row, _)) if row + 1 == BIN_ROWS => (Relation::Fld, 0),
        Some((relation, row, _)) => (relation, row + 1),
    }
}

/// Document 01's counts, of the product's listing and of the original's matrices.
fn counts(tally: &mut Tally) {
    let listing = circuit_of(&words());
    let spec = original::build_circuit();
    let original = Circuit {
        bin: original_matrices(&spec, Relation::Bin),
        fld: original_matrices(&spec, Relation::Fld),
    };
    for (whose, circuit) in [("listing", listing), ("original", original)] {
        let zeros = circuit.bin.zero_terms() + circuit.fld.zero_terms();
        let numbers = [
            ("bin rows", rows_with_terms(&circuit.bin), BIN_ROWS),
            ("bin terms", circuit.bin.terms(), BIN_TERMS),
            ("fld rows", rows_with_terms(&circuit.fld), FLD_ROWS),
            ("fld terms", circuit.fld.terms(), FLD_TERMS),
            ("terms of coefficient zero", zeros, ZERO_TERMS),
        ];
        for (what, number, right) in numbers {
            tally.same(|| format!("{what} of the {whose}"), number, right);
        }
    }
}

fn rows_with_terms(matrices: &Matrices) -> usize {
    let sides = [&matrices.a, &matrices.b, &matrices.c];
    let mut rows: Vec<usize> = sides.into_iter().flatten().map(|entry| entry.0).collect();
    rows.sort_unstable();
    rows.dedup();
    rows.len()
}

fn shape(tally: &mut Tally) {
    let spec = original::build_circuit();
    same_shape(tally, &spec, 1);
}

/// Rows, padding included, and columns of the six matrices of a batch of `cpi` cycles.
pub fn same_shape(tally: &mut Tally, spec: &CircuitSpec, cpi: usize) {
    let m = product::geometry(cpi, 2);
    for relation in [Relation::Bin, Relation::Fld] {
        let rows = relation.padded_rows() * cpi;
        for matrix in sides(spec, relation) {
            let place = || format!("{relation:?} of {cpi} cycles");
            tally.same(place, rows, matrix.rows);
            tally.same(place, m, Ok(matrix.cols as u64));
        }
    }
    tally.same(|| format!("m of {cpi} cycles"), m, Ok(spec.m as u64));
    let size = product::geometry(cpi, 0);
    tally.same(|| format!("size {cpi}"), size, Ok(spec.cpi as u64));
}

fn entries_of(tally: &mut Tally, relation: Relation) {
    let mut listing = circuit_of(&words());
    let spec = original::build_circuit();
    same_entries(
        tally,
        relation,
        listing.relation(relation),
        &original_matrices(&spec, relation),
    );
}

/// Compares the entries of A, B and C one by one, in order, and how many there are.
pub fn same_entries(
    tally: &mut Tally,
    relation: Relation,
    product: &Matrices,
    original: &Matrices,
) {
    let sides = [
        ("A", &product.a, &original.a),
        ("B", &product.b, &original.b),
        ("C", &product.c, &original.c),
    ];
    for (side, product, original) in sides {
        let place = || format!("number of entries of {side} of {relation:?}");
        tally.same(place, product.len(), original.len());
        for (i, (product, original)) in product.iter().zip(original).enumerate() {
            let place = || format!("entry {i} of {side} of {relation:?}");
            tally.same(place, product, original);
        }
    }
}

/// Groups the words of a listing into rows and sorts their terms into the matrices. What cannot be
/// read is left out: the tests of the words themselves report it, and the counts differ.
fn circuit_of(words: &[u32]) -> Circuit {
    let mut circuit = Circuit::default();
    let mut mark = None;
    for &word in words {
        match (house::read(word), mark) {
            (Ok(Word::Mark { relation, row }), _) => mark = Some((relation, row)),
            (Ok(Word::Term { side, term }), Some((relation, row))) => {
                let entry = (row, term.column, term.coefficient.value());
                circuit.relation(relation).side(side).push(entry);
            }
            _ => {}
        }
    }
    circuit
}

pub fn original_matrices(spec: &CircuitSpec, relation: Relation) -> Matrices {
    let [a, b, c] = sides(spec, relation).map(entries);
    Matrices { a, b, c }
}

pub fn sides(spec: &CircuitSpec, relation: Relation) -> [&SparseMatrix; 3] {
    match relation {
        Relation::Bin => [&spec.a_bin, &spec.b_bin, &spec.c_bin],
        Relation::Fld => [&spec.a_fld, &spec.b_fld, &spec.c_fld],
    }
}

fn entries(matrix: &SparseMatrix) -> Vec<Entry> {
    let entry =
        |&(row, column, value): &(usize, usize, magnetar_field::Gf128)| (row, column, value.0);
    matrix.entries.iter().map(entry).collect()
}
