//! Batch order read by the original: it packs nothing itself, but its matrices can be applied to a packed
//! witness, 128 columns to a word of twice the length. Each sum must be that over the batch.

use words::words_of;

use super::at_every_size;
use super::reading::WORDS_OF_A_CYCLE;
use crate::house::Relation;
use crate::listing::sides;
use crate::numbers::Numbers;
use crate::original::{self, Gf128, SparseMatrix};
use crate::report::{test, Tally, Test};
use crate::verdict::batches::{self, ONE_COLUMN, WITNESS_COLUMNS};

/// Batches of each size.
const BATCHES: [usize; 9] = [16, 16, 16, 8, 8, 4, 4, 2, 2];

/// The six matrices of the circuit, one that has each lower column in a row of its own, and the answer.
const OF_A_BATCH: u64 = 6 + 1 + 1;

pub fn tests() -> Vec<Test> {
    let batches: usize = BATCHES.iter().sum();
    vec![test(
        format!("packed storage, batch order as the original's apply_simd_packed reads it, {batches} batches"),
        batches as u64 * OF_A_BATCH,
        each_batch,
    )]
}

fn each_batch(tally: &mut Tally) {
    at_every_size(tally, 117, BATCHES, |tally, mut numbers, cpi, part| {
        let place = |what: &str| format!("batch {part} of {cpi}, {what}");
        let one = ONE_COLUMN * cpi;
        let mut z = batches::dense(&mut numbers, cpi);
        for lower in &mut z[..one] {
            *lower = Gf128(numbers.bit());
        }
        z[one] = Gf128(1);

        let mut words = numbers.words(WORDS_OF_A_CYCLE * cpi);
        let answer = product::pack(cpi, &words_of(&z), &mut words);
        tally.same(|| place("answer"), answer, 0);
        let packed: Vec<u128> = words.chunks(2).map(two_words).collect();

        let spec = original::build_circuit_batched(cpi);
        let [a, b, c] = sides(&spec, Relation::Bin);
        let [d, e, f] = sides(&spec, Relation::Fld);
        let alone = each_alone(&mut numbers, cpi, z.len());
        for (i, matrix) in [a, b, c, d, e, f, &alone].into_iter().enumerate() {
            let (sums, _) = matrix.apply_simd_packed(&packed, &z[one + 1..], 1, one);
            let right = matrix.apply(&z);
            let rows = sums.len().max(right.len());
            let apart = (0..rows).find(|&row| sums.get(row) != right.get(row));
            tally.same(|| place(&format!("matrix {i}")), apart, None);
        }
    });
}

/// The low word first.
fn two_words(words: &[u64]) -> u128 {
    u128::from(words[1]) << 64 | u128::from(words[0])
}

/// Each lower column in a row of its own, with any coefficient but 0.
fn each_alone(numbers: &mut Numbers, cpi: usize, columns: usize) -> SparseMatrix {
    let rows = WITNESS_COLUMNS * cpi;
    let mut matrix = SparseMatrix::empty(rows, columns);
    matrix.entries = (0..rows)
        .map(|column| (column, column, Gf128(numbers.dense() | 1)))
        .collect();
    matrix
}
