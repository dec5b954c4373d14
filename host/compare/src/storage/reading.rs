//! Packed words as document 02 says them, one bit after the other.

use crate::verdict::batches::{batch_column, WITNESS_COLUMNS};

pub const WORDS_OF_A_CYCLE: usize = 32;

/// Bit x of packed words.
pub fn bit(words: &[u64], x: usize) -> bool {
    words[x / 64] >> (x % 64) & 1 == 1
}

fn set(words: &mut [u64], x: usize) {
    words[x / 64] |= 1 << (x % 64);
}

/// Where column c of cycle d stands in cycle order.
pub fn in_cycles(column: usize, cycle: usize) -> usize {
    WITNESS_COLUMNS * cycle + column
}

/// The lower columns in batch order. They are bits: their low words say all.
pub fn packed(cpi: usize, batch: &[u64]) -> Vec<u64> {
    let mut words = vec![0; WORDS_OF_A_CYCLE * cpi];
    for x in 0..WITNESS_COLUMNS * cpi {
        if batch[2 * x] == 1 {
            set(&mut words, x);
        }
    }
    words
}

/// The lower columns in cycle order.
pub fn packed_by_cycle(cpi: usize, batch: &[u64]) -> Vec<u64> {
    let mut words = vec![0; WORDS_OF_A_CYCLE * cpi];
    for_cells(cpi, |column, cycle| {
        if batch[2 * batch_column(cpi, column, cycle)] == 1 {
            set(&mut words, in_cycles(column, cycle));
        }
    });
    words
}

/// The words of the lower columns, two a column, of a batch that packed words are unpacked into.
pub fn unpacked(cpi: usize, words: &[u64]) -> Vec<u64> {
    let column = |x| [u64::from(bit(words, x)), 0];
    (0..WITNESS_COLUMNS * cpi).flat_map(column).collect()
}

/// Packed words rearranged from batch order into cycle order.
pub fn by_cycle(cpi: usize, words: &[u64]) -> Vec<u64> {
    let mut out = vec![0; WORDS_OF_A_CYCLE * cpi];
    for_cells(cpi, |column, cycle| {
        if bit(words, batch_column(cpi, column, cycle)) {
            set(&mut out, in_cycles(column, cycle));
        }
    });
    out
}

/// Packed words rearranged from cycle order into batch order.
pub fn by_batch(cpi: usize, words: &[u64]) -> Vec<u64> {
    let mut out = vec![0; WORDS_OF_A_CYCLE * cpi];
    for_cells(cpi, |column, cycle| {
        if bit(words, in_cycles(column, cycle)) {
            set(&mut out, batch_column(cpi, column, cycle));
        }
    });
    out
}

/// Every lower column of every cycle.
pub fn for_cells(cpi: usize, mut each: impl FnMut(usize, usize)) {
    for column in 0..WITNESS_COLUMNS {
        for cycle in 0..cpi {
            each(column, cycle);
        }
    }
}
