//! The merged batch as document 02 says it, one element after the other.

use super::WORDS;
use crate::verdict::batches::{batch_column, WITNESS_COLUMNS};

/// The first's cycles, then the second's; the public columns that were given, then zeros.
pub fn merged(cpi: usize, [first, second]: [&[u64]; 2]) -> Vec<u64> {
    let both = 2 * cpi;
    let mut words = vec![0; WORDS * both];
    let mut put = |to: usize, batch: &[u64], from: usize| {
        words[2 * to] = batch[2 * from];
        words[2 * to + 1] = batch[2 * from + 1];
    };
    for column in 0..WITNESS_COLUMNS {
        for cycle in 0..cpi {
            let from = batch_column(cpi, column, cycle);
            put(batch_column(both, column, cycle), first, from);
            put(batch_column(both, column, cpi + cycle), second, from);
        }
    }
    for public in 0..WITNESS_COLUMNS * cpi {
        let [from, to] = [cpi, both].map(|cpi| WITNESS_COLUMNS * cpi + public);
        put(to, first, from);
    }
    words
}
