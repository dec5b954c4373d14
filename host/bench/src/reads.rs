//! One plain read of the columns that the check of an accepted batch looks at, the two public ones left
//! out; of all lower columns; and of all public ones.

use std::hint::black_box;

use product::LOOKED_AT;

/// Words of the lower columns, for each cycle.
pub const LOWER_WORDS: usize = 4096;

/// Reads them in every cycle of a batch, two words an element.
pub fn words(cpi: usize, batch: &[u64]) {
    for columns in LOOKED_AT {
        let words = &batch[2 * cpi * columns.start..2 * cpi * columns.end];
        black_box(product::read(black_box(words)));
    }
}

/// Reads them in a row of 16 bytes an element.
pub fn bytes(row: &[u8]) {
    for columns in LOOKED_AT {
        let bytes = &row[16 * columns.start..16 * columns.end];
        black_box(product::read_bytes(black_box(bytes)));
    }
}

/// Reads all columns below one_col of a batch, two words an element.
pub fn lower(cpi: usize, batch: &[u64]) {
    black_box(product::read(black_box(&batch[..LOWER_WORDS * cpi])));
}

/// Reads the others, from one_col on.
pub fn public(cpi: usize, batch: &[u64]) {
    black_box(product::read(black_box(&batch[LOWER_WORDS * cpi..])));
}
