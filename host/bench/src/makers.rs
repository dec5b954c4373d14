//! The row maker and assembly beside the original's. The product writes every row and batch over the
//! one before; the original allocates each.

use std::hint::black_box;

use magnetar_cpu::circuit::{assemble_instance_z, witness_row, WITNESS_LAYOUT};
use words::words_of;

use crate::inputs::{Cycles, Run};
use crate::table::two;
use crate::timing::{in_turn, Work};
use crate::CHECKS;

/// Words of a row, and of a batch for each of its cycles.
const ROW_WORDS: usize = 8192;

/// What stands in a word that is to be written.
const UNWRITTEN: u64 = u64::MAX;

pub fn print() {
    let (_, rows, repetitions) = CHECKS[0];
    let both = time_row(rows, repetitions);
    two("`witness_row`", "µs a row", both, repetitions);
    for (cpi, batches, repetitions) in CHECKS {
        let both = time_assembly(cpi, batches, repetitions);
        let what = format!("`assemble_instance_z`, cpi {cpi}");
        two(&what, "µs a cycle", both, repetitions);
    }
}

/// Seconds a row of `witness_row`, the original's and the product's, over the first cycles of the
/// program.
fn time_row(rows: usize, repetitions: usize) -> [f64; 2] {
    let run = Run::new(rows);
    let (lent, public) = (run.words(), words_of(&run.public));
    let mut row = vec![0; ROW_WORDS];
    for ((record, rom), right) in lent.iter().zip(run.rows()) {
        row.fill(UNWRITTEN);
        make_row(record, rom, &public, &mut row);
        assert!(row == words_of(&right), "the rows differ");
    }
    let units = rows;
    in_turn(
        Work { units, repetitions },
        [
            &mut || {
                for (record, rom) in &run.cycles {
                    let (record, rom, public) = (black_box(record), black_box(rom), &run.public);
                    black_box(witness_row(record, rom, black_box(public)));
                }
            },
            &mut || {
                for (record, rom) in &lent {
                    make_row(record, rom, &public, &mut row);
                }
            },
        ],
    )
}

fn make_row(record: &[u64], rom: &[u64], public: &[u64], row: &mut [u64]) {
    let (record, rom, public) = (black_box(record), black_box(rom), black_box(public));
    let answer = product::witness_row(record, rom, public, black_box(row));
    assert_eq!(answer, 0, "the row maker refuses");
}

/// Seconds a cycle of `assemble_instance_z`, the original's and the product's.
fn time_assembly(cpi: usize, batches: usize, repetitions: usize) -> [f64; 2] {
    let cycles = Cycles::new(cpi, batches);
    let geometry = WITNESS_LAYOUT::geometry(cpi);
    let by_original = |rows: &[Vec<_>]| {
        let public = black_box(&cycles.public[..]);
        assemble_instance_z(black_box(&geometry), black_box(rows), public)
    };
    let public = words_of(&cycles.public);
    let mut batch = vec![0; ROW_WORDS * cpi];
    for (rows, words) in cycles.rows.iter().zip(&cycles.words) {
        batch.fill(UNWRITTEN);
        assemble(cpi, words, &public, &mut batch);
        assert!(batch == words_of(&by_original(rows)), "the batches differ");
    }
    let units = cpi * batches;
    in_turn(
        Work { units, repetitions },
        [
            &mut || {
                for rows in &cycles.rows {
                    black_box(by_original(rows));
                }
            },
            &mut || {
                for words in &cycles.words {
                    assemble(cpi, words, &public, &mut batch);
                }
            },
        ],
    )
}

fn assemble(cpi: usize, cycles: &[u64], public: &[u64], batch: &mut [u64]) {
    let (cycles, public) = (black_box(cycles), black_box(public));
    let answer = product::assemble(cpi, cycles, public, black_box(batch));
    assert_eq!(answer, 0, "assembly refuses");
}
