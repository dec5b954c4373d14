//! Holds the proved library against the original, compiled unchanged.
//!
//! Prints a line for each named test and, last, `N passed, M failed`. The exit status is 0 where
//! all passed, 1 where one failed, and 3 where the processor cannot run the original.
#![forbid(unsafe_code)]

mod batch;
mod columns;
mod field;
mod filler;
mod house;
mod layout;
mod listing;
mod merge;
mod numbers;
mod original;
mod page;
mod parallel;
mod report;
mod rows;
mod storage;
mod strict;
mod verdict;
mod witness;
mod words;

use std::process::ExitCode;

fn main() -> ExitCode {
    if let Some(lacking) = original::processor_lacks() {
        println!("not run: {lacking}");
        return ExitCode::from(3);
    }
    println!(
        "processor: PCLMULQDQ and SSE4.1 are there; without them the original's product is wrong"
    );
    println!("pseudo-random numbers from seed {:#x}", numbers::SEED);
    println!("batches to be judged: {}", verdict::batches_judged());
    println!(
        "batches to be judged by both listings: {}",
        strict::batches_judged()
    );
    println!("batches to be filled: {}", filler::batches_filled());
    println!("rows to be made: {}", witness::rows_made());
    println!("rows to be laid out on pages: {}", page::rows_laid_out());
    println!("pairs of batches to be merged: {}", merge::merges());
    let mut tests = field::tests();
    tests.extend(columns::tests());
    tests.extend(layout::tests());
    tests.extend(listing::tests());
    tests.extend(batch::tests());
    tests.extend(words::tests());
    tests.extend(rows::tests());
    tests.extend(verdict::tests());
    tests.extend(filler::tests());
    tests.extend(witness::tests());
    tests.extend(page::tests());
    tests.extend(storage::tests());
    tests.extend(strict::tests());
    tests.extend(merge::tests());
    report::run_all(&tests)
}
