//! Times the product beside the original, in one run and on the same inputs.
//!
//! It is a benchmark and no test: it fails where the two do not agree that a batch is accepted, or on
//! what they make, and never because of a time. The exit status is 3 where the processor cannot run
//! the original.
#![forbid(unsafe_code)]

mod beside_original;
mod beside_read;
mod check;
mod failing;
mod filler;
mod inputs;
mod machine;
mod makers;
mod merge;
mod mul;
mod reads;
mod stack;
mod storage;
mod table;
mod timing;
mod way_back;

use std::process::ExitCode;

use check::{Checked, FromBytes};
use inputs::{HOUSE, STRICT};

/// Cycles in a batch, batches of one repetition, repetitions.
const CHECKS: [(usize, usize, usize); 3] = [(1, 16, 2001), (16, 4, 401), (256, 1, 101)];

fn main() -> ExitCode {
    if let Some(lacking) = machine::processor_lacks() {
        println!("not run: {lacking}");
        return ExitCode::from(3);
    }
    machine::describe();
    println!("{BUFFERS}");
    let [house, strict] =
        [&HOUSE, &STRICT].map(|listing| CHECKS.map(|size| Checked::time(listing, size)));
    let from_bytes = FromBytes::time();
    beside_original::print(&house, &from_bytes);
    beside_read::print(&house, &strict, &from_bytes);
    beside_read::print_parts(house.iter().chain(&strict));
    failing::print();
    stack::print();
    filler::print();
    way_back::print();
    storage::print();
    merge::print();
    ExitCode::SUCCESS
}

const BUFFERS: &str = "\
buffers: circuit, listing and batches are made in full before the first call, which is not timed.
Scratch is lent, 3,072 words where no other number stands, and not cleared by the caller: every check
leaves it zero. The original allocates and clears its sums in each call. A row or batch that is made is
lent too, the same for every call, and the original allocates and clears one in each. No cache is
flushed: at cpi 1 there are 16 rows in turn (1 MB), at cpi 16 four batches (4 MB), at cpi 256 one
(16 MB). What stands in one line was timed in turns.";
