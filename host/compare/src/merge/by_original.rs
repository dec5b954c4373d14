//! The original's own assembly: of all cycles it is the merge of its assemblies of the first half and of the
//! second, where the public values fit in the smaller batch.

use super::at_every_size;
use super::call::{Call, OF_A_CALL};
use crate::numbers::Numbers;
use crate::original::Gf128;
use crate::report::{test, Tally, Test};
use crate::verdict::programs::{Program, Sort};
use crate::witness::assembly::{any_cycles, most_public, right_batch};
use crate::witness::records::{any_public, public};

/// Merges of each size.
const MERGES: [usize; 8] = [400, 200, 100, 60, 32, 20, 12, 8];

/// Instructions of a program.
const LENGTH: usize = 32;

pub fn tests() -> Vec<Test> {
    vec![test(
        format!(
            "merging, the original's assembly of all cycles, {} merges at every size",
            merges()
        ),
        merges() as u64 * OF_A_CALL,
        each_merge,
    )]
}

pub fn merges() -> usize {
    MERGES.iter().sum()
}

fn each_merge(tally: &mut Tally) {
    at_every_size(tally, 142, MERGES, |tally, mut numbers, cpi, part| {
        let (cycles, public) = made(&mut numbers, cpi, part);
        let halves = [&cycles[..cpi], &cycles[cpi..]];
        let given = halves.map(|cycles| right_batch(cpi, cycles, &public));
        let right = right_batch(2 * cpi, &cycles, &public);
        let mut call = Call::over(&mut numbers, cpi, given);
        call.writes_these(tally, &right, &|| format!("merge {part} of {cpi}"));
    });
}

/// The cycles of both and their public values: of a program, or of any sort, with as many values as there is
/// room for, none, or any number.
fn made(numbers: &mut Numbers, cpi: usize, part: usize) -> (Vec<Vec<Gf128>>, Vec<Gf128>) {
    if part % 4 == 3 {
        let program = Program::random(numbers, LENGTH, Sort::MayFail);
        return (program.rows(2 * cpi), program.public());
    }
    let public = match part {
        0 => public(numbers, most_public(cpi)),
        1 => Vec::new(),
        _ => any_public(numbers, most_public(cpi)),
    };
    (any_cycles(numbers, 2 * cpi), public)
}
