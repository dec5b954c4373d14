//! Batches with a column above 1: a lower one is refused with 17, a public one is not looked at.

use super::at_every_size;
use super::call::{Call, Entry, OF_A_CALL, PACKING};
use crate::numbers::Numbers;
use crate::parallel::in_parts;
use crate::report::{test, Tally, Test};
use crate::verdict::answer::LOWER_BIT;
use crate::verdict::batches::{bits, COLUMNS, WITNESS_COLUMNS};
use words::words_of;

/// The smallest above 1, the highest bit of each word, the high word alone and beside a bit, all ones.
const ABOVE_ONE: [u128; 7] = [2, 3, 1 << 63, 1 << 64, (1 << 64) + 1, 1 << 127, u128::MAX];

/// Batches of each size.
const BATCHES: [usize; 9] = [64, 32, 16, 8, 4, 4, 2, 2, 2];

/// Lower columns of a batch that are always tried with each value: the first and the last, in the first
/// cycle and in the last. And those of a batch that are drawn, alone and by twos of one value.
const ENDS: usize = 4;
const DRAWN: usize = 48;
const TWOS: usize = 16;
const LOWER: usize = ENDS * ABOVE_ONE.len() + DRAWN + TWOS;

/// Public columns of a batch: the first and the last with each value, and those that are drawn.
const PUBLIC: usize = 2 * ABOVE_ONE.len() + 4;

pub fn tests() -> Vec<Test> {
    let batches: usize = BATCHES.iter().sum();
    let calls = |of_a_batch: usize| (batches * PACKING.len() * of_a_batch) as u64 * OF_A_CALL;
    vec![
        test(
            format!("packed storage refused, lower columns above 1 in {batches} batches, 17"),
            calls(LOWER),
            |tally| each_batch(tally, 112, lower),
        ),
        test(
            format!("packed storage, public columns above 1 in {batches} batches"),
            calls(PUBLIC),
            |tally| each_batch(tally, 113, public),
        ),
        test(
            "packed storage, each column of a row above 1, refused where it is a lower one",
            (COLUMNS * ABOVE_ONE.len() * PACKING.len()) as u64 * OF_A_CALL,
            each_column,
        ),
    ]
}

/// A batch of bits, public columns too.
fn call_over_bits(numbers: &mut Numbers, entry: Entry, cpi: usize) -> Call {
    let read = words_of(&bits(numbers, cpi));
    Call::over(numbers, entry, cpi, read)
}

type OfABatch = fn(&mut Tally, &mut Numbers, &mut Call);

fn each_batch(tally: &mut Tally, test: u64, of_a_batch: OfABatch) {
    at_every_size(tally, test, BATCHES, |tally, mut numbers, cpi, _| {
        for entry in PACKING {
            let mut call = call_over_bits(&mut numbers, entry, cpi);
            of_a_batch(tally, &mut numbers, &mut call);
        }
    });
}

/// One of those, or any other power of two.
fn value(numbers: &mut Numbers) -> u128 {
    let one_of = ABOVE_ONE.get(numbers.below(2 * ABOVE_ONE.len() as u64) as usize);
    one_of.copied().unwrap_or(2 << numbers.below(127))
}

fn lower(tally: &mut Tally, numbers: &mut Numbers, call: &mut Call) {
    let cpi = call.cpi;
    let end = WITNESS_COLUMNS * cpi;
    for column in [0, cpi - 1, end - cpi, end - 1] {
        for value in ABOVE_ONE {
            pack_with(tally, call, &[column], value);
        }
    }
    let any = |numbers: &mut Numbers| numbers.below(end as u64) as usize;
    for _ in 0..DRAWN {
        let column = any(numbers);
        pack_with(tally, call, &[column], value(numbers));
    }
    for i in 0..TWOS {
        let one = any(numbers);
        // The next, the next of the same cycle, one in the other half, any other.
        let by = [1, cpi, end / 2, any(numbers).max(1)][i % 4];
        pack_with(tally, call, &[one, (one + by) % end], value(numbers));
    }
}

fn public(tally: &mut Tally, numbers: &mut Numbers, call: &mut Call) {
    let one_col = WITNESS_COLUMNS * call.cpi;
    for column in [one_col, 2 * one_col - 1] {
        for value in ABOVE_ONE {
            pack_with(tally, call, &[column], value);
        }
    }
    for _ in 2 * ABOVE_ONE.len()..PUBLIC {
        let column = one_col + numbers.below(one_col as u64) as usize;
        pack_with(tally, call, &[column], value(numbers));
    }
}

fn each_column(tally: &mut Tally) {
    in_parts(tally, COLUMNS, |tally, column| {
        let mut numbers = Numbers::for_part(114, column as u64);
        for entry in PACKING {
            let mut call = call_over_bits(&mut numbers, entry, 1);
            for value in ABOVE_ONE {
                pack_with(tally, &mut call, &[column], value);
            }
        }
    });
}

/// Packs a batch in which some columns have a value above 1, all of them lower ones or all public.
fn pack_with(tally: &mut Tally, call: &mut Call, columns: &[usize], value: u128) {
    let cpi = call.cpi;
    let before: Vec<u128> = columns.iter().map(|&at| call.column(at)).collect();
    columns.iter().for_each(|&at| call.put(at, value));
    let place = || format!("batch columns {columns:?} of {cpi} cycles are {value:#x}");
    if columns[0] < WITNESS_COLUMNS * cpi {
        call.refuses(tally, LOWER_BIT, &place);
    } else {
        call.writes(tally, &place);
    }
    for (&at, bit) in columns.iter().zip(before) {
        call.put(at, bit);
    }
}
