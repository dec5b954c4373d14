//! Public columns that differ, question 20: each of them, in the low word, in the high word or in one bit,
//! and the first of several. The place is numbered as in the given batches.

use super::call::{Call, OF_A_CALL};
use super::{any_two, at_every_size};
use crate::numbers::Numbers;
use crate::parallel::in_parts;
use crate::report::{test, Tally, Test};
use crate::verdict::answer::{Refusal, PUBLIC_COLUMN};
use crate::verdict::batches::{self, COLUMNS, WITNESS_COLUMNS};

/// What a column differs by: in the low word alone, in the high word alone, in one bit.
const DIFFERENCES: [fn(&mut Numbers) -> u128; 3] = [low_word, high_word, Numbers::power];

/// Pairs of batches of each size in which single columns differ, and those in which several do.
const PAIRS: [usize; 8] = [16, 16, 12, 8, 6, 4, 3, 2];

/// Columns that are always tried: the one column, the next, the last that a row can name, the next, and the
/// last of all. And those that are drawn.
const ENDS: usize = 5;
const DRAWN: usize = 8;

/// Choices of several columns.
const SEVERAL: usize = 12;

/// Every bit of the one column and of the last.
const BITS: usize = 128;

pub fn tests() -> Vec<Test> {
    let pairs: usize = PAIRS.iter().sum();
    let calls = |count: usize| count as u64 * OF_A_CALL;
    vec![
        test(
            "merging refused, each public column of two rows differs, 20",
            calls(WITNESS_COLUMNS * DIFFERENCES.len()),
            each_column,
        ),
        test(
            "merging refused, each bit of the one column and of the last, 20",
            calls(2 * BITS),
            each_bit,
        ),
        test(
            format!("merging refused, a public column differs in {pairs} pairs at every size, 20"),
            calls(pairs * (ENDS + DRAWN) * DIFFERENCES.len()),
            single,
        ),
        test(
            format!("merging refused, the first of several in {pairs} pairs at every size, 20"),
            calls(pairs * SEVERAL),
            several,
        ),
    ]
}

fn low_word(numbers: &mut Numbers) -> u128 {
    u128::from(numbers.next() | 1)
}

fn high_word(numbers: &mut Numbers) -> u128 {
    low_word(numbers) << 64
}

fn call(numbers: &mut Numbers, cpi: usize) -> Call {
    let given = any_two(numbers, cpi, [batches::element; 2]);
    Call::over(numbers, cpi, given)
}

/// Columns of one batch, the first or the second, differ from the other's; then they are put back.
fn differ(tally: &mut Tally, numbers: &mut Numbers, call: &mut Call, columns: &[(usize, u128)]) {
    let which = numbers.below(2) as usize;
    let xor = |call: &mut Call| {
        for &(column, by) in columns {
            call.xor(which, column, by);
        }
    };
    xor(call);
    let first = columns.iter().map(|column| column.0).min();
    let right = Refusal {
        number: PUBLIC_COLUMN,
        place: first.expect("a column"),
    };
    let cpi = call.sizes[0];
    let place = || format!("two batches of {cpi} differ in {columns:x?} (hex)");
    call.refuses(tally, right, &place);
    xor(call);
}

fn each_column(tally: &mut Tally) {
    in_parts(tally, WITNESS_COLUMNS, |tally, part| {
        let mut numbers = Numbers::for_part(148, part as u64);
        let mut call = call(&mut numbers, 1);
        for difference in DIFFERENCES {
            let by = difference(&mut numbers);
            let column = (WITNESS_COLUMNS + part, by);
            differ(tally, &mut numbers, &mut call, &[column]);
        }
    });
}

fn each_bit(tally: &mut Tally) {
    let mut numbers = Numbers::for_test(149);
    let mut call = call(&mut numbers, 1);
    for column in [WITNESS_COLUMNS, COLUMNS - 1] {
        for bit in 0..BITS {
            differ(tally, &mut numbers, &mut call, &[(column, 1 << bit)]);
        }
    }
}

fn single(tally: &mut Tally) {
    at_every_size(tally, 150, PAIRS, |tally, mut numbers, cpi, _| {
        let mut call = call(&mut numbers, cpi);
        let one_col = WITNESS_COLUMNS * cpi;
        let (named, last) = (one_col + WITNESS_COLUMNS, 2 * one_col - 1);
        // Of a row the last that can be named is the last of all.
        let ends = [one_col, one_col + 1, named - 1, named.min(last), last];
        let drawn = [(); DRAWN].map(|()| any_public(&mut numbers, cpi));
        for column in ends.into_iter().chain(drawn) {
            for difference in DIFFERENCES {
                let by = difference(&mut numbers);
                differ(tally, &mut numbers, &mut call, &[(column, by)]);
            }
        }
    });
}

/// Some of them, from one column on all, or all.
fn several(tally: &mut Tally) {
    at_every_size(tally, 151, PAIRS, |tally, mut numbers, cpi, _| {
        let mut call = call(&mut numbers, cpi);
        let [one_col, end] = [WITNESS_COLUMNS * cpi, COLUMNS * cpi];
        for i in 0..SEVERAL {
            let from = any_public(&mut numbers, cpi);
            let columns: Vec<usize> = match i {
                0 => (one_col..end).collect(),
                1 => (from..end).collect(),
                // Distinct, for a column that is changed twice may not differ.
                _ => some(&mut numbers, cpi, 2 + i % 3),
            };
            let by = |column| (column, DIFFERENCES[i % DIFFERENCES.len()](&mut numbers));
            let columns: Vec<(usize, u128)> = columns.into_iter().map(by).collect();
            differ(tally, &mut numbers, &mut call, &columns);
        }
    });
}

fn any_public(numbers: &mut Numbers, cpi: usize) -> usize {
    WITNESS_COLUMNS * cpi + numbers.below((WITNESS_COLUMNS * cpi) as u64) as usize
}

/// So many different public columns, in any order.
fn some(numbers: &mut Numbers, cpi: usize, count: usize) -> Vec<usize> {
    let mut columns = Vec::new();
    while columns.len() < count {
        let column = any_public(numbers, cpi);
        if !columns.contains(&column) {
            columns.push(column);
        }
    }
    columns
}
