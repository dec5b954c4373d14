//! The bit test against a plain loop.

use super::answer::{above_one, refusal, BATCH_LENGTH, SIZE};
use super::batches::{self, Batch, COLUMNS, WITNESS_COLUMNS};
use super::lent::Lent;
use crate::columns::{refused_sizes, PAST, REFUSED_SIZES, SIZES};
use crate::numbers::Numbers;
use crate::original::Gf128;
use crate::parallel::in_parts;
use crate::report::{test, Tally, Test};

const BATCHES: usize = 2048;

/// Parts that share a batch's columns.
const PARTS: usize = 64;

/// Comparisons of one call: the answer and the batch.
const OF_A_CALL: u64 = 2;

/// Smallest above 1, high word alone, both words, all ones.
const ABOVE_ONE: [u128; 6] = [2, 3, 1 << 64, (1 << 64) + 1, 1 << 127, u128::MAX];

pub fn tests() -> Vec<Test> {
    let mut tests = vec![test(
        "bit test, each column of a row above 1",
        (COLUMNS * ABOVE_ONE.len()) as u64 * OF_A_CALL,
        each_column,
    )];
    for cpi in SIZES {
        let batches = BATCHES / cpi;
        tests.push(test(
            format!("bit test, {batches} batches of {cpi}"),
            3 * batches as u64 * OF_A_CALL,
            move |tally| random_batches(tally, cpi),
        ));
    }
    for cpi in SIZES {
        tests.push(test(
            format!("bit test, each batch column of {cpi} above 1, and the first past one_col"),
            (WITNESS_COLUMNS * cpi + PAST + PARTS) as u64,
            move |tally| each_batch_column(tally, cpi),
        ));
    }
    tests.push(test(
        "bit test, sizes and lengths refused",
        (REFUSED_SIZES + 9 * 6) * OF_A_CALL,
        refused,
    ));
    tests
}

/// The smallest batch column below one_col that is above 1.
fn plain_loop(cpi: usize, z: &[Gf128]) -> u64 {
    for (batch_column, element) in z[..WITNESS_COLUMNS * cpi].iter().enumerate() {
        if element.0 > 1 {
            return above_one(cpi, batch_column);
        }
    }
    0
}

fn same(tally: &mut Tally, batch: &mut Batch, place: &dyn Fn() -> String) {
    let right = plain_loop(batch.cpi, &batch.z);
    answers(tally, batch.cpi, &mut batch.words, right, place);
}

fn answers(
    tally: &mut Tally,
    cpi: usize,
    batch: &mut Lent<u64>,
    right: u64,
    place: &dyn Fn() -> String,
) {
    tally.same(place, product::bit_test(cpi, batch.words()), right);
    let unchanged = || format!("{}, batch unchanged", place());
    tally.same(unchanged, batch.is_right(), true);
}

fn each_column(tally: &mut Tally) {
    let z = batches::bits(&mut Numbers::for_test(50), 1);
    in_parts(tally, COLUMNS, |tally, column| {
        let mut batch = Batch::of(1, z.clone());
        for value in ABOVE_ONE {
            batch.put(column, value);
            let place = || format!("column {column} is {value:#x}");
            same(tally, &mut batch, &place);
        }
    });
}

/// Of all columns one is above 1. Past one_col none is looked at.
fn each_batch_column(tally: &mut Tally, cpi: usize) {
    let z = batches::bits(&mut Numbers::for_test(66), cpi);
    let one_col = WITNESS_COLUMNS * cpi;
    in_parts(tally, PARTS, |tally, part| {
        let mut batch = Batch::of(cpi, z.clone());
        for at in (part..one_col + PAST).step_by(PARTS) {
            let bit = batch.z[at].0;
            batch.put(at, ABOVE_ONE[at / PARTS % ABOVE_ONE.len()]);
            let right = if at < one_col { above_one(cpi, at) } else { 0 };
            let place = || format!("batch column {at} of {cpi} cycles");
            tally.same(place, product::bit_test(cpi, batch.words.words()), right);
            batch.put(at, bit);
        }
        let unchanged = || format!("part {part}, batch unchanged");
        tally.same(unchanged, batch.words.is_right(), true);
    });
}

/// All bits; then some columns of any sort; then public ones only.
fn random_batches(tally: &mut Tally, cpi: usize) {
    in_parts(tally, BATCHES / cpi, |tally, part| {
        let mut numbers = Numbers::for_part(51, (cpi << 32 | part) as u64);
        let place = || format!("batch {part} of {cpi} cycles");
        let mut batch = Batch::of(cpi, batches::bits(&mut numbers, cpi));
        same(tally, &mut batch, &place);

        let one_col = WITNESS_COLUMNS * cpi;
        for _ in 0..1 + numbers.below(6) {
            let column = numbers.below(one_col as u64) as usize;
            batch.put(column, batches::element(&mut numbers));
        }
        same(tally, &mut batch, &place);

        let mut batch = Batch::of(cpi, batches::bits(&mut numbers, cpi));
        for column in one_col..2 * one_col {
            batch.put(column, batches::element(&mut numbers));
        }
        same(tally, &mut batch, &place);
    });
}

fn refused(tally: &mut Tally) {
    for cpi in refused_sizes() {
        let mut batch = Lent::of(&[2; 64]);
        let place = || format!("size {cpi}");
        answers(tally, cpi, &mut batch, refusal(SIZE).answer(), &place);
    }
    for cpi in SIZES {
        let right = 2 * COLUMNS * cpi;
        for len in [0, 1, right / 2, right - 1, right + 1, 2 * right] {
            let mut batch = Lent::of(&vec![2; len]);
            let place = || format!("{len} words for {cpi} cycles");
            answers(
                tally,
                cpi,
                &mut batch,
                refusal(BATCH_LENGTH).answer(),
                &place,
            );
        }
    }
}
