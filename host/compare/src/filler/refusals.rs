//! What the filler and the test of the conditions turn down, and that nothing lent changes then.

use super::conditions::Cycle;
use super::cycles::Wanted;
use super::derived::{derived, given, is_derived, DERIVED};
use super::filled::{batch_of, fill, one_col, output};
use crate::columns::{refused_sizes, REFUSED_SIZES, SIZES};
use crate::numbers::Numbers;
use crate::parallel::in_parts;
use crate::report::{test, Tally, Test};
use crate::verdict::answer::{refusal, Refusal, BATCH_LENGTH, CYCLE, GIVEN_BIT, ONE, SIZE};
use crate::verdict::batches::{Batch, COLUMNS, WITNESS_COLUMNS};
use crate::verdict::known::KNOWN;
use crate::verdict::lent::Lent;

const GIVEN: usize = WITNESS_COLUMNS - DERIVED;

/// Comparisons of one refusal: the four answers, and the batch as it came.
const OF_A_REFUSAL: u64 = 5;

/// Smallest above 1, high word alone, both words, all ones.
const ABOVE_ONE: [u128; 6] = [2, 3, 1 << 64, (1 << 64) + 1, 1 << 127, u128::MAX];

const NOT_ONE: [u128; 7] = [0, 2, 3, 1 << 64, (1 << 64) + 1, 1 << 127, u128::MAX];

const SEVERAL: usize = 24;

/// Parts that share a batch's given columns.
const PARTS: usize = 8;

pub fn tests() -> Vec<Test> {
    vec![
        test(
            "filling and conditions, sizes and lengths refused",
            (REFUSED_SIZES + 9 * 6) * OF_A_REFUSAL,
            sizes_and_lengths,
        ),
        test(
            "filling and conditions, each given column above 1",
            (GIVEN * ABOVE_ONE.len()) as u64 * OF_A_REFUSAL,
            each_given_column,
        ),
        test(
            "filling and conditions, derived columns above 1 are no refusal",
            (DERIVED * ABOVE_ONE.len()) as u64 * 5,
            each_derived_column,
        ),
        test(
            "filling and conditions, several columns above 1, one column or not",
            (9 * SEVERAL) as u64 * OF_A_REFUSAL,
            several_columns,
        ),
        test(
            "filling, each given column above 1 in three cycles of every size, and every derived one",
            (9 * (3 * GIVEN + 2 * PARTS)) as u64,
            each_size,
        ),
        test(
            "filling and conditions, the one column is not 1",
            (9 * NOT_ONE.len()) as u64 * OF_A_REFUSAL,
            one_column,
        ),
        test("conditions, cycles refused", 9 * 4 * 4, cycles_refused),
    ]
}

fn batch(numbers: &mut Numbers, cpi: usize) -> (Batch, Vec<Cycle>, u128) {
    let output = output(numbers);
    let cycle = |_| Wanted::any(numbers, 0, output).make(numbers);
    let cycles: Vec<Cycle> = (0..cpi).map(cycle).collect();
    (batch_of(numbers, &cycles, output), cycles, output)
}

/// All turn it down alike; the cycle, which is wrong too, is asked for later.
fn refused(
    tally: &mut Tally,
    cpi: usize,
    batch: &mut Lent<u64>,
    right: Refusal,
    place: &dyn Fn() -> String,
) {
    let seen = product::first_unmet(cpi, batch.words(), usize::MAX);
    tally.same(place, seen, right.answer());
    tally.same(place, product::fill(cpi, batch.words_mut()), right.answer());
    for known in KNOWN {
        let at_once = product::fill_and_check(known, cpi, batch.words_mut());
        let place = || format!("{}, filled and checked, {known:?}", place());
        tally.same(place, at_once, right.answer());
    }
    let unchanged = || format!("{}, batch unchanged", place());
    tally.same(unchanged, batch.is_right(), true);
}

fn sizes_and_lengths(tally: &mut Tally) {
    for cpi in refused_sizes() {
        let place = || format!("size {cpi}");
        let mut batch = Lent::of(&[2; 64]);
        refused(tally, cpi, &mut batch, refusal(SIZE), &place);
    }
    for cpi in SIZES {
        let right = 2 * COLUMNS * cpi;
        for len in [0, 1, right / 2, right - 1, right + 1, 2 * right] {
            let place = || format!("{len} words for {cpi} cycles");
            let mut batch = Lent::of(&vec![2; len]);
            refused(tally, cpi, &mut batch, refusal(BATCH_LENGTH), &place);
        }
    }
}

fn above_one(place: usize) -> Refusal {
    Refusal {
        number: GIVEN_BIT,
        place,
    }
}

fn each_given_column(tally: &mut Tally) {
    let columns: Vec<usize> = given().collect();
    in_parts(tally, columns.len(), |tally, part| {
        let column = columns[part];
        let (mut batch, ..) = batch(&mut Numbers::for_part(73, part as u64), 1);
        for value in ABOVE_ONE {
            batch.put(column, value);
            let place = || format!("column {column} is {value:#x}");
            refused(tally, 1, &mut batch.words, above_one(column), &place);
        }
    });
}

fn each_derived_column(tally: &mut Tally) {
    let columns: Vec<usize> = derived().collect();
    in_parts(tally, columns.len(), |tally, part| {
        let column = columns[part];
        let (mut batch, cycles, output) = batch(&mut Numbers::for_part(74, part as u64), 1);
        for value in ABOVE_ONE {
            batch.put(column, value);
            let place = || format!("column {column} is {value:#x}");
            let seen = product::first_unmet(1, batch.words.words(), 0);
            tally.same(place, seen, cycles[0].first_unmet(output));
            let mut at_once = KNOWN.map(|_| Lent::of(batch.words.words()));
            fill(tally, &mut batch, &place);
            for (known, at_once) in KNOWN.into_iter().zip(&mut at_once) {
                let right = (product::check_known(known, 1, batch.words.words()), true);
                let seen = product::fill_and_check(known, 1, at_once.words_mut());
                let filled = at_once.words() == batch.words.words();
                tally.same(place, (seen, filled), right);
            }
        }
    });
}

/// The smallest given one is named, whatever derived ones hold and whether the one column is 1.
fn several_columns(tally: &mut Tally) {
    in_parts(tally, 9 * SEVERAL, |tally, part| {
        let cpi = SIZES[part % 9];
        let mut numbers = Numbers::for_part(75, part as u64);
        let (mut batch, ..) = batch(&mut numbers, cpi);
        let mut smallest = usize::MAX;
        while smallest == usize::MAX {
            for _ in 0..1 + numbers.below(6) {
                let at = numbers.below(one_col(cpi) as u64) as usize;
                batch.put(at, ABOVE_ONE[numbers.below(6) as usize]);
                if !is_derived(at / cpi) {
                    smallest = smallest.min(at);
                }
            }
        }
        batch.put(one_col(cpi), numbers.below(3).into());
        let place = || format!("batch {part}, {cpi} cycles");
        refused(tally, cpi, &mut batch.words, above_one(smallest), &place);
    });
}

/// The given columns one by one in the first cycle, in any and in the last, while every derived column
/// of every cycle is above 1. The one column is 0, which is asked for later.
fn each_size(tally: &mut Tally) {
    in_parts(tally, 9 * PARTS, |tally, part| {
        let (cpi, first) = (SIZES[part % 9], part / 9);
        let mut numbers = Numbers::for_part(67, part as u64);
        let (mut batch, ..) = batch(&mut numbers, cpi);
        for at in derived().flat_map(|column| column * cpi..(column + 1) * cpi) {
            batch.put(at, ABOVE_ONE[numbers.below(6) as usize]);
        }
        batch.put(one_col(cpi), 0);
        for column in given().skip(first).step_by(PARTS) {
            for cycle in [0, numbers.below(cpi as u64) as usize, cpi - 1] {
                let at = column * cpi + cycle;
                let bit = batch.z[at].0;
                batch.put(at, ABOVE_ONE[numbers.below(6) as usize]);
                let place = || format!("column {column} of cycle {cycle} of {cpi}");
                let seen = product::fill(cpi, batch.words.words_mut());
                tally.same(place, seen, above_one(at).answer());
                batch.put(at, bit);
            }
        }
        let place = || format!("part {part}, {cpi} cycles, no given column above 1");
        let seen = product::fill(cpi, batch.words.words_mut());
        tally.same(place, seen, refusal(ONE).answer());
        tally.same(place, batch.words.is_right(), true);
    });
}

fn one_column(tally: &mut Tally) {
    for cpi in SIZES {
        let (mut batch, ..) = batch(&mut Numbers::for_part(76, cpi as u64), cpi);
        for value in NOT_ONE {
            batch.put(one_col(cpi), value);
            let place = || format!("the one column of {cpi} cycles is {value:#x}");
            refused(tally, cpi, &mut batch.words, refusal(ONE), &place);
        }
    }
}

/// The cycle is asked for last, and only of the conditions; the last cycle is none too many.
fn cycles_refused(tally: &mut Tally) {
    for cpi in SIZES {
        let (mut batch, cycles, output) = batch(&mut Numbers::for_part(77, cpi as u64), cpi);
        for past in [0, 1, 1 << 32, usize::MAX - cpi] {
            let cycle = cpi + past;
            let place = || format!("cycle {cycle} of {cpi}");
            let words = batch.words.words();
            let seen = product::first_unmet(cpi, words, cycle);
            tally.same(place, seen, refusal(CYCLE).answer());
            let last = product::first_unmet(cpi, words, cpi - 1);
            tally.same(place, last, cycles[cpi - 1].first_unmet(output));
            let none = product::first_unmet(cpi, &words[1..], cycle);
            tally.same(place, none, refusal(BATCH_LENGTH).answer());
            tally.same(place, batch.words.is_right(), true);
        }
    }
}
