//! Every column of accepted batches changed by itself: to elements that are no bits, and flipped. Where
//! no row names the column, the batch stays accepted.

use super::batches::{batch_column, Batch, COLUMNS, ONE_COLUMN};
use super::boundary;
use super::judge::{of_a_house_verdict, Desk, Judge, OF_A_VERDICT};
use super::named::Named;
use crate::columns::SIZES;
use crate::filler::filled::{accepted, output};
use crate::numbers::Numbers;
use crate::parallel::in_parts;
use crate::report::{test, Tally, Test};

/// What a column becomes, from what it was.
pub type Change = fn(u128) -> u128;

pub const CHANGES: [Change; 4] = [|_| 2, |_| 1 << 64, |_| 1 << 127, |bit| bit ^ 1];

/// Rows whose every column is changed.
const ROWS: usize = 3;

/// The size above 1 of which every column of one batch is changed.
const WHOLE: usize = 4;

/// Sizes of which some columns are, and how many.
const SAMPLES: [(usize, usize); 2] = [(16, 3000), (256, 240)];

/// What the one column is changed to, in every size.
const NOT_ONE: [u128; 6] = [0, 2, 3, 1 << 64, (1 << 64) + 1, 1 << 127];

pub fn tests() -> Vec<Test> {
    let rows = (ROWS * COLUMNS * CHANGES.len()) as u64;
    let whole = (COLUMNS * WHOLE * CHANGES.len()) as u64;
    let mut tests = vec![
        test(
            format!("each column of {ROWS} rows made 2, 2^64, 2^127 and flipped"),
            rows * (OF_A_VERDICT + boundary::compared(1) + 1),
            each_of_a_row,
        ),
        test(
            format!("each column of a batch of {WHOLE} made 2, 2^64, 2^127 and flipped"),
            whole * (of_a_house_verdict(WHOLE) + 1),
            each_of_a_batch,
        ),
    ];
    for (cpi, columns) in SAMPLES {
        tests.push(test(
            format!("{columns} columns of batches of {cpi} made 2, 2^64, 2^127 or flipped"),
            columns as u64 * (of_a_house_verdict(cpi) + 1),
            move |tally| some(tally, cpi, columns),
        ));
    }
    let of_size = |cpi| NOT_ONE.len() as u64 * of_a_house_verdict(cpi);
    tests.push(test(
        "the one column 0, 2 and others that are not 1, every size",
        SIZES.into_iter().map(of_size).sum(),
        one_column,
    ));
    tests
}

/// Batches that these tests judge.
pub fn batches_judged() -> usize {
    let samples: usize = SAMPLES.iter().map(|sample| sample.1).sum();
    (ROWS + WHOLE) * COLUMNS * CHANGES.len() + samples + 9 * NOT_ONE.len()
}

fn base(sequence: u64, cpi: usize) -> Batch {
    let mut numbers = Numbers::for_part(34, sequence);
    let output = output(&mut numbers);
    accepted(&mut numbers, cpi, output)
}

fn each_of_a_row(tally: &mut Tally) {
    let (judge, named) = (Judge::of_circuit(1), Named::by_circuit());
    let bases: Vec<Batch> = (0..ROWS as u64).map(|row| base(row, 1)).collect();
    in_parts(tally, COLUMNS, |tally, column| {
        let mut desk = Desk::of(&judge.listing, Numbers::for_part(35, column as u64));
        for (row, base) in bases.iter().enumerate() {
            let mut batch = Batch::of(1, base.z.clone());
            for (i, change) in CHANGES.into_iter().enumerate() {
                batch.put(column, change(base.z[column].0));
                let place = || format!("row {row}, column {column}, change {i}");
                let verdict = judge.judge(tally, &mut desk, &mut batch, &place);
                boundary::same(tally, &mut batch, verdict, &place);
                let accepted = verdict.relation().is_none();
                stays(tally, named.has(1, column), accepted, &place);
            }
        }
    });
}

/// A batch of which no row names the changed column is accepted as before.
fn stays(tally: &mut Tally, named: bool, accepted: bool, place: &dyn Fn() -> String) {
    let place = || format!("{}, named or still accepted", place());
    tally.same(place, named || accepted, true);
}

/// Parts are runs of columns, for a batch is made for each.
fn each_of_a_batch(tally: &mut Tally) {
    const RUN: usize = 64;
    let (judge, named) = (Judge::of_circuit(WHOLE), Named::by_circuit());
    let base = base(ROWS as u64, WHOLE);
    in_parts(tally, COLUMNS * WHOLE / RUN, |tally, part| {
        let mut batch = Batch::of(WHOLE, base.z.clone());
        for at in part * RUN..(part + 1) * RUN {
            for change in CHANGES {
                changed(tally, &judge, &named, &mut batch, at, change);
            }
        }
    });
}

/// Every second column is one that rows name, in any cycle; the others are any batch columns.
fn some(tally: &mut Tally, cpi: usize, columns: usize) {
    const RUN: usize = 30;
    let (judge, named) = (Judge::of_circuit(cpi), Named::by_circuit());
    let names = named.columns();
    in_parts(tally, columns / RUN, |tally, part| {
        let mut numbers = Numbers::for_part(36, (cpi << 32 | part) as u64);
        let mut batch = base(numbers.next(), cpi);
        for i in 0..RUN {
            let at = if i % 2 == 0 {
                let column = names[numbers.below(names.len() as u64) as usize];
                let cycle = numbers.below(cpi as u64) as usize;
                batch_column(cpi, column, cycle)
            } else {
                numbers.below((COLUMNS * cpi) as u64) as usize
            };
            let change = CHANGES[numbers.below(CHANGES.len() as u64) as usize];
            changed(tally, &judge, &named, &mut batch, at, change);
        }
    });
}

/// One column of an accepted batch changed, and put back.
fn changed(
    tally: &mut Tally,
    judge: &Judge,
    named: &Named,
    batch: &mut Batch,
    at: usize,
    change: Change,
) {
    let (cpi, before) = (judge.cpi, batch.z[at].0);
    let value = change(before);
    batch.put(at, value);
    let place = || format!("batch column {at} of {cpi} cycles is {value:#x}");
    let verdict = judge.judge_house(tally, batch, &place);
    batch.put(at, before);
    let accepted = verdict.relation().is_none();
    stays(tally, named.has(cpi, at), accepted, &place);
}

fn one_column(tally: &mut Tally) {
    for cpi in SIZES {
        let judge = Judge::of_circuit(cpi);
        in_parts(tally, NOT_ONE.len(), |tally, part| {
            let mut batch = base(cpi as u64, cpi);
            let value = NOT_ONE[part];
            batch.put(ONE_COLUMN * cpi, value);
            let place = || format!("the one column of {cpi} cycles is {value:#x}");
            judge.judge_house(tally, &mut batch, &place);
        });
    }
}
