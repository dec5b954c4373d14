//! Batches that the strict listing accepts, damaged in a column: derived ones, flags, the one column and any;
//! the zero batch, and elements of any sort in its flags.

use super::cycles::accepted;
use super::judges::{of_both, Judges};
use super::rows::{BIN_ROWS, BYTE, HALF, LOAD, STORE, WORD};
use crate::columns::SIZES;
use crate::filler::derived::{derived, DERIVED};
use crate::filler::filled::one_col;
use crate::listing::FLD_ROWS;
use crate::numbers::Numbers;
use crate::parallel::in_parts;
use crate::report::{test, Tally, Test};
use crate::verdict::answer::{Counts, Verdict};
use crate::verdict::batches::{self, batch_column, Batch, COLUMNS};
use crate::verdict::each_column::CHANGES;
use crate::verdict::named::Named;

/// Batches of each kind, by size.
const BATCHES: [usize; 9] = [1_000, 400, 200, 100, 50, 24, 12, 8, 6];

/// Sizes of which every derived column is flipped, in accepted batches.
const FLIPPED: [(usize, usize); 3] = [(1, 8), (4, 2), (16, 1)];

/// Rows that differ from an accepted one in one column.
const EACH_COLUMN: usize = COLUMNS * CHANGES.len();

const FLAGS: [usize; 5] = [LOAD, STORE, BYTE, HALF, WORD];

const NO_BITS: [u128; 6] = [2, 3, 1 << 64, (1 << 64) + 1, 1 << 127, u128::MAX];

/// What is done to an accepted batch.
#[derive(Clone, Copy, Debug, PartialEq, Eq)]
enum Damage {
    Derived,
    Flag,
    /// All flags of a cycle drawn again.
    Flags,
    /// An element that is no bit in a flag.
    NoBit,
    /// The one column is 0, or no bit.
    One,
    Any,
    /// Elements of any sort in some flags of a batch that is zero, so that no row before the eight decides.
    Zero,
}

const DAMAGES: [Damage; 7] = [
    Damage::Derived,
    Damage::Flag,
    Damage::Flags,
    Damage::NoBit,
    Damage::One,
    Damage::Any,
    Damage::Zero,
];

pub fn tests() -> Vec<Test> {
    let mut tests = vec![
        test(
            "the strict listing, the zero batch of every size",
            SIZES.into_iter().map(|cpi| of_both(cpi) + 1).sum(),
            zero,
        ),
        test(
            "the strict listing, each column of a row made 2, 2^64, 2^127 and flipped",
            EACH_COLUMN as u64 * (of_both(1) + 1),
            each_column,
        ),
    ];
    for (cpi, batches) in FLIPPED {
        let batches = batches * (1 + DERIVED);
        tests.push(test(
            format!("the strict listing, each derived column flipped, {batches} batches of {cpi}"),
            batches as u64 * (of_both(cpi) + 1),
            move |tally| flipped(tally, cpi, batches),
        ));
    }
    for (cpi, batches) in SIZES.into_iter().zip(BATCHES) {
        let of_each = batches as u64;
        let batches = batches * DAMAGES.len();
        tests.push(test(
            format!("the strict listing, {batches} damaged batches of {cpi}"),
            batches as u64 * of_both(cpi) + of_each,
            move |tally| damaged(tally, cpi, batches),
        ));
    }
    tests
}

pub fn batches_judged() -> usize {
    let flipped = FLIPPED.iter().map(|sample| sample.1).sum::<usize>() * (1 + DERIVED);
    SIZES.len() + EACH_COLUMN + flipped + DAMAGES.len() * BATCHES.iter().sum::<usize>()
}

fn zero(tally: &mut Tally) {
    for cpi in SIZES {
        let judges = Judges::of(cpi);
        let mut desk = judges.desk(Numbers::for_part(124, cpi as u64));
        let place = || format!("{cpi} cycles");
        let verdict = judges
            .judge(tally, &mut desk, &mut Batch::zero(cpi), &place)
            .strict;
        let counts = Counts {
            bin: BIN_ROWS * cpi,
            fld: FLD_ROWS * cpi,
        };
        tally.same(place, verdict, Verdict::Accepted { counts });
    }
}

/// Where no row names the column, the row stays accepted.
fn each_column(tally: &mut Tally) {
    let (judges, named) = (Judges::of(1), Named::by_circuit());
    let base = accepted(&mut Numbers::for_test(135), 1);
    in_parts(tally, COLUMNS, |tally, column| {
        let mut batch = Batch::of(1, base.z.clone());
        let mut desk = judges.desk(Numbers::for_part(136, column as u64));
        for (i, change) in CHANGES.into_iter().enumerate() {
            batch.put(column, change(base.z[column].0));
            let place = || format!("column {column}, change {i}");
            let verdict = judges.judge(tally, &mut desk, &mut batch, &place).strict;
            let stays = || format!("{}, named or still accepted", place());
            tally.same(stays, named.has(1, column) || verdict.is_accepted(), true);
        }
    });
}

/// The batch as it is, then with each derived column flipped in turn, in any cycle: no other filling is
/// accepted.
fn flipped(tally: &mut Tally, cpi: usize, batches: usize) {
    let judges = Judges::of(cpi);
    in_parts(tally, batches, |tally, part| {
        let (number, column) = (part / (1 + DERIVED), part % (1 + DERIVED));
        let mut batch = accepted(&mut Numbers::for_part(125, number as u64), cpi);
        let mut numbers = Numbers::for_part(126, (cpi << 32 | part) as u64);
        let column = derived().nth(column);
        if let Some(column) = column {
            let cycle = numbers.below(cpi as u64) as usize;
            batch.xor(batch_column(cpi, column, cycle), 1);
        }
        let place = || format!("batch {number} of {cpi}, column {column:?} flipped");
        let mut desk = judges.desk(numbers);
        let verdict = judges.judge(tally, &mut desk, &mut batch, &place).strict;
        tally.same(place, verdict.is_accepted(), column.is_none());
    });
}

fn damaged(tally: &mut Tally, cpi: usize, batches: usize) {
    let judges = Judges::of(cpi);
    in_parts(tally, batches, |tally, part| {
        let mut numbers = Numbers::for_part(127, (cpi << 32 | part) as u64);
        let damage = DAMAGES[part % DAMAGES.len()];
        let mut batch = match damage {
            Damage::Zero => Batch::zero(cpi),
            _ => accepted(&mut numbers, cpi),
        };
        damage.make(&mut numbers, &mut batch);
        let place = || format!("batch {part} of {cpi}, {damage:?}");
        let mut desk = judges.desk(numbers);
        let verdict = judges.judge(tally, &mut desk, &mut batch, &place).strict;
        if damage == Damage::Derived {
            let accepted = || format!("{}, another filling accepted", place());
            tally.same(accepted, verdict.is_accepted(), false);
        }
    });
}

impl Damage {
    fn make(self, numbers: &mut Numbers, batch: &mut Batch) {
        let cpi = batch.cpi;
        let cycle = numbers.below(cpi as u64) as usize;
        let at = |column| batch_column(cpi, column, cycle);
        match self {
            Damage::Derived => {
                let columns: Vec<usize> = derived().collect();
                batch.xor(at(one_of(numbers, &columns)), 1);
            }
            Damage::Flag => batch.xor(at(one_of(numbers, &FLAGS)), 1),
            Damage::Flags => {
                for flag in FLAGS {
                    batch.put(at(flag), numbers.bit());
                }
            }
            Damage::NoBit => batch.put(at(one_of(numbers, &FLAGS)), one_of(numbers, &NO_BITS)),
            Damage::One => batch.put(one_col(cpi), numbers.bit() * one_of(numbers, &NO_BITS)),
            Damage::Any => {
                let at = numbers.below((COLUMNS * cpi) as u64) as usize;
                batch.xor(at, batches::damage(numbers));
            }
            Damage::Zero => {
                for _ in 0..2 + numbers.below(3) {
                    batch.put(at(one_of(numbers, &FLAGS)), batches::element(numbers));
                }
            }
        }
    }
}

fn one_of<T: Copy>(numbers: &mut Numbers, among: &[T]) -> T {
    among[numbers.below(among.len() as u64) as usize]
}
