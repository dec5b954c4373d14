//! Merges judged by listings drawn by chance, over batches of elements of any sort and of bits: the rows hold,
//! but where a column of its own spoils one of bin or one of fld.

use super::judged::{Judges, OF_A_MERGE};
use super::pairs::{Met, Pair, OF_ALL_PAIRS, PAIRS};
use super::{share_public, SIZES};
use crate::house::Relation::{self, Bin, Fld};
use crate::numbers::Numbers;
use crate::parallel::in_parts;
use crate::report::{test, Tally, Test};
use crate::verdict::apart::{any_of, spoil, Outcome, Rows};
use crate::verdict::batches::{self, batch_column, Batch, ONE_COLUMN};

/// Times that each case is drawn, by size.
const TIMES: [usize; 8] = [10, 8, 6, 4, 3, 2, 2, 1];

/// Each pair is one in so many merges at least.
const ONE_IN: usize = 15;

/// The columns that spoil a row of each relation.
const SPOILERS: [(Relation, usize); 2] = [(Bin, 1500), (Fld, 1501)];

const ROWS: [Rows; 5] = [
    Rows::Both,
    Rows::All,
    Rows::BinAlone,
    Rows::FldAlone,
    Rows::Empty,
];

/// Pairs that listings of each of `ROWS` can have: all nine twice, four twice, one.
const CASES: usize = 2 * 9 + 2 * 4 + 1;

pub fn tests() -> Vec<Test> {
    let of_size = |(cpi, times): (usize, usize)| {
        let merges = times * CASES;
        test(
            format!("merging judged, {merges} other listings, two batches of {cpi}, nine pairs"),
            merges as u64 * OF_A_MERGE + OF_ALL_PAIRS,
            move |tally| of_size(tally, cpi, merges),
        )
    };
    SIZES.into_iter().zip(TIMES).map(of_size).collect()
}

pub fn merges() -> usize {
    CASES * TIMES.iter().sum::<usize>()
}

fn cases() -> Vec<(Rows, Pair)> {
    let of_rows = |rows: Rows| {
        let can_be = move |pair: &Pair| pair.iter().flatten().all(|&relation| has(rows, relation));
        PAIRS
            .into_iter()
            .filter(can_be)
            .map(move |pair| (rows, pair))
    };
    ROWS.into_iter().flat_map(of_rows).collect()
}

fn has(rows: Rows, relation: Relation) -> bool {
    match rows {
        Rows::Both | Rows::All => true,
        Rows::BinAlone => relation == Bin,
        Rows::FldAlone => relation == Fld,
        Rows::Empty => false,
    }
}

fn of_size(tally: &mut Tally, cpi: usize, merges: usize) {
    let (cases, met) = (cases(), Met::default());
    in_parts(tally, merges, |tally, part| {
        let mut numbers = Numbers::for_part(145, (cpi << 32 | part) as u64);
        let (rows, pair) = cases[part % cases.len()];
        let mut listing = rows.make(&mut numbers, 2 * cpi);
        for (relation, column) in SPOILERS {
            if has(rows, relation) {
                spoil(&mut numbers, &mut listing, relation, column);
            }
        }
        let make = [batches::dense, batches::bits][numbers.below(2) as usize];
        let mut given = pair.map(|outcome| {
            let batch = Batch::of(cpi, make(&mut numbers, cpi));
            spoiled(&mut numbers, batch, outcome)
        });
        share_public(&mut given);
        let place = || format!("listing {part}, {rows:?}, two batches of {cpi}, {pair:?}");
        let judges = Judges::of(&listing, cpi);
        judges.judge(tally, numbers, given, (pair, &met), &place);
    });
    met.are_frequent(tally, ONE_IN, merges);
}

/// The row of the relation that is to fail does not hold in one cycle. Where it is one of bin, one of fld
/// may not either.
fn spoiled(numbers: &mut Numbers, mut batch: Batch, outcome: Outcome) -> Batch {
    let cpi = batch.cpi;
    batch.put(batch_column(cpi, ONE_COLUMN, 0), 1);
    let both = outcome == Some(Bin) && numbers.below(2) == 0;
    for (relation, column) in SPOILERS {
        for cycle in 0..cpi {
            batch.put(batch_column(cpi, column, cycle), 0);
        }
        if both || outcome == Some(relation) {
            let at = batch_column(cpi, column, any_of(numbers, cpi));
            batch.put(at, batches::damage(numbers));
        }
    }
    batch
}
