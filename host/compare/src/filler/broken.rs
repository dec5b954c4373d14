//! Each of the ten step conditions broken by itself, in the first, a middle and the last cycle: the
//! batch fails there, in a row that stands for the condition.

use std::ops::Range;

use super::conditions::CONDITIONS;
use super::cycles::Wanted;
use super::filled::{at_once, batch_of, fill, output, OF_BOTH_AT_ONCE};
use crate::columns::SIZES;
use crate::house::Relation;
use crate::numbers::Numbers;
use crate::parallel::in_parts;
use crate::report::{test, Tally, Test};
use crate::verdict::answer::Verdict;
use crate::verdict::boundary;
use crate::verdict::judge::{Desk, Judge, OF_A_VERDICT};
use crate::verdict::known::Known;

/// Times that each condition is broken in each of the three cycles, by size.
const TIMES: [usize; 9] = [32, 16, 8, 8, 4, 4, 2, 1, 1];

/// Cycles of a batch in which a condition is broken.
const CYCLES: usize = 3;

/// Comparisons of a batch beside the verdict's: two of filling, the condition, where it fails.
const OTHERS: u64 = 4;

pub fn tests() -> Vec<Test> {
    let of_size = |(cpi, times)| {
        let batches = times * CYCLES * CONDITIONS;
        let of_a_batch = OF_A_VERDICT + boundary::compared(cpi) + OF_BOTH_AT_ONCE + OTHERS;
        test(
            format!("each condition broken in the first, a middle and the last cycle, {batches} batches of {cpi}"),
            batches as u64 * of_a_batch,
            move |tally| all(tally, cpi, batches),
        )
    };
    SIZES.into_iter().zip(TIMES).map(of_size).collect()
}

/// The rows of a cycle of which one fails where condition k is broken, by document 01.
fn rows_of(k: usize) -> (Relation, Range<usize>) {
    match k {
        1 => (Relation::Fld, 1..2),
        2 => (Relation::Fld, 5..6),
        3 => (Relation::Fld, 0..1),
        4 => (Relation::Fld, 3..5),
        5 => (Relation::Fld, 6..7),
        // CA, CH and CH2 of each lane.
        6 | 7 => (Relation::Fld, 7..31),
        8 => (Relation::Bin, 322..370),
        9 => (Relation::Bin, 370..378),
        10 => (Relation::Bin, 255..263),
        _ => unreachable!("there are ten conditions"),
    }
}

fn all(tally: &mut Tally, cpi: usize, batches: usize) {
    let judge = Judge::of_circuit(cpi);
    in_parts(tally, batches, |tally, part| {
        let k = 1 + part % CONDITIONS;
        let cycle = [0, cpi / 2, cpi - 1][part / CONDITIONS % CYCLES];
        let numbers = Numbers::for_part(78, (cpi << 32 | part) as u64);
        let place = || format!("condition {k} broken in cycle {cycle} of {cpi}, batch {part}");
        breaks(tally, &judge, numbers, k, cycle, &place);
    });
}

fn breaks(
    tally: &mut Tally,
    judge: &Judge,
    mut numbers: Numbers,
    k: usize,
    cycle: usize,
    place: &dyn Fn() -> String,
) {
    let cpi = judge.cpi;
    let output = output(&mut numbers);
    let cycles: Vec<_> = (0..cpi)
        .map(|d| {
            Wanted::any(&mut numbers, if d == cycle { k } else { 0 }, output).make(&mut numbers)
        })
        .collect();
    let mut batch = batch_of(&mut numbers, &cycles, output);
    fill(tally, &mut batch, place);
    let unmet = product::first_unmet(cpi, batch.words.words(), cycle);
    tally.same(|| format!("{}, unmet", place()), unmet, k as u64);

    let mut desk = Desk::of(&judge.listing, numbers);
    let verdict = judge.judge(tally, &mut desk, &mut batch, place);
    boundary::same(tally, &mut batch, verdict, place);
    let mut numbers = Numbers::for_part(79, (cpi << 16 | cycle << 8 | k) as u64);
    at_once(tally, &mut numbers, Known::House, &batch, verdict, place);
    let fails = || format!("{}, fails in a row of it: {verdict:?}", place());
    tally.same(fails, is_in(verdict, cycle, rows_of(k)), true);
}

fn is_in(verdict: Verdict, cycle: usize, (wanted, rows): (Relation, Range<usize>)) -> bool {
    match verdict {
        Verdict::Accepted { .. } => false,
        Verdict::Failed {
            relation,
            batch_row,
            ..
        } => {
            let first = wanted.padded_rows() * cycle;
            relation == wanted && (first + rows.start..first + rows.end).contains(&batch_row)
        }
    }
}
