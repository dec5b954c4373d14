//! Two batches filled and then merged, and merged and then filled: the same words, and the verdicts as the
//! two say them.

use super::made::made;
use super::told::told;
use super::{at_every_size, share_public};
use crate::filler::conditions::{Cycle, CONDITIONS};
use crate::filler::cycles::Wanted;
use crate::filler::filled::{batch_of, one_col, output};
use crate::numbers::Numbers;
use crate::report::{test, Tally, Test};
use crate::verdict::answer::Verdict;
use crate::verdict::batches::{self, Batch};
use crate::verdict::known::KNOWN;
use crate::verdict::lent::first_apart;

/// Merges of each size.
const MERGES: [usize; 8] = [400, 200, 120, 60, 40, 20, 12, 8];

/// Comparisons of a merge: both merges, the filler's answers, the words, and the verdicts by both listings.
const OF_A_MERGE: u64 = 2 + 1 + 1 + KNOWN.len() as u64;

pub fn tests() -> Vec<Test> {
    vec![test(
        format!(
            "merging, filled before and filled after, {} merges at every size",
            merges()
        ),
        merges() as u64 * OF_A_MERGE,
        each_merge,
    )]
}

pub fn merges() -> usize {
    MERGES.iter().sum()
}

fn each_merge(tally: &mut Tally) {
    at_every_size(tally, 146, MERGES, |tally, mut numbers, cpi, part| {
        let place = |what: &str| format!("merge {part} of {cpi}, {what}");
        let output = output(&mut numbers);
        let mut given = [(); 2].map(|()| any_batch(&mut numbers, cpi, output));
        share_public(&mut given);
        let given = given.map(|batch| batch.words.words().to_vec());

        let mut merge = |tally: &mut Tally, two: &[Vec<u64>; 2]| {
            let words = two.each_ref().map(|words| &words[..]);
            made(tally, &mut numbers, cpi, words, &|| place("merged"))
        };
        let unfilled = merge(tally, &given);
        let mut after = unfilled.clone();
        let mut filled = given.clone();
        let [first, second] = &mut filled;
        let answers = [(cpi, first), (cpi, second), (2 * cpi, &mut after)]
            .map(|(cpi, batch)| product::fill(cpi, batch));
        tally.same(|| place("filled"), answers, [0; 3]);
        let before = merge(tally, &filled);
        tally.same(|| place("words"), first_apart(&after, &before), None);

        for known in KNOWN {
            let check = |cpi, batch: &Vec<u64>| {
                let answer = product::fill_and_check(known, cpi, &mut batch.clone());
                Verdict::read(answer)
            };
            let [first, second] = given.each_ref().map(|batch| check(cpi, batch));
            let right = told(cpi, first.expect("a verdict"), second.expect("a verdict"));
            let place = || place(&format!("filled and checked in one call, {known:?}"));
            tally.same(place, check(2 * cpi, &unfilled), Some(right));
        }
    });
}

/// Cycles that meet the conditions, the same but for one cycle, or any bits. The filler refuses none.
fn any_batch(numbers: &mut Numbers, cpi: usize, output: u128) -> Batch {
    let kind = numbers.below(3);
    if kind == 0 {
        let mut batch = Batch::of(cpi, batches::bits(numbers, cpi));
        batch.put(one_col(cpi), 1);
        return batch;
    }
    let broken = numbers.below(cpi as u64) as usize;
    let cycle = |d| {
        let condition = match kind {
            1 if d == broken => 1 + numbers.below(CONDITIONS as u64) as usize,
            _ => 0,
        };
        Wanted::any(numbers, condition, output).make(numbers)
    };
    let cycles: Vec<Cycle> = (0..cpi).map(cycle).collect();
    batch_of(numbers, &cycles, output)
}
