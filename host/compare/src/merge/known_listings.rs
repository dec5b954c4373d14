//! Merges judged by the listings that are known by name: each of the two accepted, failing in bin or failing
//! in fld, in all nine pairs.

use super::judged::{Judges, OF_A_KNOWN_MERGE};
use super::pairs::{Met, OF_ALL_PAIRS, PAIRS};
use super::two_batches::Maker;
use super::SIZES;
use crate::numbers::Numbers;
use crate::parallel::in_parts;
use crate::report::{test, Tally, Test};
use crate::verdict::batches::Batch;
use crate::verdict::known::{self, Known, KNOWN};

/// Times that each pair is made, by size.
const TIMES: [usize; 8] = [60, 40, 24, 16, 10, 6, 4, 3];

/// Each pair is one in so many merges at least.
const ONE_IN: usize = 10;

pub fn tests() -> Vec<Test> {
    let mut tests = Vec::new();
    for known in KNOWN {
        let name = known::name(known);
        for (cpi, times) in SIZES.into_iter().zip(TIMES) {
            let merges = times * PAIRS.len();
            tests.push(test(
                format!("merging judged, {name}, {merges} times two batches of {cpi}, nine pairs"),
                merges as u64 * OF_A_KNOWN_MERGE + OF_ALL_PAIRS,
                move |tally| of_size(tally, known, cpi, merges),
            ));
        }
        tests.push(test(
            format!("merging judged, {name}, zero batches of every size"),
            SIZES.len() as u64 * OF_A_KNOWN_MERGE,
            move |tally| zero(tally, known),
        ));
    }
    tests
}

pub fn merges() -> usize {
    KNOWN.len() * (PAIRS.len() * TIMES.iter().sum::<usize>() + SIZES.len())
}

fn of_size(tally: &mut Tally, known: Known, cpi: usize, merges: usize) {
    let (judges, maker) = (Judges::of_known(known, cpi), Maker::new(known, cpi));
    let met = Met::default();
    in_parts(tally, merges, |tally, part| {
        let sequence = cpi << 32 | part << 1 | known as usize;
        let mut numbers = Numbers::for_part(143, sequence as u64);
        let pair = PAIRS[part % PAIRS.len()];
        let given = maker.two(&mut numbers, pair);
        let place = || format!("merge {part} of {cpi}, {pair:?}");
        judges.judge(tally, numbers, given, (pair, &met), &place);
    });
    met.are_frequent(tally, ONE_IN, merges);
}

fn zero(tally: &mut Tally, known: Known) {
    for cpi in SIZES {
        let judges = Judges::of_known(known, cpi);
        let numbers = Numbers::for_part(144, cpi as u64);
        let given = [(); 2].map(|()| Batch::zero(cpi));
        let meant = ([None; 2], &Met::default());
        judges.judge(tally, numbers, given, meant, &|| format!("{cpi} cycles"));
    }
}
