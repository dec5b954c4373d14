//! Accepted batches with a single derived column flipped, which must fail.

use super::derived::{derived, DERIVED};
use super::filled::{accepted, output};
use crate::columns::SIZES;
use crate::numbers::Numbers;
use crate::parallel::in_parts;
use crate::report::{test, Tally, Test};
use crate::verdict::batches::{batch_column, Batch};
use crate::verdict::judge::{of_a_house_verdict, Judge};

/// Batches of each size that are flipped in all 419 columns of one cycle.
const SAMPLE: [usize; 9] = [40, 8, 4, 2, 2, 2, 1, 1, 1];

/// Parts of one batch's flips, so that one large batch keeps all processors busy.
const PARTS: usize = 8;

pub fn tests() -> Vec<Test> {
    let mut tests = Vec::new();
    for (cpi, batches) in SIZES.into_iter().zip(SAMPLE) {
        let of_a_batch = of_a_house_verdict(cpi) + 1;
        tests.push(test(
            format!("each derived column flipped, accepted batches of {cpi}"),
            (batches * (1 + DERIVED)) as u64 * of_a_batch,
            move |tally| flips(tally, cpi, batches),
        ));
    }
    tests
}

fn flips(tally: &mut Tally, cpi: usize, batches: usize) {
    let judge = Judge::of_circuit(cpi);
    for number in 0..batches {
        let mut numbers = Numbers::for_part(72, (cpi << 32 | number) as u64);
        let output = output(&mut numbers);
        let mut batch = accepted(&mut numbers, cpi, output);
        let place = || format!("batch {number} of {cpi} cycles");
        let verdict = judge.judge_house(tally, &mut batch, &place);
        tally.same(place, verdict.relation(), None);

        let cycle = numbers.below(cpi as u64) as usize;
        let columns: Vec<usize> = derived().collect();
        in_parts(tally, PARTS, |tally, part| {
            let mut batch = Batch::of(cpi, batch.z.clone());
            for &column in columns.iter().skip(part).step_by(PARTS) {
                let at = batch_column(cpi, column, cycle);
                let place = || format!("{}, column {column} of cycle {cycle}", place());
                batch.xor(at, 1);
                let verdict = judge.judge_house(tally, &mut batch, &place);
                batch.xor(at, 1);
                tally.same(place, verdict.relation().is_some(), true);
            }
        });
    }
}
