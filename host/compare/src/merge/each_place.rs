//! Where each column of each cycle is put, by the original's `map_z_col` of both sizes.

use super::{any_two, SIZES, WORDS};
use crate::numbers::Numbers;
use crate::original;
use crate::parallel::in_parts;
use crate::report::{test, Tally, Test};
use crate::verdict::batches::COLUMNS;

pub fn tests() -> Vec<Test> {
    let cells = |cpi: usize| (COLUMNS * 2 * cpi) as u64;
    vec![test(
        "merging, each column of each cycle by map_z_col",
        SIZES.into_iter().map(|cpi| 1 + cells(cpi)).sum(),
        each_size,
    )]
}

fn each_size(tally: &mut Tally) {
    in_parts(tally, SIZES.len(), |tally, part| {
        let cpi = SIZES[part];
        let mut numbers = Numbers::for_part(141, cpi as u64);
        let given = any_two(&mut numbers, cpi, [Numbers::dense; 2]);
        let mut merged = numbers.words(2 * WORDS * cpi);
        let answer = product::merge(cpi, &given[0], cpi, &given[1], &mut merged);
        tally.same(|| format!("two batches of {cpi}"), answer, 0);
        let [of_one, of_both] = [cpi, 2 * cpi].map(original::geometry);
        let element = |words: &[u64], at: usize| [words[2 * at], words[2 * at + 1]];
        for column in 0..COLUMNS {
            for cycle in 0..2 * cpi {
                let at = of_both.map_z_col(column, cycle);
                let from = of_one.map_z_col(column, cycle % cpi);
                let right = element(&given[cycle / cpi], from);
                let place = || format!("column {column} of cycle {cycle} of {}", 2 * cpi);
                tally.same(place, element(&merged, at), right);
            }
        }
    });
}
