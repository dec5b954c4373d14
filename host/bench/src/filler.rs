//! The filler, which the original has not, beside the product's own plain check.

use std::hint::black_box;
use std::ops::RangeInclusive;

use crate::inputs::{Accepted, HOUSE, MOST_SCRATCH};
use crate::table::{head, two};
use crate::timing::{in_turn, Work};
use crate::CHECKS;

/// The derived columns, by document 01.
pub const DERIVED: [RangeInclusive<usize>; 6] = [
    448..=511,
    576..=767,
    773..=773,
    779..=779,
    896..=953,
    1024..=1126,
];

pub fn print() {
    head(&[
        "the filler, which the original has not",
        "unit",
        "`check_row`, the plain walk",
        "`fill`",
        "walk / `fill`",
        "best of",
    ]);
    for (cpi, batches, repetitions) in CHECKS {
        let both = time(cpi, batches, repetitions);
        two(&format!("cpi {cpi}"), "µs a cycle", both, repetitions);
    }
}

/// Seconds a cycle of the plain `check_row` and of `fill`. The derived columns hold 1 before the
/// first turn, and the original's after.
fn time(cpi: usize, batches: usize, repetitions: usize) -> [f64; 2] {
    let accepted = Accepted::new(cpi, batches);
    let listing = HOUSE.words();
    let mut scratch = vec![0; MOST_SCRATCH];
    let mut filled = accepted.words.clone();
    for words in &mut filled {
        for column in DERIVED.into_iter().flatten() {
            for cycle in 0..cpi {
                words[2 * (column * cpi + cycle)] = 1;
            }
        }
    }
    assert!(filled != accepted.words, "there is nothing to fill");
    let units = cpi * batches;
    let best = in_turn(
        Work { units, repetitions },
        [
            &mut || {
                for words in &accepted.words {
                    let words = black_box(&words[..]);
                    let verdict = product::check_row_plain(cpi, &listing, words, &mut scratch);
                    assert_eq!(verdict, HOUSE.accepted(cpi), "the product does not accept");
                }
            },
            &mut || {
                for words in &mut filled {
                    let answer = product::fill(cpi, black_box(&mut words[..]));
                    assert_eq!(answer, 0, "the filler refuses");
                }
            },
        ],
    );
    assert!(
        filled == accepted.words,
        "the filling is not the original's"
    );
    best
}
