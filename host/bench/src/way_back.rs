//! The way back, which the original has not, beside the same in Rust by division and by shift; and the
//! filler's question 11, which asks of every batch column above 1 which column it is.

use std::hint::black_box;

use crate::filler::DERIVED;
use crate::inputs::Accepted;
use crate::table::{head, line, nano, two};
use crate::timing::{in_turn, Work};
use crate::CHECKS;

const W_COLS: usize = 2048;

/// Calls of one repetition, repetitions.
const CALLS: usize = 4096;
const REPETITIONS: usize = 2001;

pub fn print() {
    head(&[
        "the way back, which the original has not",
        "unit",
        "Rust, `/` and `%`",
        "Rust, `>>` and `&`",
        "`unmap_col`",
        "`map_col`",
        "best of",
    ]);
    for (cpi, _, _) in CHECKS {
        let mut cells = vec![format!("cpi {cpi}, each call after the last"), "ns".into()];
        cells.extend(time(cpi).map(nano));
        cells.push(REPETITIONS.to_string());
        line(&cells);
    }
    head(&[
        "question 11 of the filler",
        "unit",
        "derived columns above 1",
        "derived columns 0 or 1",
        "above 1 / bits",
        "best of",
    ]);
    for (cpi, batches, repetitions) in CHECKS {
        let both = time_question(cpi, batches, repetitions);
        two(&format!("cpi {cpi}"), "µs a cycle", both, repetitions);
    }
}

/// Seconds a call. No call is inlined, and none has another call inside.
fn time(cpi: usize) -> [f64; 4] {
    for batch_column in 0..W_COLS * cpi {
        for part in [0, 1] {
            let right = by_division(cpi, batch_column, part);
            let shifted = by_shift(cpi, batch_column, part);
            assert_eq!(shifted, right, "shift and mask");
            let back = product_way_back(cpi, batch_column, part);
            assert_eq!(back, right, "unmap_col");
        }
    }
    let work = Work {
        units: CALLS,
        repetitions: REPETITIONS,
    };
    in_turn(
        work,
        [
            &mut || walk(cpi, by_division),
            &mut || walk(cpi, by_shift),
            &mut || walk(cpi, product_way_back),
            &mut || walk(cpi, product_map_col),
        ],
    )
}

/// Calls from cpi, batch column and part, 0 for the column and 1 for the cycle. What a call gives is added
/// to the next one's column, 0 times, so that it has to be waited for.
fn walk(cpi: usize, way: impl Fn(usize, usize, u32) -> u64) {
    let zero = black_box(0);
    let mut answer = 0;
    for call in 0..CALLS {
        let batch_column = (call * 1021 + zero * answer as usize) & (W_COLS * cpi - 1);
        answer = way(black_box(cpi), batch_column, call as u32 % 2);
    }
    black_box(answer);
}

const REFUSED: u64 = u64::MAX;

fn is_refused(cpi: usize, batch_column: usize) -> bool {
    !cpi.is_power_of_two() || cpi > 256 || batch_column >= W_COLS * cpi
}

#[inline(never)]
fn by_division(cpi: usize, batch_column: usize, part: u32) -> u64 {
    if is_refused(cpi, batch_column) {
        return REFUSED;
    }
    let (column, cycle) = (batch_column / cpi, batch_column % cpi);
    (if part == 0 { column } else { cycle }) as u64
}

#[inline(never)]
fn by_shift(cpi: usize, batch_column: usize, part: u32) -> u64 {
    if is_refused(cpi, batch_column) {
        return REFUSED;
    }
    let (column, cycle) = (
        batch_column >> cpi.trailing_zeros(),
        batch_column & (cpi - 1),
    );
    (if part == 0 { column } else { cycle }) as u64
}

#[inline]
fn product_way_back(cpi: usize, batch_column: usize, part: u32) -> u64 {
    product::way_back(cpi, batch_column, part).unwrap_or(REFUSED)
}

/// The way there, of the column whose number is the low bits: a call of the same sort.
#[inline]
fn product_map_col(cpi: usize, batch_column: usize, _part: u32) -> u64 {
    product::map_col(cpi, batch_column % W_COLS, 0).unwrap_or(REFUSED)
}

/// Seconds a cycle of a call of the filler that question 12 refuses, after 11: the one column is 0.
fn time_question(cpi: usize, batches: usize, repetitions: usize) -> [f64; 2] {
    let mut bits = Accepted::new(cpi, batches).words;
    for words in &mut bits {
        words[2 * W_COLS * cpi] = 0;
    }
    let mut above = bits.clone();
    for words in &mut above {
        for column in DERIVED.into_iter().flatten() {
            for cycle in 0..cpi {
                words[2 * (column * cpi + cycle)] = 2;
            }
        }
    }
    let units = cpi * batches;
    in_turn(
        Work { units, repetitions },
        [&mut || refused(cpi, &mut above), &mut || {
            refused(cpi, &mut bits)
        }],
    )
}

fn refused(cpi: usize, batches: &mut [Vec<u64>]) {
    const ONE_COLUMN: u64 = 1 << 63 | 12 << 32;
    for words in batches {
        let answer = product::fill(cpi, black_box(&mut words[..]));
        assert_eq!(answer, ONE_COLUMN, "the filler does not answer 12");
    }
}
