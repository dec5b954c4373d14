//! The bit test of the merged batch, told by those of the two: none, one or two columns above 1 in either.

use super::made::made;
use super::{any_two, at_every_size};
use crate::numbers::Numbers;
use crate::report::{test, Tally, Test};
use crate::verdict::answer::above_one;
use crate::verdict::apart::any_of;
use crate::verdict::batches::{self, batch_column, WITNESS_COLUMNS};

/// Merges of each size.
const MERGES: [usize; 8] = [600, 300, 200, 100, 60, 40, 20, 20];

/// How many columns are above 1 in the first and in the second. With the last it is one column in both.
const PLANTED: [[usize; 2]; 10] = [
    [0, 0],
    [0, 1],
    [0, 2],
    [1, 0],
    [1, 1],
    [1, 2],
    [2, 0],
    [2, 1],
    [2, 2],
    [1, 1],
];

/// Comparisons of a merge: what is written, the answer on it by the two answers, and by what was planted.
const OF_A_MERGE: u64 = 3;

pub fn tests() -> Vec<Test> {
    vec![test(
        format!(
            "merging, the bit test of the two and of the merge, {} merges at every size",
            merges()
        ),
        merges() as u64 * OF_A_MERGE,
        each_merge,
    )]
}

pub fn merges() -> usize {
    MERGES.iter().sum()
}

fn each_merge(tally: &mut Tally) {
    at_every_size(tally, 147, MERGES, |tally, mut numbers, cpi, part| {
        let mut given = any_two(&mut numbers, cpi, [Numbers::bit, batches::element]);
        let cells = planted(&mut numbers, cpi, part % PLANTED.len());
        for (batch, cells) in given.iter_mut().zip(&cells) {
            for &(column, cycle) in cells {
                let at = batch_column(cpi, column, cycle);
                let value = 2 << numbers.below(127) | numbers.bit();
                batch[2 * at] = value as u64;
                batch[2 * at + 1] = (value >> 64) as u64;
            }
        }
        let place = || format!("merge {part} of {cpi}, {cells:?}");
        let words = given.each_ref().map(|words| &words[..]);
        let batch = made(tally, &mut numbers, cpi, words, &place);
        let answer = product::bit_test(2 * cpi, &batch);
        let two = words.map(|words| above(product::bit_test(cpi, words)));
        tally.same(place, above(answer), told(cpi, two));
        let right = first_of(cpi, &cells).map_or(0, |at| above_one(2 * cpi, at));
        tally.same(place, answer, right);
    });
}

/// Column and cycle.
type Cell = (usize, usize);

/// Cells of the first and of the second, near the ends or anywhere.
fn planted(numbers: &mut Numbers, cpi: usize, case: usize) -> [Vec<Cell>; 2] {
    let mut cell = |_| {
        let column = any_of(numbers, WITNESS_COLUMNS);
        (column, any_of(numbers, cpi))
    };
    let mut cells = PLANTED[case].map(|count| (0..count).map(&mut cell).collect::<Vec<_>>());
    if case == PLANTED.len() - 1 {
        cells[1][0].0 = cells[0][0].0;
    }
    cells
}

/// The smallest batch column of the merge among those that were planted.
fn first_of(cpi: usize, [first, second]: &[Vec<Cell>; 2]) -> Option<usize> {
    let of_first = |&(column, cycle): &Cell| batch_column(2 * cpi, column, cycle);
    let of_second = |&(column, cycle): &Cell| batch_column(2 * cpi, column, cpi + cycle);
    let first = first.iter().map(of_first);
    first.chain(second.iter().map(of_second)).min()
}

/// Where the bit test finds a column above 1.
#[derive(Clone, Copy, Debug, PartialEq, Eq)]
struct Above {
    column: usize,
    cycle: usize,
    batch_column: usize,
}

/// What an answer of the bit test says: nothing where all are bits.
fn above(answer: u64) -> Option<Above> {
    match answer >> 62 {
        0 if answer == 0 => None,
        1 => Some(Above {
            column: (answer >> 32 & 0xffff) as usize,
            cycle: (answer >> 48 & 0x3fff) as usize,
            batch_column: answer as u32 as usize,
        }),
        _ => panic!("the bit test answers {answer:#x}"),
    }
}

/// All bits exactly when both are. Else the smaller column, and of one column the first batch's.
fn told(cpi: usize, [first, second]: [Option<Above>; 2]) -> Option<Above> {
    let place = match (first, second) {
        (Some(one), Some(other)) if other.column < one.column => behind(cpi, other),
        (Some(one), _) => one,
        (None, Some(other)) => behind(cpi, other),
        (None, None) => return None,
    };
    Some(Above {
        batch_column: 2 * cpi * place.column + place.cycle,
        ..place
    })
}

/// The second's cycles stand behind the first's.
fn behind(cpi: usize, place: Above) -> Above {
    Above {
        cycle: cpi + place.cycle,
        ..place
    }
}
