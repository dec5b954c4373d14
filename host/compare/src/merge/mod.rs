//! Two batches merged into one, document 02's request 8. The original has no such thing: what is written is
//! held against a reading by column and cycle and against its own assembly of all cycles, and the verdict
//! on it against the original's and against what the request says of it.

mod bits;
mod by_original;
mod call;
mod each_place;
mod every_size;
mod filled;
mod judged;
mod known_listings;
mod made;
mod other_listings;
mod pairs;
mod public;
mod reading;
mod refusals;
mod sizes;
mod told;
mod two_batches;

use crate::numbers::Numbers;
use crate::parallel::at_sizes;
use crate::report::{Tally, Test};
use crate::verdict::batches::{Batch, COLUMNS, WITNESS_COLUMNS};

/// Sizes of which two batches can be merged.
const SIZES: [usize; 8] = [1, 2, 4, 8, 16, 32, 64, 128];

/// Words of a batch for each of its cycles.
const WORDS: usize = 2 * COLUMNS;

pub fn tests() -> Vec<Test> {
    let mut tests = every_size::tests();
    tests.extend(each_place::tests());
    tests.extend(by_original::tests());
    tests.extend(known_listings::tests());
    tests.extend(other_listings::tests());
    tests.extend(filled::tests());
    tests.extend(bits::tests());
    tests.extend(public::tests());
    tests.extend(sizes::tests());
    tests.extend(refusals::tests());
    tests
}

/// Merges of which every word is looked at, those among the refusals not counted.
pub fn merges() -> usize {
    every_size::merges()
        + by_original::merges()
        + known_listings::merges()
        + other_listings::merges()
        + filled::merges()
        + bits::merges()
}

/// Runs so many parts of each size, each with numbers of its own.
fn at_every_size(
    tally: &mut Tally,
    test: u64,
    parts: [usize; 8],
    each: impl Fn(&mut Tally, Numbers, usize, usize) + Sync,
) {
    at_sizes(tally, test, SIZES, parts, each);
}

/// Makes an element.
type Element = fn(&mut Numbers) -> u128;

/// Two batches of such elements, the lower columns of one sort and the public ones of another. These are the
/// same in both.
fn any_two(numbers: &mut Numbers, cpi: usize, [lower, public]: [Element; 2]) -> [Vec<u64>; 2] {
    let mut half = |element: Element| -> Vec<u64> {
        let words = |element: u128| [element as u64, (element >> 64) as u64];
        let elements = (0..WITNESS_COLUMNS * cpi).map(|_| element(numbers));
        elements.flat_map(words).collect()
    };
    let public = half(public);
    [(); 2].map(|()| [half(lower), public.clone()].concat())
}

/// The second batch takes the first's public columns.
fn share_public([first, second]: &mut [Batch; 2]) {
    for column in WITNESS_COLUMNS * first.cpi..COLUMNS * first.cpi {
        second.put(column, first.z[column].0);
    }
}
