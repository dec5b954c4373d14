//! The merge of two batches as the product makes it, which is as the reading has it.

use super::reading::merged;
use super::WORDS;
use crate::numbers::Numbers;
use crate::report::Tally;
use crate::verdict::lent::first_apart;

/// Merges two batches of one size into words that have anything in them: one comparison.
pub fn made(
    tally: &mut Tally,
    numbers: &mut Numbers,
    cpi: usize,
    given: [&[u64]; 2],
    place: &dyn Fn() -> String,
) -> Vec<u64> {
    let mut batch = numbers.words(2 * WORDS * cpi);
    let answer = product::merge(cpi, given[0], cpi, given[1], &mut batch);
    let apart = first_apart(&batch, &merged(cpi, given));
    let place = || format!("{}, answer and first wrong word", place());
    tally.same(place, (answer, apart), (0, None));
    batch
}
