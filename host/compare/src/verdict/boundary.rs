//! The check without a listing lent: `check_known` over batches of every size, in both its forms, and,
//! against the house listing, the product's own C boundary over one row of bytes, through the wrapper that
//! a prover uses.

use cellprism::Answer;
use product::Known;

use super::answer::Verdict;
use super::batches::Batch;
use super::forms::{CHECK_KNOWN, FORMS};
use super::lent::Lent;
use crate::house::Relation;
use crate::original::Gf128;
use crate::report::Tally;

/// Comparisons that `same_known` makes of a batch.
pub const OF_KNOWN: u64 = FORMS as u64;

/// Comparisons that `same` makes of a batch.
pub fn compared(cpi: usize) -> u64 {
    OF_KNOWN + u64::from(cpi == 1)
}

/// Both forms' answers on a batch, which stays as it is.
pub fn same_known(
    tally: &mut Tally,
    known: Known,
    batch: &mut Batch,
    verdict: Verdict,
    place: &dyn Fn() -> String,
) {
    for (form, check) in CHECK_KNOWN {
        let answer = check(known, batch.cpi, batch.words.words());
        let place = || format!("{}, {form}, {known:?}, the batch unchanged", place());
        let right = (verdict.number(), true);
        tally.same(place, (answer, batch.words.is_right()), right);
    }
}

/// All answers against the house listing; the C boundary takes one cycle only.
pub fn same(tally: &mut Tally, batch: &mut Batch, verdict: Verdict, place: &dyn Fn() -> String) {
    same_known(tally, Known::House, batch, verdict, place);
    if batch.cpi == 1 {
        let mut row = Lent::of(&bytes_of(&batch.z));
        let answer = cellprism::check_row(row.words());
        let boundary = || format!("{}, C boundary, the row unchanged", place());
        tally.same(boundary, (answer, row.is_right()), (told(verdict), true));
    }
}

/// What the C boundary counts of a row, if it accepts it.
pub fn rows_told(z: &[Gf128]) -> Option<usize> {
    match cellprism::check_row(&bytes_of(z)) {
        Answer::Accepted { rows } => Some(rows as usize),
        _ => None,
    }
}

fn bytes_of(z: &[Gf128]) -> Vec<u8> {
    z.iter()
        .flat_map(|element| element.0.to_le_bytes())
        .collect()
}

/// What the C boundary tells of a verdict: the sum of the counts, and none with a failure.
fn told(verdict: Verdict) -> Answer {
    match verdict {
        Verdict::Accepted { counts } => Answer::Accepted {
            rows: counts.rows() as u32,
        },
        Verdict::Failed {
            relation,
            batch_row,
            ..
        } => Answer::Failed {
            relation: match relation {
                Relation::Bin => cellprism::Relation::Bin,
                Relation::Fld => cellprism::Relation::Fld,
            },
            row: batch_row as u32,
        },
    }
}
