//! One batch before three judges: the original, the evaluation of its matrices, the product in both
//! its forms.

use super::answer::{Refusal, Verdict};
use super::batches::Batch;
use super::boundary;
use super::constraints::Constraints;
use super::forms::{CheckRow, CHECK_ROW, FORMS};
use super::lent::Lent;
use super::listings::Listing;
use super::scratch;
use crate::numbers::Numbers;
use crate::original::{self, CircuitSpec};
use crate::report::Tally;

/// Comparisons that `Judge::judge` makes.
pub const OF_A_VERDICT: u64 = 1 + 3 * FORMS as u64;

/// Comparisons that `refused` makes.
pub const OF_A_REFUSAL: u64 = 2 * FORMS as u64;

/// Comparisons that `Judge::judge_house` makes.
pub fn of_a_house_verdict(cpi: usize) -> u64 {
    1 + boundary::compared(cpi)
}

/// The constraints on batches of one size, in the form of each judge.
pub struct Judge {
    pub cpi: usize,
    pub spec: CircuitSpec,
    pub constraints: Constraints,
    pub listing: Vec<u32>,
}

impl Judge {
    /// The original's circuit, as it makes it for a batch.
    pub fn of_circuit(cpi: usize) -> Judge {
        let listing = Listing::of_circuit();
        Judge::with_spec(&listing, original::build_circuit_batched(cpi))
    }

    pub fn of(listing: &Listing, cpi: usize) -> Judge {
        Judge::with_spec(listing, listing.spec(cpi))
    }

    /// A listing with its matrices, which are the caller's.
    pub fn with_spec(listing: &Listing, spec: CircuitSpec) -> Judge {
        Judge {
            cpi: spec.cpi,
            constraints: Constraints::of(&spec, &listing.marks()),
            spec,
            listing: listing.words(),
        }
    }

    /// Judges a batch: the relation by the original, the row by the evaluation, all by the product.
    pub fn judge(
        &self,
        tally: &mut Tally,
        desk: &mut Desk,
        batch: &mut Batch,
        place: &dyn Fn() -> String,
    ) -> Verdict {
        let verdict = self.right(tally, batch, place);
        for (form, check) in CHECK_ROW {
            let place = || format!("{}, {form}", place());
            desk.scratch_becomes_zero();
            let answer = desk.check(check, self.cpi, &batch.words);
            tally.same(place, answer, verdict.number());
            let scratch = || format!("{}, scratch zero after it", place());
            tally.same(scratch, desk.scratch.is_right(), true);
            let others = || format!("{}, listing and batch unchanged", place());
            let unchanged = [desk.listing.is_right(), batch.words.is_right()];
            tally.same(others, unchanged, [true; 2]);
        }
        verdict
    }

    /// Judges a batch against the circuit, for which the product is lent no listing.
    pub fn judge_house(
        &self,
        tally: &mut Tally,
        batch: &mut Batch,
        place: &dyn Fn() -> String,
    ) -> Verdict {
        let verdict = self.right(tally, batch, place);
        boundary::same(tally, batch, verdict, place);
        verdict
    }

    /// The verdict by evaluation, in which the original agrees as far as it says anything.
    pub fn right(&self, tally: &mut Tally, batch: &Batch, place: &dyn Fn() -> String) -> Verdict {
        let verdict = self.constraints.verdict(&batch.z);
        let by_original = original::check_row(&self.spec, &batch.z);
        let relation = || format!("{}, relation by evaluation and original", place());
        tally.same(relation, verdict.relation(), by_original);
        verdict
    }
}

/// What is lent to the product beside a batch.
pub struct Desk {
    pub listing: Lent<u32>,
    pub scratch: Lent<u64>,
    numbers: Numbers,
}

impl Desk {
    /// Any scratch that is taken, for the verdict is the same from each.
    pub fn of(listing: &[u32], mut numbers: Numbers) -> Desk {
        let words = scratch::any_length(&mut numbers);
        Desk::with_scratch(listing, words, numbers)
    }

    pub fn with_scratch(listing: &[u32], words: usize, mut numbers: Numbers) -> Desk {
        let anything: Vec<u64> = (0..words).map(|_| numbers.next()).collect();
        Desk {
            listing: Lent::of(listing),
            scratch: Lent::of(&anything),
            numbers,
        }
    }

    fn check(&mut self, check: CheckRow, cpi: usize, batch: &Lent<u64>) -> u64 {
        let scratch = self.scratch.words_mut();
        check(cpi, self.listing.words(), batch.words(), scratch)
    }

    /// Scratch may hold anything before a verdict and is zero after it.
    fn scratch_becomes_zero(&mut self) {
        for i in 0..self.scratch.len() {
            self.scratch.put(i, self.numbers.next());
            self.scratch.must_become(i, 0);
        }
    }
}

/// A call that both forms turn down: the answer, and everything lent as it came.
pub fn refused(
    tally: &mut Tally,
    cpi: usize,
    desk: &mut Desk,
    batch: &mut Lent<u64>,
    right: Refusal,
    place: &dyn Fn() -> String,
) {
    for (form, check) in CHECK_ROW {
        let place = || format!("{}, {form}", place());
        let answer = desk.check(check, cpi, batch);
        tally.same(place, answer, right.answer());
        let unchanged = [
            desk.listing.is_right(),
            batch.is_right(),
            desk.scratch.is_right(),
        ];
        let place = || format!("{}, listing, batch and scratch unchanged", place());
        tally.same(place, unchanged, [true; 3]);
    }
}
