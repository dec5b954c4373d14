//! Two batches and their merge before the original, the evaluation of its matrices and every form of the
//! product's check; and what the verdicts on the two say of the third.

use words::elements_of;

use super::made::made;
use super::pairs::{Met, Pair};
use super::told::told;
use crate::numbers::Numbers;
use crate::report::Tally;
use crate::verdict::answer::Verdict;
use crate::verdict::batches::Batch;
use crate::verdict::boundary::{same_known, OF_KNOWN};
use crate::verdict::forms::{self, CHECK_ROW, FORMS};
use crate::verdict::judge::{Desk, Judge, OF_A_VERDICT};
use crate::verdict::known::{self, Known};
use crate::verdict::listings::Listing;
use crate::verdict::scratch;

/// Comparisons that `Judges::judge` makes where a listing is lent alone: what is written, the verdicts on all
/// three batches, what the two come to, and what they say of the third.
pub const OF_A_MERGE: u64 = 1 + 3 * OF_A_VERDICT + 1 + FORMS as u64;

/// And where it is known by name too.
pub const OF_A_KNOWN_MERGE: u64 = OF_A_MERGE + 3 * OF_KNOWN + FORMS as u64;

/// The constraints on the two batches and on the merged one.
pub struct Judges {
    known: Option<Known>,
    of_one: Judge,
    of_both: Judge,
}

impl Judges {
    /// A listing that is lent, and known by name.
    pub fn of_known(known: Known, cpi: usize) -> Judges {
        let [of_one, of_both] = [cpi, 2 * cpi].map(|cpi| known::judge(known, cpi));
        Judges {
            known: Some(known),
            of_one,
            of_both,
        }
    }

    /// Another, which is lent alone.
    pub fn of(listing: &Listing, cpi: usize) -> Judges {
        let [of_one, of_both] = [cpi, 2 * cpi].map(|cpi| Judge::of(listing, cpi));
        Judges {
            known: None,
            of_one,
            of_both,
        }
    }

    /// Merges two batches that come to what is meant, and judges all three.
    pub fn judge(
        &self,
        tally: &mut Tally,
        mut numbers: Numbers,
        mut given: [Batch; 2],
        (meant, met): (Pair, &Met),
        place: &dyn Fn() -> String,
    ) {
        let cpi = self.of_one.cpi;
        let words = given.each_ref().map(|batch| batch.words.words());
        let words = made(tally, &mut numbers, cpi, words, place);
        let mut both = Batch::of(2 * cpi, elements_of(&words));
        let said = given.each_ref().map(|batch| self.said(&mut numbers, batch));
        let said_of_both = self.said(&mut numbers, &both);

        let mut desk = Desk::of(&self.of_one.listing, numbers);
        let [first, second] = &mut given;
        let verdicts = [(first, "first"), (second, "second")].map(|(batch, which)| {
            let place = || format!("{}, {which}", place());
            self.one(tally, &mut desk, &self.of_one, batch, &place)
        });
        let merged = || format!("{}, merged", place());
        self.one(tally, &mut desk, &self.of_both, &mut both, &merged);

        let pair = verdicts.map(Verdict::relation);
        met.add(pair);
        tally.same(|| format!("{}, as it is meant", place()), pair, meant);
        let [first, second] = said;
        for (form, of_both) in said_of_both.into_iter().enumerate() {
            let verdict = |said: &[Option<Verdict>]| said[form].expect("a verdict");
            let right = told(cpi, verdict(&first), verdict(&second));
            let place = || format!("{}, told by the two, form {form}", place());
            tally.same(place, of_both, Some(right));
        }
    }

    /// The verdict by evaluation, in which the original and every form of the product agree.
    fn one(
        &self,
        tally: &mut Tally,
        desk: &mut Desk,
        judge: &Judge,
        batch: &mut Batch,
        place: &dyn Fn() -> String,
    ) -> Verdict {
        let verdict = judge.judge(tally, desk, batch, place);
        if let Some(known) = self.known {
            same_known(tally, known, batch, verdict, place);
        }
        verdict
    }

    /// What each form of the product's check says of a batch, read from its answer.
    fn said(&self, numbers: &mut Numbers, batch: &Batch) -> Vec<Option<Verdict>> {
        let (cpi, words) = (batch.cpi, batch.words.words());
        let answers = CHECK_ROW.map(|(_, check)| {
            let length = scratch::any_length(numbers);
            check(cpi, &self.of_one.listing, words, &mut numbers.words(length))
        });
        let mut said = answers.to_vec();
        if let Some(known) = self.known {
            said.extend(forms::of_known(known, cpi, words));
        }
        said.into_iter().map(Verdict::read).collect()
    }
}
