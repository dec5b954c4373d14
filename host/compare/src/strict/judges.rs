//! One batch before both listings: every form of the product's check by each, and what the two verdicts say
//! of each other.

use super::flags::{self, Flags};
use crate::numbers::Numbers;
use crate::report::Tally;
use crate::verdict::answer::Verdict;
use crate::verdict::batches::Batch;
use crate::verdict::boundary::{self, OF_KNOWN};
use crate::verdict::judge::{of_a_house_verdict, Desk, Judge, OF_A_VERDICT};
use crate::verdict::known::{self, Known};

/// Comparisons that `Judges::judge` makes: the strict verdict with the listing lent and without, the house
/// verdict, and two that hold one against the other.
pub fn of_both(cpi: usize) -> u64 {
    OF_A_VERDICT + OF_KNOWN + of_a_house_verdict(cpi) + 2
}

pub struct Judges {
    house: Judge,
    strict: Judge,
}

pub struct Verdicts {
    pub house: Verdict,
    pub strict: Verdict,
}

impl Judges {
    pub fn of(cpi: usize) -> Judges {
        Judges {
            house: known::judge(Known::House, cpi),
            strict: known::judge(Known::Strict, cpi),
        }
    }

    /// Scratch and the strict listing, to be lent.
    pub fn desk(&self, numbers: Numbers) -> Desk {
        Desk::of(&self.strict.listing, numbers)
    }

    pub fn judge(
        &self,
        tally: &mut Tally,
        desk: &mut Desk,
        batch: &mut Batch,
        place: &dyn Fn() -> String,
    ) -> Verdicts {
        let strict = self.strict.judge(tally, desk, batch, place);
        boundary::same_known(tally, Known::Strict, batch, strict, place);
        let house = self.house.judge_house(tally, batch, place);
        let verdicts = Verdicts { house, strict };
        verdicts.held_together(tally, batch, place);
        verdicts
    }
}

impl Verdicts {
    /// What the strict listing accepts the house listing accepts, and it fails no later. Over bits the strict
    /// verdict is the house one and what the flags add, and it accepts exactly where document 02's sentence
    /// holds beside.
    fn held_together(&self, tally: &mut Tally, batch: &Batch, place: &dyn Fn() -> String) {
        let &Verdicts { house, strict } = self;
        let [by_house, accepted] = [house, strict].map(Verdict::is_accepted);
        let (told, right) = match flags::of_batch(batch) {
            Some(flags) => (
                flags::verdict(house, &flags),
                by_house && flags.into_iter().all(Flags::are_right),
            ),
            None => {
                let failed = [house, strict].map(|verdict| verdict.failed_at());
                let first = failed.into_iter().flatten().min();
                let told = known::verdict(Known::Strict, batch.cpi, first);
                (told, by_house && accepted)
            }
        };
        let by_flags = || format!("{}, told by the house verdict and the flags", place());
        tally.same(by_flags, strict, told);
        let sentence = || format!("{}, accepted as document 02 says", place());
        tally.same(sentence, accepted, right);
    }
}
