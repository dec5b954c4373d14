//! What is lent to a merge, between guards, and what must be there afterwards.

use super::reading;
use super::WORDS;
use crate::numbers::Numbers;
use crate::report::Tally;
use crate::verdict::answer::Refusal;
use crate::verdict::lent::Lent;

/// Comparisons of a call: the answer, and each of the three slices with its guards.
pub const OF_A_CALL: u64 = 4;

pub struct Call {
    /// Of the first batch and of the second.
    pub sizes: [usize; 2],
    given: [Lent<u64>; 2],
    merged: Lent<u64>,
    /// How many words of each are lent: of the two that are given, and of the merged one.
    pub lengths: [usize; 3],
}

/// The words of two batches and of the merged one.
pub fn right_lengths(cpi: usize) -> [usize; 3] {
    [cpi, cpi, 2 * cpi].map(|cpi| WORDS * cpi)
}

impl Call {
    /// A call that nothing is wrong with. The merged batch has anything in it before.
    pub fn over(numbers: &mut Numbers, cpi: usize, given: [Vec<u64>; 2]) -> Call {
        Call::with_room(numbers, cpi, given, 0)
    }

    /// The same, with so many words behind each slice, to be lent where one is too long. Where they are not
    /// lent they are guards.
    pub fn with_room(numbers: &mut Numbers, cpi: usize, given: [Vec<u64>; 2], room: usize) -> Call {
        let lengths = right_lengths(cpi);
        assert_eq!(given.each_ref().map(Vec::len), [lengths[0], lengths[1]]);
        let mut lend = |words: Vec<u64>| Lent::of(&[words, numbers.words(room)].concat());
        let given = given.map(&mut lend);
        let merged = Lent::of(&numbers.words(lengths[2] + room));
        Call {
            sizes: [cpi; 2],
            given,
            merged,
            lengths,
        }
    }

    /// Changes a column of a batch that is given, the first or the second.
    pub fn xor(&mut self, which: usize, column: usize, by: u128) {
        let batch = &mut self.given[which];
        for (at, by) in (2 * column..).zip([by as u64, (by >> 64) as u64]) {
            let word = batch.words()[at] ^ by;
            batch.put(at, word);
        }
    }

    /// Writes what the reading says.
    pub fn writes(&mut self, tally: &mut Tally, place: &dyn Fn() -> String) {
        let given = self.given.each_ref().map(Lent::words);
        let right = reading::merged(self.sizes[0], given);
        self.writes_these(tally, &right, place);
    }

    /// Before the call every bit of these words is the wrong one.
    pub fn writes_these(&mut self, tally: &mut Tally, right: &[u64], place: &dyn Fn() -> String) {
        for (i, &word) in right.iter().enumerate() {
            self.merged.put(i, !word);
            self.merged.must_become(i, word);
        }
        self.answers(tally, 0, place);
    }

    /// Everything lent stays as it came.
    pub fn refuses(&mut self, tally: &mut Tally, right: Refusal, place: &dyn Fn() -> String) {
        self.answers(tally, right.answer(), place);
    }

    fn answers(&mut self, tally: &mut Tally, right: u64, place: &dyn Fn() -> String) {
        let [one, other, merged] = self.lengths;
        let [first, second] = self.given.each_ref().map(Lent::words);
        let batch = &mut self.merged.words_mut()[..merged];
        let [cpi, second_cpi] = self.sizes;
        let answer = product::merge(cpi, &first[..one], second_cpi, &second[..other], batch);
        tally.same(|| format!("{}, answer", place()), answer, right);
        let [first, second] = &mut self.given;
        let lent = [
            ("merged", &mut self.merged),
            ("first", first),
            ("second", second),
        ];
        for (which, lent) in lent {
            let place = || format!("{}, {which} batch and guards", place());
            tally.same(place, lent.first_wrong(), None);
        }
    }
}
