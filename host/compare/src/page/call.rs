//! What is lent to the product for the pages of a row, between guards, and what it must answer.

use product::Answer;

use super::lines::{first_apart, pages};
use crate::numbers::Numbers;
use crate::report::Tally;
use crate::verdict::answer::Refusal;
use crate::verdict::lent::Lent;
use crate::verdict::listings::{asked_for, Mark, Row};

/// Comparisons of a row laid out: its bytes' number, the answer, the lines, the buffer's guards.
pub const OF_A_ROW: u64 = 4;

/// Comparisons that `Call::is_unchanged` makes.
pub const OF_WHAT_IS_READ: u64 = 1;

/// Comparisons of a refusal: the bytes' number, the answer, everything lent as it came.
pub const OF_A_REFUSAL: u64 = 3;

pub struct Call {
    pub cpi: usize,
    pub listing: Lent<u32>,
    pub batch: Lent<u64>,
    pub numbers: Numbers,
}

/// A row in a cycle, and how many bytes are lent for its pages.
#[derive(Clone, Copy, Debug)]
pub struct Asked {
    pub mark: Mark,
    pub cycle: usize,
    pub bytes: usize,
}

impl Call {
    pub fn of(cpi: usize, listing: &[u32], batch: Lent<u64>, numbers: Numbers) -> Call {
        Call {
            cpi,
            listing: Lent::of(listing),
            batch,
            numbers,
        }
    }

    /// Lays out a row that the listing has, over bytes that no page has.
    pub fn lays_out(&mut self, tally: &mut Tally, row: &Row, cycle: usize) {
        let right = pages(self.cpi, row, cycle, self.batch.words());
        self.same_pages(tally, row.mark(), cycle, &right);
    }

    pub fn same_pages(&mut self, tally: &mut Tally, mark: Mark, cycle: usize, right: &str) {
        let (cpi, words) = (self.cpi, self.listing.len());
        let place = || format!("{mark:?} of {words} words in cycle {cycle} of {cpi}");
        let bytes = || format!("{}, number of bytes", place());
        tally.same(bytes, self.bytes(mark), Ok(right.len() as u64));
        let mut page = Lent::of(&vec![0; right.len()]);
        let before = 0x80 | self.numbers.next() as u8;
        page.must_become_all(before, right.as_bytes());
        tally.same(place, self.page(mark, cycle, &mut page), 0);
        let apart = || format!("{}, first line that differs", place());
        tally.same(apart, first_apart(page.words(), right), None);
        let wrong = || format!("{}, first wrong byte", place());
        tally.same(wrong, page.first_wrong(), None);
    }

    /// The listing and the batch, after any number of calls.
    pub fn is_unchanged(&mut self, tally: &mut Tally) {
        let (cpi, words) = (self.cpi, self.listing.len());
        let place = || format!("{words} words over {cpi} cycles, listing and batch unchanged");
        let unchanged = [self.listing.is_right(), self.batch.is_right()];
        tally.same(place, unchanged, [true; 2]);
    }

    /// A call that is turned down, where the number of bytes is answered with `bytes`.
    pub fn refuses(&mut self, tally: &mut Tally, asked: Asked, bytes: Answer, right: Refusal) {
        let (cpi, [words, elements]) = (self.cpi, [self.listing.len(), self.batch.len()]);
        let place = || format!("{asked:?} of {words} words, {elements} of batch, {cpi} cycles");
        let seen = self.bytes(asked.mark);
        tally.same(|| format!("{}, number of bytes", place()), seen, bytes);
        let anything = (0..asked.bytes).map(|_| self.numbers.next() as u8);
        let mut page = Lent::of(&anything.collect::<Vec<u8>>());
        let answer = self.page(asked.mark, asked.cycle, &mut page);
        tally.same(place, answer, right.answer());
        let unchanged = [
            page.is_right(),
            self.listing.is_right(),
            self.batch.is_right(),
        ];
        let lent = || format!("{}, buffer, listing and batch unchanged", place());
        tally.same(lent, unchanged, [true; 3]);
    }

    fn bytes(&mut self, mark: Mark) -> Answer {
        let row = asked_for(&mut self.numbers, mark);
        product::page_bytes(self.listing.words(), row)
    }

    fn page(&mut self, mark: Mark, cycle: usize, page: &mut Lent<u8>) -> u64 {
        let row = asked_for(&mut self.numbers, mark);
        let (listing, batch) = (self.listing.words(), self.batch.words());
        product::page(self.cpi, listing, batch, row, cycle, page.words_mut())
    }
}
