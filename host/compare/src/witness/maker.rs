//! The product's row maker between guard words.

use words::{record_of, rom_of, words_of};

use crate::original::{self, Gf128};
use crate::report::Tally;
use crate::verdict::batches::COLUMNS;
use crate::verdict::lent::Lent;

/// Words of a row.
pub const ROW_WORDS: usize = 2 * COLUMNS;

/// Comparisons that `Maker::same` makes.
pub const OF_A_ROW: u64 = 3;

/// A row to write to, used again for each record.
pub struct Maker {
    row: Lent<u64>,
}

impl Maker {
    pub fn new() -> Maker {
        Maker {
            row: Lent::of(&[0; ROW_WORDS]),
        }
    }

    /// Makes the row of a record and holds every element against the original's, which is returned.
    /// `before` stands in each word of the row before the call.
    pub fn same(
        &mut self,
        tally: &mut Tally,
        record: &[u64],
        rom: &[u64],
        public: &[Gf128],
        before: u64,
        place: &dyn Fn() -> String,
    ) -> Vec<Gf128> {
        let right = original::witness_row(&record_of(record), &rom_of(rom), public);
        self.row.must_become_all(before, &words_of(&right));
        let mut lent = [record, rom, &words_of(public)].map(Lent::of);
        let [record, rom, public] = &lent;
        let row = self.row.words_mut();
        let answer = product::witness_row(record.words(), rom.words(), public.words(), row);
        tally.same(place, answer, 0);
        let wrong = || format!("{}, first wrong word", place());
        tally.same(wrong, self.row.first_wrong(), None);
        let others = || format!("{}, record, ROM row and public values unchanged", place());
        let unchanged = lent.each_mut().map(Lent::is_right);
        tally.same(others, unchanged, [true; 3]);
        right
    }
}
