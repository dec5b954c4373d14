//! What is lent to one of the five entries, between guards, and what must be there afterwards.

use super::reading::{self, WORDS_OF_A_CYCLE};
use crate::numbers::Numbers;
use crate::report::Tally;
use crate::verdict::answer::{refusal, BATCH_LENGTH, PACKED_LENGTH};
use crate::verdict::batches::{self, COLUMNS, WITNESS_COLUMNS};
use crate::verdict::lent::Lent;

/// Comparisons of a call: the answer, the slice that is written, the slice that is read, each slice with
/// its guards.
pub const OF_A_CALL: u64 = 3;

/// Words behind what is lent, for slices that are too long. Where they are not lent they are guards.
pub const SPARE: usize = 32;

/// Each reads one slice and writes another.
#[derive(Clone, Copy, Debug, PartialEq, Eq)]
pub enum Entry {
    Pack,
    PackCycles,
    Unpack,
    ToCycles,
    ToBatch,
}

pub const ENTRIES: [Entry; 5] = [
    Entry::Pack,
    Entry::PackCycles,
    Entry::Unpack,
    Entry::ToCycles,
    Entry::ToBatch,
];
pub const PACKING: [Entry; 2] = [Entry::Pack, Entry::PackCycles];
pub const ORDERS: [Entry; 2] = [Entry::ToCycles, Entry::ToBatch];

/// A slice by its words for each cycle, and the question that asks for them.
#[derive(Clone, Copy)]
pub struct Slice {
    pub words_of_a_cycle: usize,
    pub question: u64,
}

const BATCH: Slice = Slice {
    words_of_a_cycle: 2 * COLUMNS,
    question: BATCH_LENGTH,
};
const PACKED: Slice = Slice {
    words_of_a_cycle: WORDS_OF_A_CYCLE,
    question: PACKED_LENGTH,
};

impl Entry {
    /// What is read, what is written.
    pub fn slices(self) -> [Slice; 2] {
        match self {
            Entry::Pack | Entry::PackCycles => [BATCH, PACKED],
            Entry::Unpack => [PACKED, BATCH],
            Entry::ToCycles | Entry::ToBatch => [PACKED, PACKED],
        }
    }

    pub fn packs(self) -> bool {
        PACKING.contains(&self)
    }

    pub fn call(self, cpi: usize, read: &[u64], written: &mut [u64]) -> u64 {
        match self {
            Entry::Pack => product::pack(cpi, read, written),
            Entry::PackCycles => product::pack_cycles(cpi, read, written),
            Entry::Unpack => product::unpack(cpi, read, written),
            Entry::ToCycles => product::to_cycles(cpi, read, written),
            Entry::ToBatch => product::to_batch(cpi, read, written),
        }
    }

    /// What a call can be given to read that nothing is wrong with: a batch of bits, or any packed words.
    pub fn input(self, numbers: &mut Numbers, cpi: usize) -> Vec<u64> {
        if self.packs() {
            batch(numbers, cpi)
        } else {
            numbers.words(WORDS_OF_A_CYCLE * cpi)
        }
    }

    /// The words that must be written. They are the first of the slice; what is behind them must stay.
    fn right(self, cpi: usize, read: &[u64]) -> Vec<u64> {
        match self {
            Entry::Pack => reading::packed(cpi, read),
            Entry::PackCycles => reading::packed_by_cycle(cpi, read),
            Entry::Unpack => reading::unpacked(cpi, read),
            Entry::ToCycles => reading::by_cycle(cpi, read),
            Entry::ToBatch => reading::by_batch(cpi, read),
        }
    }
}

/// A batch of bits whose public columns are elements of any sort, two words an element.
pub fn batch(numbers: &mut Numbers, cpi: usize) -> Vec<u64> {
    let mut words = Vec::with_capacity(2 * COLUMNS * cpi + SPARE);
    for x in 0..COLUMNS * cpi {
        let value = if x < WITNESS_COLUMNS * cpi {
            numbers.bit()
        } else {
            batches::element(numbers)
        };
        words.extend([value as u64, (value >> 64) as u64]);
    }
    words
}

pub struct Call {
    pub entry: Entry,
    pub cpi: usize,
    pub read: Lent<u64>,
    written: Lent<u64>,
    /// How many words of each are lent.
    pub lengths: [usize; 2],
}

impl Call {
    /// A call that nothing is wrong with, unless it is the size.
    pub fn random(numbers: &mut Numbers, entry: Entry, cpi: usize) -> Call {
        let read = entry.input(numbers, cpi);
        Call::over(numbers, entry, cpi, read)
    }

    /// The slice that is written has anything in it before.
    pub fn over(numbers: &mut Numbers, entry: Entry, cpi: usize, mut read: Vec<u64>) -> Call {
        let lengths = entry.slices().map(|slice| slice.words_of_a_cycle * cpi);
        assert_eq!(read.len(), lengths[0]);
        read.extend(numbers.words(SPARE));
        let written = numbers.words(lengths[1] + SPARE);
        Call {
            entry,
            cpi,
            read: Lent::of(&read),
            written: Lent::of(&written),
            lengths,
        }
    }

    /// Changes a column of the batch that is read.
    pub fn put(&mut self, batch_column: usize, value: u128) {
        self.read.put(2 * batch_column, value as u64);
        self.read.put(2 * batch_column + 1, (value >> 64) as u64);
    }

    /// A column of the batch that is read.
    pub fn column(&self, batch_column: usize) -> u128 {
        let [low, high] = [0, 1].map(|i| self.read.words()[2 * batch_column + i]);
        u128::from(low) | u128::from(high) << 64
    }

    /// Writes what the reading says.
    pub fn writes(&mut self, tally: &mut Tally, place: &dyn Fn() -> String) {
        let right = self.entry.right(self.cpi, self.read.words());
        self.writes_these(tally, &right, place);
    }

    /// Before the call every bit of these words is the wrong one.
    pub fn writes_these(&mut self, tally: &mut Tally, right: &[u64], place: &dyn Fn() -> String) {
        for (i, &word) in right.iter().enumerate() {
            self.written.put(i, !word);
            self.written.must_become(i, word);
        }
        self.answers(tally, 0, place);
    }

    /// Everything lent stays as it came.
    pub fn refuses(&mut self, tally: &mut Tally, number: u64, place: &dyn Fn() -> String) {
        self.answers(tally, refusal(number).answer(), place);
    }

    fn answers(&mut self, tally: &mut Tally, right: u64, place: &dyn Fn() -> String) {
        let (entry, [read, written]) = (self.entry, self.lengths);
        let lent = &self.read.words()[..read];
        let answer = entry.call(self.cpi, lent, &mut self.written.words_mut()[..written]);
        let place = |what| format!("{entry:?}, {}, {what}", place());
        tally.same(|| place("answer"), answer, right);
        let first_wrong = self.written.first_wrong();
        tally.same(|| place("written slice and guards"), first_wrong, None);
        let first_wrong = self.read.first_wrong();
        tally.same(|| place("read slice and guards"), first_wrong, None);
    }
}
