//! The five flags that the eight rows name: document 02's sentence on them, the first of the rows that does
//! not hold, and what both say of a batch.

use super::rows::{BYTE, FIRST, HALF, LOAD, STORE, WORD};
use crate::house::Relation;
use crate::original::CycleRecord;
use crate::report::{test, Tally, Test};
use crate::verdict::answer::Verdict;
use crate::verdict::batches::{batch_column, Batch, ONE_COLUMN};
use crate::verdict::known::{self, Known};

/// Settings of five flags.
pub const CHOICES: usize = 32;

#[derive(Clone, Copy, Debug, PartialEq, Eq)]
pub struct Flags {
    pub load: bool,
    pub store: bool,
    pub byte: bool,
    pub half: bool,
    pub word: bool,
}

pub fn tests() -> Vec<Test> {
    vec![test(
        "the comparison's own strict rows hold where document 02's sentence does, every choice of flags",
        CHOICES as u64 + 1,
        sentence,
    )]
}

impl Flags {
    /// One setting of all: the lowest bit is load.
    pub fn of_choice(choice: usize) -> Flags {
        let bit = |i: usize| choice >> i & 1 == 1;
        Flags {
            load: bit(0),
            store: bit(1),
            byte: bit(2),
            half: bit(3),
            word: bit(4),
        }
    }

    /// Of a cycle whose flags are bits.
    fn of_cycle(batch: &Batch, cycle: usize) -> Option<Flags> {
        let bit = |column| match batch.z[batch_column(batch.cpi, column, cycle)].0 {
            bit @ 0..=1 => Some(bit == 1),
            _ => None,
        };
        Some(Flags {
            load: bit(LOAD)?,
            store: bit(STORE)?,
            byte: bit(BYTE)?,
            half: bit(HALF)?,
            word: bit(WORD)?,
        })
    }

    pub fn of_record(record: &CycleRecord) -> Flags {
        Flags {
            load: record.is_load,
            store: record.is_store,
            byte: record.ld_byte,
            half: record.ld_half,
            word: record.ld_word,
        }
    }

    /// No cycle both loads and stores, a loading cycle has exactly one width and others have none.
    pub fn are_right(self) -> bool {
        let widths = [self.byte, self.half, self.word];
        let widths = widths.into_iter().filter(|&set| set).count();
        !(self.load && self.store) && widths == usize::from(self.load)
    }

    /// The first of the rows 483 to 490 that does not hold.
    pub fn failing_row(self) -> Option<usize> {
        let Flags {
            load,
            store,
            byte,
            half,
            word,
        } = self;
        let fails = [
            load && store,
            byte && half,
            byte && word,
            half && word,
            byte && !load,
            half && !load,
            word && !load,
            load && !(byte ^ half ^ word),
        ];
        fails.iter().position(|&fails| fails).map(|i| FIRST + i)
    }
}

/// The flags of every cycle, where all are bits and the one column is 1.
pub fn of_batch(batch: &Batch) -> Option<Vec<Flags>> {
    let one = batch.z[batch_column(batch.cpi, ONE_COLUMN, 0)].0 == 1;
    let flags = (0..batch.cpi).map(|cycle| Flags::of_cycle(batch, cycle));
    one.then(|| flags.collect()).flatten()
}

/// The strict verdict, told by the house verdict and the flags of each cycle.
pub fn verdict(house: Verdict, flags: &[Flags]) -> Verdict {
    let fails = |(cycle, flags): (usize, &Flags)| {
        let row = flags.failing_row()?;
        Some((Relation::Bin, Relation::Bin.padded_rows() * cycle + row))
    };
    let by_flags = flags.iter().enumerate().find_map(fails);
    let first = [house.failed_at(), by_flags].into_iter().flatten().min();
    known::verdict(Known::Strict, flags.len(), first)
}

/// Five choices of all are right.
fn sentence(tally: &mut Tally) {
    let choices = || (0..CHOICES).map(Flags::of_choice);
    for flags in choices() {
        let place = || format!("{flags:?}");
        tally.same(place, flags.failing_row().is_none(), flags.are_right());
    }
    let right = choices().filter(|flags| flags.are_right()).count();
    tally.same(|| "right choices".into(), right, 5);
}
