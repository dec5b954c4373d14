//! The numbers that the check, the sums, the pages, the bit test and the filler answer with, as the
//! boundary writes them.

pub use product::Refusal;

use crate::house::Relation;

const FAILED: u64 = 1 << 62;
const REFUSED: u64 = 1 << 63;

/// The numbers of document 01's questions, in the order in which they are asked.
pub const SIZE: u64 = 1;
pub const BATCH_LENGTH: u64 = 2;
pub const PUBLIC_LENGTH: u64 = 3;
pub const CYCLES_LENGTH: u64 = 4;
pub const SCRATCH_LENGTH: u64 = 5;
pub const LISTING_LENGTH: u64 = 6;
pub const MUST_BE_ZERO: u64 = 7;
pub const NO_MARK: u64 = 8;
pub const MARK_ORDER: u64 = 9;
pub const TERM_ORDER: u64 = 10;
pub const GIVEN_BIT: u64 = 11;
pub const ONE: u64 = 12;
pub const ROW_SOUGHT: u64 = 13;
/// A column, or on the way back a batch column or a batch row.
pub const COLUMN: u64 = 14;
pub const CYCLE: u64 = 15;
/// Document 02's, asked after 13.
pub const PAGE_LENGTH: u64 = 16;
/// Document 02's, asked after 2.
pub const PACKED_LENGTH: u64 = 18;
/// Document 02's, asked after 18.
pub const LOWER_BIT: u64 = 17;
/// Document 02's, asked after 1.
pub const MERGED_SIZE: u64 = 19;
/// Document 02's, asked after 2.
pub const PUBLIC_COLUMN: u64 = 20;

/// Where the two counts stand in a verdict's number. Each has 20 bits, and so has the batch row.
const BIN_COUNT: u32 = 20;
const FLD_COUNT: u32 = 40;

/// Rows of each relation.
#[derive(Clone, Copy, Debug, Default, PartialEq, Eq)]
pub struct Counts {
    pub bin: usize,
    pub fld: usize,
}

impl Counts {
    /// Their sum: what `rows` means in the bench sheet and in document 02's requests before 7.
    pub fn rows(self) -> usize {
        self.bin + self.fld
    }

    /// Counts one row more.
    pub fn add(&mut self, relation: Relation) {
        match relation {
            Relation::Bin => self.bin += 1,
            Relation::Fld => self.fld += 1,
        }
    }

    /// Both, once for each cycle.
    pub fn times(self, cpi: usize) -> Counts {
        Counts {
            bin: self.bin * cpi,
            fld: self.fld * cpi,
        }
    }

    fn number(self) -> u64 {
        (self.fld as u64) << FLD_COUNT | (self.bin as u64) << BIN_COUNT
    }
}

/// How many rows were tested and what came of it.
#[derive(Clone, Copy, Debug, PartialEq, Eq)]
pub enum Verdict {
    Accepted {
        counts: Counts,
    },
    Failed {
        relation: Relation,
        batch_row: usize,
        counts: Counts,
    },
}

impl Verdict {
    pub fn number(self) -> u64 {
        match self {
            Verdict::Accepted { counts } => counts.number(),
            Verdict::Failed {
                relation,
                batch_row,
                counts,
            } => FAILED | (relation as u64) << 61 | counts.number() | batch_row as u64,
        }
    }

    /// The verdict that a number stands for. A refusal is none, nor is a number with a bit set that
    /// stands for nothing.
    pub fn read(number: u64) -> Option<Verdict> {
        let from = |lowest: u32| (number >> lowest & 0xf_ffff) as usize;
        let batch_row = from(0);
        let counts = Counts {
            bin: from(BIN_COUNT),
            fld: from(FLD_COUNT),
        };
        let failed = |relation| Verdict::Failed {
            relation,
            batch_row,
            counts,
        };
        match number >> 60 {
            0b0000 if batch_row == 0 => Some(Verdict::Accepted { counts }),
            0b0100 => Some(failed(Relation::Bin)),
            0b0110 => Some(failed(Relation::Fld)),
            _ => None,
        }
    }

    pub fn counts(self) -> Counts {
        match self {
            Verdict::Accepted { counts } | Verdict::Failed { counts, .. } => counts,
        }
    }

    pub fn is_accepted(self) -> bool {
        self.failed_at().is_none()
    }

    /// The relation that does not hold, which is all that the original says.
    pub fn relation(self) -> Option<Relation> {
        self.failed_at().map(|first| first.0)
    }

    /// The relation and the batch row of the first row that does not hold.
    pub fn failed_at(self) -> Option<(Relation, usize)> {
        match self {
            Verdict::Accepted { .. } => None,
            Verdict::Failed {
                relation,
                batch_row,
                ..
            } => Some((relation, batch_row)),
        }
    }
}

/// A refusal whose place is 0.
pub fn refusal(number: u64) -> Refusal {
    Refusal { number, place: 0 }
}

/// The answer of `apply` where `out` has no room; the paper has no number for it.
pub const NO_ROOM: u64 = REFUSED;

/// The bit test's answer for a column above 1.
pub fn above_one(cpi: usize, batch_column: usize) -> u64 {
    let (column, cycle) = (batch_column / cpi, batch_column % cpi);
    FAILED | (cycle as u64) << 48 | (column as u64) << 32 | batch_column as u64
}
