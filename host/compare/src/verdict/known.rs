//! The two listings that are known by name: how many rows each has, and what its check says where a given
//! row is the first that does not hold.

pub use product::Known;

use super::answer::{Counts, Verdict};
use super::judge::Judge;
use super::listings::Listing;
use crate::house::Relation;
use crate::listing::{BIN_ROWS, FLD_ROWS};
use crate::strict::rows;

pub const KNOWN: [Known; 2] = [Known::House, Known::Strict];

/// As the names of tests have it.
pub fn name(known: Known) -> &'static str {
    match known {
        Known::House => "the house listing",
        Known::Strict => "the strict listing",
    }
}

/// Rows of a cycle.
pub fn rows_of(known: Known, relation: Relation) -> usize {
    match (relation, known) {
        (Relation::Bin, Known::House) => BIN_ROWS,
        (Relation::Bin, Known::Strict) => rows::BIN_ROWS,
        (Relation::Fld, _) => FLD_ROWS,
    }
}

/// From the original's matrices, the strict one with document 02's rows behind those of bin.
pub fn listing(known: Known) -> Listing {
    match known {
        Known::House => Listing::of_circuit(),
        Known::Strict => rows::listing(),
    }
}

pub fn judge(known: Known, cpi: usize) -> Judge {
    match known {
        Known::House => Judge::of_circuit(cpi),
        Known::Strict => rows::judge(cpi),
    }
}

/// The verdict on a batch whose first row that does not hold is this one, if there is one. Every row before
/// it is counted, and itself: all bin, then all fld; inside each by cycle, then row.
pub fn verdict(known: Known, cpi: usize, first: Option<(Relation, usize)>) -> Verdict {
    let all = |relation| cpi * rows_of(known, relation);
    let Some((relation, batch_row)) = first else {
        let counts = Counts {
            bin: all(Relation::Bin),
            fld: all(Relation::Fld),
        };
        return Verdict::Accepted { counts };
    };
    let padded = relation.padded_rows();
    let (cycle, row) = (batch_row / padded, batch_row % padded);
    let to_there = cycle * rows_of(known, relation) + row + 1;
    let counts = match relation {
        Relation::Bin => Counts {
            bin: to_there,
            fld: 0,
        },
        Relation::Fld => Counts {
            bin: all(Relation::Bin),
            fld: to_there,
        },
    };
    Verdict::Failed {
        relation,
        batch_row,
        counts,
    }
}
