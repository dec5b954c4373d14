//! Which columns the filler writes, and the rows that say what it writes there.

use std::ops::Range;

use crate::house::Relation;
use crate::original::Gf128;
use crate::verdict::batches::WITNESS_COLUMNS;
use crate::verdict::constraints::{Constraint, Constraints};

pub const DERIVED: usize = 419;

const RANGES: [Range<usize>; 6] = [448..512, 576..768, 773..774, 779..780, 896..954, 1024..1127];

/// Bin rows that are conditions and not definitions: RAM address and zero extension.
const CONDITION_ROWS: [Range<usize>; 2] = [255..263, 322..378];
const FIRST_CARRY: usize = 2;

pub fn is_derived(column: usize) -> bool {
    RANGES.iter().any(|range| range.contains(&column))
}

pub fn derived() -> impl Iterator<Item = usize> {
    RANGES.into_iter().flatten()
}

pub fn given() -> impl Iterator<Item = usize> {
    (0..WITNESS_COLUMNS).filter(|&column| !is_derived(column))
}

/// The first batch row among those that filling must satisfy that does not hold.
pub fn first_broken(constraints: &Constraints, z: &[Gf128]) -> Option<(Relation, usize)> {
    let broken = |row: &&Constraint| defines(row) && !row.holds(z);
    let first = constraints.in_order.iter().find(broken);
    first.map(|row| (row.relation, row.batch_row))
}

fn defines(constraint: &Constraint) -> bool {
    let row = constraint.batch_row % constraint.relation.padded_rows();
    match constraint.relation {
        Relation::Bin => !CONDITION_ROWS.iter().any(|rows| rows.contains(&row)),
        Relation::Fld => row == FIRST_CARRY,
    }
}
