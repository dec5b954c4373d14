//! The row maker, assembly and the branch reading against the original's `witness_row`,
//! `assemble_instance_z` and interpreter; which of its own rows the original's check fails; and
//! what an accepted row does not say.

pub mod any_program;
pub mod assembly;
mod branches;
mod failing;
mod limits;
mod maker;
pub mod records;
mod refilled;
mod rows;
mod step;
mod unbound;

use crate::report::Test;

pub fn tests() -> Vec<Test> {
    let mut tests = rows::tests();
    tests.extend(refilled::tests());
    tests.extend(assembly::tests());
    tests.extend(branches::tests());
    tests.extend(limits::tests());
    tests.extend(failing::tests());
    tests.extend(unbound::tests());
    tests
}

/// Random records whose rows are held against the original's, those of programs not counted.
pub fn rows_made() -> usize {
    rows::RANDOM
}
