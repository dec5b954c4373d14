//! The two forms of the product's check, which must answer alike: the one that is called, which takes
//! a short way where it can, and the plain walk over the listing.

use product::Known;

/// Forms of each check.
pub const FORMS: usize = 2;

pub type CheckRow = fn(usize, &[u32], &[u64], &mut [u64]) -> u64;
pub type CheckKnown = fn(Known, usize, &[u64]) -> u64;

/// The check against a listing that is lent.
pub const CHECK_ROW: [(&str, CheckRow); FORMS] = [
    ("check_row", product::check_row),
    ("check_row, plain walk", product::check_row_plain),
];

/// The check against a listing that is known by name, which is not.
pub const CHECK_KNOWN: [(&str, CheckKnown); FORMS] = [
    ("check_known", product::check_known),
    ("check_known, plain walk", product::check_known_plain),
];

/// What both forms say of a batch.
pub fn of_known(known: Known, cpi: usize, batch: &[u64]) -> [u64; FORMS] {
    CHECK_KNOWN.map(|(_, check)| check(known, cpi, batch))
}
