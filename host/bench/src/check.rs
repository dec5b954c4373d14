//! The check of accepted batches: as it is called, by the plain walk, from bytes, and in its parts;
//! beside the original's, and beside one plain read of the columns that are looked at.

use std::hint::black_box;

use magnetar_cpu::circuit::{build_circuit_batched, check_row, CircuitSpec};

use crate::inputs::{Accepted, Listing, HOUSE, LEAST_SCRATCH, MOST_SCRATCH};
use crate::reads;
use crate::timing::{in_turn, Work};
use crate::CHECKS;

/// Batches of one size against one listing: seconds a cycle of each side.
pub struct Checked {
    pub listing: &'static Listing,
    pub cpi: usize,
    pub repetitions: usize,
    /// Against its own circuit, which is the house listing.
    pub original: f64,
    pub read: f64,
    /// The listing is lent, and the most scratch.
    pub check_row: f64,
    pub check_row_plain: f64,
    /// `check_row` with the least scratch.
    pub check_row_least: f64,
    /// No listing is lent.
    pub check_known: f64,
    pub check_known_plain: f64,
    /// The comparison of the listing with the table, and the clearing of the most scratch, once a batch.
    pub compare: f64,
    pub clear: f64,
    /// Comparison, check and clearing called one after the other, so that each finds the caches as the
    /// others left them.
    pub in_sequence: f64,
}

impl Checked {
    pub fn time(
        listing: &'static Listing,
        (cpi, batches, repetitions): (usize, usize, usize),
    ) -> Checked {
        let accepted = Accepted::new(cpi, batches);
        let spec = build_circuit_batched(cpi);
        let (known, words) = (listing.known, listing.words());
        let words = || black_box(&words[..]);
        let right = listing.accepted(cpi);
        let scratch = || vec![0; MOST_SCRATCH];
        let (mut fast, mut plain) = (scratch(), scratch());
        let mut least = vec![0; LEAST_SCRATCH];
        let (mut cleared, mut behind) = (scratch(), scratch());
        let units = cpi * batches;
        let [original, read, check_known, compare, clear, in_sequence, check_row, check_row_least, check_known_plain, check_row_plain] =
            in_turn(
                Work { units, repetitions },
                [
                    &mut || by_original(&spec, &accepted),
                    &mut || accepted.words.iter().for_each(|z| reads::words(cpi, z)),
                    &mut || each(&accepted, right, |z| product::check_known(known, cpi, z)),
                    &mut || (0..batches).for_each(|_| assert!(product::is_known(known, words()))),
                    &mut || (0..batches).for_each(|_| product::clear(black_box(&mut cleared))),
                    &mut || {
                        each(&accepted, right, |z| {
                            assert!(product::is_known(known, words()));
                            let verdict = product::check_known(known, cpi, z);
                            product::clear(black_box(&mut behind));
                            verdict
                        });
                    },
                    &mut || {
                        each(&accepted, right, |z| {
                            product::check_row(cpi, words(), z, &mut fast)
                        })
                    },
                    &mut || {
                        each(&accepted, right, |z| {
                            product::check_row(cpi, words(), z, &mut least)
                        })
                    },
                    &mut || {
                        each(&accepted, right, |z| {
                            product::check_known_plain(known, cpi, z)
                        })
                    },
                    &mut || {
                        each(&accepted, right, |z| {
                            product::check_row_plain(cpi, words(), z, &mut plain)
                        })
                    },
                ],
            );
        Checked {
            listing,
            cpi,
            repetitions,
            original,
            read,
            check_row,
            check_row_plain,
            check_row_least,
            check_known,
            check_known_plain,
            compare,
            clear,
            in_sequence,
        }
    }
}

/// Rows of one cycle: seconds a row of each side.
pub struct FromBytes {
    pub repetitions: usize,
    /// Over elements, as at cpi 1.
    pub original: f64,
    pub read: f64,
    /// The product's C boundary.
    pub check: f64,
}

impl FromBytes {
    pub fn time() -> FromBytes {
        let (cpi, batches, repetitions) = CHECKS[0];
        let accepted = Accepted::new(cpi, batches);
        let spec = build_circuit_batched(cpi);
        let right = HOUSE.row_accepted();
        let units = batches;
        let [original, read, check] = in_turn(
            Work { units, repetitions },
            [
                &mut || by_original(&spec, &accepted),
                &mut || accepted.bytes.iter().for_each(|row| reads::bytes(row)),
                &mut || {
                    for bytes in &accepted.bytes {
                        let answer = cellprism::check_row(black_box(bytes));
                        assert_eq!(answer, right, "the product does not accept");
                    }
                },
            ],
        );
        FromBytes {
            repetitions,
            original,
            read,
            check,
        }
    }
}

/// One check by the product of each batch.
fn each(accepted: &Accepted, right: u64, mut check: impl FnMut(&[u64]) -> u64) {
    for words in &accepted.words {
        let verdict = check(black_box(words));
        assert_eq!(verdict, right, "the product does not accept");
    }
}

/// One check by the original of each batch.
pub fn by_original(spec: &CircuitSpec, accepted: &Accepted) {
    for z in &accepted.elements {
        let answer = check_row(black_box(spec), black_box(z));
        assert_eq!(answer, Ok(()), "the original does not accept");
    }
}
