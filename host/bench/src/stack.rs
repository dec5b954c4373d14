//! How much stack each entry touches, on a batch that is accepted and on one whose last row fails.

use std::fmt::Debug;

use cellprism::{Answer, Relation};
use product::stack::touched;

use crate::failing::{Damaged, Place};
use crate::inputs::{bytes_of, Listing, HOUSE, LEAST_SCRATCH, STRICT};
use crate::table::{head, line};
use crate::CHECKS;

/// What a call may use.
const MOST_KILOBYTES: usize = 256;

/// On a batch that is accepted, and on one whose last row fails.
type Bytes = [usize; 2];

/// Size, listing, batch and scratch.
type CheckRow = fn(usize, &[u32], &[u64], &mut [u64]) -> u64;

pub fn print() {
    head(&[
        "stack touched",
        "unit",
        "accepted",
        "the last row fails",
        "at most",
    ]);
    for (cpi, ..) in CHECKS {
        let damaged = Damaged::new(cpi);
        for listing in [&HOUSE, &STRICT] {
            let name = listing.name;
            let known = of_check_known(&damaged, listing);
            print_line(format!("`check_known`, {name}, cpi {cpi}"), known);
            let row = of_check_row(&damaged, listing, product::check_row);
            print_line(format!("`check_row`, {name}, cpi {cpi}"), row);
            let plain = of_check_row(&damaged, listing, product::check_row_plain);
            let what = format!("`check_row`, {name}, the plain walk, cpi {cpi}");
            print_line(what, plain);
        }
    }
    let boundary = of_boundary(&Damaged::new(1));
    print_line("`cellprism_check_row`".into(), boundary);
}

fn print_line(what: String, bytes: Bytes) {
    let [accepted, failing] = bytes.map(|bytes| format!("{:.1}", bytes as f64 / 1024.0));
    let most = MOST_KILOBYTES.to_string();
    line(&[what, "KB".into(), accepted, failing, most]);
}

fn of_check_known(damaged: &Damaged, listing: &Listing) -> Bytes {
    let (cpi, known) = (damaged.cpi, listing.known);
    each(batches(damaged, listing), |words| {
        product::check_known(known, cpi, words)
    })
}

/// Lent the least scratch: what it lacks must not be taken from the stack.
fn of_check_row(damaged: &Damaged, listing: &Listing, check: CheckRow) -> Bytes {
    let (cpi, lent) = (damaged.cpi, listing.words());
    let mut scratch = vec![0; LEAST_SCRATCH];
    each(batches(damaged, listing), |words| {
        check(cpi, &lent, words, &mut scratch)
    })
}

/// From bytes, for one cycle.
fn of_boundary(damaged: &Damaged) -> Bytes {
    let [good, bad] = batches(damaged, &HOUSE).map(|(words, _)| bytes_of(&words));
    let (relation, row) = (Relation::Fld, 30);
    let answers = [
        (good, HOUSE.row_accepted()),
        (bad, Answer::Failed { relation, row }),
    ];
    each(answers, cellprism::check_row)
}

fn batches(damaged: &Damaged, listing: &Listing) -> [(Vec<u64>, u64); 2] {
    let (cpi, last) = (damaged.cpi, Place::Last);
    [
        (damaged.copy(None), listing.accepted(cpi)),
        (damaged.copy(Some(last)), last.verdict(listing, cpi)),
    ]
}

/// Calls the check with each input, on a stack of its own, and sees that it answers what is right.
fn each<T, A: PartialEq + Debug>(
    inputs: [(Vec<T>, A); 2],
    mut check: impl FnMut(&[T]) -> A,
) -> Bytes {
    inputs.map(|(input, right)| {
        let mut answer = None;
        let bytes = touched(&mut || answer = Some(check(&input)));
        assert_eq!(answer, Some(right), "the product answers otherwise");
        bytes
    })
}
