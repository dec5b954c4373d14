//! Listings other than the circuit's, as the original's matrices, over batches of every size.

use super::batches::{self, batch_column, Batch, COLUMNS, ONE_COLUMN};
use super::judge::{Desk, Judge, OF_A_VERDICT};
use super::listings::{self, Listing, Shape, MARKS, MOST_WORDS};
use crate::columns::SIZES;
use crate::house::{Coefficient, Term};
use crate::numbers::Numbers;
use crate::parallel::in_parts;
use crate::report::{test, Tally, Test};

/// Listings of each kind, for each size, times the size.
const CYCLES_OF_A_KIND: usize = 4096;

/// Columns that are 1 in every cycle of a batch made here.
const ONES: [usize; 4] = [77, ONE_COLUMN - 1, ONE_COLUMN, COLUMNS - 1];

const LONGEST: usize = 16;

pub fn tests() -> Vec<Test> {
    let mut tests = Vec::new();
    for cpi in SIZES {
        tests.extend(tests_of_size(cpi));
    }
    tests.push(test(
        format!("check_row, {LONGEST} listings of {MOST_WORDS} words"),
        LONGEST as u64 * OF_A_VERDICT,
        longest,
    ));
    tests.push(test(
        "check_row, listings of no row and of marks alone",
        9 * 2 * (OF_A_VERDICT + 1),
        without_terms,
    ));
    tests
}

pub fn batches_judged() -> usize {
    let of_size = |cpi| 3 * CYCLES_OF_A_KIND / cpi;
    SIZES.into_iter().map(of_size).sum::<usize>() + LONGEST + 9 * 2
}

fn tests_of_size(cpi: usize) -> Vec<Test> {
    let kinds: [(&str, u64, Kind); 3] = [
        ("random rows", OF_A_VERDICT, random),
        ("rows that hold", OF_A_VERDICT + 1, holding),
        ("rows that hold but one", OF_A_VERDICT, spoiled),
    ];
    let make = |(name, compared, kind): (&str, u64, Kind)| {
        let listings = CYCLES_OF_A_KIND / cpi;
        test(
            format!("check_row, listings of {name}, {listings} batches of {cpi}"),
            listings as u64 * compared,
            move |tally| run(tally, cpi, kind),
        )
    };
    kinds.into_iter().map(make).collect()
}

type Kind = fn(&mut Tally, &mut Part);

struct Part {
    cpi: usize,
    number: usize,
    numbers: Numbers,
}

fn run(tally: &mut Tally, cpi: usize, kind: Kind) {
    in_parts(tally, CYCLES_OF_A_KIND / cpi, |tally, number| {
        let numbers = Numbers::for_part(30, (cpi << 32 | number) as u64);
        kind(
            tally,
            &mut Part {
                cpi,
                number,
                numbers,
            },
        );
    });
}

impl Part {
    /// Large batches have shorter listings, to keep the matrices within bounds.
    fn shape(&mut self) -> Shape {
        let mut shape = listings::shape(&mut self.numbers);
        shape.marks = shape.marks.min(16 * MARKS / self.cpi);
        shape
    }

    /// Arbitrary elements, but 1 in the columns `ONES`.
    fn dense_batch(&mut self) -> Batch {
        let mut batch = Batch::of(self.cpi, batches::dense(&mut self.numbers, self.cpi));
        for column in ONES {
            for cycle in 0..self.cpi {
                batch.put(batch_column(self.cpi, column, cycle), 1);
            }
        }
        batch
    }

    /// Mostly zero, so that rows of few terms often hold.
    fn sparse_batch(&mut self) -> Batch {
        let mut batch = Batch::zero(self.cpi);
        let filled = self.numbers.below(COLUMNS as u64) as usize * self.cpi;
        for _ in 0..filled {
            let column = self.numbers.below((COLUMNS * self.cpi) as u64) as usize;
            batch.put(column, batches::element(&mut self.numbers));
        }
        batch
    }

    fn judge(&mut self, tally: &mut Tally, listing: &Listing, batch: &mut Batch) -> bool {
        let judge = Judge::of(listing, self.cpi);
        let sequence = Numbers::for_part(31, self.numbers.next());
        let mut desk = Desk::of(&judge.listing, sequence);
        let place = || self.place();
        let verdict = judge.judge(tally, &mut desk, batch, &place);
        verdict.relation().is_none()
    }

    fn place(&self) -> String {
        format!("listing {} over {} cycles", self.number, self.cpi)
    }
}

fn random(tally: &mut Tally, part: &mut Part) {
    let shape = part.shape();
    let listing = listings::random(&mut part.numbers, shape);
    let mut batch = if part.number % 2 == 0 {
        part.sparse_batch()
    } else {
        part.dense_batch()
    };
    part.judge(tally, &listing, &mut batch);
}

fn holding(tally: &mut Tally, part: &mut Part) {
    let shape = part.shape();
    let listing = listings::holding(&mut part.numbers, shape, &ONES);
    let mut batch = part.dense_batch();
    let accepted = part.judge(tally, &listing, &mut batch);
    tally.same(|| format!("{} is accepted", part.place()), accepted, true);
}

fn spoiled(tally: &mut Tally, part: &mut Part) {
    let shape = part.shape();
    let mut listing = listings::holding(&mut part.numbers, shape, &ONES);
    listings::spoil(&mut part.numbers, &mut listing);
    let mut batch = part.dense_batch();
    part.judge(tally, &listing, &mut batch);
}

/// As many words as question 6 lets pass: the last row is made that long, and half of the time does
/// not hold.
fn longest(tally: &mut Tally) {
    in_parts(tally, LONGEST, |tally, number| {
        let mut part = Part {
            cpi: SIZES[number % 3],
            number,
            numbers: Numbers::for_part(32, number as u64),
        };
        let shape = Shape {
            marks: MARKS,
            terms_of_a_side: 8,
        };
        let mut listing = listings::holding(&mut part.numbers, shape, &ONES);
        lengthen(&mut listing, number % 2 == 0);
        let mut batch = part.dense_batch();
        part.judge(tally, &listing, &mut batch);
    });
}

/// Adds terms of B to the last row, whose A and C are emptied. Where it must not hold, A becomes 1,
/// and B's terms, each of another exponent or column, do not cancel.
fn lengthen(listing: &mut Listing, holds: bool) {
    let one = Term {
        column: ONE_COLUMN,
        coefficient: Coefficient::Power(0),
    };
    let last = listing.rows.last_mut().expect("a row");
    last.sides = [vec![one], vec![], vec![]];
    if holds {
        last.sides[0][0].coefficient = Coefficient::Zero;
    }
    let missing = MOST_WORDS - listing.words().len();
    let term = |i: usize| Term {
        column: i % COLUMNS,
        coefficient: Coefficient::Power((i / COLUMNS) as u32),
    };
    let last = listing.rows.last_mut().expect("a row");
    last.sides[1].extend((0..missing).map(term));
    assert_eq!(listing.words().len(), MOST_WORDS);
}

/// No row accepts with both counts 0; every mark without terms accepts and counts.
fn without_terms(tally: &mut Tally) {
    for cpi in SIZES {
        for marks in [0, MARKS] {
            let mut part = Part {
                cpi,
                number: marks,
                numbers: Numbers::for_part(33, cpi as u64),
            };
            let shape = Shape {
                marks,
                terms_of_a_side: 0,
            };
            let listing = listings::random(&mut part.numbers, shape);
            let mut batch = part.dense_batch();
            let accepted = part.judge(tally, &listing, &mut batch);
            tally.same(|| format!("{} is accepted", part.place()), accepted, true);
        }
    }
}
