//! Merging, which the original has not: two batches into one of twice the size, beside one plain copy of as
//! many words as are written, and one plain read of the public columns, which are compared before.

use std::hint::black_box;

use crate::inputs::{Accepted, HOUSE};
use crate::reads;
use crate::table::{fine, giga, head, line, ratio};
use crate::timing::{in_turn, Work};

/// Cycles in each of the two, merges of one repetition, repetitions.
const MERGES: [(usize, usize, usize); 8] = [
    (1, 16, 2001),
    (2, 16, 1001),
    (4, 8, 1001),
    (8, 4, 1001),
    (16, 4, 401),
    (32, 2, 401),
    (64, 1, 401),
    (128, 1, 201),
];

/// Words of a batch for each of its cycles.
const WORDS: usize = 8192;

/// What stands in a word that is to be written.
const UNWRITTEN: u64 = 0xa5c3_96f0_5a3c_690f;

pub fn print() {
    head(&[
        "merging, which the original has not, beside one plain copy of what is written",
        "unit",
        "copy",
        "merge",
        "merge / copy",
        "read of the public columns of both",
        "GB written a second",
        "GB copied a second",
        "best of",
    ]);
    for (cpi, merges, repetitions) in MERGES {
        let halves = Halves::new(cpi, merges);
        halves.hold();
        let [copy, merge, read] = time(&halves, repetitions);
        line(&[
            format!("two of cpi {cpi}"),
            "µs a cycle of the larger batch".into(),
            fine(copy),
            fine(merge),
            ratio(merge, copy),
            fine(read),
            giga(8 * WORDS, merge),
            giga(8 * WORDS, copy),
            repetitions.to_string(),
        ]);
    }
    println!("{NOTES}");
}

const NOTES: &str = "
A batch is 65,536 bytes a cycle. A merge reads both batches and writes as many bytes as both have: their lower
columns, the public columns once, and zeros. The copy is Rust's, of the merged batch into another slice of its
length. The read is a loop that joins the words of the public columns of both batches by a bitwise or. Each
side writes over the same slice in every merge. The merged batches are the original's assemblies of all
cycles, and accepted, before they are timed.";

/// Batches of consecutive cycles, by twos, and the original's batches of the same cycles, of twice the size.
struct Halves {
    cpi: usize,
    given: Vec<Vec<u64>>,
    right: Vec<Vec<u64>>,
}

impl Halves {
    fn new(cpi: usize, merges: usize) -> Halves {
        Halves {
            cpi,
            given: Accepted::new(cpi, 2 * merges).words,
            right: Accepted::new(2 * cpi, merges).words,
        }
    }

    /// Words of a merged batch.
    fn words(&self) -> usize {
        2 * WORDS * self.cpi
    }

    fn pairs(&self) -> impl Iterator<Item = &[Vec<u64>]> {
        self.given.chunks(2)
    }

    /// Whether merging gives what the original's assembly gives, and it is accepted.
    fn hold(&self) {
        let cpi = 2 * self.cpi;
        for (pair, right) in self.pairs().zip(&self.right) {
            let mut batch = vec![UNWRITTEN; self.words()];
            merge(self.cpi, pair, &mut batch);
            assert!(batch == *right, "the merged batches differ");
            let verdict = product::check_known(HOUSE.known, cpi, &batch);
            assert_eq!(verdict, HOUSE.accepted(cpi), "the product does not accept");
        }
    }
}

fn merge(cpi: usize, pair: &[Vec<u64>], batch: &mut [u64]) {
    let (first, second) = (black_box(&pair[0]), black_box(&pair[1]));
    let answer = product::merge(cpi, first, cpi, second, black_box(batch));
    assert_eq!(answer, 0, "the product refuses");
}

/// Seconds a cycle of the larger batch: of the copy, of merging, of the read.
fn time(halves: &Halves, repetitions: usize) -> [f64; 3] {
    let cpi = halves.cpi;
    let (mut copied, mut merged) = (vec![0; halves.words()], vec![0; halves.words()]);
    let units = 2 * cpi * halves.right.len();
    in_turn(
        Work { units, repetitions },
        [
            &mut || {
                for batch in &halves.right {
                    black_box(&mut copied[..]).copy_from_slice(black_box(batch));
                }
            },
            &mut || {
                for pair in halves.pairs() {
                    merge(cpi, pair, &mut merged);
                }
            },
            &mut || {
                for batch in &halves.given {
                    reads::public(cpi, batch);
                }
            },
        ],
    )
}
