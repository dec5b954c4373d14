//! The check of a batch that fails, beside the plain walk over it and the check of the same batch
//! before it was damaged.

use std::cell::RefCell;
use std::hint::black_box;
use std::ops::Range;

use product::Known;

use crate::inputs::{counts, Accepted, Listing, HOUSE};
use crate::table::{fine, head, line, ratio};
use crate::timing::{in_turn, Work};

/// Cycles in a batch, calls of one repetition, repetitions.
const CALLS: [(usize, usize, usize); 3] = [(1, 64, 1001), (16, 4, 401), (256, 1, 101)];

const RD: usize = 128;
const CARRY: usize = 448;
const ZERO: usize = 1024;

/// LH at offset 6 from a word that is zero: FETCH bits 0 and 1, IS_LOAD, LD_HALF, OFF. That RD's second
/// byte is then the one from lane 7 is what the last row asks.
const LOAD_HALF: [usize; 6] = [832, 833, 770, 777, 785, 786];

/// Given columns that such a cycle has 0 in.
const CLEARED: [Range<usize>; 3] = [0..448, 512..576, 768..873];

/// A row of one cycle, and a column whose flip makes it the first of all that fails.
#[derive(Clone, Copy)]
pub enum Place {
    /// Bin row 0 of the first cycle.
    First,
    /// Bin row 409, in the zero chain, of the middle cycle.
    Middle,
    /// Fld row 30, the last, of the last cycle.
    Last,
}

impl Place {
    const ALL: [Place; 3] = [Place::First, Place::Middle, Place::Last];

    fn name(self) -> &'static str {
        match self {
            Place::First => "the first row",
            Place::Middle => "a row of the middle cycle",
            Place::Last => "the last row",
        }
    }

    fn cycle(self, cpi: usize) -> usize {
        match self {
            Place::First => 0,
            Place::Middle => cpi / 2,
            Place::Last => cpi - 1,
        }
    }

    fn column(self) -> usize {
        match self {
            Place::First => CARRY + 1,
            Place::Middle => ZERO + 31,
            Place::Last => RD + 8,
        }
    }

    /// The low word of the column to be flipped.
    fn word(self, cpi: usize) -> usize {
        2 * (self.column() * cpi + self.cycle(cpi))
    }

    /// The verdict as the boundary writes it.
    pub fn verdict(self, listing: &Listing, cpi: usize) -> u64 {
        let &Listing {
            bin_rows, fld_rows, ..
        } = listing;
        let cycle = self.cycle(cpi);
        let (is_fld, batch_row, tested) = match self {
            Place::First => (0, 0, counts(1, 0)),
            Place::Middle => (0, 512 * cycle + 409, counts(bin_rows * cycle + 410, 0)),
            Place::Last => (1, 32 * cycle + 30, counts(bin_rows * cpi, fld_rows * cpi)),
        };
        1 << 62 | is_fld << 61 | tested | batch_row as u64
    }
}

/// One batch that is accepted, and in which one column is flipped and flipped back. That it is one
/// keeps the caches alike for all sides.
pub struct Damaged {
    pub cpi: usize,
    words: RefCell<Vec<u64>>,
}

impl Damaged {
    /// Cycles of the program, the last one made a load of a half.
    pub fn new(cpi: usize) -> Damaged {
        let mut words = Accepted::new(cpi, 1).words.remove(0);
        let at = |column: usize| 2 * (column * cpi + cpi - 1);
        CLEARED.into_iter().flatten().for_each(|c| words[at(c)] = 0);
        LOAD_HALF.into_iter().for_each(|c| words[at(c)] = 1);
        assert_eq!(product::fill(cpi, &mut words), 0, "the filler refuses");
        let words = RefCell::new(words);
        Damaged { cpi, words }
    }

    /// The batch with its damage, if there is to be any, by itself.
    pub fn copy(&self, place: Option<Place>) -> Vec<u64> {
        let mut words = self.words.borrow().clone();
        if let Some(place) = place {
            words[place.word(self.cpi)] ^= 1;
        }
        words
    }

    fn accepted(&self, check: Check) {
        let verdict = check(HOUSE.known, self.cpi, black_box(&self.words.borrow()));
        assert_eq!(verdict, HOUSE.accepted(self.cpi), "it is not accepted");
    }

    fn failing(&self, place: Place, check: Check) {
        let word = place.word(self.cpi);
        self.words.borrow_mut()[word] ^= 1;
        let verdict = check(HOUSE.known, self.cpi, black_box(&self.words.borrow()));
        self.words.borrow_mut()[word] ^= 1;
        let right = place.verdict(&HOUSE, self.cpi);
        assert_eq!(verdict, right, "it fails elsewhere");
    }
}

/// The check without a listing lent, or the plain walk.
type Check = fn(Known, usize, &[u64]) -> u64;

/// Seconds a batch of the plain walk over it, of the check of it, and of the check of it accepted.
fn time(damaged: &Damaged, place: Place, calls: usize, repetitions: usize) -> [f64; 3] {
    let work = Work {
        units: calls,
        repetitions,
    };
    let times = |call: &dyn Fn()| (0..calls).for_each(|_| call());
    in_turn(
        work,
        [
            &mut || times(&|| damaged.failing(place, product::check_known_plain)),
            &mut || times(&|| damaged.failing(place, product::check_known)),
            &mut || times(&|| damaged.accepted(product::check_known)),
        ],
    )
}

pub fn print() {
    head(&[
        "`check_known`, house, of a batch that fails",
        "unit",
        "the plain walk",
        "check",
        "check / walk",
        "check of it accepted",
        "walk + check of it accepted",
        "best of",
    ]);
    for (cpi, calls, repetitions) in CALLS {
        let damaged = Damaged::new(cpi);
        for place in Place::ALL {
            let [walk, check, accepted] = time(&damaged, place, calls, repetitions);
            line(&[
                format!("cpi {cpi}, {}", place.name()),
                "µs a batch".into(),
                fine(walk),
                fine(check),
                ratio(check, walk),
                fine(accepted),
                fine(walk + accepted),
                repetitions.to_string(),
            ]);
        }
    }
}
