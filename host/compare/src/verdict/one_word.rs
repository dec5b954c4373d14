//! Listings that differ from the circuit's in a single word, which is changed in each of its bits, left
//! out, or there twice. The batch is one on which the difference shows, where there is one.

use super::batches::batch_column;
use super::constraints::{Constraint, Constraints};
use super::judge::{refused, Desk, Judge, OF_A_REFUSAL, OF_A_VERDICT};
use super::listings::Listing;
use super::pool::Pool;
use super::refusals::asked;
use crate::filler::filled::accepted;
use crate::listing;
use crate::numbers::Numbers;
use crate::original::Gf128;
use crate::parallel::in_parts;
use crate::report::{test, Tally, Test};

/// Each bit, left out, there twice.
pub const WAYS: usize = 32 + 2;
const LEFT_OUT: usize = 32;
const TWICE: usize = 33;

/// Listings over one cycle, and those among them that are in order: the others are refused.
const LISTINGS: usize = WAYS * listing::WORDS;
const IN_ORDER: usize = 62_437;

/// Over larger batches: the size, how many words are between two that are changed, in one way each,
/// and how many of the listings are in order.
const SAMPLES: [(usize, usize, usize); 3] = [(4, 1, 2523), (16, 40, 62), (256, 300, 7)];

/// Ways for larger batches: the lowest bit, the lowest of the exponent, coefficient zero or not, of
/// the kind, left out, there twice.
const SOME_WAYS: [usize; 6] = [0, 12, 29, 30, LEFT_OUT, TWICE];

/// Accepted rows to choose from, and those of them that are tried with a bit flipped. Where a row got
/// another number all are, for there are few such listings, and few rows that suit.
const ROWS: usize = 512;
const FLIPPED: usize = 16;

/// Public element one_col + 1, which all rows share.
const OUTPUT: u128 = 0x5a;

pub fn tests() -> Vec<Test> {
    let mut tests = vec![test(
        format!("check_row, {LISTINGS} listings that differ in one word, {IN_ORDER} in order"),
        of_listings(LISTINGS, IN_ORDER) + listing::WORDS as u64,
        each_word,
    )];
    for (cpi, stride, in_order) in SAMPLES {
        let listings = listing::WORDS.div_ceil(stride);
        tests.push(test(
            format!("check_row, {listings} listings that differ in one word, batches of {cpi}"),
            of_listings(listings, in_order),
            move |tally| some_words(tally, cpi, stride),
        ));
    }
    tests
}

fn of_listings(listings: usize, in_order: usize) -> u64 {
    in_order as u64 * OF_A_VERDICT + (listings - in_order) as u64 * OF_A_REFUSAL
}

/// Batches that these tests judge.
pub fn batches_judged() -> usize {
    IN_ORDER + SAMPLES.iter().map(|sample| sample.2).sum::<usize>()
}

/// The circuit, and rows that it accepts.
struct Circuit {
    words: Vec<u32>,
    listing: Listing,
    constraints: Constraints,
    pool: Pool,
}

/// A row of the pool with at most one bit flipped, and whether another listing's verdict on it is
/// another than the circuit's.
struct Choice {
    row: usize,
    flipped: Option<usize>,
    shows: bool,
}

impl Circuit {
    fn new() -> Circuit {
        let listing = Listing::of_circuit();
        let row = |part| accepted(&mut Numbers::for_part(37, part), 1, OUTPUT).z;
        let pool = Pool {
            rows: (0..ROWS as u64).map(row).collect(),
            public: vec![Gf128(OUTPUT)],
        };
        Circuit {
            words: listing.words(),
            listing,
            constraints: Judge::of_circuit(1).constraints,
            pool,
        }
    }

    /// Seeks a row on which a listing that is not the circuit's shows, from `start` on: an accepted
    /// one for which it does not hold, or one with a flip.
    fn choose(&self, other: &Listing, start: usize) -> Choice {
        let choice = |row, flipped, shows| Choice {
            row,
            flipped,
            shows,
        };
        let mut rows = self.listing.rows.iter().zip(&other.rows);
        let Some((own, row)) = rows.find(|(own, other)| own != other) else {
            // The last row is left out, or there is one more: fld's count says so.
            return choice(start, None, true);
        };
        let differing = Constraint::of_row(row);
        let order = || (0..ROWS).map(|i| (start + i) % ROWS);
        let fails = |&i: &usize| !differing.holds(&self.pool.rows[i]);
        if let Some(row) = order().find(fails) {
            return choice(row, None, true);
        }
        let verdicts = Constraints::of_rows(&other.rows);
        let (own, renumbered) = (Constraint::of_row(own), own.mark() != row.mark());
        for row in order().take(if renumbered { ROWS } else { FLIPPED }) {
            let mut z = self.pool.rows[row].clone();
            for column in own.witness_columns() {
                z[column].0 ^= 1;
                // What the row itself says is soon asked, and leaves few to be judged.
                let may = !own.holds(&z) && (renumbered || differing.holds(&z));
                if may && verdicts.verdict(&z) != self.constraints.verdict(&z) {
                    return choice(row, Some(column), true);
                }
                z[column].0 ^= 1;
            }
        }
        choice(start, None, false)
    }

    /// Judges a batch by the changed listing, and says whether the change shows; or sees it refused.
    fn judge(&self, tally: &mut Tally, cpi: usize, word: usize, way: usize) -> Option<bool> {
        let words = changed(&self.words, word, way);
        let mut numbers = Numbers::for_part(38, (word << 8 | way) as u64);
        let start = numbers.below(ROWS as u64) as usize;
        let cycle = numbers.below(cpi as u64) as usize;
        let mut desk = Desk::of(&words, numbers);
        let place = || format!("word {word} changed in way {way}, {cpi} cycles");
        if let Some(right) = asked(&words) {
            let mut batch = self.pool.batch(start, cpi, cycle);
            refused(tally, cpi, &mut desk, &mut batch.words, right, &place);
            return None;
        }
        let listing = Listing::of_words(&words);
        let choice = self.choose(&listing, start);
        let mut batch = self.pool.batch(choice.row, cpi, cycle);
        if let Some(column) = choice.flipped {
            batch.xor(batch_column(cpi, column, cycle), 1);
        }
        let judge = Judge::of(&listing, cpi);
        judge.judge(tally, &mut desk, &mut batch, &place);
        Some(choice.shows)
    }
}

/// The words with one of them changed.
pub fn changed(words: &[u32], word: usize, way: usize) -> Vec<u32> {
    let mut words = words.to_vec();
    match way {
        LEFT_OUT => drop(words.remove(word)),
        TWICE => words.insert(word, words[word]),
        bit => words[word] ^= 1 << bit,
    }
    words
}

/// Of every word some change shows, if any leaves the listing in order.
fn each_word(tally: &mut Tally) {
    let circuit = Circuit::new();
    in_parts(tally, circuit.words.len(), |tally, word| {
        let judged = |way| circuit.judge(tally, 1, word, way);
        let shown: Vec<bool> = (0..WAYS).filter_map(judged).collect();
        let place = || format!("word {word}, some change shows");
        tally.same(place, shown.is_empty() || shown.contains(&true), true);
    });
}

fn some_words(tally: &mut Tally, cpi: usize, stride: usize) {
    let circuit = Circuit::new();
    in_parts(
        tally,
        circuit.words.len().div_ceil(stride),
        |tally, part| {
            let way = SOME_WAYS[part % SOME_WAYS.len()];
            circuit.judge(tally, cpi, part * stride, way);
        },
    );
}
