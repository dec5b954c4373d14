//! The strict listing's words.

use product::Known;

use super::rows::{self, ADDED_WORDS, BIN_ROWS, FIRST_WORD, ROWS, WORDS};
use crate::house::Relation;
use crate::listing::{self, FLD_ROWS};
use crate::report::{test, Tally, Test};
use crate::verdict::listings::Listing;
use crate::verdict::refusals::asked;

/// Word indexes past the listing that are asked for.
const PAST: [usize; 5] = [WORDS, WORDS + 1, 16_384, 1 << 32, usize::MAX];

pub fn tests() -> Vec<Test> {
    vec![
        test(
            "the strict listing, encoded from the original's matrices and document 02's rows",
            WORDS as u64 + 1,
            encoded,
        ),
        test(
            format!("the strict listing is the house listing with {ADDED_WORDS} words between"),
            WORDS as u64 + 1,
            around,
        ),
        test(
            "the strict listing, words past it are 0",
            PAST.len() as u64,
            past_end,
        ),
        test(
            "the strict listing, rows in order, and questions 6 to 10 answered with yes",
            4,
            in_order,
        ),
    ]
}

fn words() -> Vec<u32> {
    (0..WORDS).map(word).collect()
}

fn word(i: usize) -> u32 {
    product::listing_word(Known::Strict, i)
}

fn encoded(tally: &mut Tally) {
    same_words(tally, &rows::listing().words());
}

/// They lie behind the last bin row; the test before says what they are.
fn around(tally: &mut Tally) {
    let between = words()[FIRST_WORD..][..ADDED_WORDS].to_vec();
    let mut right = listing::words();
    right.splice(FIRST_WORD..FIRST_WORD, between);
    same_words(tally, &right);
}

fn same_words(tally: &mut Tally, right: &[u32]) {
    tally.same(|| "number of words".into(), WORDS, right.len());
    for (i, &right) in right.iter().enumerate() {
        tally.same(|| format!("word {i}"), word(i), right);
    }
}

fn past_end(tally: &mut Tally) {
    for i in PAST {
        tally.same(|| format!("word {i}"), word(i), 0);
    }
}

fn in_order(tally: &mut Tally) {
    let words = words();
    tally.same(|| "questions 6 to 10".into(), asked(&words), None);
    let marks = Listing::of_words(&words).marks();
    tally.same(|| "number of rows".into(), marks.len(), ROWS);
    for (relation, rows) in [(Relation::Bin, BIN_ROWS), (Relation::Fld, FLD_ROWS)] {
        let seen = marks.iter().filter(|mark| mark.0 == relation);
        let seen: Vec<usize> = seen.map(|mark| mark.1).collect();
        tally.same(|| format!("{relation:?} rows"), seen, (0..rows).collect());
    }
}
