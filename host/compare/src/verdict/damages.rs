//! Listings that questions 6 to 10 refuse: one word of a good one put wrong, two, or too many words.

use super::answer::{Refusal, MARK_ORDER, MUST_BE_ZERO, NO_MARK, TERM_ORDER};
use super::listings::{mark_word, Listing, MOST_WORDS};
use super::refusals::asked;
use crate::house::Relation;

/// Words of the circuit's listing between two that are damaged.
const STRIDE: usize = 37;

/// One word of a good listing put wrong.
pub struct Damage {
    pub place: usize,
    pub word: u32,
    pub number: u64,
}

/// Damages of one kind to a good listing.
pub type Kind = fn(&[u32]) -> Vec<Damage>;

pub const KINDS: [(&str, Kind); 5] = [
    ("each must-be-zero bit, 7", must_be_zero_bits),
    ("terms before any mark, 8", no_mark),
    (
        "marks out of order and fld rows from 32, 9",
        marks_out_of_order,
    ),
    ("terms out of order, 10", terms_out_of_order),
    ("two faults in one word, the smaller number", two_faults),
];

pub fn circuit_words() -> Vec<u32> {
    Listing::of_circuit().words()
}

fn is_mark(word: u32) -> bool {
    word >> 30 == 3
}

fn is_zero_term(word: u32) -> bool {
    !is_mark(word) && word >> 29 & 1 == 1
}

/// Every so many words, the first and the last, and all of coefficient zero.
fn some_places(words: &[u32]) -> Vec<usize> {
    let chosen = |&i: &usize| i % STRIDE == 0 || i == words.len() - 1 || is_zero_term(words[i]);
    (0..words.len()).filter(chosen).collect()
}

fn must_be_zero_bits(words: &[u32]) -> Vec<Damage> {
    let mut damages = Vec::new();
    for place in some_places(words) {
        let word = words[place];
        let lowest = match (is_mark(word), is_zero_term(word)) {
            (true, _) => 9,
            (_, true) => 12,
            _ => 18,
        };
        damages.extend((lowest..29).map(|bit| Damage {
            place,
            word: word | 1 << bit,
            number: MUST_BE_ZERO,
        }));
    }
    damages
}

/// Only the first word can be a term without a mark before it.
fn no_mark(_: &[u32]) -> Vec<Damage> {
    [0, 0x0003_ffff, 0x2000_0fff, 0x4000_0800, 0x8000_0001]
        .map(|word| Damage {
            place: 0,
            word,
            number: NO_MARK,
        })
        .into()
}

/// Each mark made the same as the one before it, or an earlier one; each fld mark made one of bin,
/// and one of a row that fld does not have.
fn marks_out_of_order(words: &[u32]) -> Vec<Damage> {
    let places: Vec<usize> = (0..words.len()).filter(|&i| is_mark(words[i])).collect();
    let mut damages = Vec::new();
    for pair in places.windows(2) {
        let (before, place) = (pair[0], pair[1]);
        let mut wrong = vec![words[before], words[0]];
        if words[before] >> 29 == 7 {
            wrong.push(mark_word(Relation::Bin, 511));
        }
        let too_large = [32, 33, 255, 256, 511];
        wrong.extend(too_large.map(|row| mark_word(Relation::Fld, row)));
        damages.extend(wrong.into_iter().map(|word| Damage {
            place,
            word,
            number: MARK_ORDER,
        }));
    }
    damages
}

/// A term after one of B made one of A, after one of C one of A or B.
fn terms_out_of_order(words: &[u32]) -> Vec<Damage> {
    let mut damages = Vec::new();
    for place in 1..words.len() {
        if is_mark(words[place]) || is_mark(words[place - 1]) {
            continue;
        }
        damages.extend((0..words[place - 1] >> 30).map(|kind| Damage {
            place,
            word: words[place] & 0x3fff_ffff | kind << 30,
            number: TERM_ORDER,
        }));
    }
    damages
}

/// Must-be-zero bits in a word that another question would refuse as well.
fn two_faults(words: &[u32]) -> Vec<Damage> {
    let kinds = [no_mark, marks_out_of_order, terms_out_of_order];
    kinds
        .into_iter()
        .flat_map(|kind| kind(words).into_iter().step_by(STRIDE))
        .map(|damage| Damage {
            word: damage.word | 1 << 28,
            number: MUST_BE_ZERO,
            ..damage
        })
        .collect()
}

/// Listings as long as may be, wrong in their last word.
pub fn wrong_at_last() -> [(Vec<u32>, Refusal); 3] {
    let mark = mark_word(Relation::Fld, 5);
    let place = MOST_WORDS - 1;
    [
        (0x8004_0000, MUST_BE_ZERO),
        (mark, MARK_ORDER),
        (0x4000_0000, TERM_ORDER),
    ]
    .map(|(word, number)| {
        let mut words = vec![0x8000_0000; MOST_WORDS];
        words[0] = mark;
        words[place] = word;
        (words, Refusal { number, place })
    })
}

pub const TOO_LONG: usize = 4 * 2;

/// Listings of too many words, whose first one is right or wrong.
pub fn too_long() -> Vec<Vec<u32>> {
    let mut listings = Vec::new();
    for len in [MOST_WORDS + 1, MOST_WORDS + 2, 20_000, 1 << 16] {
        for first in [mark_word(Relation::Bin, 0), u32::MAX] {
            let mut words = vec![0; len];
            words[0] = first;
            listings.push(words);
        }
    }
    assert_eq!(listings.len(), TOO_LONG);
    listings
}

/// A small good listing of each sort of word.
pub const SMALL: [u32; 8] = [
    0xc000_0003,
    0x0000_0001,
    0x4000_0002,
    0x8000_0003,
    0xe000_0004,
    0x0000_1004,
    0x6000_0005,
    0x8003_f006,
];

pub const PAIRS: usize = 9 * (7 + 6 + 5 + 4 + 3 + 2 + 1);

/// The small listing with each of three wrong words at each place, and each of three at each later
/// one.
pub fn two_wrong_words() -> Vec<([u32; 8], Refusal)> {
    let mut listings = Vec::new();
    for first in 0..SMALL.len() {
        for second in first + 1..SMALL.len() {
            for faults in 0..9 {
                let mut words = SMALL;
                words[first] = wrong_word(faults % 3);
                words[second] = wrong_word(faults / 3);
                let right = asked(&words).expect("a refusal");
                assert!(
                    right.place <= first,
                    "the first wrong word or one before it"
                );
                listings.push((words, right));
            }
        }
    }
    assert_eq!(listings.len(), PAIRS);
    listings
}

/// Wrong wherever it stands: bits that must be zero; a mark that fld does not have; a mark before
/// any other, which at place 0 makes what follows wrong.
fn wrong_word(sort: usize) -> u32 {
    [0x1000_0000, 0xe000_0020, 0xffff_ffff][sort]
}
