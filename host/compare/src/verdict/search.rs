//! The search for a row and the words of a part, in words of any kind and order, against a reading of
//! document 01.

use std::ops::Range;

use super::answer::{refusal, ROW_SOUGHT};
use super::lent::Lent;
use super::listings::{asked_for, mark_word, Listing, Mark, MOST_WORDS};
use super::reader::missing;
use super::refusals::asked;
use crate::house::Relation;
use crate::listing;
use crate::numbers::Numbers;
use crate::parallel::in_parts;
use crate::report::{test, Tally, Test};
use product::{Answer, Place};

/// What a call answers for a word past the end of a part.
const PAST: u64 = 1 << 63;

/// Two bin marks and one of fld, one that is no mark of row 0 but by its low bits, two terms.
const ALPHABET: [u32; 6] = [
    0xc000_0000,
    0xc000_0001,
    0xe000_0000,
    0xc000_0200,
    0x0000_0140,
    0xa000_0fff,
];
const LONGEST_SPELT: u32 = 5;

/// Rows sought in these: marks of some, words of others with bits that no mark has.
const SOUGHT: [Mark; 9] = [
    (Relation::Bin, 0),
    (Relation::Bin, 1),
    (Relation::Bin, 2),
    (Relation::Fld, 0),
    (Relation::Fld, 1),
    (Relation::Bin, 512),
    (Relation::Fld, 32),
    (Relation::Bin, 1 << 29),
    (Relation::Bin, 1 << 32),
];

const LONGEST_CUT: usize = 12;
const RANDOM: usize = 20_000;
const CALLS_OF_A_LISTING: usize = 12;
const LONG: usize = 4;
const CUTS: usize = 100_000;

/// Comparisons of a row sought: the places that the search and a reader give, the words of the part.
const OF_A_ROW: u64 = 2;

pub fn tests() -> Vec<Test> {
    let cuts: usize = (0..=LONGEST_CUT).map(|len| ends(len).len().pow(2)).sum();
    let house = listing_marks().len() as u64;
    vec![
        test(
            format!("search, every listing of up to {LONGEST_SPELT} words of six"),
            spelt() as u64 * (SOUGHT.len() as u64 * OF_A_ROW + 1),
            every_short_one,
        ),
        test(
            "search, each row of the house listing, and rows that it has not",
            house * (OF_A_ROW + 1) + 1,
            house_rows,
        ),
        test(
            format!("search, {RANDOM} random words in no order"),
            RANDOM as u64 * (CALLS_OF_A_LISTING as u64 * OF_A_ROW + 1),
            random,
        ),
        test(
            format!("search, {LONG} listings of more than {MOST_WORDS} words"),
            LONG as u64 * (CALLS_OF_A_LISTING as u64 * OF_A_ROW + 1),
            long,
        ),
        test(
            format!("part_at, every start and end in up to {LONGEST_CUT} words"),
            2 * cuts as u64 + LONGEST_CUT as u64 + 1,
            every_cut,
        ),
        test(
            format!("part_at, {CUTS} random starts and ends"),
            CUTS as u64,
            random_cuts,
        ),
    ]
}

/// Words lent, in which rows are sought.
struct Desk {
    words: Vec<u32>,
    lent: Lent<u32>,
    numbers: Numbers,
}

impl Desk {
    fn of(words: Vec<u32>, numbers: Numbers) -> Desk {
        let lent = Lent::of(&words);
        Desk {
            words,
            lent,
            numbers,
        }
    }

    /// The search, the same behind the opening's questions, and the part, word by word.
    fn seeks(&mut self, tally: &mut Tally, mark: Mark) {
        let row = asked_for(&mut self.numbers, mark);
        let lent = self.lent.words();
        let place = || format!("{mark:?} in {} words", lent.len());
        let found = found(&self.words, mark);
        let end_part = 1 + self.numbers.below(1 << 20) as u32;
        let seen = [
            product::find_row(lent, row, 0),
            product::find_row(lent, row, end_part),
            product::read_row(lent, row, 0),
            product::read_row(lent, row, end_part),
        ];
        let sought = place_of(found.clone().ok_or(refusal(ROW_SOUGHT)));
        let read = asked(&self.words).map_or(sought, |refused| place_of(Err(refused)));
        tally.same(place, seen, [sought[0], sought[1], read[0], read[1]]);
        let part = &self.words[found.unwrap_or(0..0)];
        let words = || format!("{}, words of the part", place());
        let seen = all_words(part.len(), |i| product::row_part(lent, row, i));
        tally.same(words, seen, right_words(part));
    }

    fn is_unchanged(&mut self, tally: &mut Tally) {
        let words = self.words.len();
        let place = || format!("{words} words, unchanged");
        tally.same(place, self.lent.first_wrong(), None);
    }
}

/// Where a row stands: the first word that is its mark, up to the next mark.
fn found(words: &[u32], (relation, row): Mark) -> Option<Range<usize>> {
    if row >= relation.padded_rows() {
        return None;
    }
    let mark = mark_word(relation, row);
    let start = words.iter().position(|&word| word == mark)?;
    let terms = words[start + 1..]
        .iter()
        .take_while(|&&word| word < 3 << 30);
    Some(start..start + 1 + terms.count())
}

/// Start and end as the boundary gives them.
fn place_of(found: Result<Range<usize>, product::Refusal>) -> [Answer; 2] {
    match found {
        Ok(range) => [Ok(range.start as u64), Ok(range.end as u64)],
        Err(refused) => [Err(refused), Ok(0)],
    }
}

/// Indices past the end of a part of so many words.
fn past(len: usize) -> [usize; 4] {
    [len, len + 1, 1 << 32, usize::MAX]
}

fn all_words(len: usize, word: impl Fn(usize) -> u64) -> Vec<u64> {
    (0..len).chain(past(len)).map(word).collect()
}

fn right_words(part: &[u32]) -> Vec<u64> {
    let words = part.iter().copied().map(u64::from);
    words.chain(past(part.len()).map(|_| PAST)).collect()
}

/// Listings of up to so many words of the alphabet.
fn spelt() -> usize {
    (0..=LONGEST_SPELT).map(|len| ALPHABET.len().pow(len)).sum()
}

/// Listing `number` of them: the shorter ones first, each a number in base six.
fn spell(mut number: usize) -> Vec<u32> {
    let mut len = 0;
    while number >= ALPHABET.len().pow(len) {
        number -= ALPHABET.len().pow(len);
        len += 1;
    }
    let word = |i: u32| ALPHABET[number / ALPHABET.len().pow(i) % ALPHABET.len()];
    (0..len).map(word).collect()
}

fn every_short_one(tally: &mut Tally) {
    in_parts(tally, spelt(), |tally, part| {
        let mut desk = Desk::of(spell(part), Numbers::for_part(54, part as u64));
        for mark in SOUGHT {
            desk.seeks(tally, mark);
        }
        desk.is_unchanged(tally);
    });
}

fn listing_marks() -> Vec<Mark> {
    [Listing::of_circuit().marks(), missing()].concat()
}

/// The part is also the row as the original's matrices have it.
fn house_rows(tally: &mut Tally) {
    let rows = Listing::of_circuit().rows;
    let mut desk = Desk::of(listing::words(), Numbers::for_test(55));
    for mark in listing_marks() {
        desk.seeks(tally, mark);
        let row = rows.iter().find(|row| row.mark() == mark);
        let right = row.map_or(Vec::new(), |row| row.words());
        let asked = asked_for(&mut desk.numbers, mark);
        let lent = desk.lent.words();
        let seen = all_words(right.len(), |i| product::row_part(lent, asked, i));
        let place = || format!("{mark:?}, as the original has it");
        tally.same(place, seen, right_words(&right));
    }
    desk.is_unchanged(tally);
}

/// Marks of few rows, so that some stand twice, marks with a bit too many, terms, any words.
fn any_word(numbers: &mut Numbers) -> u32 {
    let mark = mark_word(any_relation(numbers), numbers.below(6) as usize);
    match numbers.below(8) {
        0..=2 => mark,
        3 => mark | 1 << numbers.below(29),
        4 => numbers.next() as u32,
        _ => numbers.next() as u32 & 0xbfff_ffff,
    }
}

fn any_relation(numbers: &mut Numbers) -> Relation {
    match numbers.below(2) {
        0 => Relation::Bin,
        _ => Relation::Fld,
    }
}

fn any_words(numbers: &mut Numbers, words: usize) -> Vec<u32> {
    (0..words).map(|_| any_word(numbers)).collect()
}

/// A row that the words may have, or one that no mark carries.
fn any_mark(numbers: &mut Numbers) -> Mark {
    let missing = missing();
    match numbers.below(6) {
        0 => missing[numbers.below(missing.len() as u64) as usize],
        _ => (any_relation(numbers), numbers.below(8) as usize),
    }
}

fn some_calls(tally: &mut Tally, mut desk: Desk) {
    for _ in 0..CALLS_OF_A_LISTING {
        let mark = any_mark(&mut desk.numbers);
        desk.seeks(tally, mark);
    }
    desk.is_unchanged(tally);
}

fn random(tally: &mut Tally) {
    in_parts(tally, RANDOM, |tally, part| {
        let mut numbers = Numbers::for_part(56, part as u64);
        let len = numbers.below(60) as usize;
        let words = any_words(&mut numbers, len);
        some_calls(tally, Desk::of(words, numbers));
    });
}

/// The opening refuses them, the search does not; marks are rare, so parts are long.
fn long(tally: &mut Tally) {
    in_parts(tally, LONG, |tally, part| {
        let mut numbers = Numbers::for_part(57, part as u64);
        let len = MOST_WORDS + 1 + numbers.below(5000) as usize;
        let term = |numbers: &mut Numbers| numbers.next() as u32 % (3 << 30);
        let mut words: Vec<u32> = (0..len).map(|_| term(&mut numbers)).collect();
        for _ in 0..24 {
            let at = numbers.below(len as u64) as usize;
            words[at] = any_word(&mut numbers);
        }
        some_calls(tally, Desk::of(words, numbers));
    });
}

/// Starts and ends inside, just past the end, and far past it.
fn ends(len: usize) -> Vec<usize> {
    let past = [1 << 32, 1 << 63, usize::MAX];
    (0..len + 3).chain(past).collect()
}

/// The words from start on, up to but not including end, as far as there are any.
fn cut(words: &[u32], start: usize, end: usize) -> &[u32] {
    let within = |at: usize| at.min(words.len());
    words.get(within(start)..within(end)).unwrap_or_default()
}

fn same_cut(tally: &mut Tally, words: &[u32], place: Place) {
    let right = match place.refused {
        0 => cut(words, place.start, place.end),
        _ => &[],
    };
    let seen = all_words(right.len(), |i| product::part_at(words, place, i));
    let of = || format!("{place:?} of {} words", words.len());
    tally.same(of, seen, right_words(right));
}

/// A place that is refused has no words, whatever its numbers are.
fn every_cut(tally: &mut Tally) {
    let mut numbers = Numbers::for_test(58);
    for len in 0..=LONGEST_CUT {
        let mut lent = Lent::of(&any_words(&mut numbers, len));
        for start in ends(len) {
            for end in ends(len) {
                let some = 1 << numbers.below(32);
                for refused in [0, some] {
                    let place = Place {
                        refused,
                        start,
                        end,
                    };
                    same_cut(tally, lent.words(), place);
                }
            }
        }
        tally.same(
            || format!("{len} words, unchanged"),
            lent.first_wrong(),
            None,
        );
    }
}

fn random_cuts(tally: &mut Tally) {
    let mut numbers = Numbers::for_test(59);
    let words = any_words(&mut numbers, 300);
    for _ in 0..CUTS {
        let len = numbers.below(301) as usize;
        let [start, end] = [(); 2].map(|()| match numbers.below(16) {
            0 => numbers.next() as usize,
            _ => numbers.below(320) as usize,
        });
        let place = Place {
            refused: 0,
            start,
            end,
        };
        same_cut(tally, &words[..len], place);
    }
}
