//! The listing reader, opened and asked for two rows one after the other, against a reading of
//! document 01 over the rows of the original's matrices.

use std::array::from_fn;
use std::collections::BTreeMap;
use std::ops::Range;

use super::answer::{
    refusal, Refusal, LISTING_LENGTH, MARK_ORDER, MUST_BE_ZERO, NO_MARK, NO_ROOM, ROW_SOUGHT,
    TERM_ORDER,
};
use super::batches::COLUMNS;
use super::lent::Lent;
use super::listings::{self, asked_for, Listing, Mark, MARKS, MOST_WORDS};
use super::refusals::random_fault;
use crate::house::{self, Coefficient, Relation, Term, Word};
use crate::listing::{self, BIN_ROWS, FLD_ROWS};
use crate::numbers::Numbers;
use crate::parallel::in_parts;
use crate::report::{test, Tally, Test};

/// Start, end, a word of the part and position of two rows.
const OUT_WORDS: usize = 8;

/// What is written for a word past the end of a part.
const PAST: u64 = 1 << 63;

const ROWS: usize = BIN_ROWS + FLD_ROWS;

/// Rows that the house listing has not: bin 483 to 511, fld 31, numbers that no mark carries.
pub const MISSING: usize = 29 + 1 + TOO_LARGE.len() + TOO_LARGE_FOR_FLD.len() + TOO_LARGE.len();

/// With bits dropped, or put in a mark as they are, some are rows that the listing has.
const TOO_LARGE: [usize; 13] = [
    512,
    513,
    512 + 30,
    1 << 16,
    1 << 29,
    (1 << 29) + 30,
    3 << 30,
    1 << 32,
    (1 << 32) + 30,
    1 << 63,
    (1 << 63) + 30,
    usize::MAX - 511,
    usize::MAX,
];
const TOO_LARGE_FOR_FLD: [usize; 6] = [32, 33, 32 + 30, 263, BIN_ROWS - 1, 511];

const LISTINGS: usize = 4_000;
const FAULTY_LISTINGS: usize = 4_000;
const CALLS_OF_A_LISTING: usize = 25;

/// Comparisons of a call: the answer, the words of the two parts, `out`, the listing.
const OF_A_CALL: u64 = 4;

/// Comparisons of a call whose `out` is too short: the answer, `out`, the listing.
const OF_A_SHORT_CALL: u64 = 3;

pub fn tests() -> Vec<Test> {
    let missing_calls = (2 * ROWS + MISSING) * MISSING;
    vec![
        test(
            "reader, each row of the house listing after each other and after itself",
            (ROWS * ROWS) as u64 * OF_A_CALL,
            each_pair,
        ),
        test(
            "reader, each word of each row of the house listing",
            each_word_calls() as u64 * OF_A_CALL,
            each_word,
        ),
        test(
            "reader, rows that are not there before and after each that is, 13",
            missing_calls as u64 * OF_A_CALL,
            rows_missing,
        ),
        test(
            "reader, refused openings, 6 to 10, and then every row, 13",
            (5 * (ROWS + MISSING)) as u64 * OF_A_CALL,
            refused_openings,
        ),
        test(
            format!("reader, {MOST_WORDS} words"),
            (ROWS + MISSING) as u64 * OF_A_CALL,
            longest,
        ),
        test(
            "reader, the empty listing",
            (ROWS + MISSING) as u64 * OF_A_CALL,
            empty,
        ),
        test(
            format!("reader, {LISTINGS} random listings"),
            (LISTINGS * CALLS_OF_A_LISTING) as u64 * OF_A_CALL,
            random,
        ),
        test(
            format!("reader, {FAULTY_LISTINGS} random listings refused"),
            (FAULTY_LISTINGS * CALLS_OF_A_LISTING) as u64 * OF_A_CALL,
            random_faults,
        ),
        test(
            "reader, out too short",
            (OUT_WORDS * 4) as u64 * OF_A_SHORT_CALL,
            out_too_short,
        ),
    ]
}

/// A lent listing, and document 01's reader over it: what opening answers, and each row's part.
struct Desk {
    listing: Lent<u32>,
    opening: u64,
    parts: BTreeMap<Mark, Part>,
    numbers: Numbers,
}

struct Part {
    start: usize,
    words: Vec<u32>,
}

impl Part {
    fn end(&self) -> usize {
        self.start + self.words.len()
    }
}

impl Desk {
    /// Words that open, and the rows that must be found in them.
    fn of(words: &[u32], right: &Listing, numbers: Numbers) -> Desk {
        let mut parts = BTreeMap::new();
        let mut start = 0;
        for row in &right.rows {
            let part = Part {
                start,
                words: row.words(),
            };
            start = part.end();
            parts.insert(row.mark(), part);
        }
        Desk {
            listing: Lent::of(words),
            opening: 0,
            parts,
            numbers,
        }
    }

    /// The house listing as the product has it, its rows as the original's matrices have them.
    fn of_house(numbers: Numbers) -> Desk {
        Desk::of(&listing::words(), &Listing::of_circuit(), numbers)
    }

    /// Words that are refused give a reader over no words.
    fn refused(words: &[u32], right: Refusal, numbers: Numbers) -> Desk {
        Desk {
            listing: Lent::of(words),
            opening: right.answer(),
            parts: BTreeMap::new(),
            numbers,
        }
    }

    /// An `out` of so many words, with anything in it.
    fn lend_out(&mut self, words: usize) -> Lent<u64> {
        let anything: Vec<u64> = (0..words).map(|_| self.numbers.next()).collect();
        Lent::of(&anything)
    }

    fn call(&mut self, marks: [Mark; 2], i: usize, out: &mut Lent<u64>) -> u64 {
        let [first, next] = marks.map(|mark| asked_for(&mut self.numbers, mark));
        product::reader(self.listing.words(), first, next, i, out.words_mut())
    }

    /// Words of a row's part, 0 for a row that is not there.
    fn words_of(&self, mark: Mark) -> usize {
        self.parts.get(&mark).map_or(0, |part| part.words.len())
    }

    /// One call for any word of the two parts, or for one past their ends.
    fn asks(&mut self, tally: &mut Tally, marks: [Mark; 2]) {
        let words = marks.map(|mark| self.words_of(mark)).into_iter().max();
        let i = match self.numbers.below(16) {
            0 => self.numbers.next(),
            _ => self.numbers.below(words.unwrap_or(0) as u64 + 2),
        };
        self.asks_word(tally, marks, i as usize);
    }

    /// One call: the opening, both parts, eight words of `out`, and all else lent as it came.
    fn asks_word(&mut self, tally: &mut Tally, marks: [Mark; 2], i: usize) {
        let words = self.listing.len();
        let place = || format!("{words} words, {marks:?}, word {i}");
        let longer = self.numbers.below(4) as usize;
        let mut out = self.lend_out(OUT_WORDS + longer);
        for (at, word) in self.right_words(marks, i).into_iter().enumerate() {
            out.must_become(at, word);
        }
        let answer = self.call(marks, i, &mut out);
        tally.same(place, answer, self.opening);
        let written = out.words();
        let found = [0, 4].map(|i| self.words_between(written[i], written[i + 1]));
        let parts = marks.map(|mark| self.parts.get(&mark).map(|part| &part.words[..]));
        tally.same(|| format!("{}, their words", place()), found, parts);
        let wrong = || format!("{}, first wrong word of out", place());
        tally.same(wrong, out.first_wrong(), None);
        let listing = || format!("{}, listing unchanged", place());
        tally.same(listing, self.listing.is_right(), true);
    }

    /// Of each row its start, its end, word i of its part and the position afterwards; a refusal keeps
    /// the position, and has no words.
    fn right_words(&self, marks: [Mark; 2], i: usize) -> Vec<u64> {
        let mut words = Vec::new();
        let mut position = 0;
        for mark in marks {
            match self.parts.get(&mark) {
                Some(part) => {
                    position = part.end() as u64;
                    let word = part.words.get(i).map_or(PAST, |&word| word.into());
                    words.extend([part.start as u64, position, word, position]);
                }
                None => words.extend([refusal(ROW_SOUGHT).answer(), 0, PAST, position]),
            }
        }
        words
    }

    fn words_between(&self, start: u64, end: u64) -> Option<&[u32]> {
        self.listing.words().get(start as usize..end as usize)
    }

    /// Every row of the house listing and every one that it has not, each before the next.
    fn asks_all(&mut self, tally: &mut Tally) {
        let marks = [house_marks(), missing()].concat();
        for (i, &mark) in marks.iter().enumerate() {
            self.asks(tally, [mark, marks[(i + 1) % marks.len()]]);
        }
    }
}

fn house_marks() -> Vec<Mark> {
    Listing::of_circuit().marks()
}

pub fn missing() -> Vec<Mark> {
    let bin = (BIN_ROWS..512).chain(TOO_LARGE);
    let fld = [FLD_ROWS]
        .into_iter()
        .chain(TOO_LARGE_FOR_FLD)
        .chain(TOO_LARGE);
    let bin = bin.map(|row| (Relation::Bin, row));
    bin.chain(fld.map(|row| (Relation::Fld, row))).collect()
}

fn each_pair(tally: &mut Tally) {
    let marks = house_marks();
    in_parts(tally, marks.len(), |tally, part| {
        let mut desk = Desk::of_house(Numbers::for_part(43, part as u64));
        for &next in &marks {
            desk.asks(tally, [marks[part], next]);
        }
    });
}

/// Words asked for of two rows: each of the longer one's, and the index past it.
fn words_asked(desk: &Desk, marks: [Mark; 2]) -> Range<usize> {
    let [first, next] = marks.map(|mark| desk.words_of(mark));
    0..first.max(next) + 1
}

/// Each row before the next one.
fn neighbours() -> Vec<[Mark; 2]> {
    let marks = house_marks();
    let next = |i: usize| marks[(i + 1) % marks.len()];
    (0..marks.len()).map(|i| [marks[i], next(i)]).collect()
}

fn each_word_calls() -> usize {
    let desk = Desk::of_house(Numbers::for_test(52));
    let calls = |marks| words_asked(&desk, marks).len();
    neighbours().into_iter().map(calls).sum()
}

fn each_word(tally: &mut Tally) {
    let mut desk = Desk::of_house(Numbers::for_test(52));
    for marks in neighbours() {
        for i in words_asked(&desk, marks) {
            desk.asks_word(tally, marks, i);
        }
    }
}

fn rows_missing(tally: &mut Tally) {
    let (marks, missing) = (house_marks(), missing());
    in_parts(tally, missing.len(), |tally, part| {
        let mut desk = Desk::of_house(Numbers::for_part(44, part as u64));
        let not_there = missing[part];
        for &mark in &marks {
            desk.asks(tally, [not_there, mark]);
            desk.asks(tally, [mark, not_there]);
        }
        for &other in &missing {
            desk.asks(tally, [not_there, other]);
        }
    });
}

/// The house listing with terms of C added to its last row, which has none.
fn lengthened(words: usize) -> Listing {
    let mut listing = Listing::of_circuit();
    let added = words - listing.words().len();
    let term = |i: usize| Term {
        column: i % COLUMNS,
        coefficient: Coefficient::Power((i / COLUMNS) as u32),
    };
    let last = listing.rows.last_mut().expect("a row");
    last.sides[2] = (0..added).map(term).collect();
    assert_eq!(listing.words().len(), words);
    listing
}

/// The house listing put wrong, for each question at a place of its own; its rows stand there still.
fn wrong_listings() -> [(Vec<u32>, Refusal); 5] {
    let house = listing::words();
    let with = |place: usize, word: u32, number: u64| {
        let mut words = house.clone();
        words[place] = word;
        (words, Refusal { number, place })
    };
    let mark = listings::mark_word(Relation::Fld, FLD_ROWS - 1);
    let before = listings::mark_word(Relation::Fld, FLD_ROWS - 2);
    let last_mark = house.iter().position(|&word| word == mark);
    let last = house.len() - 1;
    // The last two words are terms of B.
    let term_of_a = house[last] & 0x3fff_ffff;
    [
        (lengthened(MOST_WORDS + 1).words(), refusal(LISTING_LENGTH)),
        with(last, house[last] | 1 << 28, MUST_BE_ZERO),
        with(0, 0, NO_MARK),
        with(last_mark.expect("the last mark"), before, MARK_ORDER),
        with(last, term_of_a, TERM_ORDER),
    ]
}

fn refused_openings(tally: &mut Tally) {
    let wrong = wrong_listings();
    in_parts(tally, wrong.len(), |tally, part| {
        let (words, right) = &wrong[part];
        Desk::refused(words, *right, Numbers::for_part(45, part as u64)).asks_all(tally);
    });
}

/// As many words as question 6 lets pass.
fn longest(tally: &mut Tally) {
    let listing = lengthened(MOST_WORDS);
    Desk::of(&listing.words(), &listing, Numbers::for_test(46)).asks_all(tally);
}

/// It opens, and has no row.
fn empty(tally: &mut Tally) {
    let listing = Listing { rows: Vec::new() };
    Desk::of(&[], &listing, Numbers::for_test(47)).asks_all(tally);
}

/// One of the given rows, one that a mark can carry, or one that none can.
fn any_mark(numbers: &mut Numbers, marks: &[Mark]) -> Mark {
    match numbers.below(8) {
        0 => listings::mark(numbers.below(MARKS as u64) as usize),
        1 => missing()[numbers.below(MISSING as u64) as usize],
        _ if marks.is_empty() => (Relation::Bin, 0),
        _ => marks[numbers.below(marks.len() as u64) as usize],
    }
}

fn random(tally: &mut Tally) {
    in_parts(tally, LISTINGS, |tally, part| {
        let mut numbers = Numbers::for_part(48, part as u64);
        let shape = listings::shape(&mut numbers);
        let listing = listings::random(&mut numbers, shape);
        let desk = Desk::of(&listing.words(), &listing, numbers);
        some_calls(tally, desk, &listing.marks());
    });
}

/// The rows asked for are mostly those whose marks stand there all the same.
fn random_faults(tally: &mut Tally) {
    in_parts(tally, FAULTY_LISTINGS, |tally, part| {
        let mut numbers = Numbers::for_part(49, part as u64);
        let (words, right) = random_fault(&mut numbers);
        let mark = |&word: &u32| match house::read(word) {
            Ok(Word::Mark { relation, row }) => Some((relation, row)),
            _ => None,
        };
        let marks: Vec<Mark> = words.iter().filter_map(mark).collect();
        some_calls(tally, Desk::refused(&words, right, numbers), &marks);
    });
}

fn some_calls(tally: &mut Tally, mut desk: Desk, marks: &[Mark]) {
    for _ in 0..CALLS_OF_A_LISTING {
        let asked = from_fn(|_| any_mark(&mut desk.numbers, marks));
        desk.asks(tally, asked);
    }
}

/// Nothing is asked and nothing written, whether or not the listing opens and has the rows.
fn out_too_short(tally: &mut Tally) {
    let [_, (wrong, right), ..] = wrong_listings();
    let there = [(Relation::Bin, 0), (Relation::Fld, 0)];
    let not_there = [(Relation::Bin, 511), (Relation::Fld, FLD_ROWS)];
    let mut desks = [
        Desk::of_house(Numbers::for_test(43)),
        Desk::refused(&wrong, right, Numbers::for_test(44)),
    ];
    for desk in &mut desks {
        for marks in [there, not_there] {
            for words in 0..OUT_WORDS {
                let mut out = desk.lend_out(words);
                let answer = desk.call(marks, words, &mut out);
                let place = || format!("out of {words} words, {marks:?}");
                tally.same(place, answer, NO_ROOM);
                tally.same(place, out.first_wrong(), None);
                tally.same(place, desk.listing.first_wrong(), None);
            }
        }
    }
}
