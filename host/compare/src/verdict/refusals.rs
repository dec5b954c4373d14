//! The check's questions: each number at several places, and which comes first among several.

use super::answer::{
    refusal, Refusal, BATCH_LENGTH, LISTING_LENGTH, MARK_ORDER, MUST_BE_ZERO, NO_MARK,
    SCRATCH_LENGTH, SIZE, TERM_ORDER,
};
use super::batches::COLUMNS;
use super::damages::{
    too_long, two_wrong_words, wrong_at_last, Damage, Kind, KINDS, PAIRS, TOO_LONG,
};
use super::forms::{CHECK_KNOWN, FORMS};
use super::judge::{refused, Desk, OF_A_REFUSAL};
use super::known::{self, Known};
use super::lent::Lent;
use super::listings::{self, Shape, MARKS, MOST_WORDS};
use crate::columns::SIZES;
use crate::house::{self, Relation, Side, Word};
use crate::numbers::Numbers;
use crate::parallel::in_parts;
use crate::report::{test, Tally, Test};

const RANDOM_LISTINGS: usize = 20_000;

pub fn tests() -> Vec<Test> {
    let mut tests = with_listing(Known::House);
    tests.extend([
        test(
            "check_row refuses long listings, 6",
            9 * TOO_LONG as u64 * OF_A_REFUSAL,
            listing_lengths,
        ),
        test(
            "check_row refuses at the last of 16384 words",
            3 * OF_A_REFUSAL,
            last_word,
        ),
        test(
            "check_row refuses, first of two words first",
            PAIRS as u64 * OF_A_REFUSAL,
            first_word_first,
        ),
        test(
            "check_row refuses, order of 1, 2, 5, 6 and 7",
            31 * SCRATCH.len() as u64 * OF_A_REFUSAL,
            order,
        ),
        test(
            format!("check_row refuses as asked of {RANDOM_LISTINGS} random listings"),
            RANDOM_LISTINGS as u64 * OF_A_REFUSAL,
            random_faults,
        ),
    ]);
    tests
}

/// Those that lend a listing which is in order but for what is damaged, and of the check that knows it.
pub fn with_listing(known: Known) -> Vec<Test> {
    let (name, words) = (known::name(known), known::listing(known).words());
    let damaged = |(what, kind): (&str, Kind)| {
        test(
            format!("check_row, {name}, refuses {what}"),
            kind(&words).len() as u64 * OF_A_REFUSAL,
            move |tally| all_damages(tally, known, kind),
        )
    };
    let mut tests = vec![
        test(
            format!("check_row, {name}, refuses sizes, 1"),
            SIZES_REFUSED.len() as u64 * 2 * OF_A_REFUSAL,
            move |tally| sizes(tally, known),
        ),
        test(
            format!("check_row, {name}, refuses batch lengths, 2"),
            9 * 6 * 2 * OF_A_REFUSAL,
            move |tally| batch_lengths(tally, known),
        ),
        test(
            format!("check_row, {name}, refuses scratch lengths, 5"),
            9 * 6 * 2 * OF_A_REFUSAL,
            move |tally| scratch_lengths(tally, known),
        ),
        test(
            format!("check_row, {name}, refuses it with too many words behind it, 6"),
            9 * OF_A_REFUSAL,
            move |tally| words_behind(tally, known),
        ),
        test(
            format!("check_known, {name}, refuses sizes and batch lengths, 1 and 2"),
            FORMS as u64 * (SIZES_REFUSED.len() as u64 + 9 * 6),
            move |tally| known_refused(tally, known),
        ),
    ];
    tests.extend(KINDS.map(damaged));
    tests
}

/// Six lengths that a slice of so many words must not have.
pub fn other_lengths(words: usize) -> [usize; 6] {
    [0, 1, words / 2, words - 1, words + 1, 2 * words]
}

/// A batch that would be judged: zero.
pub fn zero_batch(cpi: usize) -> Lent<u64> {
    Lent::of(&vec![0; 2 * COLUMNS * cpi])
}

/// Each part of a test has scratch of its own.
fn desk(listing: &[u32], part: usize) -> Desk {
    Desk::of(listing, Numbers::for_part(60, part as u64))
}

/// A listing whose first word is refused by question 7.
pub const FAULTY: [u32; 1] = [u32::MAX];

pub const SIZES_REFUSED: [usize; 16] = [
    0,
    3,
    5,
    6,
    7,
    9,
    12,
    255,
    257,
    511,
    512,
    1024,
    1 << 32,
    (1 << 32) + 1,
    1 << 63,
    usize::MAX,
];

/// Asked first: once with all else right for one cycle, once with all else wrong.
fn sizes(tally: &mut Tally, known: Known) {
    let words = known::listing(known).words();
    for cpi in SIZES_REFUSED {
        let place = || format!("size {cpi}");
        let mut right = desk(&words, cpi);
        let (mut batch, size) = (zero_batch(1), refusal(SIZE));
        refused(tally, cpi, &mut right, &mut batch, size, &place);
        let mut wrong = Desk::with_scratch(&FAULTY, 1, Numbers::for_test(61));
        let mut batch = Lent::of(&[1]);
        refused(tally, cpi, &mut wrong, &mut batch, size, &place);
    }
}

fn batch_lengths(tally: &mut Tally, known: Known) {
    let listing = known::listing(known).words();
    let mut wrong = Desk::with_scratch(&FAULTY, 1, Numbers::for_test(62));
    for cpi in SIZES {
        let words = 2 * COLUMNS * cpi;
        for len in other_lengths(words) {
            let mut batch = Lent::of(&vec![0; len]);
            let mut right = desk(&listing, cpi << 32 | len);
            let place = || format!("{len} words for {cpi} cycles");
            for desk in [&mut right, &mut wrong] {
                refused(tally, cpi, desk, &mut batch, refusal(BATCH_LENGTH), &place);
            }
        }
    }
}

/// Two questions are all that there is to ask where no listing and no scratch are lent.
fn known_refused(tally: &mut Tally, known: Known) {
    let mut same = |cpi: usize, words: usize, number: u64| {
        let mut batch = Lent::of(&vec![0; words]);
        for (form, check) in CHECK_KNOWN {
            let answer = check(known, cpi, batch.words());
            let right = (refusal(number).answer(), true);
            let place = || format!("{form}, {words} words for {cpi} cycles");
            tally.same(place, (answer, batch.is_right()), right);
        }
    };
    for cpi in SIZES_REFUSED {
        same(cpi, 2 * COLUMNS, SIZE);
    }
    for cpi in SIZES {
        let words = 2 * COLUMNS * cpi;
        for len in other_lengths(words) {
            same(cpi, len, BATCH_LENGTH);
        }
    }
}

/// More lengths, and those that are taken, are with the tests of scratch.
fn scratch_lengths(tally: &mut Tally, known: Known) {
    let words = known::listing(known).words();
    for cpi in SIZES {
        let mut batch = zero_batch(cpi);
        for len in [0, 1, 1535, 3071, 3073, 6144] {
            let place = || format!("{len} words of scratch for {cpi} cycles");
            for listing in [&words[..], &FAULTY] {
                let mut desk = Desk::with_scratch(listing, len, Numbers::for_test(63));
                let right = refusal(SCRATCH_LENGTH);
                refused(tally, cpi, &mut desk, &mut batch, right, &place);
            }
        }
    }
}

/// The length is asked before any word.
fn listing_lengths(tally: &mut Tally) {
    for cpi in SIZES {
        let mut batch = zero_batch(cpi);
        for words in too_long() {
            let place = || format!("{} words of listing for {cpi} cycles", words.len());
            let right = refusal(LISTING_LENGTH);
            let mut desk = desk(&words, cpi << 32 | words.len());
            refused(tally, cpi, &mut desk, &mut batch, right, &place);
        }
    }
}

/// One word more than is taken, all in order: terms of C behind the last row.
fn words_behind(tally: &mut Tally, known: Known) {
    let mut words = known::listing(known).words();
    words.resize(MOST_WORDS + 1, 2 << 30);
    for cpi in SIZES {
        let place = || format!("{cpi} cycles");
        let (mut desk, mut batch) = (desk(&words, cpi), zero_batch(cpi));
        let right = refusal(LISTING_LENGTH);
        refused(tally, cpi, &mut desk, &mut batch, right, &place);
    }
}

fn all_damages(tally: &mut Tally, known: Known, kind: Kind) {
    let words = known::listing(known).words();
    let damages = kind(&words);
    in_parts(tally, damages.len(), |tally, i| {
        let Damage {
            place,
            word,
            number,
        } = damages[i];
        let mut desk = desk(&words, i);
        desk.listing.put(place, word);
        // The larger sizes are much memory and ask the same.
        let cpi = SIZES[i % 3];
        let at = || format!("word {place} is {word:08x}");
        let right = Refusal { number, place };
        refused(tally, cpi, &mut desk, &mut zero_batch(cpi), right, &at);
    });
}

fn last_word(tally: &mut Tally) {
    for (i, (words, right)) in wrong_at_last().into_iter().enumerate() {
        let at = || format!("last word {:08x}", words[right.place]);
        let (mut desk, mut batch) = (desk(&words, i), zero_batch(1));
        refused(tally, 1, &mut desk, &mut batch, right, &at);
    }
}

fn first_word_first(tally: &mut Tally) {
    for (i, (words, right)) in two_wrong_words().into_iter().enumerate() {
        let at = || format!("{words:08x?}");
        let (mut desk, mut batch) = (desk(&words, i), zero_batch(1));
        refused(tally, 1, &mut desk, &mut batch, right, &at);
    }
}

/// Scratch that is taken, and scratch that is not.
const SCRATCH: [[usize; 2]; 3] = [[6, 0], [1536, 1535], [3072, 3078]];

/// Every choice of faults among the five that are asked in this order.
fn order(tally: &mut Tally) {
    for [taken, other] in SCRATCH {
        for faults in 1..32_u32 {
            let has = |i: u32| faults >> i & 1 == 1;
            let cpi = if has(0) { 3 } else { 2 };
            let mut batch = Lent::of(&vec![0; if has(1) { 8192 } else { 16_384 }]);
            let scratch = if has(2) { other } else { taken };
            let mut words = vec![0; if has(3) { MOST_WORDS + 1 } else { 8 }];
            words[0] = if has(4) { 1 << 18 } else { 3 << 30 };
            let numbers = [
                SIZE,
                BATCH_LENGTH,
                SCRATCH_LENGTH,
                LISTING_LENGTH,
                MUST_BE_ZERO,
            ];
            let right = refusal(numbers[faults.trailing_zeros() as usize]);
            let mut desk = Desk::with_scratch(&words, scratch, Numbers::for_test(64));
            let at = || format!("faults {faults:05b}, {scratch} words of scratch");
            refused(tally, cpi, &mut desk, &mut batch, right, &at);
        }
    }
}

fn random_faults(tally: &mut Tally) {
    in_parts(tally, RANDOM_LISTINGS, |tally, part| {
        let mut numbers = Numbers::for_part(65, part as u64);
        let (words, right) = random_fault(&mut numbers);
        let mut desk = Desk::of(&words, numbers);
        let at = || format!("{words:08x?}");
        refused(tally, 1, &mut desk, &mut zero_batch(1), right, &at);
    });
}

/// A good listing with a few words changed, until one of the questions says no.
pub fn random_fault(numbers: &mut Numbers) -> (Vec<u32>, Refusal) {
    let shape = Shape {
        marks: 1 + numbers.below(12) as usize,
        terms_of_a_side: 3,
    };
    let mut words = listings::random(numbers, shape).words();
    loop {
        let i = numbers.below(words.len() as u64) as usize;
        words[i] = changed(numbers, words[i]);
        if let Some(right) = asked(&words) {
            return (words, right);
        }
    }
}

/// One bit flipped, another kind, another row or column, or any word.
fn changed(numbers: &mut Numbers, word: u32) -> u32 {
    match numbers.below(4) {
        0 => word ^ 1 << numbers.below(32),
        1 => word & 0x3fff_ffff | (numbers.below(4) as u32) << 30,
        2 => word & 0xffff_fe00 | numbers.below(MARKS as u64) as u32 & 511,
        _ => numbers.next() as u32,
    }
}

/// Questions 6 to 10 as document 01 asks them: the length, then word by word.
pub fn asked(words: &[u32]) -> Option<Refusal> {
    if words.len() > MOST_WORDS {
        return Some(refusal(LISTING_LENGTH));
    }
    let mut before = Before::default();
    for (place, &word) in words.iter().enumerate() {
        if let Some(number) = before.asks(word) {
            return Some(Refusal { number, place });
        }
    }
    None
}

/// The mark before a word, and the side of the term before it in its row.
#[derive(Default)]
struct Before {
    mark: Option<(Relation, usize)>,
    side: Option<Side>,
}

impl Before {
    fn asks(&mut self, word: u32) -> Option<u64> {
        match house::read(word) {
            // The must-be-zero bits, or a row that fld does not have.
            Err(number) => return Some(number),
            Ok(Word::Mark { relation, row }) => {
                if self.mark >= Some((relation, row)) {
                    return Some(MARK_ORDER);
                }
                self.mark = Some((relation, row));
                self.side = None;
            }
            Ok(Word::Term { side, .. }) => {
                if self.mark.is_none() {
                    return Some(NO_MARK);
                }
                if self.side > Some(side) {
                    return Some(TERM_ORDER);
                }
                self.side = Some(side);
            }
        }
        None
    }
}
