//! Which question is answered first where several things are wrong: 1, 2, 6 to 10, 13, 16, 15, and of the
//! number of bytes 6 to 10 and 13.

use product::Answer;

use super::call::{Asked, Call, OF_A_REFUSAL, OF_A_ROW};
use super::lines::PAGE;
use crate::columns::SIZES;
use crate::house::Relation;
use crate::numbers::Numbers;
use crate::parallel::in_parts;
use crate::report::{test, Tally, Test};
use crate::verdict::answer::{
    refusal, Refusal, BATCH_LENGTH, CYCLE, LISTING_LENGTH, MARK_ORDER, MUST_BE_ZERO, NO_MARK,
    PAGE_LENGTH, ROW_SOUGHT, SIZE, TERM_ORDER,
};
use crate::verdict::damages::{two_wrong_words, wrong_at_last, PAIRS, SMALL};
use crate::verdict::lent::Lent;
use crate::verdict::listings::{Listing, Mark, MOST_WORDS};
use crate::verdict::refusals::{random_fault, zero_batch};

/// Random listings with something wrong in them.
const RANDOM: usize = 20_000;

/// Things wrong beside a word of the listing, any choice of which is tried: size, batch, length of the
/// listing, row, buffer, cycle.
const CHOICES: usize = 1 << 6;

/// Words of the small listing put wrong, and the number of each; the first is none.
const WRONG: [(usize, u32, Option<u64>); 5] = [
    (0, SMALL[0], None),
    (1, 0x0010_0001, Some(MUST_BE_ZERO)),
    (0, 0x0000_0003, Some(NO_MARK)),
    (0, 0xe000_0020, Some(MARK_ORDER)),
    (3, 0x0000_0003, Some(TERM_ORDER)),
];

/// The row of the small listing that is asked for, one page, and rows that it has not.
const THERE: Mark = (Relation::Fld, 4);
const NOT_THERE: [Mark; 4] = [
    (Relation::Bin, 4),
    (Relation::Fld, 3),
    (Relation::Fld, 32),
    (Relation::Bin, usize::MAX),
];

pub fn tests() -> Vec<Test> {
    let choices = (9 * (CHOICES * WRONG.len() - 1)) as u64;
    vec![
        test(
            "pages refused, every choice of 1, 2, 6, a word of the listing, 13, 16 and 15",
            choices * OF_A_REFUSAL + 9 * OF_A_ROW,
            every_choice,
        ),
        test(
            "pages refused, first of two words first",
            PAIRS as u64 * OF_A_REFUSAL,
            first_word_first,
        ),
        test(
            "pages refused at the last of 16384 words",
            3 * OF_A_REFUSAL,
            last_word,
        ),
        test(
            format!("pages refused as asked of {RANDOM} random listings"),
            RANDOM as u64 * OF_A_REFUSAL,
            random_faults,
        ),
    ]
}

/// One choice of what is wrong.
struct Faults {
    size: bool,
    batch: bool,
    long: bool,
    row: bool,
    buffer: bool,
    cycle: bool,
    word: Option<Refusal>,
}

impl Faults {
    fn of(choice: usize, word: Option<Refusal>) -> Faults {
        let [size, batch, long, row, buffer, cycle] =
            [0, 1, 2, 3, 4, 5].map(|i| choice >> i & 1 == 1);
        Faults {
            size,
            batch,
            long,
            row,
            buffer,
            cycle,
            word,
        }
    }

    /// What the listing and the row are refused by.
    fn of_listing(&self) -> Option<Refusal> {
        let long = self.long.then_some(refusal(LISTING_LENGTH));
        let row = self.row.then_some(refusal(ROW_SOUGHT));
        long.or(self.word).or(row)
    }

    fn first(&self) -> Option<Refusal> {
        let one = |wrong: bool, number| wrong.then_some(refusal(number));
        one(self.size, SIZE)
            .or(one(self.batch, BATCH_LENGTH))
            .or(self.of_listing())
            .or(one(self.buffer, PAGE_LENGTH))
            .or(one(self.cycle, CYCLE))
    }
}

fn every_choice(tally: &mut Tally) {
    in_parts(tally, SIZES.len(), |tally, part| {
        let cpi = SIZES[part];
        let call = |batch, number| {
            let numbers = Numbers::for_part(number, part as u64);
            Call::of(cpi, &SMALL, batch, numbers)
        };
        let mut calls = [call(zero_batch(cpi), 100), call(Lent::of(&[1, 2, 3]), 101)];
        for choice in 0..CHOICES {
            for (place, word, number) in WRONG {
                let wrong = number.map(|number| Refusal { number, place });
                let faults = Faults::of(choice, wrong);
                let call = &mut calls[usize::from(faults.batch)];
                let mut words = SMALL.to_vec();
                words[place] = word;
                call.listing = Lent::of(&words);
                one_choice(tally, call, cpi, &faults);
            }
        }
    });
}

/// The listing and the batch are lent already.
fn one_choice(tally: &mut Tally, call: &mut Call, cpi: usize, faults: &Faults) {
    let Some(right) = faults.first() else {
        let listing = Listing::of_words(call.listing.words());
        let row = listing.rows.iter().find(|row| row.mark() == THERE);
        return call.lays_out(tally, row.expect("the row"), cpi - 1);
    };
    if faults.long {
        // Terms of C, in order behind the last one.
        let mut words = call.listing.words().to_vec();
        words.resize(MOST_WORDS + 1, 0x8000_0000);
        call.listing = Lent::of(&words);
    }
    call.cpi = cpi + if faults.size { 512 } else { 0 };
    let not_there = NOT_THERE[call.numbers.below(4) as usize];
    let asked = Asked {
        mark: if faults.row { not_there } else { THERE },
        cycle: cpi - 1 + usize::from(faults.cycle),
        bytes: PAGE - usize::from(faults.buffer),
    };
    let bytes: Answer = faults.of_listing().map_or(Ok(PAGE as u64), Err);
    call.refuses(tally, asked, bytes, right);
    call.cpi = cpi;
}

/// A listing that is turned down, with anything asked of it that is right or wrong.
fn refuses(tally: &mut Tally, words: &[u32], right: Refusal, mut numbers: Numbers) {
    let bin = Relation::Bin;
    let marks = [THERE, (bin, 3), (bin, 511), NOT_THERE[3]];
    let asked = Asked {
        mark: marks[numbers.below(4) as usize],
        cycle: numbers.below(2) as usize,
        bytes: [PAGE, 2 * PAGE, PAGE + 1, 0][numbers.below(4) as usize],
    };
    let mut call = Call::of(1, words, zero_batch(1), numbers);
    call.refuses(tally, asked, Err(right), right);
}

fn first_word_first(tally: &mut Tally) {
    for (i, (words, right)) in two_wrong_words().into_iter().enumerate() {
        refuses(tally, &words, right, Numbers::for_part(102, i as u64));
    }
}

fn last_word(tally: &mut Tally) {
    for (i, (words, right)) in wrong_at_last().into_iter().enumerate() {
        refuses(tally, &words, right, Numbers::for_part(103, i as u64));
    }
}

fn random_faults(tally: &mut Tally) {
    in_parts(tally, RANDOM, |tally, part| {
        let mut numbers = Numbers::for_part(104, part as u64);
        let (words, right) = random_fault(&mut numbers);
        refuses(tally, &words, right, numbers);
    });
}
