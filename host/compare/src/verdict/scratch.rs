//! Question 5: the lengths of scratch that the check takes, and that each gives the same verdict.

use super::cases::{Case, CASES, JUDGED, OF_THE_CASES};
use super::forms::FORMS;
use crate::columns::SIZES;
use crate::numbers::Numbers;
use crate::parallel::in_parts;
use crate::report::{test, Tally, Test};

/// Words of the shortest and of the longest scratch, and how many lengths are taken.
pub const LEAST: usize = 6;
pub const MOST: usize = 3072;
const LENGTHS: usize = 512;

/// Every length to here is tried with batches of one cycle.
const LAST: usize = 3080;

/// And these, some of which would be taken if only their lower bits were looked at.
const VERY_LONG: [usize; 6] = [4102, 32_774, 65_542, 6 << 17, 1 << 20, (1 << 20) + 6];

/// Lengths tried with larger batches; as many again are drawn of those taken and of the others.
const TAKEN: [usize; 6] = [6, 12, 18, 3060, 3066, 3072];
const OTHERS: [usize; 18] = [
    0, 1, 2, 3, 4, 5, 7, 8, 3065, 3067, 3071, 3073, 3078, 3084, 4096, 6144, 32_768, 65_536,
];
const TRIED: usize = 2 * (TAKEN.len() + OTHERS.len());

/// The question by itself is asked of every number below this, and of larger ones, which nobody can lend.
const ASKED: usize = 1 << 20;
const BITS: usize = usize::BITS as usize;

pub fn tests() -> Vec<Test> {
    let of_lengths = |lengths: usize| (lengths * CASES.len() * FORMS) as u64;
    vec![
        test(
            "scratch_fits of every number to 2^20, and with each higher bit",
            (ASKED + (BITS - 20) * (LAST + 1) + LAST + 1) as u64,
            numbers_alone,
        ),
        test(
            format!("check_row, scratch of every length to {LAST}, batches of 1"),
            of_lengths(LAST + 1 + VERY_LONG.len()) + OF_THE_CASES,
            every_length,
        ),
        test(
            format!("check_row, scratch of {TRIED} lengths, batches of every size from 2 on"),
            8 * (of_lengths(TRIED) + OF_THE_CASES),
            some_lengths,
        ),
        test(
            "check_row, scratch of zeros, of ones and of the batch's own words",
            of_lengths(3 * LENGTHS) + OF_THE_CASES,
            special_words,
        ),
    ]
}

/// Each test makes its own, the second for each of eight sizes.
pub fn batches_judged() -> usize {
    10 * JUDGED
}

/// The lengths that question 5 lets pass, by document 02: six words, and six more each time.
pub fn lengths() -> Vec<usize> {
    (LEAST..=MOST).step_by(6).collect()
}

/// One of them, often the first or the last.
pub fn any_length(numbers: &mut Numbers) -> usize {
    match numbers.below(4) {
        0 => LEAST,
        1 => MOST,
        _ => lengths()[numbers.below(LENGTHS as u64) as usize],
    }
}

fn any_other_length(numbers: &mut Numbers) -> usize {
    loop {
        let words = numbers.below(2 * MOST as u64) as usize;
        if !lengths().contains(&words) {
            return words;
        }
    }
}

/// Of the larger numbers some have lower bits, or a distance from the largest, that are a length taken.
fn numbers_alone(tally: &mut Tally) {
    let taken = lengths();
    let mut same = |words: usize| {
        let right = taken.contains(&words);
        let place = || format!("{words} words of scratch");
        tally.same(place, product::scratch_fits(words), right);
    };
    (0..ASKED).for_each(&mut same);
    for bit in 20..BITS {
        (0..=LAST).for_each(|low| same(1 << bit | low));
    }
    (0..=LAST).for_each(|below| same(usize::MAX - below));
}

fn every_length(tally: &mut Tally) {
    each_case(tally, 1, |tally, numbers, case| {
        for words in (0..=LAST).chain(VERY_LONG) {
            case.check(tally, &numbers.words(words));
        }
    });
}

fn some_lengths(tally: &mut Tally) {
    for cpi in SIZES.into_iter().filter(|&cpi| cpi > 1) {
        each_case(tally, cpi, |tally, numbers, case| {
            let taken = TAKEN.map(|words| [words, any_length(numbers)]);
            let others = OTHERS.map(|words| [words, any_other_length(numbers)]);
            for words in taken.into_iter().chain(others).flatten() {
                case.check(tally, &numbers.words(words));
            }
        });
    }
}

fn special_words(tally: &mut Tally) {
    each_case(tally, 1, |tally, _, case| {
        for words in lengths() {
            let own = case.batch.words.words()[..words].to_vec();
            for before in [vec![0; words], vec![u64::MAX; words], own] {
                case.check(tally, &before);
            }
        }
    });
}

fn each_case(
    tally: &mut Tally,
    cpi: usize,
    each: impl Fn(&mut Tally, &mut Numbers, &mut Case) + Sync,
) {
    in_parts(tally, CASES.len(), |tally, part| {
        let mut numbers = Numbers::for_part(28, (cpi << 32 | part) as u64);
        let mut case = Case::new(tally, &mut numbers, cpi, part);
        each(tally, &mut numbers, &mut case);
    });
}
