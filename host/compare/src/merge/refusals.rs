//! What a merge turns down, and which question is answered first where several things are wrong: 1 of either
//! size, 19, 2 of all three lengths, 20.

use std::array::from_fn;

use super::call::{right_lengths, Call, OF_A_CALL};
use super::sizes::asked;
use super::{any_two, SIZES, WORDS};
use crate::numbers::Numbers;
use crate::parallel::in_parts;
use crate::report::{test, Tally, Test};
use crate::verdict::answer::{refusal, Refusal, BATCH_LENGTH, PUBLIC_COLUMN};
use crate::verdict::batches::{self, WITNESS_COLUMNS};

/// Lengths that a slice of so many words must not have: none, by a cycle and by a word too short and too long,
/// and those of the size below and of the size above.
const OTHERS: usize = 8;

fn other_lengths(right: usize) -> [usize; OTHERS] {
    [
        right + 1,
        right - 1,
        0,
        right + WORDS,
        right - WORDS,
        2 * right,
        right / 2,
        1,
    ]
}

/// How many of those are tried with each other, by size.
const TRIED: [usize; 8] = [OTHERS, 4, 2, 2, 2, 1, 1, 1];

/// Sizes that are tried: the right ones, and such as question 1 or 19 refuses.
const OF_SIZES: usize = 9;

fn sizes(cpi: usize) -> [[usize; 2]; OF_SIZES] {
    let double = 2 * cpi;
    [
        [cpi, cpi],
        [3, cpi],
        [cpi, 3],
        [3, 3],
        [0, 512],
        [cpi, double],
        [double, cpi],
        [256, 256],
        [256, 3],
    ]
}

pub fn tests() -> Vec<Test> {
    let choices = |tried: usize| 2 * OF_SIZES * (1 + tried).pow(3);
    let choices: usize = TRIED.into_iter().map(choices).sum();
    vec![
        test(
            "merging refused, each slice of another length, 2",
            (SIZES.len() * 3 * OTHERS) as u64 * OF_A_CALL,
            each_length,
        ),
        test(
            format!("merging refused, {choices} choices of 1, 19, 2 of each slice, and 20"),
            choices as u64 * OF_A_CALL,
            every_choice,
        ),
    ]
}

/// A call that nothing is wrong with, with room for slices of so many of those lengths.
fn call(numbers: &mut Numbers, cpi: usize, tried: usize) -> Call {
    let right = right_lengths(cpi)[2];
    let longest = other_lengths(right).into_iter().take(tried).max();
    let room = longest.map_or(0, |longest| longest - right);
    let given = any_two(numbers, cpi, [batches::element; 2]);
    Call::with_room(numbers, cpi, given, room)
}

fn each_length(tally: &mut Tally) {
    in_parts(tally, SIZES.len(), |tally, part| {
        let cpi = SIZES[part];
        let mut call = call(&mut Numbers::for_part(155, cpi as u64), cpi, OTHERS);
        let right = right_lengths(cpi);
        for slice in 0..right.len() {
            for length in other_lengths(right[slice]) {
                call.lengths = right;
                call.lengths[slice] = length;
                let place = || format!("{length} words of slice {slice} for two of {cpi}");
                call.refuses(tally, refusal(BATCH_LENGTH), &place);
            }
        }
    });
}

/// With the same public columns, and with one that differs.
fn every_choice(tally: &mut Tally) {
    in_parts(tally, 2 * SIZES.len(), |tally, part| {
        let (cpi, tried) = (SIZES[part / 2], TRIED[part / 2]);
        let mut numbers = Numbers::for_part(156, part as u64);
        let mut call = call(&mut numbers, cpi, tried);
        let mut differs = None;
        if part % 2 == 1 {
            let public = WITNESS_COLUMNS * cpi;
            let place = public + numbers.below(public as u64) as usize;
            call.xor(1, place, numbers.power());
            let number = PUBLIC_COLUMN;
            differs = Some(Refusal { number, place });
        }
        for sizes in sizes(cpi) {
            call.sizes = sizes;
            each_choice_of_lengths(tally, &mut call, right_lengths(cpi), tried, differs);
        }
    });
}

/// `last` is what is answered once sizes and lengths are right.
fn each_choice_of_lengths(
    tally: &mut Tally,
    call: &mut Call,
    right: [usize; 3],
    tried: usize,
    last: Option<Refusal>,
) {
    let sizes = call.sizes;
    for choice in 0..(1 + tried).pow(3) {
        let digits = [choice, choice / (1 + tried), choice / (1 + tried).pow(2)];
        call.lengths = from_fn(|slice| match digits[slice] % (1 + tried) {
            0 => right[slice],
            other => other_lengths(right[slice])[other - 1],
        });
        let lengths = call.lengths;
        let place = || format!("sizes {sizes:?}, lengths {lengths:?}, then {last:?}");
        let number = asked(sizes);
        if number != BATCH_LENGTH || lengths != right {
            call.refuses(tally, refusal(number), &place);
        } else if let Some(last) = last {
            call.refuses(tally, last, &place);
        } else {
            call.writes(tally, &place);
        }
    }
}
