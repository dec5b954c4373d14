//! What the five entries turn down, and which question is answered first where several things are wrong:
//! 1, 2, 18, 17.

use super::call::{Call, ENTRIES, OF_A_CALL, PACKING};
use crate::columns::{refused_sizes, REFUSED_SIZES, SIZES};
use crate::numbers::Numbers;
use crate::parallel::in_parts;
use crate::report::{test, Tally, Test};
use crate::verdict::answer::{BATCH_LENGTH, LOWER_BIT, PACKED_LENGTH, SIZE};
use crate::verdict::batches::WITNESS_COLUMNS;

/// By how many words a slice is lent too long: of an allowed size, and of others.
const LENGTHS: [isize; 5] = [0, -32, -1, 1, 32];
const FEW_LENGTHS: [isize; 2] = [0, 1];

/// Sizes whose slices can be lent as if they were allowed.
const OTHER_SIZES: [usize; 7] = [0, 3, 5, 48, 255, 257, 512];

/// Lengths that every refused size is tried with: those of one cycle, none, and such as no size has.
const OTHER_LENGTHS: usize = 3;

pub fn tests() -> Vec<Test> {
    // An entry that packs is tried with bits and without.
    let of_lengths = |lengths: usize| (ENTRIES.len() + PACKING.len()) * lengths * lengths;
    let choices =
        SIZES.len() * of_lengths(LENGTHS.len()) + OTHER_SIZES.len() * of_lengths(FEW_LENGTHS.len());
    let sizes = ENTRIES.len() * OTHER_LENGTHS;
    vec![
        test(
            "packed storage refused, every choice of 1, 2, 18 of either slice, and 17",
            choices as u64 * OF_A_CALL,
            every_choice,
        ),
        test(
            "packed storage refused, sizes, 1",
            REFUSED_SIZES * sizes as u64 * OF_A_CALL,
            sizes_refused,
        ),
    ]
}

fn every_choice(tally: &mut Tally) {
    let allowed = SIZES.map(|cpi| (cpi, &LENGTHS[..]));
    let others = OTHER_SIZES.map(|cpi| (cpi, &FEW_LENGTHS[..]));
    let sizes = [&allowed[..], &others].concat();
    in_parts(tally, ENTRIES.len() * sizes.len(), |tally, part| {
        let entry = ENTRIES[part % ENTRIES.len()];
        let (cpi, lengths) = sizes[part / ENTRIES.len()];
        let mut numbers = Numbers::for_part(115, part as u64);
        let mut call = Call::random(&mut numbers, entry, cpi);
        each_length(tally, &mut call, lengths, None);
        if entry.packs() {
            let lower = (WITNESS_COLUMNS * cpi).max(1);
            let column = numbers.below(lower as u64) as usize;
            call.put(column, 2 << numbers.below(127));
            each_length(tally, &mut call, lengths, Some(LOWER_BIT));
        }
    });
}

/// Calls with slices of these lengths. `last` is the question that is answered with no once size and
/// lengths are right.
fn each_length(tally: &mut Tally, call: &mut Call, lengths: &[isize], last: Option<u64>) {
    for &read in lengths {
        for &written in lengths {
            one_choice(tally, call, [read, written], last);
        }
    }
}

fn one_choice(tally: &mut Tally, call: &mut Call, by: [isize; 2], last: Option<u64>) {
    let (cpi, slices) = (call.cpi, call.entry.slices());
    let length = |i: usize| (slices[i].words_of_a_cycle * cpi).saturating_add_signed(by[i]);
    call.lengths = [length(0), length(1)];
    let is_wrong = |question| (0..2).any(|i| by[i] != 0 && slices[i].question == question);
    let refused = |wrong: bool, question| wrong.then_some(question);
    let first = refused(!SIZES.contains(&cpi), SIZE)
        .or(refused(is_wrong(BATCH_LENGTH), BATCH_LENGTH))
        .or(refused(is_wrong(PACKED_LENGTH), PACKED_LENGTH))
        .or(last);
    let place = || format!("{cpi} cycles, lengths by {by:?}, then {last:?}");
    match first {
        Some(number) => call.refuses(tally, number, &place),
        None => call.writes(tally, &place),
    }
}

/// The size is asked first, whatever else is wrong with the call.
fn sizes_refused(tally: &mut Tally) {
    let mut numbers = Numbers::for_test(116);
    for entry in ENTRIES {
        let mut call = Call::random(&mut numbers, entry, 1);
        let of_one_cycle = call.lengths;
        for cpi in refused_sizes() {
            call.cpi = cpi;
            for lengths in [of_one_cycle, [0, 0], [7, 7]] {
                call.lengths = lengths;
                call.refuses(tally, SIZE, &|| format!("size {cpi}, lengths {lengths:?}"));
            }
        }
    }
}
