//! Every length of what is lent to the row maker and to assembly: none, one short, right, one over;
//! which question is answered first where several lengths are wrong; and that a refusal changes
//! nothing.

use words::{elements_of, record_of, rom_of, words_of, RECORD_WORDS, ROM_WORDS};

use super::assembly::{any_cycles, most_public, right_batch};
use super::maker::ROW_WORDS;
use super::records::{any_record, any_rom, public, MOST_PUBLIC};
use crate::columns::SIZES;
use crate::numbers::Numbers;
use crate::original;
use crate::parallel::in_parts;
use crate::report::{test, Tally, Test};
use crate::verdict::answer::{refusal, BATCH_LENGTH, CYCLES_LENGTH, PUBLIC_LENGTH, SIZE};
use crate::verdict::batches::{COLUMNS, WITNESS_COLUMNS};
use crate::verdict::lent::Lent;

/// Lengths of a slice that has a right one; the right one is the first.
const LENGTHS: usize = 4;

/// Numbers of public words; the first three are allowed.
const PUBLIC_LENGTHS: usize = 8;

/// Comparisons of one call: the answer, what is written, what is lent for reading.
const OF_A_CALL: u64 = 3;

const WRONG_SIZES: [usize; 12] = [
    0,
    3,
    5,
    6,
    7,
    255,
    257,
    512,
    1024,
    1 << 32,
    1 << 63,
    usize::MAX,
];

pub fn tests() -> Vec<Test> {
    vec![
        test(
            "witness_row, every length of row and public values",
            (LENGTHS * PUBLIC_LENGTHS) as u64 * OF_A_CALL,
            rows,
        ),
        test(
            "witness_row, every length of record and ROM row",
            ((RECORD_WORDS + 3) * (ROM_WORDS + 3)) as u64 * OF_A_CALL,
            missing_words,
        ),
        test(
            "assembly, every length of batch, public values and cycles, in the order asked",
            (9 * LENGTHS * PUBLIC_LENGTHS * LENGTHS) as u64 * OF_A_CALL,
            batches,
        ),
        test(
            "assembly, sizes refused before anything else",
            (WRONG_SIZES.len() * 8) as u64 * OF_A_CALL,
            sizes,
        ),
    ]
}

fn lengths(right: usize) -> [usize; LENGTHS] {
    [right, 0, right - 1, right + 1]
}

/// None, one element and the most; then odd numbers, and the least even number that is too many.
fn public_lengths(most: usize) -> [usize; PUBLIC_LENGTHS] {
    [0, 2, most, 1, 3, most - 1, most + 1, most + 2]
}

fn public_is_allowed(words: usize, most: usize) -> bool {
    words % 2 == 0 && words <= most
}

/// Public words of any number, also of half an element.
fn public_words(numbers: &mut Numbers, words: usize) -> Vec<u64> {
    (0..words).map(|_| numbers.next()).collect()
}

/// A refusal that has no number.
const NO_NUMBER: u64 = 0;

/// What a call must give: the number of a refusal, or the words that it writes.
type Right = Result<Vec<u64>, u64>;

/// Lends, calls, and compares the answer, what is written and what was lent for reading.
fn call<const N: usize>(
    tally: &mut Tally,
    read: [&[u64]; N],
    written: usize,
    before: u64,
    right: Right,
    place: &dyn Fn() -> String,
    work: impl Fn([&[u64]; N], &mut [u64]) -> u64,
) {
    let mut lent = read.map(Lent::of);
    let mut out = Lent::of(&vec![before; written]);
    let answer = match right {
        Ok(words) => {
            out.must_become_all(before, &words);
            0
        }
        Err(number) => refusal(number).answer(),
    };
    let words = lent.each_ref().map(Lent::words);
    tally.same(place, work(words, out.words_mut()), answer);
    let wrong = || format!("{}, first word that should not be so", place());
    tally.same(wrong, out.first_wrong(), None);
    let others = || format!("{}, what is lent for reading", place());
    let unchanged = lent.each_mut().map(Lent::is_right);
    tally.same(others, unchanged, [true; N]);
}

fn rows(tally: &mut Tally) {
    const MOST: usize = 2 * MOST_PUBLIC;
    let mut numbers = Numbers::for_test(87);
    for row in lengths(ROW_WORDS) {
        for public in public_lengths(MOST) {
            let (record, rom) = (any_record(&mut numbers), any_rom(&mut numbers));
            let public = public_words(&mut numbers, public);
            let right = if row != ROW_WORDS {
                Err(BATCH_LENGTH)
            } else if !public_is_allowed(public.len(), MOST) {
                Err(PUBLIC_LENGTH)
            } else {
                Ok(right_row(&record, &rom, &public))
            };
            let place = || format!("row of {row} words, {} public words", public.len());
            let read = [&record[..], &rom, &public];
            call(tally, read, row, numbers.next(), right, &place, make);
        }
    }
}

fn make([record, rom, public]: [&[u64]; 3], row: &mut [u64]) -> u64 {
    product::witness_row(record, rom, public, row)
}

fn right_row(record: &[u64], rom: &[u64], public: &[u64]) -> Vec<u64> {
    let (record, rom) = (record_of(record), rom_of(rom));
    words_of(&original::witness_row(&record, &rom, &elements_of(public)))
}

/// From no word to two more than are read. Too few have no number in the paper, where a record is
/// no slice.
fn missing_words(tally: &mut Tally) {
    let ones = [u64::MAX; RECORD_WORDS + 2];
    for record in 0..=RECORD_WORDS + 2 {
        for rom in 0..=ROM_WORDS + 2 {
            let place = || format!("record of {record} words, ROM row of {rom}");
            let read = [&ones[..record], &ones[..rom], &[]];
            let right = if record < RECORD_WORDS || rom < ROM_WORDS {
                Err(NO_NUMBER)
            } else {
                Ok(right_row(read[0], read[1], read[2]))
            };
            call(tally, read, ROW_WORDS, 2, right, &place, make);
        }
    }
}

fn batches(tally: &mut Tally) {
    let parts = 9 * LENGTHS;
    in_parts(tally, parts, |tally, part| {
        let cpi = SIZES[8 - part / LENGTHS];
        let mut numbers = Numbers::for_part(88, part as u64);
        let most = 2 * most_public(cpi);
        let batch = lengths(2 * COLUMNS * cpi)[part % LENGTHS];
        let cycles = any_cycles(&mut numbers, cpi);
        let cycle_words = [words_of(&cycles.concat()), vec![1]].concat();
        let public = public_words(&mut numbers, most + 2);
        for public_len in public_lengths(most) {
            for cycles_len in lengths(2 * WITNESS_COLUMNS * cpi) {
                let public = &public[..public_len];
                let right = if batch != 2 * COLUMNS * cpi {
                    Err(BATCH_LENGTH)
                } else if !public_is_allowed(public_len, most) {
                    Err(PUBLIC_LENGTH)
                } else if cycles_len != 2 * WITNESS_COLUMNS * cpi {
                    Err(CYCLES_LENGTH)
                } else {
                    Ok(right_batch(cpi, &cycles, &elements_of(public)))
                };
                let place = || {
                    let lengths = format!("batch {batch}, public {public_len}");
                    format!("{cpi} cycles, words: {lengths}, cycles {cycles_len}")
                };
                let read = [&cycle_words[..cycles_len], public];
                let work = |[cycles, public]: [&[u64]; 2], batch: &mut [u64]| {
                    product::assemble(cpi, cycles, public, batch)
                };
                call(tally, read, batch, numbers.next(), right, &place, work);
            }
        }
    });
}

/// Lengths that are right for one cycle, and lengths that are wrong for any size.
fn sizes(tally: &mut Tally) {
    let cycles = words_of(&public(&mut Numbers::for_test(89), WITNESS_COLUMNS));
    for cpi in WRONG_SIZES {
        for wrong in 0..8 {
            let cycles = &cycles[wrong & 1..];
            let public = &cycles[..4 + (wrong >> 1 & 1)];
            let batch = 2 * COLUMNS + (wrong >> 2);
            let place = || format!("size {cpi}, wrong lengths {wrong:#b}");
            let work = |[cycles, public]: [&[u64]; 2], batch: &mut [u64]| {
                product::assemble(cpi, cycles, public, batch)
            };
            call(tally, [cycles, public], batch, 7, Err(SIZE), &place, work);
        }
    }
}
