//! A batch packed in cycle order, against a reading of its columns one by one: the answer, every word of
//! the packed slice, and the refusals.

use super::batches::{batch_column, bits, Batch, COLUMNS};
use super::lent::Lent;
use crate::columns::SIZES;
use crate::numbers::Numbers;
use crate::parallel::in_parts;
use crate::report::{test, Tally, Test};

const WORDS_OF_A_CYCLE: usize = 32;
const COLUMNS_OF_A_WORD: usize = 64;

/// Batches of random bits, of each size.
const BATCHES: [usize; 9] = [512, 256, 128, 64, 32, 16, 8, 4, 4];

/// Columns of a batch that are made no bit, one at a time.
const CHANGED: usize = 64;

const NO_BITS: [u128; 5] = [2, 3, 1 << 64, (1 << 64) + 1, 1 << 127];

/// Sizes that are refused, and by how many words a slice is too long or too short.
const OTHER_SIZES: [usize; 8] = [0, 3, 5, 48, 255, 257, 512, usize::MAX];
const OTHER_LENGTHS: [isize; 4] = [-32, -1, 1, 32];

/// Comparisons of one call: the answer, the packed slice with its guards, the batch with its guards.
const OF_A_CALL: u64 = 3;

const REFUSED: u64 = 1 << 63;

pub fn tests() -> Vec<Test> {
    let of_size = |(cpi, batches): (usize, usize)| {
        test(
            format!("packing, {batches} batches of {cpi} and {CHANGED} columns of each that are no bits"),
            (batches * (1 + CHANGED)) as u64 * OF_A_CALL,
            move |tally| packed(tally, cpi, batches),
        )
    };
    let mut tests: Vec<Test> = SIZES.into_iter().zip(BATCHES).map(of_size).collect();
    tests.push(test(
        "packing, each column of a row made no bit",
        (COLUMNS * NO_BITS.len()) as u64 * OF_A_CALL,
        each_column,
    ));
    let of_a_size = 1 + 2 * OTHER_LENGTHS.len() as u64;
    tests.push(test(
        "packing, refused: size, batch, packed slice, and which is asked first",
        (OTHER_SIZES.len() as u64 + SIZES.len() as u64 * of_a_size) * OF_A_CALL,
        refusals,
    ));
    tests
}

fn packed(tally: &mut Tally, cpi: usize, batches: usize) {
    in_parts(tally, batches, |tally, part| {
        let mut numbers = Numbers::for_part(39, (cpi << 32 | part) as u64);
        let mut batch = Batch::of(cpi, bits(&mut numbers, cpi));
        let place = || format!("batch {part} of {cpi}");
        pack(tally, &mut numbers, &mut batch, &place);
        for _ in 0..CHANGED {
            let at = numbers.below((COLUMNS * cpi) as u64) as usize;
            let value = NO_BITS[numbers.below(NO_BITS.len() as u64) as usize];
            let before = batch.z[at].0;
            batch.put(at, value);
            let place = || format!("{}, batch column {at} is {value:#x}", place());
            pack(tally, &mut numbers, &mut batch, &place);
            batch.put(at, before);
        }
    });
}

fn each_column(tally: &mut Tally) {
    in_parts(tally, COLUMNS, |tally, column| {
        let mut numbers = Numbers::for_part(53, column as u64);
        let mut batch = Batch::of(1, bits(&mut numbers, 1));
        for value in NO_BITS {
            batch.put(column, value);
            let place = || format!("column {column} is {value:#x}");
            pack(tally, &mut numbers, &mut batch, &place);
        }
    });
}

/// Question 1 before 2, and 2 before 18.
fn refusals(tally: &mut Tally) {
    let mut numbers = Numbers::for_part(61, 0);
    for cpi in OTHER_SIZES {
        refused(tally, &mut numbers, cpi, [7, 7], 1);
    }
    for cpi in SIZES {
        let (words, room) = (2 * COLUMNS * cpi, WORDS_OF_A_CYCLE * cpi);
        let other = |right: usize, by: isize| right.saturating_add_signed(by);
        refused(tally, &mut numbers, cpi, [words + 1, room + 1], 2);
        for by in OTHER_LENGTHS {
            refused(tally, &mut numbers, cpi, [other(words, by), room], 2);
            refused(tally, &mut numbers, cpi, [words, other(room, by)], 18);
        }
    }
}

fn refused(
    tally: &mut Tally,
    numbers: &mut Numbers,
    cpi: usize,
    [words, room]: [usize; 2],
    number: u64,
) {
    let mut batch = Lent::of(&numbers.words(words));
    let mut out = Lent::of(&numbers.words(room));
    let answer = product::pack_named(cpi, batch.words(), out.words_mut());
    let place = || format!("{cpi} cycles, {words} and {room} words");
    tally.same(place, answer, REFUSED + (number << 32));
    let lent = || format!("{}, what is lent", place());
    tally.same(lent, out.first_wrong(), None);
    tally.same(lent, batch.first_wrong(), None);
}

fn pack(tally: &mut Tally, numbers: &mut Numbers, batch: &mut Batch, place: &dyn Fn() -> String) {
    let cpi = batch.cpi;
    let before = numbers.words(WORDS_OF_A_CYCLE * cpi);
    let mut out = Lent::of(&before);
    let answer = product::pack_named(cpi, batch.words.words(), out.words_mut());
    tally.same(place, answer, u64::from(!all_bits(batch)));
    for (i, &word) in before.iter().enumerate() {
        let (cycle, k) = (i / WORDS_OF_A_CYCLE, i % WORDS_OF_A_CYCLE);
        let right = if looked_at(k * COLUMNS_OF_A_WORD) {
            sum(batch, cycle, k)
        } else {
            word
        };
        out.must_become(i, right);
    }
    let packed = || format!("{}, packed slice and guards", place());
    tally.same(packed, out.first_wrong(), None);
    let lent = || format!("{}, batch and guards", place());
    tally.same(lent, batch.words.first_wrong(), None);
}

fn looked_at(column: usize) -> bool {
    product::LOOKED_AT.iter().any(|read| read.contains(&column))
}

/// Of the columns that are looked at, in every cycle.
fn all_bits(batch: &Batch) -> bool {
    let cpi = batch.cpi;
    let is_bit = |column| (0..cpi).all(|cycle| batch.z[batch_column(cpi, column, cycle)].0 <= 1);
    product::LOOKED_AT.into_iter().flatten().all(is_bit)
}

/// The low words of 64 columns, each at its bit, modulo 2^64: of bits, the word that they spell.
fn sum(batch: &Batch, cycle: usize, k: usize) -> u64 {
    let low = |j| batch.z[batch_column(batch.cpi, COLUMNS_OF_A_WORD * k + j, cycle)].0 as u64;
    (0..COLUMNS_OF_A_WORD).fold(0, |sum: u64, j| sum.wrapping_add(low(j) << j))
}
