//! A made row is bits below the one column, and the filler changes nothing in it where halt and
//! taken of the record are what the filler writes.

use words::{elements_of, record_of, record_words, rom_of, rom_words, words_of};

use super::any_program::AnyProgram;
use super::maker::ROW_WORDS;
use super::records::{any_public, any_record, any_rom, MOST_PUBLIC};
use crate::filler::derived::derived;
use crate::numbers::Numbers;
use crate::original;
use crate::parallel::in_parts;
use crate::report::{test, Tally, Test};

const RANDOM: usize = 20_000;
const PROGRAMS: usize = 300;
const CYCLES: usize = 64;

/// Comparisons of one record: bits before, what filling changes, the row of the record with the
/// filler's halt and taken by the product and by the original, filled again.
const OF_A_RECORD: u64 = 5;

const HALT: usize = 773;
const TAKEN: usize = 779;

/// Where halt and taken stand in a record.
const RECORD_HALT: usize = 29;
const RECORD_TAKEN: usize = 14;

pub fn tests() -> Vec<Test> {
    vec![
        test(
            "made rows are bits and stay as they are when filled, random records",
            RANDOM as u64 * OF_A_RECORD,
            random,
        ),
        test(
            "made rows are bits and stay as they are when filled, records of programs",
            (PROGRAMS * CYCLES) as u64 * OF_A_RECORD,
            programs,
        ),
    ]
}

fn random(tally: &mut Tally) {
    in_parts(tally, RANDOM, |tally, part| {
        let mut numbers = Numbers::for_part(82, part as u64);
        let (record, rom) = (any_record(&mut numbers), any_rom(&mut numbers));
        let public = words_of(&any_public(&mut numbers, MOST_PUBLIC));
        let place = || format!("record {part}");
        refilled(tally, record, &rom, &public, &place);
    });
}

fn programs(tally: &mut Tally) {
    in_parts(tally, PROGRAMS, |tally, part| {
        let mut numbers = Numbers::for_part(83, part as u64);
        let program = AnyProgram::random(&mut numbers);
        let most_cycles = numbers.below(CYCLES as u64 + 1) as usize;
        let public = words_of(&program.public(most_cycles));
        for (cycle, (record, rom)) in program.cycles(most_cycles, CYCLES).iter().enumerate() {
            let place = || format!("program {part}, cycle {cycle}");
            let record = record_words(record);
            refilled(tally, record, &rom_words(rom), &public, &place);
        }
    });
}

fn refilled(
    tally: &mut Tally,
    mut record: Vec<u64>,
    rom: &[u64],
    public: &[u64],
    place: &dyn Fn() -> String,
) {
    let made = make(&record, rom, public);
    let bits = || format!("{}, bits", place());
    tally.same(bits, product::bit_test(1, &made), 0);

    let filled = fill(&made);
    let mut right = made;
    for column in [HALT, TAKEN] {
        right[2 * column] = filled[2 * column];
    }
    let changed = || format!("{}, filling changes more than halt and taken", place());
    tally.same(changed, first_difference(&filled, &right), None);

    record[RECORD_HALT] = filled[2 * HALT];
    record[RECORD_TAKEN] = filled[2 * TAKEN];
    let again = make(&record, rom, public);
    let halted = || format!("{}, row with the filler's halt and taken", place());
    tally.same(halted, first_difference(&again, &filled), None);
    let elements = elements_of(public);
    let by_original = original::witness_row(&record_of(&record), &rom_of(rom), &elements);
    let by_original = words_of(&by_original);
    let halted = || format!("{}, the original's row with them", place());
    tally.same(halted, first_difference(&by_original, &filled), None);
    let unchanged = || format!("{}, filled again", place());
    tally.same(unchanged, first_difference(&fill(&again), &again), None);
}

/// The row by the product; a refusal leaves the words that no row has.
fn make(record: &[u64], rom: &[u64], public: &[u64]) -> Vec<u64> {
    let mut row = vec![u64::MAX; ROW_WORDS];
    product::witness_row(record, rom, public, &mut row);
    row
}

fn fill(row: &[u64]) -> Vec<u64> {
    let mut filled = row.to_vec();
    // Derived columns may hold anything before.
    for column in derived() {
        filled[2 * column] = u64::MAX;
    }
    product::fill(1, &mut filled);
    filled
}

fn first_difference(words: &[u64], right: &[u64]) -> Option<usize> {
    (0..words.len().max(right.len())).find(|&i| words.get(i) != right.get(i))
}
