//! Rows that the product makes against the original's `witness_row`, every element: of random
//! records, and of the records that the original's interpreter makes.

use words::{record_words, rom_words};

use super::any_program::AnyProgram;
use super::maker::{Maker, OF_A_ROW};
use super::records::{any_public, any_record, any_rom, MOST_PUBLIC};
use crate::numbers::Numbers;
use crate::parallel::in_parts;
use crate::report::{test, Tally, Test};

pub const RANDOM: usize = 120_000;

/// Records of one part of the test.
const OF_A_PART: usize = 100;

/// Programs, and the cycles of each whose rows are made.
const PROGRAMS: usize = 600;
const CYCLES: usize = 64;

pub fn tests() -> Vec<Test> {
    vec![
        test(
            format!("witness_row, {RANDOM} random records and ROM rows, every element"),
            RANDOM as u64 * OF_A_ROW,
            random,
        ),
        test(
            format!("witness_row, the records of {PROGRAMS} programs, every element"),
            (PROGRAMS * CYCLES) as u64 * OF_A_ROW,
            programs,
        ),
    ]
}

fn random(tally: &mut Tally) {
    in_parts(tally, RANDOM / OF_A_PART, |tally, part| {
        let mut numbers = Numbers::for_part(80, part as u64);
        let mut maker = Maker::new();
        for i in 0..OF_A_PART {
            let (record, rom) = (any_record(&mut numbers), any_rom(&mut numbers));
            let public = any_public(&mut numbers, MOST_PUBLIC);
            let place = || format!("record {i} of part {part}: {record:x?}, ROM row {rom:x?}");
            maker.same(tally, &record, &rom, &public, numbers.next(), &place);
        }
    });
}

fn programs(tally: &mut Tally) {
    in_parts(tally, PROGRAMS, |tally, part| {
        let mut numbers = Numbers::for_part(81, part as u64);
        let program = AnyProgram::random(&mut numbers);
        let most_cycles = numbers.below(CYCLES as u64 + 1) as usize;
        let public = program.public(most_cycles);
        let mut maker = Maker::new();
        for (cycle, (record, rom)) in program.cycles(most_cycles, CYCLES).iter().enumerate() {
            let (record, rom) = (record_words(record), rom_words(rom));
            let place = || format!("program {part}, cycle {cycle}");
            maker.same(tally, &record, &rom, &public, numbers.next(), &place);
        }
    });
}
