//! Rows that the original makes: of the cycles of programs that its interpreter runs, and of records with any
//! flags. No row of a program fails the strict listing alone.

use std::sync::atomic::{AtomicUsize, Ordering};

use words::{record_of, rom_of};

use super::flags::{self, Flags};
use super::judges::{of_both, Judges};
use crate::columns::SIZES;
use crate::numbers::Numbers;
use crate::original::{self, CycleRecord};
use crate::parallel::in_parts;
use crate::report::{test, Tally, Test};
use crate::verdict::batches::Batch;
use crate::verdict::known::{self, Known};
use crate::verdict::programs::{Program, Sort};
use crate::witness::any_program::AnyProgram;
use crate::witness::records::{any_public, any_record, any_rom, MOST_PUBLIC};

/// Cycles that the programs of a sort come to, for each size, and cycles of one program.
const CYCLES: usize = 2048;
const OF_A_PROGRAM: usize = 256;

/// Programs of any instructions, and cycles of each.
const ANY: usize = 1_000;
const ANY_CYCLES: usize = 64;

const RECORDS: usize = 20_000;

/// Whether a cycle is of a sort, by its flags.
type Is = fn(Flags) -> bool;

/// What a cycle does.
const SORTS: [(&str, Is); 5] = [
    ("load of a byte", |flags| flags.load && flags.byte),
    ("load of a half", |flags| flags.load && flags.half),
    ("load of a word", |flags| flags.load && flags.word),
    ("store", |flags| flags.store),
    ("neither", |flags| !flags.load && !flags.store),
];

pub fn tests() -> Vec<Test> {
    let mut tests = Vec::new();
    for cpi in SIZES {
        let batches = CYCLES / cpi;
        for (name, sort) in [
            ("accepted", Sort::Accepted),
            ("whose rows may fail", Sort::MayFail),
        ] {
            tests.push(test(
                format!("the strict listing, programs {name}, {batches} batches of {cpi}"),
                batches as u64 * (of_both(cpi) + 1),
                move |tally| programs(tally, cpi, sort),
            ));
        }
    }
    tests.extend([
        test(
            format!("the strict listing, {RECORDS} records of any flags"),
            RECORDS as u64 * (of_both(1) + 1),
            records,
        ),
        test(
            format!("{ANY} programs of any instructions: the strict listing fails no row that the house listing accepts"),
            (ANY * ANY_CYCLES) as u64 * (of_both(1) + 2) + SORTS.len() as u64,
            any_programs,
        ),
    ]);
    tests
}

pub fn batches_judged() -> usize {
    let of_size = |cpi| 2 * CYCLES / cpi;
    SIZES.into_iter().map(of_size).sum::<usize>() + RECORDS + ANY * ANY_CYCLES
}

/// The first program of each size has every instruction.
fn programs(tally: &mut Tally, cpi: usize, sort: Sort) {
    let judges = Judges::of(cpi);
    in_parts(tally, CYCLES / OF_A_PROGRAM, |tally, part| {
        let sequence = (cpi << 32 | part << 1 | sort as usize) as u64;
        let mut numbers = Numbers::for_part(132, sequence);
        let program = match (part, sort) {
            (0, Sort::Accepted) => Program::of_everything(&mut numbers),
            _ => Program::random(&mut numbers, OF_A_PROGRAM / 2, sort),
        };
        let mut desk = judges.desk(numbers);
        let batches = program.batches(cpi, OF_A_PROGRAM / cpi);
        for (i, z) in batches.into_iter().enumerate() {
            let place = || format!("program {part}, batch {i} of {cpi}");
            let verdicts = judges.judge(tally, &mut desk, &mut Batch::of(cpi, z), &place);
            let right = match sort {
                Sort::Accepted => known::verdict(Known::Strict, cpi, None),
                Sort::MayFail => known::verdict(Known::Strict, cpi, verdicts.house.failed_at()),
            };
            tally.same(place, verdicts.strict, right);
        }
    });
}

/// Halt is as the opcode has it, and taken clear, so that few rows fail before the eight.
fn records(tally: &mut Tally) {
    let judges = Judges::of(1);
    in_parts(tally, RECORDS, |tally, part| {
        let mut numbers = Numbers::for_part(133, part as u64);
        let rom = rom_of(&any_rom(&mut numbers));
        let record = CycleRecord {
            halted_latch: rom.raw & 127 == 0x73,
            branch_taken: false,
            ..record_of(&any_record(&mut numbers))
        };
        let public = any_public(&mut numbers, MOST_PUBLIC);
        let mut batch = Batch::of(1, original::witness_row(&record, &rom, &public));
        let place = || format!("record {part}");
        let mut desk = judges.desk(numbers);
        let verdicts = judges.judge(tally, &mut desk, &mut batch, &place);
        let right = flags::verdict(verdicts.house, &[Flags::of_record(&record)]);
        tally.same(place, verdicts.strict, right);
    });
}

/// A record says by its flags whether its row fails one of the eight, and none does: a row fails where it
/// fails the house listing, or not at all. Of what is accepted every sort is frequent.
fn any_programs(tally: &mut Tally) {
    let judges = Judges::of(1);
    let seen: [AtomicUsize; SORTS.len()] = Default::default();
    in_parts(tally, ANY, |tally, part| {
        let mut numbers = Numbers::for_part(134, part as u64);
        let program = AnyProgram::random(&mut numbers);
        let most_cycles = numbers.below(ANY_CYCLES as u64 + 1) as usize;
        let public = program.public(most_cycles);
        let mut desk = judges.desk(numbers);
        let cycles = program.cycles(most_cycles, ANY_CYCLES);
        for (cycle, (record, rom)) in cycles.iter().enumerate() {
            let flags = Flags::of_record(record);
            let mut batch = Batch::of(1, original::witness_row(record, rom, &public));
            let place = || format!("program {part}, cycle {cycle}: {:08x?}", program.words);
            let verdicts = judges.judge(tally, &mut desk, &mut batch, &place);
            let right = known::verdict(Known::Strict, 1, verdicts.house.failed_at());
            tally.same(place, verdicts.strict, right);
            tally.same(place, flags.failing_row(), None);
            for (count, (_, is)) in seen.iter().zip(SORTS) {
                let counts = verdicts.strict.is_accepted() && is(flags);
                count.fetch_add(counts.into(), Ordering::Relaxed);
            }
        }
    });
    for (count, (name, _)) in seen.iter().zip(SORTS) {
        let cycles = count.load(Ordering::Relaxed);
        let place = || format!("{cycles} accepted cycles, {name}");
        tally.same(place, cycles >= 100, true);
    }
}
