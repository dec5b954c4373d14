//! Rows of the original's own interpreter that its own check fails: the classes, a smallest program
//! of each, and that random programs have no others. The strict listing fails the same rows, and no other.

use std::sync::atomic::{AtomicUsize, Ordering};

use words::{record_words, rom_words, words_of};

use super::any_program::AnyProgram;
use super::maker::ROW_WORDS;
use crate::house::Relation;
use crate::numbers::Numbers;
use crate::original::{self, CircuitSpec, CycleRecord, Gf128, RomRow, VirtualKind};
use crate::parallel::in_parts;
use crate::report::{test, Tally, Test};
use crate::verdict::answer::Verdict;
use crate::verdict::forms::{self, FORMS};
use crate::verdict::instructions as isa;
use crate::verdict::known::{self, Known, KNOWN};

const PROGRAMS: usize = 1_000;
const CYCLES: usize = 64;

/// Comparisons of one smallest program: rows by the product and by the original.
const OF_A_PROGRAM: u64 = 2;

/// The writing row, the second halt row and the first row that ties halt to the opcode.
const WRITE: (Relation, usize) = (Relation::Fld, 0);
const HALT_READS: (Relation, usize) = (Relation::Fld, 4);
const HALT_OPCODE: (Relation, usize) = (Relation::Bin, 456);

#[derive(Clone, Copy, Debug, PartialEq, Eq)]
enum Class {
    /// SLTU and SLTIU, and what the decoder takes for them: RD is the comparison, ALU the
    /// difference.
    Compares,
    /// Halts the interpreter with an opcode that is not 0x73.
    Fence,
    Unknown,
    /// The run ended without a halt, and what pads it is said to halt.
    Padding,
    /// The same where the next instruction is ECALL: it has not put x10 out yet.
    PaddingAtHalt,
}

const CLASSES: [Class; 5] = [
    Class::Compares,
    Class::Fence,
    Class::Unknown,
    Class::Padding,
    Class::PaddingAtHalt,
];

impl Class {
    /// The class of a cycle, if its row fails.
    fn of(record: &CycleRecord, rom: &RomRow) -> Option<Class> {
        let difference = record.alu_a.wrapping_sub(record.alu_b);
        let padding = rom.kind != VirtualKind::System;
        if record.halted_latch {
            return match rom.raw & 127 {
                0x73 if record.rd_val == record.rs1_val => None,
                0x73 => Some(Class::PaddingAtHalt),
                _ if padding => Some(Class::Padding),
                0x0f => Some(Class::Fence),
                _ => Some(Class::Unknown),
            };
        }
        let compares = rom.kind == VirtualKind::Alu && rom.funct3 == 3;
        (compares && record.rd_val != difference).then_some(Class::Compares)
    }

    fn fails(self) -> (Relation, usize) {
        match self {
            Class::Compares => WRITE,
            Class::Fence | Class::Unknown | Class::Padding => HALT_OPCODE,
            Class::PaddingAtHalt => HALT_READS,
        }
    }
}

/// What the check against a listing says of a cycle of this class.
fn verdict(known: Known, class: Option<Class>) -> Verdict {
    known::verdict(known, 1, class.map(Class::fails))
}

/// A smallest program of a class: no input, at most so many cycles, and the one cycle that fails.
struct Smallest {
    class: Class,
    name: &'static str,
    words: &'static [u32],
    most_cycles: usize,
    cycle: usize,
}

const ADDI_X0: u32 = 0x0000_0013;
const ADDI_X1_1: u32 = 0x0010_0093;
const ADDI_X10_1: u32 = 0x0010_0513;

const SMALLEST: [Smallest; 7] = [
    Smallest {
        class: Class::Compares,
        name: "SLTIU x0, x0, 1",
        words: &[SLTIU_X0_X0_1],
        most_cycles: 1,
        cycle: 0,
    },
    Smallest {
        class: Class::Compares,
        name: "ADDI x1, x0, 1; SLTU x0, x0, x1",
        words: &[ADDI_X1_1, 0x0010_3033],
        most_cycles: 2,
        cycle: 1,
    },
    Smallest {
        class: Class::Fence,
        name: "FENCE",
        words: &[0x0000_000f],
        most_cycles: 1,
        cycle: 0,
    },
    Smallest {
        class: Class::Unknown,
        name: "the word 0",
        words: &[0x0000_0000],
        most_cycles: 1,
        cycle: 0,
    },
    Smallest {
        class: Class::Padding,
        name: "ADDI x0, x0, 0 for three cycles",
        words: &[ADDI_X0],
        most_cycles: 3,
        cycle: 3,
    },
    Smallest {
        class: Class::Padding,
        name: "ADDI x0, x0, 0 for no cycle",
        words: &[ADDI_X0],
        most_cycles: 0,
        cycle: 0,
    },
    Smallest {
        class: Class::PaddingAtHalt,
        name: "ADDI x10, x0, 1; ADDI x0, x0, 0 twice; ECALL not reached",
        words: &[ADDI_X10_1, ADDI_X0, ADDI_X0, isa::ECALL],
        most_cycles: 3,
        cycle: 3,
    },
];

const SLTIU_X0_X0_1: u32 = 0x0010_3013;

/// Words of SLTIU below the one that fails: every rd, every rs1, immediate 0.
const BELOW: u64 = 32 * 32;

/// Programs near the classes all of whose rows are accepted.
const ACCEPTED: [(&str, &[u32]); 4] = [
    (
        "SLT, which the interpreter gives as 0",
        &[0x0010_0093, 0x0010_2033],
    ),
    (
        "SLTIU of 0 and 2^64 - 1, whose difference is 1",
        &[0xfff0_3013],
    ),
    ("CSRRW, which halts as ECALL does", &[0x0000_1073]),
    ("ECALL", &[isa::ECALL]),
];

/// A program whose last instruction the interpreter executes otherwise than the ISA: what it finds
/// in memory, what it writes, and what the ISA demands.
struct Otherwise {
    name: &'static str,
    words: &'static [u32],
    input: u64,
    writes: u64,
    isa: u64,
}

const OTHERWISE: [Otherwise; 9] = [
    Otherwise {
        name: "SLTI x1, x0, 1",
        words: &[0x0010_2093],
        input: 0,
        writes: 0,
        isa: 1,
    },
    Otherwise {
        name: "SLT x2, x0, x1 of 0 and 1",
        words: &[ADDI_X1_1, 0x0010_2133],
        input: 0,
        writes: 0,
        isa: 1,
    },
    Otherwise {
        name: "LUI x1, 0x80000",
        words: &[0x8000_00b7],
        input: 0,
        writes: 0x8000_0000,
        isa: 0xffff_ffff_8000_0000,
    },
    Otherwise {
        name: "SRAI x2, x1, 32 of -1",
        words: &[0xfff0_0093, 0x4200_d113],
        input: 0,
        writes: 0xffff_ffff,
        isa: u64::MAX,
    },
    Otherwise {
        name: "ADDW x2, x1, x1 of 1 and 1",
        words: &[ADDI_X1_1, 0x0010_813b],
        input: 0,
        writes: 1,
        isa: 2,
    },
    Otherwise {
        name: "ADDIW x2, x1, 0 of 2^32",
        words: &[0x0000_3083, 0x0000_811b],
        input: 1 << 32,
        writes: 1 << 32,
        isa: 0,
    },
    Otherwise {
        name: "LB x1, 0(x0) of 0x80",
        words: &[0x0000_0083],
        input: 0x80,
        writes: 0x80,
        isa: 0xffff_ffff_ffff_ff80,
    },
    Otherwise {
        name: "LH x1, 0(x0) of 0x8000",
        words: &[0x0000_1083],
        input: 0x8000,
        writes: 0x8000,
        isa: 0xffff_ffff_ffff_8000,
    },
    Otherwise {
        name: "LW x1, 0(x0) of 2^32",
        words: &[0x0000_2083],
        input: 1 << 32,
        writes: 1 << 32,
        isa: 0,
    },
];

pub fn tests() -> Vec<Test> {
    let mut tests: Vec<Test> = SMALLEST
        .iter()
        .map(|smallest| {
            let name = format!("the original's own row fails: {}", smallest.name);
            test(name, OF_A_PROGRAM, |tally| smallest_fails(tally, smallest))
        })
        .collect();
    tests.extend([
        test(
            "the original's own rows are accepted: SLT, CSRRW, ECALL",
            ACCEPTED.len() as u64 * OF_A_PROGRAM,
            accepted,
        ),
        test(
            "the original's own rows are accepted, with another result than the ISA's",
            OTHERWISE.len() as u64 * (OF_A_PROGRAM + 2),
            otherwise,
        ),
        test("no smaller word of SLTIU fails", BELOW, no_smaller_word),
        test(
            format!("{PROGRAMS} programs of any instructions: no other class fails"),
            PROGRAMS as u64 * 2 + CLASSES.len() as u64,
            no_other_class,
        ),
    ]);
    tests
}

/// By each listing, in both forms of the product.
type Numbered = [[u64; FORMS]; KNOWN.len()];

/// The verdicts on a run's rows, by the product on the rows that it makes, and the relations that the original
/// names on its own.
fn judged(
    spec: &CircuitSpec,
    cycles: &[(CycleRecord, RomRow)],
    public: &[Gf128],
) -> (Vec<Numbered>, Vec<Option<Relation>>) {
    let words = words_of(public);
    let by_product = |(record, rom): &(CycleRecord, RomRow)| {
        let mut row = vec![u64::MAX; ROW_WORDS];
        product::witness_row(&record_words(record), &rom_words(rom), &words, &mut row);
        KNOWN.map(|known| forms::of_known(known, 1, &row))
    };
    let by_original = |(record, rom): &(CycleRecord, RomRow)| {
        original::check_row(spec, &original::witness_row(record, rom, public))
    };
    let verdicts = cycles.iter().map(by_product).collect();
    (verdicts, cycles.iter().map(by_original).collect())
}

fn expected(classes: &[Option<Class>]) -> (Vec<Numbered>, Vec<Option<Relation>>) {
    let numbers =
        |&class: &Option<Class>| KNOWN.map(|known| [verdict(known, class).number(); FORMS]);
    let relation = |&class: &Option<Class>| class.map(|class| class.fails().0);
    (
        classes.iter().map(numbers).collect(),
        classes.iter().map(relation).collect(),
    )
}

fn same(
    tally: &mut Tally,
    program: &AnyProgram,
    most_cycles: usize,
    cycles: &[(CycleRecord, RomRow)],
    classes: &[Option<Class>],
    place: &dyn Fn() -> String,
) {
    let spec = original::build_circuit();
    let public = program.public(most_cycles);
    let (by_product, by_original) = judged(&spec, cycles, &public);
    let (numbers, relations) = expected(classes);
    tally.same(place, by_product, numbers);
    let original = || format!("{}, by the original", place());
    tally.same(original, by_original, relations);
}

fn smallest_fails(tally: &mut Tally, smallest: &Smallest) {
    let program = AnyProgram::of(smallest.words, &[]);
    let records = program.run(smallest.most_cycles).records.len();
    let cycles = program.cycles(smallest.most_cycles, records);
    let mut classes = vec![None; records];
    classes[smallest.cycle] = Some(smallest.class);
    let place = || format!("verdicts on {}", smallest.name);
    let most_cycles = smallest.most_cycles;
    same(tally, &program, most_cycles, &cycles, &classes, &place);
}

fn accepted(tally: &mut Tally) {
    for (name, words) in ACCEPTED {
        let program = AnyProgram::of(words, &[]);
        let cycles = program.cycles(words.len(), words.len());
        let classes = vec![None; words.len()];
        same(tally, &program, words.len(), &cycles, &classes, &|| {
            format!("verdicts on {name}")
        });
    }
}

fn otherwise(tally: &mut Tally) {
    for case in &OTHERWISE {
        let program = AnyProgram::of(case.words, &[case.input]);
        let most_cycles = case.words.len();
        let cycles = program.cycles(most_cycles, most_cycles);
        let classes = vec![None; most_cycles];
        let place = || format!("verdicts on {}", case.name);
        same(tally, &program, most_cycles, &cycles, &classes, &place);
        let written = cycles[most_cycles - 1].0.rd_val;
        tally.same(|| case.name.into(), written, case.writes);
        tally.same(|| format!("{}, ISA", case.name), written == case.isa, false);
    }
}

fn no_smaller_word(tally: &mut Tally) {
    let spec = original::build_circuit();
    let opcode_and_funct3 = SLTIU_X0_X0_1 & 0x707f;
    let words = (0..SLTIU_X0_X0_1).filter(|word| word & 0x707f == opcode_and_funct3);
    for word in words {
        let program = AnyProgram::of(&[word], &[]);
        let (_, by_original) = judged(&spec, &program.cycles(1, 1), &program.public(1));
        tally.same(|| format!("word {word:08x}"), by_original, vec![None]);
    }
}

/// Any number of cycles; for every second program that halts as many as end just before it.
fn most_cycles(numbers: &mut Numbers, program: &AnyProgram) -> usize {
    let any = numbers.below(CYCLES as u64 + 1) as usize;
    if numbers.below(2) == 0 {
        return any;
    }
    let records = program.run(CYCLES).records;
    let halt = records.iter().position(|record| record.halted_latch);
    halt.unwrap_or(any)
}

/// Every failing cycle is of a class above and fails where that class does; each class is frequent.
fn no_other_class(tally: &mut Tally) {
    let spec = original::build_circuit();
    let seen: [AtomicUsize; CLASSES.len()] = Default::default();
    in_parts(tally, PROGRAMS, |tally, part| {
        let mut numbers = Numbers::for_part(90, part as u64);
        let program = AnyProgram::random(&mut numbers);
        let most_cycles = most_cycles(&mut numbers, &program);
        let cycles = program.cycles(most_cycles, CYCLES);
        let classes: Vec<_> = cycles.iter().map(|(r, rom)| Class::of(r, rom)).collect();
        for (count, class) in seen.iter().zip(CLASSES) {
            let cycles = classes.iter().filter(|&&c| c == Some(class)).count();
            count.fetch_add(cycles, Ordering::Relaxed);
        }
        let (by_product, by_original) = judged(&spec, &cycles, &program.public(most_cycles));
        let (numbers, relations) = expected(&classes);
        let place = || format!("program {part}: {:08x?}", program.words);
        tally.same(place, by_product, numbers);
        tally.same(place, by_original, relations);
    });
    for (count, class) in seen.iter().zip(CLASSES) {
        let cycles = count.load(Ordering::Relaxed);
        let place = || format!("{cycles} cycles of {class:?}");
        tally.same(place, cycles >= 20, true);
    }
}
