//! Small RV64I programs, run by the original's interpreter, and the rows that its `witness_row`
//! makes of their cycles.

use super::instructions as isa;
use crate::numbers::Numbers;
use crate::original::{self, Gf128, StreamCursor};

/// Words that a run finds in memory: its registers 1 to 15 come from there.
const INPUT_WORDS: usize = 32;

/// Registers 1 to 15 are for anything. The original's shift stages write x0, so zero is elsewhere.
const ZERO: u32 = 29;
const COUNTER: u32 = 31;

/// More cycles than any program here runs before it halts.
const MOST_CYCLES: usize = 1 << 14;

/// How a program ends, and whether it holds instructions whose rows the original itself fails.
#[derive(Clone, Copy, PartialEq, Eq)]
pub enum Sort {
    /// Every row of every cycle is accepted.
    Accepted,
    /// SLT with funct3 3 writes what its adder did not compute, and FENCE halts with another opcode
    /// than the halt rows ask for.
    MayFail,
}

/// A program with its input and, once it has been run, its output.
pub struct Program {
    words: Vec<u32>,
    input: Vec<u64>,
    output: u64,
}

impl Program {
    /// Every instruction, every funct3, every width at every offset.
    pub fn of_everything(numbers: &mut Numbers) -> Program {
        let mut words = every_instruction();
        words.splice(0..0, set_up());
        words.push(isa::ECALL);
        Program::with_output(words, numbers)
    }

    /// `length` instructions drawn by chance, ended by a counted loop.
    pub fn random(numbers: &mut Numbers, length: usize, sort: Sort) -> Program {
        let mut words = set_up();
        for i in 0..length {
            let misfit = sort == Sort::MayFail && i % 4 == 3;
            words.push(if misfit {
                compare_unsigned(numbers)
            } else {
                instruction(numbers)
            });
        }
        words.extend(counted_loop(numbers));
        let fence = sort == Sort::MayFail && numbers.below(2) == 0;
        words.push(if fence { isa::FENCE } else { halt(numbers) });
        Program::with_output(words, numbers)
    }

    fn with_output(words: Vec<u32>, numbers: &mut Numbers) -> Program {
        let input: Vec<u64> = (0..INPUT_WORDS).map(|_| input_word(numbers)).collect();
        let trace = original::execute(&words, &input, MOST_CYCLES);
        assert!(trace.final_state.halted, "a program of the test runs on");
        Program {
            words,
            input,
            output: trace.final_state.output,
        }
    }

    /// What the prover makes public: the output, then the input.
    pub fn public(&self) -> Vec<Gf128> {
        let words = [&[self.output], &self.input[..]].concat();
        words.into_iter().map(|word| Gf128(word.into())).collect()
    }

    /// The witness rows of the first `cycles` cycles, halted ones at the end included.
    pub fn rows(&self, cycles: usize) -> Vec<Vec<Gf128>> {
        let rom = original::expand_program(&self.words);
        let public = self.public();
        StreamCursor::start(&self.input)
            .run_segment(&rom, cycles)
            .iter()
            .map(|record| {
                let row = &rom.rows[record.micro_pc % rom.rows.len()].row;
                original::witness_row(record, row, &public)
            })
            .collect()
    }

    /// Batches of `cpi` consecutive cycles, from the first cycle on.
    pub fn batches(&self, cpi: usize, batches: usize) -> Vec<Vec<Gf128>> {
        let rows = self.rows(cpi * batches);
        rows.chunks(cpi)
            .map(|rows| assemble(cpi, rows, &self.public()))
            .collect()
    }
}

/// One cycle's row is a batch already; more are put together as the original does.
pub fn assemble(cpi: usize, rows: &[Vec<Gf128>], public: &[Gf128]) -> Vec<Gf128> {
    if cpi == 1 {
        return rows[0].clone();
    }
    original::assemble_instance_z(&original::geometry(cpi), rows, public)
}

/// Small numbers, numbers near the ends, numbers of any kind.
fn input_word(numbers: &mut Numbers) -> u64 {
    match numbers.below(6) {
        0 => numbers.below(4),
        1 => numbers.below(4).wrapping_neg(),
        2 => (1 << 63) - 1 + numbers.below(3),
        3 => 1 << numbers.below(64),
        _ => numbers.next(),
    }
}

/// LD of registers 1 to 15 from memory.
fn set_up() -> Vec<u32> {
    (1..16)
        .map(|rd| isa::load(3, rd, ZERO, 8 * rd as i32))
        .collect()
}

fn every_instruction() -> Vec<u32> {
    let mut words = Vec::new();
    // funct3 3 has its own sort of programs.
    for funct3 in [0, 1, 2, 4, 5, 6, 7] {
        words.push(isa::op(0, funct3, 1, 2, 3));
        words.push(isa::op_imm(funct3, 4, 5, 0x2d));
        words.push(isa::op_32(funct3, 6, 7, 8));
        words.push(isa::op_imm_32(funct3, 9, 10, 0x13));
    }
    words.push(isa::op(isa::OTHER, 0, 1, 2, 3));
    words.push(isa::op(isa::OTHER, 5, 11, 12, 13));
    words.push(isa::op_imm(5, 1, 12, (isa::OTHER << 5 | 17) as i32));
    words.extend([isa::lui(14, 0xfffff), isa::auipc(15, 0x12345)]);
    words.extend([isa::lui(0, 0x7), isa::op_imm(0, 0, 3, -1)]);
    for offset in 0..8 {
        words.extend((0..8).map(|funct3| isa::load(funct3, 1, ZERO, 8 * 20 + offset)));
        words.extend((0..4).map(|funct3| isa::store(funct3, ZERO, 2, 8 * 21 + offset)));
    }
    for funct3 in 0..8 {
        words.push(isa::branch(funct3, 3, 4, 4));
        words.push(isa::branch(funct3, 4, 3, 4));
        words.push(isa::branch(funct3, 3, 3, 4));
    }
    // The jumps go to the instruction behind them, two instructions after the AUIPC.
    words.extend([isa::jal(7, 4), isa::jal(0, 4)]);
    words.extend([isa::auipc(8, 0), isa::jalr(9, 8, 8)]);
    words
}

/// A random instruction whose row is accepted. Jumps go forward only.
fn instruction(numbers: &mut Numbers) -> u32 {
    let register = |numbers: &mut Numbers| numbers.below(16) as u32;
    let (rd, rs1, rs2) = (register(numbers), register(numbers), register(numbers));
    let imm = numbers.below(4096) as i32 - 2048;
    let funct3 = numbers.below(8) as u32;
    let other = isa::OTHER * numbers.below(2) as u32;
    let skip = 4 * (1 + numbers.below(2) as i32);
    match numbers.below(12) {
        0 => isa::op(other, 0, rd, rs1, rs2),
        1 => isa::op(other, 5, rd, rs1, rs2),
        2 => isa::op(0, not_3(funct3), rd, rs1, rs2),
        3 | 4 => isa::op_imm(not_3(funct3), rd, rs1, imm),
        5 => isa::op_imm_32(not_3(funct3), rd, rs1, imm),
        6 => isa::load(funct3, rd, rs1, imm),
        7 => isa::store(funct3 % 4, rs1, rs2, imm),
        8 | 9 => isa::branch(funct3, rs1, rs2, skip),
        10 => isa::lui(rd, numbers.below(1 << 20) as u32),
        _ => isa::jal(rd, skip),
    }
}

fn not_3(funct3: u32) -> u32 {
    if funct3 == 3 {
        0
    } else {
        funct3
    }
}

/// SLTU or SLTIU.
fn compare_unsigned(numbers: &mut Numbers) -> u32 {
    let (rd, rs1) = (numbers.below(16) as u32, numbers.below(16) as u32);
    if numbers.below(2) == 0 {
        isa::op(0, 3, rd, rs1, numbers.below(16) as u32)
    } else {
        isa::op_imm(3, rd, rs1, numbers.below(4096) as i32 - 2048)
    }
}

/// Adds up in register 10, the output, and counts down to zero.
fn counted_loop(numbers: &mut Numbers) -> Vec<u32> {
    let turns = 1 + numbers.below(4) as i32;
    vec![
        // May be skipped by the instruction before it.
        isa::op_imm(0, 0, 0, 0),
        isa::op_imm(0, COUNTER, ZERO, turns),
        isa::op(0, 0, 10, 10, COUNTER),
        isa::store(3, ZERO, 10, 8 * 25),
        isa::op_imm(0, COUNTER, COUNTER, -1),
        isa::branch(1, COUNTER, ZERO, -12),
    ]
}

fn halt(numbers: &mut Numbers) -> u32 {
    if numbers.below(4) == 0 {
        isa::EBREAK
    } else {
        isa::ECALL
    }
}
