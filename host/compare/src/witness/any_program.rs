//! Programs of any instructions, those included that the original does not know or whose rows its
//! own check fails. They may run on and on, so that only their first cycles are looked at.

use super::records::any_word;
use crate::numbers::Numbers;
use crate::original::{self, CycleRecord, Gf128, RomRow, Trace};
use crate::verdict::instructions as isa;

/// The opcodes that the original's decoder knows, FENCE and SYSTEM among them.
const OPCODES: [u32; 13] = [
    0x03, 0x0f, 0x13, 0x17, 0x1b, 0x23, 0x33, 0x37, 0x3b, 0x63, 0x67, 0x6f, 0x73,
];

/// The registers of random instructions: x10 is what a halt puts out.
const REGISTERS: [u32; 8] = [0, 1, 2, 3, 4, 5, 6, 10];

/// Words that a run finds in memory.
const INPUT_WORDS: usize = 16;

pub struct AnyProgram {
    pub words: Vec<u32>,
    pub input: Vec<u64>,
}

impl AnyProgram {
    pub fn of(words: &[u32], input: &[u64]) -> AnyProgram {
        AnyProgram {
            words: words.to_vec(),
            input: input.to_vec(),
        }
    }

    /// The registers in use come from memory; then follows anything.
    pub fn random(numbers: &mut Numbers) -> AnyProgram {
        let load = |rd: &u32| isa::load(3, *rd, 0, 8 * *rd as i32);
        let mut words: Vec<u32> = REGISTERS[1..].iter().map(load).collect();
        let length = 1 + numbers.below(60);
        words.extend((0..length).map(|_| instruction(numbers)));
        AnyProgram {
            words,
            input: (0..INPUT_WORDS).map(|_| any_word(numbers)).collect(),
        }
    }

    pub fn run(&self, most_cycles: usize) -> Trace {
        original::execute(&self.words, &self.input, most_cycles)
    }

    /// A run of at most so many cycles, padded to `cycles` as the original pads: whether or not it
    /// has halted.
    pub fn cycles(&self, most_cycles: usize, cycles: usize) -> Vec<(CycleRecord, RomRow)> {
        let mut trace = self.run(most_cycles);
        let (records, state) = (&mut trace.records, &mut trace.final_state);
        original::pad_records(records, state, &trace.program, cycles);
        let rom = &trace.program.rows;
        let row_of = |record: &CycleRecord| rom[record.micro_pc % rom.len()].row.clone();
        let records = trace.records.into_iter().take(cycles);
        records
            .map(|record| (record.clone(), row_of(&record)))
            .collect()
    }

    /// What the prover makes public after such a run: the output, then the input.
    pub fn public(&self, most_cycles: usize) -> Vec<Gf128> {
        let output = self.run(most_cycles).final_state.output;
        let words = [&[output], &self.input[..]].concat();
        words.into_iter().map(|word| Gf128(word.into())).collect()
    }
}

/// Few registers, so that results are used; jumps and branches a few instructions away.
fn instruction(numbers: &mut Numbers) -> u32 {
    let any = numbers.next() as u32;
    if numbers.below(40) == 0 {
        return any;
    }
    let register = |at: u32| REGISTERS[(any >> at & 7) as usize];
    let (rd, rs1, rs2) = (register(0), register(3), register(6));
    let (funct3, imm) = (any >> 9 & 7, any as i32 >> 20);
    let funct7 = isa::OTHER * numbers.below(2) as u32;
    let near = 4 * (numbers.below(12) as i32 - 3);
    match OPCODES[numbers.below(13) as usize] {
        // One halt in a few is enough.
        0x0f | 0x73 if numbers.below(4) != 0 => isa::op_imm(3, rd, rs1, imm),
        0x33 => isa::op(funct7, funct3, rd, rs1, rs2),
        0x63 => isa::branch(funct3, rs1, rs2, near),
        0x6f => isa::jal(rd, near),
        0x73 => [isa::ECALL, isa::EBREAK, any & !127 | 0x73][numbers.below(3) as usize],
        opcode => any & 0xfff0_0000 | rs1 << 15 | funct3 << 12 | rd << 7 | opcode,
    }
}
