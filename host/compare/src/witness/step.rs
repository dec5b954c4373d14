//! A cycle's columns read as a step of RV64I: the instruction on the bus, operands and result.

use std::num::Wrapping;

use crate::filler::conditions::Cycle;

const LOAD: usize = 770;
const FLAGS: usize = 768;

pub struct Step {
    pub opcode: u64,
    pub funct3: u64,
    pub bus_rd: u64,
    pub bus_rs1: u64,
    pub bus_rs2: u64,
    /// Thirteen bits, the last of them the sign.
    pub imm: Wrapping<u64>,
    pub rs1: Wrapping<u64>,
    pub rs2: Wrapping<u64>,
    pub rd: Wrapping<u64>,
    pub t1: Wrapping<u64>,
    pub t2: Wrapping<u64>,
    pub load_val: u64,
    shift_out: u64,
    pub alu: u64,
    pub off: u64,
    pub ram_addr: u64,
    pub pc: u64,
    flags: u64,
}

impl Step {
    pub fn of(column: &dyn Fn(usize) -> bool) -> Step {
        let word = |first: usize, bits: usize| {
            let bit = |word, i| word << 1 | u64::from(column(first + i));
            (0..bits).rev().fold(0, bit)
        };
        let imm = word(860, 13);
        Step {
            opcode: word(832, 7),
            funct3: word(857, 3),
            bus_rd: word(839, 6),
            bus_rs1: word(845, 6),
            bus_rs2: word(851, 6),
            imm: Wrapping(((imm << 51) as i64 >> 51) as u64),
            rs1: Wrapping(word(0, 64)),
            rs2: Wrapping(word(64, 64)),
            rd: Wrapping(word(128, 64)),
            t1: Wrapping(word(320, 64)),
            t2: Wrapping(word(384, 64)),
            load_val: word(192, 64),
            shift_out: word(256, 64),
            alu: word(512, 64),
            off: word(784, 3),
            ram_addr: word(792, 8),
            pc: word(800, 8),
            flags: word(FLAGS, 16),
        }
    }

    /// Are the ten conditions met, with this output?
    pub fn meets_all(&self, output: u64) -> bool {
        let cycle = Cycle {
            rs1: self.rs1.0,
            rs2: self.rs2.0,
            rd: self.rd.0,
            load_val: self.load_val,
            shift_out: self.shift_out,
            t1: self.t1.0,
            t2: self.t2.0,
            alu: self.alu,
            flags: self.flags as u32,
            off: self.off as u32,
            ram_addr: self.ram_addr,
            opcode: self.opcode,
            funct3: self.funct3,
        };
        cycle.first_unmet(output.into()) == 0
    }

    /// Is the flag of this column set?
    pub fn has(&self, column: usize) -> bool {
        self.flags >> (column - FLAGS) & 1 == 1
    }

    pub fn is_op(&self, funct3: u64) -> bool {
        self.opcode == 0x33 && self.funct3 == funct3
    }

    pub fn is_op_imm(&self, funct3: u64) -> bool {
        self.opcode == 0x13 && self.funct3 == funct3
    }

    pub fn is_load(&self, funct3: u64) -> bool {
        self.opcode == 0x03 && self.funct3 == funct3
    }

    /// Is the destination one of x1 to x31, so that RD matters?
    pub fn writes(&self) -> bool {
        (1..32).contains(&self.bus_rd)
    }

    /// Written by the adder: WE and arithmetic set, and neither a load nor a subtraction.
    pub fn adds_to_rd(&self) -> bool {
        self.writes()
            && self.has(FLAGS + 1)
            && self.has(FLAGS + 4)
            && !self.has(LOAD)
            && !self.has(FLAGS)
    }

    pub fn adds(&self) -> bool {
        self.is_op(0) && self.adds_to_rd()
    }

    /// A load of the width that the flag says.
    pub fn loads(&self, width: usize) -> bool {
        self.writes() && self.has(LOAD) && self.has(width)
    }

    pub fn signed_byte(&self, lane: u64) -> Wrapping<u64> {
        Wrapping((self.load_val >> (8 * lane)) as i8 as u64)
    }

    pub fn below_signed(&self) -> bool {
        (self.rs1.0 as i64) < self.rs2.0 as i64
    }
}
