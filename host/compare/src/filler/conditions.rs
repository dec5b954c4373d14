//! Document 01's ten step conditions on the words of a cycle, and the branch reading of documents 01 and 02.

use product::reading;

/// The words that the conditions and demand 3 read. A flag is a bit of `flags`.
#[derive(Clone, Debug, Default)]
pub struct Cycle {
    pub rs1: u64,
    pub rs2: u64,
    pub rd: u64,
    pub load_val: u64,
    pub shift_out: u64,
    pub t1: u64,
    pub t2: u64,
    pub alu: u64,
    pub flags: u32,
    pub off: u32,
    pub ram_addr: u64,
    pub opcode: u64,
    pub funct3: u64,
}

pub const CONDITIONS: usize = 10;

/// Bits of `flags`, as they stand from column 768 on.
pub const SUB: u32 = 1;
pub const WE: u32 = 1 << 1;
pub const LOAD: u32 = 1 << 2;
pub const STORE: u32 = 1 << 3;
pub const ARITH: u32 = 1 << 4;
pub const SHIFT: u32 = 1 << 6;
pub const LOGIC: u32 = 1 << 7;
pub const LD_BYTE: u32 = 1 << 8;
pub const LD_HALF: u32 = 1 << 9;
pub const LD_WORD: u32 = 1 << 10;

pub const HALT_OPCODE: u64 = 0x73;
pub const BRANCH_OPCODE: u64 = 0x63;

impl Cycle {
    pub fn has(&self, flag: u32) -> bool {
        self.flags & flag != 0
    }

    pub fn halts(&self) -> bool {
        self.opcode == HALT_OPCODE
    }

    /// Whether condition k asks anything of this cycle.
    pub fn asked(&self, k: usize) -> bool {
        match k {
            1 => self.has(ARITH),
            2 => self.has(SHIFT),
            3 => self.has(WE) && !self.has(LOAD),
            4 => self.halts(),
            5 => self.has(LD_WORD),
            6 => self.has(LD_BYTE),
            7 => self.has(LD_HALF),
            8 => self.has(LOAD) && !self.has(LD_WORD),
            9 => self.has(LOAD) && !self.has(LD_WORD) && !self.has(LD_HALF),
            10 => self.has(LOAD) != self.has(STORE),
            _ => unreachable!("there are ten conditions"),
        }
    }

    /// Whether condition k is met; `output` is public element one_col + 1.
    pub fn meets(&self, k: usize, output: u128) -> bool {
        let (rd, load) = (self.rd.to_le_bytes(), self.load_val.to_le_bytes());
        let off = self.off as usize;
        !self.asked(k)
            || match k {
                1 => self.alu == self.sum(),
                2 => self.alu == self.shift_out,
                3 => self.rd == self.alu,
                4 => self.rd == self.rs1 && output == u128::from(self.rd),
                5 => self.rd == self.load_val,
                6 => rd[0] == load[off],
                7 => rd[0] == load[off] && rd[1] == load[(off + 1) % 8],
                8 => self.rd >> 16 == 0,
                9 => rd[1] == 0,
                _ => self.ram_addr == self.alu >> 3 & 0xff,
            }
    }

    /// T1 + T2 + SUB, which wraps.
    pub fn sum(&self) -> u64 {
        let sub = u64::from(self.has(SUB));
        self.t1.wrapping_add(self.t2).wrapping_add(sub)
    }

    /// The conditions not met, in order.
    pub fn unmet(&self, output: u128) -> Vec<usize> {
        (1..=CONDITIONS)
            .filter(|&k| !self.meets(k, output))
            .collect()
    }

    /// As the product answers: 0 where all are met.
    pub fn first_unmet(&self, output: u128) -> u64 {
        self.unmet(output).first().map_or(0, |&k| k as u64)
    }

    /// Whether the adder compares RS1 with RS2, which is where demand 3 says what taken is.
    pub fn compares(&self) -> bool {
        self.t1 == self.rs1 && self.t2 == !self.rs2 && self.has(SUB) && self.has(ARITH)
    }

    /// A branch, and the ISA's condition for it.
    pub fn takes(&self) -> bool {
        self.opcode == BRANCH_OPCODE && branch_holds(self.funct3, self.rs1, self.rs2) == Some(true)
    }
}

/// What the papers say of an instruction: document 01, and of reserved ones document 02, request 3. The
/// opcode is compared whole, and of funct3 the low three bits count.
pub fn branch_reading(opcode: u32, funct3: u32, a: u64, b: u64) -> u64 {
    if u64::from(opcode) != BRANCH_OPCODE {
        return reading::NO_BRANCH;
    }
    match branch_holds(u64::from(funct3 & 7), a, b) {
        Some(true) => reading::TAKEN,
        Some(false) => reading::NOT_TAKEN,
        None => reading::RESERVED,
    }
}

/// The ISA's condition for a funct3 of three bits; it has none for those that it reserves.
fn branch_holds(funct3: u64, a: u64, b: u64) -> Option<bool> {
    let (signed_a, signed_b) = (a as i64, b as i64);
    match funct3 {
        0 => Some(a == b),
        1 => Some(a != b),
        4 => Some(signed_a < signed_b),
        5 => Some(signed_a >= signed_b),
        6 => Some(a < b),
        7 => Some(a >= b),
        _ => None,
    }
}
