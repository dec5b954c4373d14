//! Cycles that meet all ten conditions, and cycles that break a single one.

use super::conditions::*;
use crate::numbers::Numbers;

/// The flags of which every setting is tried, and those drawn by chance.
pub const SETTING: [u32; 8] = [LOAD, STORE, ARITH, SHIFT, WE, LD_BYTE, LD_HALF, LD_WORD];
const OTHERS: u32 = SUB | LOGIC | 0xf000;

/// Tries at a cycle as wanted: an output that does not fit a load's width needs more than one.
const TRIES: usize = 200;

/// What a cycle is to be.
#[derive(Clone, Copy)]
pub struct Wanted {
    /// Bits of `SETTING`, and the offset.
    pub setting: u32,
    pub off: u32,
    /// The condition to be broken, 0 for none.
    pub broken: usize,
    pub output: u128,
}

impl Wanted {
    pub fn any(numbers: &mut Numbers, broken: usize, output: u128) -> Wanted {
        loop {
            let wanted = Wanted {
                setting: numbers.below(256) as u32,
                off: numbers.below(8) as u32,
                broken,
                output,
            };
            if broken == 0 || wanted.can_be() {
                return wanted;
            }
        }
    }

    fn flags(&self) -> u32 {
        let bit = |i: usize| SETTING[i] * (self.setting >> i & 1);
        (0..8).map(bit).sum()
    }

    /// Whether the condition can be broken by itself: 7 asks for all that 6 does, and a word loaded
    /// from offset 0 has the right low bytes.
    pub fn can_be(&self) -> bool {
        let cycle = Cycle {
            flags: self.flags(),
            opcode: HALT_OPCODE,
            ..Cycle::default()
        };
        let by_word = cycle.has(LD_WORD) && self.off == 0;
        match self.broken {
            0 => false,
            6 => cycle.asked(6) && !cycle.has(LD_HALF) && !by_word,
            7 => cycle.asked(7) && !by_word,
            k => cycle.asked(k),
        }
    }

    /// The conditions that the made cycle does not meet.
    pub fn unmet(&self) -> Vec<usize> {
        let broken = self.can_be().then_some(self.broken);
        broken.into_iter().collect()
    }

    pub fn make(self, numbers: &mut Numbers) -> Cycle {
        let unmet = self.unmet();
        for left in (0..TRIES).rev() {
            // The output may suit no halt at all in this setting.
            let cycle = self.attempt(numbers, left > TRIES / 2);
            if cycle.unmet(self.output) == unmet {
                return cycle;
            }
        }
        panic!("no cycle with setting {:#x} as wanted", self.setting);
    }

    /// Chooses RD, then the rest after it, leaving the condition to be broken to chance.
    fn attempt(&self, numbers: &mut Numbers, may_halt: bool) -> Cycle {
        let keeps = |k: usize| self.broken != k || !self.can_be();
        let mut cycle = Cycle {
            flags: self.flags() | numbers.next() as u32 & OTHERS,
            off: self.off,
            opcode: opcode(numbers, may_halt),
            funct3: numbers.below(8),
            rs1: word(numbers),
            load_val: word(numbers),
            ..Cycle::default()
        };
        if !keeps(4) {
            cycle.opcode = HALT_OPCODE;
        }
        let asked = |cycle: &Cycle, k: usize| cycle.asked(k) && keeps(k);

        cycle.rd = word(numbers);
        // A broken halt has either the output in RD or RS1, sometimes neither.
        if cycle.halts() && (keeps(4) || numbers.below(2) == 0) {
            cycle.rd = self.output as u64;
        }
        if asked(&cycle, 8) {
            cycle.rd &= 0xffff;
        }
        if asked(&cycle, 9) {
            cycle.rd &= !0xff00;
        }
        cycle.load(asked(&cycle, 5), asked(&cycle, 6), asked(&cycle, 7));
        if cycle.halts() && (keeps(4) || numbers.below(2) == 0) {
            cycle.rs1 = cycle.rd;
        }

        let wanted_alu = asked(&cycle, 3).then_some(cycle.rd);
        cycle.add(numbers, wanted_alu, keeps(1));
        cycle.shift_out = word(numbers);
        if asked(&cycle, 2) {
            cycle.shift_out = cycle.alu;
        }
        cycle.ram_addr = numbers.below(256);
        if asked(&cycle, 10) {
            cycle.ram_addr = cycle.alu >> 3 & 0xff;
        }
        cycle
    }
}

impl Cycle {
    /// Makes RD and the loaded word agree as far as asked.
    fn load(&mut self, word: bool, byte: bool, half: bool) {
        let (off, next) = (self.off as usize, (self.off as usize + 1) % 8);
        let mut rd = self.rd.to_le_bytes();
        let mut load = self.load_val.to_le_bytes();
        if word {
            // The loaded word is RD itself, so its own bytes must agree.
            if half {
                rd = [rd[0]; 8];
            } else if byte {
                rd[off] = rd[0];
            }
            load = rd;
        } else if half {
            (load[off], load[next]) = (rd[0], rd[1]);
        } else if byte {
            load[off] = rd[0];
        }
        self.rd = u64::from_le_bytes(rd);
        self.load_val = u64::from_le_bytes(load);
    }

    /// Chooses ALU, if it is free, and the adder's words; half of the adders compare RS1 with RS2.
    fn add(&mut self, numbers: &mut Numbers, alu: Option<u64>, right: bool) {
        if self.has(ARITH) && right && numbers.below(2) == 0 {
            self.flags |= SUB;
            self.rs2 = match alu {
                Some(alu) => self.rs1.wrapping_sub(alu),
                None => near(numbers, self.rs1),
            };
            self.alu = self.rs1.wrapping_sub(self.rs2);
            (self.t1, self.t2) = (self.rs1, !self.rs2);
            return;
        }
        self.alu = alu.unwrap_or_else(|| word(numbers));
        (self.rs2, self.t1, self.t2) = (word(numbers), word(numbers), word(numbers));
        if self.has(ARITH) && right {
            let without_t2 = Cycle {
                t2: 0,
                ..self.clone()
            };
            self.t2 = self.alu.wrapping_sub(without_t2.sum());
        }
    }
}

/// Halts, branches, their neighbours by one bit, and any other.
fn opcode(numbers: &mut Numbers, may_halt: bool) -> u64 {
    let opcode = match numbers.below(8) {
        0 | 1 => HALT_OPCODE,
        2 | 3 => BRANCH_OPCODE,
        4 => HALT_OPCODE ^ 1 << numbers.below(7),
        5 => BRANCH_OPCODE ^ 1 << numbers.below(7),
        _ => numbers.below(128),
    };
    if opcode == HALT_OPCODE && !may_halt {
        return BRANCH_OPCODE;
    }
    opcode
}

/// Small words, words near the ends, words of any kind.
pub fn word(numbers: &mut Numbers) -> u64 {
    match numbers.below(8) {
        0 => numbers.below(4),
        1 => numbers.below(4).wrapping_neg(),
        2 => (1 << 63) - 1 + numbers.below(3),
        3 => 1 << numbers.below(64),
        _ => numbers.next(),
    }
}

/// The same word, one beside it, one of the other sign, or any.
fn near(numbers: &mut Numbers, word_: u64) -> u64 {
    match numbers.below(6) {
        0 => word_,
        1 => word_.wrapping_add(1),
        2 => word_.wrapping_sub(1),
        3 => word_ ^ 1 << 63,
        _ => word(numbers),
    }
}
