//! Batches to be judged: elements for the original, the same as lent words for the product.

use words::words_of;

use super::lent::Lent;
use crate::numbers::Numbers;
use crate::original::Gf128;

pub const COLUMNS: usize = 4096;
pub const WITNESS_COLUMNS: usize = 2048;
pub const ONE_COLUMN: usize = 2048;

/// Both forms of one batch.
pub struct Batch {
    pub cpi: usize,
    pub z: Vec<Gf128>,
    pub words: Lent<u64>,
}

impl Batch {
    pub fn of(cpi: usize, z: Vec<Gf128>) -> Batch {
        assert_eq!(z.len(), COLUMNS * cpi);
        let words = Lent::of(&words_of(&z));
        Batch { cpi, z, words }
    }

    pub fn zero(cpi: usize) -> Batch {
        Batch::of(cpi, vec![Gf128(0); COLUMNS * cpi])
    }

    pub fn put(&mut self, batch_column: usize, value: u128) {
        self.z[batch_column] = Gf128(value);
        self.words.put(2 * batch_column, value as u64);
        self.words.put(2 * batch_column + 1, (value >> 64) as u64);
    }

    pub fn xor(&mut self, batch_column: usize, value: u128) {
        self.put(batch_column, self.z[batch_column].0 ^ value);
    }
}

/// Where column c of cycle d stands, by document 01.
pub fn batch_column(cpi: usize, column: usize, cycle: usize) -> usize {
    if column < WITNESS_COLUMNS {
        column * cpi + cycle
    } else {
        WITNESS_COLUMNS * cpi + column - WITNESS_COLUMNS
    }
}

/// The first column of each class of columns that the rows treat alike; the last class ends at the
/// end of the row.
const CLASSES: [usize; 64] = [
    0,    // RS1
    63,   // its sign
    64,   // RS2
    127,  // its sign
    128,  // RD, the lowest byte
    136,  // the next byte
    144,  // the rest of it
    192,  // LOAD_VAL
    256,  // SHIFT_OUT
    320,  // T1
    384,  // T2
    448,  // CARRY
    512,  // ALU below the address
    515,  // ALU, address
    523,  // the rest of it
    576,  // SHIFT_SRC
    640,  // STORE_OLD
    704,  // STORE_SRC
    768,  // FLAGS: SUB
    769,  // WE
    770,  // IS_LOAD
    771,  // IS_STORE
    772,  // IS_ARITH
    773,  // HALT
    774,  // IS_SHIFT
    775,  // IS_LOGIC
    776,  // LD_BYTE
    777,  // LD_HALF
    778,  // LD_WORD
    779,  // TAKEN
    780,  // unused flags
    784,  // OFF
    787,  // unused
    792,  // RAM_ADDR
    800,  // PC
    808,  // unused
    832,  // FETCH: the opcode
    839,  // the registers
    857,  // funct3
    860,  // the immediate
    873,  // unused
    896,  // EQA
    904,  // PA
    912,  // EQB
    920,  // PB
    928,  // CA
    936,  // CH
    944,  // CH2
    952,  // NH
    953,  // WNL
    954,  // unused
    1024, // ZERO
    1088, // OPSYS
    1095, // OPBR
    1102, // EQFM
    1110, // EQF
    1118, // LTSA to LTUB
    1122, // CEQ, CLT, CLU
    1125, // ZE16, ZE8
    1127, // unused
    2048, // the one column
    2049, // the output
    2050, // the other public ones
    4095, // the last column
];

/// A column of class `class`, counted round and round.
pub fn column_of_class(numbers: &mut Numbers, class: usize) -> usize {
    let class = class % CLASSES.len();
    let first = CLASSES[class];
    let end = CLASSES.get(class + 1).copied().unwrap_or(COLUMNS);
    first + numbers.below((end - first) as u64) as usize
}

/// What a damaged column is changed by: never 0.
pub fn damage(numbers: &mut Numbers) -> u128 {
    match numbers.below(5) {
        0 | 1 => 1,
        2 => 2,
        3 => 1 << 127,
        _ => numbers.dense() | 1,
    }
}

/// An element of any sort.
pub fn element(numbers: &mut Numbers) -> u128 {
    match numbers.below(4) {
        0 => numbers.bit(),
        1 => numbers.power(),
        2 => numbers.sparse(),
        _ => numbers.dense(),
    }
}

pub fn dense(numbers: &mut Numbers, cpi: usize) -> Vec<Gf128> {
    let element = |_| Gf128(numbers.dense());
    (0..COLUMNS * cpi).map(element).collect()
}

pub fn bits(numbers: &mut Numbers, cpi: usize) -> Vec<Gf128> {
    let element = |_| Gf128(numbers.bit());
    (0..COLUMNS * cpi).map(element).collect()
}
