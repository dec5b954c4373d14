//! Cycle records and ROM rows of any kind, as words over the boundary.

use words::RECORD_WORDS;

use crate::numbers::Numbers;
use crate::original::Gf128;
use crate::verdict::batches;

/// Public values that a row has room for.
pub const MOST_PUBLIC: usize = 2047;

/// Any words: half of the flags set, edge values frequent, sometimes more words than are read.
pub fn any_record(numbers: &mut Numbers) -> Vec<u64> {
    let mut words: Vec<u64> = (0..RECORD_WORDS).map(|_| any_word(numbers)).collect();
    for flag in [5, 14].into_iter().chain(20..RECORD_WORDS) {
        words[flag] = match numbers.below(16) {
            0 => numbers.next(),
            _ => numbers.below(2),
        };
    }
    // The adder compares: half of its operands are the registers.
    if numbers.below(2) == 0 {
        (words[16], words[17]) = (words[1], words[2]);
    }
    if numbers.below(4) == 0 {
        words[2] = words[1];
    }
    // Offset, RAM address and pc, past what their columns hold and within it.
    words[11] = numbers.below(256) + (numbers.below(8) / 7 << 8);
    words[7] = small(numbers);
    words[0] = small(numbers);
    with_more(numbers, words)
}

pub fn any_rom(numbers: &mut Numbers) -> Vec<u64> {
    let words = vec![
        numbers.below(8) + (numbers.below(8) / 7) * 8 * numbers.below(9),
        [numbers.below(6), small(numbers)][numbers.below(2) as usize],
        register(numbers),
        register(numbers),
        register(numbers),
        funct3(numbers),
        immediate(numbers),
        raw(numbers),
    ];
    with_more(numbers, words)
}

fn with_more(numbers: &mut Numbers, mut words: Vec<u64>) -> Vec<u64> {
    if numbers.below(16) == 0 {
        words.extend((0..=numbers.below(6)).map(|_| u64::MAX));
    }
    words
}

/// Small words, words near the ends, single bits, words of any kind.
pub fn any_word(numbers: &mut Numbers) -> u64 {
    match numbers.below(8) {
        0 => numbers.below(3),
        1 => numbers.below(3).wrapping_neg(),
        2 => (1 << 63) - 1 + numbers.below(3),
        3 => 1 << numbers.below(64),
        _ => numbers.next(),
    }
}

/// About as large as eight bits hold, or any.
fn small(numbers: &mut Numbers) -> u64 {
    match numbers.below(4) {
        0 => 254 + numbers.below(5),
        1 => any_word(numbers),
        _ => numbers.below(300),
    }
}

/// Registers, what stands for x0, and numbers of more than six bits.
fn register(numbers: &mut Numbers) -> u64 {
    const EDGES: [u64; 14] = [
        0,
        1,
        31,
        32,
        33,
        63,
        64,
        65,
        96,
        127,
        128,
        1 << 32,
        1 << 63,
        u64::MAX,
    ];
    match numbers.below(4) {
        0 | 1 => EDGES[numbers.below(14) as usize],
        2 => numbers.below(32),
        _ => any_word(numbers),
    }
}

fn funct3(numbers: &mut Numbers) -> u64 {
    match numbers.below(4) {
        0 | 1 => numbers.below(8),
        2 => 8 + numbers.below(24),
        _ => any_word(numbers),
    }
}

/// As an instruction has it, sign included, or any.
fn immediate(numbers: &mut Numbers) -> u64 {
    match numbers.below(4) {
        0 => numbers.below(1 << 13).wrapping_sub(1 << 12),
        1 => (1 << numbers.below(16)) - numbers.below(2),
        _ => any_word(numbers),
    }
}

/// Halts, branches, their neighbours by one bit, and any other.
fn raw(numbers: &mut Numbers) -> u64 {
    let opcode = match numbers.below(8) {
        0 | 1 => 0x73,
        2 | 3 => 0x63,
        4 => 0x73 ^ 1 << numbers.below(7),
        5 => 0x63 ^ 1 << numbers.below(7),
        _ => numbers.below(128),
    };
    any_word(numbers) & !127 | opcode
}

/// `values` public elements of any sort.
pub fn public(numbers: &mut Numbers, values: usize) -> Vec<Gf128> {
    let element = |_| Gf128(batches::element(numbers));
    (0..values).map(element).collect()
}

/// None, few, or as many as there is room for.
pub fn any_public(numbers: &mut Numbers, most: usize) -> Vec<Gf128> {
    let values = match numbers.below(32) {
        0 => most,
        1 => most - 1,
        2 => numbers.below(most as u64) as usize,
        few => few as usize % 8,
    };
    public(numbers, values.min(most))
}
