//! The branch reading against document 01 and request 3 of document 02, and against `branch_taken` in the
//! records of the original's interpreter, which says not taken of a branch that the ISA reserves.

use product::reading::{NOT_TAKEN, NO_BRANCH, RESERVED, TAKEN};

use super::any_program::AnyProgram;
use super::records::any_word;
use crate::filler::conditions::{branch_reading, BRANCH_OPCODE};
use crate::numbers::Numbers;
use crate::original::VirtualKind;
use crate::parallel::in_parts;
use crate::report::{test, Tally, Test};
use crate::verdict::instructions as isa;

const EDGES: [u64; 14] = [
    0,
    1,
    2,
    7,
    (1 << 32) - 1,
    1 << 32,
    (1 << 62) + 1,
    (1 << 63) - 2,
    (1 << 63) - 1,
    1 << 63,
    (1 << 63) + 1,
    (1 << 63) + 2,
    u64::MAX - 1,
    u64::MAX,
];

const RANDOM: usize = 3_000;
const PAIRS: usize = EDGES.len() * EDGES.len() + RANDOM;

/// Each pair: read with the funct3 of the instruction, and with higher bits set in it.
const OF_A_BRANCH: u64 = 2;

/// Comparisons of a reading that the original has too: with the papers, and with it.
const OF_A_READING: u64 = 2;

const BRANCH: u32 = BRANCH_OPCODE as u32;

/// Opcodes that seven of their bits read as a branch.
const LONGER: usize = 25 + 3;

/// Parts of the test of any numbers, and readings of each.
const PARTS: usize = 1_000;
const READINGS: usize = 4_000;

pub fn tests() -> Vec<Test> {
    vec![
        test(
            "branch reading, every funct3, edges and random operands",
            (8 * PAIRS) as u64 * OF_A_BRANCH * OF_A_READING,
            operands,
        ),
        test(
            "branch reading, every opcode",
            128 * 8 * OF_A_READING,
            opcodes,
        ),
        test(
            "branch reading, opcodes of more than seven bits are no branch",
            (LONGER * 8 * 3) as u64,
            longer_opcodes,
        ),
        test(
            "branch reading, any opcode and funct3 of 32 bits",
            (PARTS * READINGS + PARTS) as u64,
            any_numbers,
        ),
        test(
            "branch reading, funct3 2 and 3 with any one bit above them: reserved",
            2 * (1 + 29) * (EDGES.len() * EDGES.len()) as u64,
            reserved,
        ),
        test("P10 of the bench sheet, by the branch reading", 3, sheet),
    ]
}

fn pair(part: usize) -> (u64, u64) {
    if let Some(past) = part.checked_sub(EDGES.len() * EDGES.len()) {
        let mut numbers = Numbers::for_part(86, past as u64);
        return any_pair(&mut numbers);
    }
    (EDGES[part / EDGES.len()], EDGES[part % EDGES.len()])
}

fn any_pair(numbers: &mut Numbers) -> (u64, u64) {
    let a = any_word(numbers);
    let b = match numbers.below(4) {
        0 => a,
        1 => a.wrapping_add(1),
        2 => a ^ 1 << 63,
        _ => any_word(numbers),
    };
    (a, b)
}

/// Loads x1 and x2 from memory and then has the one instruction; its record's `branch_taken`.
fn interpreted(instruction: u32, a: u64, b: u64) -> u64 {
    let words = [
        isa::load(3, 1, 0, 0),
        isa::load(3, 2, 0, 8),
        instruction,
        isa::ECALL,
    ];
    let trace = AnyProgram::of(&words, &[a, b]).run(3);
    let (record, row) = (&trace.records[2], &trace.program.rows[2].row);
    match (row.kind == VirtualKind::Branch, record.branch_taken) {
        (false, false) => NO_BRANCH,
        (true, true) => TAKEN,
        (true, false) => NOT_TAKEN,
        (false, true) => panic!("the original takes what is no branch"),
    }
}

/// The product's answer as far as the original tells answers apart: of a branch that is reserved it must
/// say not taken (docs/DIFFERENCES.md).
fn as_told_apart(read: u64) -> u64 {
    match read {
        RESERVED => NOT_TAKEN,
        _ => read,
    }
}

fn operands(tally: &mut Tally) {
    in_parts(tally, PAIRS, |tally, part| {
        let (a, b) = pair(part);
        for funct3 in 0..8 {
            let original = interpreted(isa::branch(funct3, 1, 2, 8), a, b);
            let higher = funct3 + 8 * (1 + part as u32 % 7) + ((part as u32 * 31 + 1) << 6);
            for funct3 in [funct3, higher] {
                let place = || format!("funct3 {funct3:#x}, RS1 {a:#x}, RS2 {b:#x}");
                let read = product::read_branch(BRANCH, funct3, a, b);
                tally.same(place, read, branch_reading(BRANCH, funct3, a, b));
                let place = || format!("{}, original", place());
                tally.same(place, as_told_apart(read), original);
            }
        }
    });
}

fn opcodes(tally: &mut Tally) {
    for opcode in 0..128 {
        for funct3 in 0..8 {
            // rs2 in x2, rs1 in x1, rd and the immediate in nothing.
            let instruction = 2 << 20 | 1 << 15 | funct3 << 12 | opcode;
            let (a, b) = pair((opcode * 8 + funct3) as usize);
            let read = product::read_branch(opcode, funct3, a, b);
            let place = || format!("opcode {opcode:#x}, funct3 {funct3}");
            tally.same(place, read, branch_reading(opcode, funct3, a, b));
            let place = || format!("{}, original", place());
            tally.same(place, as_told_apart(read), interpreted(instruction, a, b));
        }
    }
}

fn longer_opcodes(tally: &mut Tally) {
    let longer = (7..32).map(|k| BRANCH | 1 << k);
    let longer: Vec<u32> = longer.chain([0x1e3, !127 | BRANCH, !0x1c]).collect();
    assert_eq!(longer.len(), LONGER);
    for opcode in longer {
        for funct3 in 0..8 {
            for (a, b) in [(0, 0), (1, 2), (2, 1)] {
                let place = || format!("opcode {opcode:#x}, funct3 {funct3}, {a} and {b}");
                tally.same(place, product::read_branch(opcode, funct3, a, b), NO_BRANCH);
            }
        }
    }
}

/// Half of the opcodes are that of a branch, a quarter differ from it in one bit. Of each part every
/// answer is owed more than once.
fn any_numbers(tally: &mut Tally) {
    in_parts(tally, PARTS, |tally, part| {
        let mut numbers = Numbers::for_part(105, part as u64);
        let mut seen = [0; 4];
        for _ in 0..READINGS {
            let opcode = match numbers.below(4) {
                0 | 1 => BRANCH,
                2 => BRANCH ^ 1 << numbers.below(32),
                _ => numbers.next() as u32,
            };
            let funct3 = numbers.next() as u32 >> numbers.below(32);
            let (a, b) = any_pair(&mut numbers);
            let right = branch_reading(opcode, funct3, a, b);
            seen[right as usize] += 1;
            let place = || format!("opcode {opcode:#x}, funct3 {funct3:#x}, {a:#x} and {b:#x}");
            tally.same(place, product::read_branch(opcode, funct3, a, b), right);
        }
        let place = || format!("part {part}, answers owed: {seen:?}");
        tally.same(place, seen.iter().all(|&times| times > 1), true);
    });
}

fn reserved(tally: &mut Tally) {
    for low in [2, 3] {
        for above in (3..32).map(|k| 1 << k).chain([0]) {
            for (a, b) in (0..EDGES.len() * EDGES.len()).map(pair) {
                let place = || format!("funct3 {:#x}, {a:#x} and {b:#x}", low | above);
                let read = product::read_branch(BRANCH, low | above, a, b);
                tally.same(place, read, RESERVED);
            }
        }
    }
}

fn sheet(tally: &mut Tally) {
    let read = |funct3, a, b| product::read_branch(BRANCH, funct3, a, b);
    tally.same(|| "BLT, 2^63 and 1".into(), read(4, 1 << 63, 1), TAKEN);
    tally.same(|| "BLTU, 2^63 and 1".into(), read(6, 1 << 63, 1), NOT_TAKEN);
    tally.same(|| "BGE, 7 and 7".into(), read(5, 7, 7), TAKEN);
}
