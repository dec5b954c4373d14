//! The original's cycle records, ROM rows and elements as the words that are lent over the
//! boundary, and back.
#![forbid(unsafe_code)]

use magnetar_cpu::expand::{RomRow, VirtualKind};
use magnetar_cpu::interp::CycleRecord;
use magnetar_field::Gf128;

/// The fields of the original's `CycleRecord`, in its order.
pub const RECORD_WORDS: usize = 30;

/// Kind, stage, rd, rs1, rs2, funct3, imm, raw.
pub const ROM_WORDS: usize = 8;

/// Two words an element, the low one first.
pub fn words_of(z: &[Gf128]) -> Vec<u64> {
    z.iter()
        .flat_map(|element| [element.0 as u64, (element.0 >> 64) as u64])
        .collect()
}

/// The elements of an even number of words.
pub fn elements_of(words: &[u64]) -> Vec<Gf128> {
    let element = |pair: &[u64]| Gf128(u128::from(pair[0]) | u128::from(pair[1]) << 64);
    words.chunks_exact(2).map(element).collect()
}

/// The record that words stand for: a flag is an odd word, a byte a word modulo 256.
pub fn record_of(words: &[u64]) -> CycleRecord {
    let word = |i: usize| words[i];
    let flag = |i: usize| word(i) % 2 == 1;
    CycleRecord {
        micro_pc: word(0) as usize,
        rs1_val: word(1),
        rs2_val: word(2),
        rd_val: word(3),
        rd_old: word(4),
        we: flag(5),
        rd: word(6) as usize,
        ram_addr: word(7) as usize,
        ram_word: word(8),
        ram_old: word(9),
        ram_new: word(10),
        byte_offset: word(11) as u8,
        store_width: word(12) as u8,
        store_src: word(13),
        branch_taken: flag(14),
        next_pc: word(15) as usize,
        alu_a: word(16),
        alu_b: word(17),
        alu_out: word(18),
        shift_out: word(19),
        is_arith: flag(20),
        is_logic: flag(21),
        is_sub_op: flag(22),
        is_shift: flag(23),
        is_load: flag(24),
        is_store: flag(25),
        ld_byte: flag(26),
        ld_half: flag(27),
        ld_word: flag(28),
        halted_latch: flag(29),
    }
}

pub fn record_words(record: &CycleRecord) -> Vec<u64> {
    vec![
        record.micro_pc as u64,
        record.rs1_val,
        record.rs2_val,
        record.rd_val,
        record.rd_old,
        record.we.into(),
        record.rd as u64,
        record.ram_addr as u64,
        record.ram_word,
        record.ram_old,
        record.ram_new,
        record.byte_offset.into(),
        record.store_width.into(),
        record.store_src,
        record.branch_taken.into(),
        record.next_pc as u64,
        record.alu_a,
        record.alu_b,
        record.alu_out,
        record.shift_out,
        record.is_arith.into(),
        record.is_logic.into(),
        record.is_sub_op.into(),
        record.is_shift.into(),
        record.is_load.into(),
        record.is_store.into(),
        record.ld_byte.into(),
        record.ld_half.into(),
        record.ld_word.into(),
        record.halted_latch.into(),
    ]
}

pub fn rom_of(words: &[u64]) -> RomRow {
    let word = |i: usize| words[i];
    let stage = word(1) as usize;
    let kind = match word(0) % 8 {
        0 => VirtualKind::Alu,
        1 => VirtualKind::ShiftStage { stage },
        2 => VirtualKind::Load,
        3 => VirtualKind::Store,
        4 => VirtualKind::Branch,
        5 => VirtualKind::Upper,
        6 => VirtualKind::Jump,
        _ => VirtualKind::System,
    };
    RomRow {
        kind,
        rd: word(2) as usize,
        rs1: word(3) as usize,
        rs2: word(4) as usize,
        funct3: word(5) as u32,
        imm: word(6),
        raw: word(7) as u32,
    }
}

pub fn rom_words(row: &RomRow) -> Vec<u64> {
    let (kind, stage) = match row.kind {
        VirtualKind::Alu => (0, 0),
        VirtualKind::ShiftStage { stage } => (1, stage as u64),
        VirtualKind::Load => (2, 0),
        VirtualKind::Store => (3, 0),
        VirtualKind::Branch => (4, 0),
        VirtualKind::Upper => (5, 0),
        VirtualKind::Jump => (6, 0),
        VirtualKind::System => (7, 0),
    };
    vec![
        kind,
        stage,
        row.rd as u64,
        row.rs1 as u64,
        row.rs2 as u64,
        row.funct3.into(),
        row.imm,
        row.raw.into(),
    ]
}
