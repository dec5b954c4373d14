//! Vectors of the row maker, assembly and the branch reading.

use magnetar_cpu::circuit::{assemble_instance_z, witness_row, WITNESS_LAYOUT};
use magnetar_cpu::execute;
use magnetar_cpu::expand::{RomRow, VirtualKind};
use magnetar_cpu::interp::CycleRecord;
use magnetar_field::Gf128;
use words::{record_words, rom_words, words_of};

use crate::{put, set_up, Numbers, INPUT, PROGRAM, REFUSED, SIZES};

/// Where the public words of a row and of a batch are lent.
const ROW_PUBLIC: usize = 64;
const BATCH_PUBLIC: usize = 16384;

const ROW_WORDS: usize = 8192;

pub fn rows() {
    let trace = execute(&PROGRAM, &[INPUT], 64);
    let public = [Gf128(trace.final_state.output.into()), Gf128(INPUT.into())];
    for record in &trace.records {
        made_row(record, &trace.program.rows[record.micro_pc].row, &public);
    }
    let mut numbers = Numbers(0x3a4e);
    for i in 0..40 {
        let (record, rom) = (any_record(&mut numbers), any_rom(&mut numbers, i));
        let values = numbers.next() % 4;
        let public: Vec<_> = (0..values).map(|_| Gf128(numbers.element())).collect();
        made_row(&record, &rom, &public);
    }
    // The last row is set up and lent still: what is refused leaves it alone.
    for (public, row, number) in [
        (0, 0, 2),
        (0, ROW_WORDS - 1, 2),
        (0, ROW_WORDS + 1, 2),
        (1, ROW_WORDS - 2, 2),
        (1, ROW_WORDS, 3),
        (4093, ROW_WORDS, 3),
        (4095, ROW_WORDS, 3),
        (4096, ROW_WORDS, 3),
    ] {
        println!("v {public:x} {row:x} {:x}", REFUSED + number);
    }
}

fn made_row(record: &CycleRecord, rom: &RomRow, public: &[Gf128]) {
    set_up(&witness_row(record, rom, public), 1);
    println!("Z");
    lend(0, &[record_words(record), rom_words(rom)].concat());
    lend(ROW_PUBLIC, &words_of(public));
    println!("v {:x} {ROW_WORDS:x} 0", 2 * public.len());
}

pub fn batches() {
    let mut numbers = Numbers(0xa55e);
    for cpi in SIZES {
        for values in [0, 1, 5] {
            assembled(&mut numbers, cpi, values);
        }
        let (cycles, batch) = (4096 * cpi, ROW_WORDS * cpi);
        for (cpi, cycles, public, batch, number) in [
            (0, 0, 1, 0, 1),
            (3, cycles, 0, batch, 1),
            (512, cycles, 0, batch, 1),
            (cpi, cycles - 1, 1, batch - 1, 2),
            (cpi, cycles, 0, batch / 2, 2),
            (cpi, cycles - 1, 1, batch, 3),
            (cpi, cycles, 4096 * cpi - 1, batch, 3),
            (cpi, cycles, 4096 * cpi, batch, 3),
            (cpi, 0, 0, batch, 4),
            (cpi, cycles - 1, 2, batch, 4),
        ] {
            let answer = REFUSED + number;
            println!("j {cpi:x} {cycles:x} {public:x} {batch:x} {answer:x}");
        }
    }
}

/// Random bits in every column, and a few elements of 128 bits.
fn assembled(numbers: &mut Numbers, cpi: usize, values: usize) {
    let mut bits = |_| Gf128(u128::from(numbers.next() % 2));
    let mut cycle = |_| (0..WITNESS_LAYOUT::W_COLS).map(&mut bits).collect();
    let mut cycles: Vec<Vec<Gf128>> = (0..cpi).map(&mut cycle).collect();
    let public: Vec<_> = (0..values).map(|_| Gf128(numbers.element())).collect();
    let geo = WITNESS_LAYOUT::geometry(cpi);
    set_up(&assemble_instance_z(&geo, &cycles, &public), cpi);
    println!("Z");
    for (d, cycle) in cycles.iter().enumerate() {
        for start in (0..WITNESS_LAYOUT::W_COLS).step_by(64) {
            let word = (0..64).fold(0, |word, i| word | (cycle[start + i].0 as u64) << i);
            println!("W {:x} 1 {word:x}", WITNESS_LAYOUT::W_COLS * d + start);
        }
    }
    lend(BATCH_PUBLIC, &words_of(&public));
    for _ in 0..4 {
        let (d, column) = (
            numbers.next() as usize % cpi,
            numbers.next() as usize % 2048,
        );
        cycles[d][column] = Gf128(numbers.element());
        let at = 2 * (WITNESS_LAYOUT::W_COLS * d + column);
        // The other five words of the line are those that stand there already.
        let lent = words_of(&cycles.concat());
        let from = at.min(lent.len() - 7);
        lend(from, &lent[from..from + 7]);
        put(geo.map_col(column, d), cycles[d][column]);
    }
    let (cycles, batch) = (4096 * cpi, ROW_WORDS * cpi);
    println!("j {cpi:x} {cycles:x} {:x} {batch:x} 0", 2 * values);
}

/// A row and a batch that are made beside one that differs in a column; refusals with other numbers.
pub fn wrong() {
    let trace = execute(&PROGRAM, &[INPUT], 64);
    let record = &trace.records[0];
    let rom = &trace.program.rows[record.micro_pc].row;
    set_up(&witness_row(record, rom, &[]), 1);
    println!("Z");
    lend(0, &[record_words(record), rom_words(rom)].concat());
    put(2047, Gf128(1));
    println!("v 0 {ROW_WORDS:x} 0");
    println!("v 0 {:x} {:x}", ROW_WORDS - 1, REFUSED + 3);
    println!("v 1 {ROW_WORDS:x} {:x}", REFUSED + 2);

    println!("Z");
    println!("0");
    put(WITNESS_LAYOUT::W_COLS, Gf128(2));
    println!("j 1 1000 0 {ROW_WORDS:x} 0");
    println!("j 3 1000 0 {ROW_WORDS:x} {:x}", REFUSED + 2);
    println!("j 1 0 0 {ROW_WORDS:x} {:x}", REFUSED + 3);
}

pub fn branches() {
    let mut numbers = Numbers(0xb4a2);
    let edges = [0, 1, (1 << 63) - 1, 1 << 63, u64::MAX];
    let mut pairs: Vec<(u64, u64)> = Vec::new();
    for a in edges {
        pairs.extend(edges.map(|b| (a, b)));
    }
    pairs.extend((0..7).map(|_| (numbers.next(), numbers.next())));
    for (a, b) in pairs {
        for funct3 in 0..8 {
            let read = match (funct3, branch_taken(funct3, a, b)) {
                (2 | 3, false) => 3,
                (_, taken) => 2 - u64::from(taken),
            };
            let higher = funct3 + 8 * (numbers.next() % 0x1000_0000) as u32;
            println!("t 63 {funct3:x} {a:x} {b:x} {read}");
            println!("t 63 {higher:x} {a:x} {b:x} {read}");
        }
    }
    for opcode in [
        0,
        0x13,
        0x23,
        0x62,
        0x67,
        0x6f,
        0x73,
        0xe3,
        0x163,
        0x8000_0063_u32,
    ] {
        for funct3 in 0..4 {
            println!("t {opcode:x} {funct3:x} 5 5 0");
        }
    }
}

/// As the original's interpreter decides it, with the operands in x1 and x2.
fn branch_taken(funct3: u32, a: u64, b: u64) -> bool {
    let program = [
        0x0000_3083,                // ld x1, 0(x0)
        0x0080_3103,                // ld x2, 8(x0)
        0x0020_8463 | funct3 << 12, // the branch on x1 and x2
        0x0000_0073,
    ];
    execute(&program, &[a, b], 3).records[2].branch_taken
}

/// Seven words a line.
pub fn lend(at: usize, words: &[u64]) {
    for (i, words) in words.chunks(7).enumerate() {
        print!("r {:x}", at + 7 * i);
        for word in words {
            print!(" {word:x}");
        }
        println!();
    }
}

pub fn any_record(numbers: &mut Numbers) -> CycleRecord {
    let flags = numbers.next();
    let flag = |i: u32| flags >> i & 1 == 1;
    CycleRecord {
        micro_pc: numbers.next() as usize % 300,
        rs1_val: numbers.next(),
        rs2_val: numbers.next(),
        rd_val: numbers.next(),
        we: flag(0),
        ram_addr: numbers.next() as usize % 300,
        ram_word: numbers.next(),
        byte_offset: numbers.next() as u8,
        branch_taken: flag(1),
        alu_a: numbers.next(),
        alu_b: numbers.next(),
        alu_out: numbers.next(),
        shift_out: numbers.next(),
        is_arith: flag(2),
        is_logic: flag(3),
        is_sub_op: flag(4),
        is_shift: flag(5),
        is_load: flag(6),
        is_store: flag(7),
        ld_byte: flag(8),
        ld_half: flag(9),
        ld_word: flag(10),
        halted_latch: flag(11),
        ..CycleRecord::default()
    }
}

/// Registers at the ends of six bits, an opcode that halts or branches in two of four.
pub fn any_rom(numbers: &mut Numbers, i: usize) -> RomRow {
    const REGISTERS: [usize; 8] = [0, 1, 31, 32, 63, 64, 65, usize::MAX];
    let register = |numbers: &mut Numbers| REGISTERS[numbers.next() as usize % 8];
    let opcode = [0x73, 0x63, 0x33, numbers.next() as u32 % 128][i % 4];
    let kinds = [
        VirtualKind::Alu,
        VirtualKind::ShiftStage { stage: i % 6 },
        VirtualKind::Load,
        VirtualKind::Store,
        VirtualKind::Branch,
        VirtualKind::Upper,
        VirtualKind::Jump,
        VirtualKind::System,
    ];
    RomRow {
        kind: kinds[i % 8],
        rd: register(numbers),
        rs1: register(numbers),
        rs2: register(numbers),
        funct3: numbers.next() as u32 % 16,
        imm: numbers.next(),
        raw: numbers.next() as u32 & !127 | opcode,
    }
}
