//! What both sides are given: the same bytes, as elements, as words, as bytes.

use cellprism::Answer;
use magnetar_cpu::circuit::{assemble_instance_z, witness_row, WITNESS_LAYOUT};
use magnetar_cpu::execute;
use magnetar_cpu::expand::RomRow;
use magnetar_cpu::interp::CycleRecord;
use magnetar_field::Gf128;
use product::Known;
use words::{record_words, rom_words, words_of};

/// A listing that is known by name: its words, and the rows of a cycle in each relation.
pub struct Listing {
    pub known: Known,
    pub name: &'static str,
    words: usize,
    pub bin_rows: usize,
    pub fld_rows: usize,
}

pub const HOUSE: Listing = Listing {
    known: Known::House,
    name: "house",
    words: 3499,
    bin_rows: 483,
    fld_rows: 31,
};

pub const STRICT: Listing = Listing {
    known: Known::Strict,
    name: "strict",
    words: 3529,
    bin_rows: 491,
    fld_rows: 31,
};

impl Listing {
    pub fn words(&self) -> Vec<u32> {
        let word = |i| product::listing_word(self.known, i);
        (0..self.words).map(word).collect()
    }

    /// The verdict on a batch that is accepted, as the boundary writes it.
    pub fn accepted(&self, cpi: usize) -> u64 {
        counts(self.bin_rows * cpi, self.fld_rows * cpi)
    }

    /// The C boundary's answer on a row that is accepted: it has the sum.
    pub fn row_accepted(&self) -> Answer {
        let rows = (self.bin_rows + self.fld_rows) as u32;
        Answer::Accepted { rows }
    }
}

/// Rows tested in bin and in fld, as they stand in a verdict's number.
pub fn counts(bin: usize, fld: usize) -> u64 {
    (fld as u64) << 40 | (bin as u64) << 20
}

/// Words of scratch that the check may be lent: a multiple of the least, up to the most.
pub const LEAST_SCRATCH: usize = 6;
pub const MOST_SCRATCH: usize = 3072;

/// Arithmetic, shifts, a store, a load of a byte and a branch, 363 cycles of it.
const PROGRAM: [u32; 12] = [
    0x0280_0293, // addi x5, x0, 40
    0x0000_3303, // ld   x6, 0(x0)
    0x0065_0533, // add  x10, x10, x6
    0x0035_1393, // slli x7, x10, 3
    0x0073_4333, // xor  x6, x6, x7
    0x04a0_3023, // sd   x10, 64(x0)
    0x0410_4403, // lbu  x8, 65(x0)
    0x4085_04b3, // sub  x9, x10, x8
    0x4054_d493, // srai x9, x9, 5
    0xfff2_8293, // addi x5, x5, -1
    0xfe02_90e3, // bne  x5, x0, -32
    0x0000_0073, // ecall
];
const INPUT: u64 = 0x0123_4567_89ab_cdef;
const MOST_CYCLES: usize = 1024;

/// The first cycles of the program, and what is public of it.
pub struct Run {
    pub cycles: Vec<(CycleRecord, RomRow)>,
    pub public: Vec<Gf128>,
}

impl Run {
    pub fn new(cycles: usize) -> Run {
        let trace = execute(&PROGRAM, &[INPUT], MOST_CYCLES);
        assert!(trace.records.len() >= cycles, "the program is too short");
        let rom = &trace.program.rows;
        let cycle = |record: CycleRecord| {
            let row = rom[record.micro_pc].row.clone();
            (record, row)
        };
        let output = trace.final_state.output;
        Run {
            cycles: trace.records.into_iter().take(cycles).map(cycle).collect(),
            public: vec![Gf128(output.into()), Gf128(INPUT.into())],
        }
    }

    /// Record and ROM row of each cycle as words.
    pub fn words(&self) -> Vec<(Vec<u64>, Vec<u64>)> {
        let words = |(record, rom): &(CycleRecord, RomRow)| (record_words(record), rom_words(rom));
        self.cycles.iter().map(words).collect()
    }

    /// The row of each cycle as the original makes it.
    pub fn rows(&self) -> Vec<Vec<Gf128>> {
        let row = |(record, rom): &(CycleRecord, RomRow)| witness_row(record, rom, &self.public);
        self.cycles.iter().map(row).collect()
    }
}

/// Cycles to be put together in batches, consecutive ones of the program.
pub struct Cycles {
    /// The rows of each batch.
    pub rows: Vec<Vec<Vec<Gf128>>>,
    /// Their columns below 2,048, row after row, two words an element.
    pub words: Vec<Vec<u64>>,
    pub public: Vec<Gf128>,
}

impl Cycles {
    pub fn new(cpi: usize, batches: usize) -> Cycles {
        let run = Run::new(cpi * batches);
        let rows: Vec<_> = run.rows().chunks(cpi).map(<[_]>::to_vec).collect();
        let lower = |row: &Vec<Gf128>| words_of(&row[..WITNESS_LAYOUT::W_COLS]);
        let words = |rows: &Vec<Vec<Gf128>>| rows.iter().flat_map(lower).collect();
        Cycles {
            words: rows.iter().map(words).collect(),
            rows,
            public: run.public,
        }
    }
}

/// Batches that the circuit accepts, made by the original.
pub struct Accepted {
    pub elements: Vec<Vec<Gf128>>,
    /// The same in memory, two words an element.
    pub words: Vec<Vec<u64>>,
    /// The same in memory, 16 bytes an element.
    pub bytes: Vec<Vec<u8>>,
}

impl Accepted {
    pub fn new(cpi: usize, batches: usize) -> Accepted {
        let cycles = Cycles::new(cpi, batches);
        let geometry = WITNESS_LAYOUT::geometry(cpi);
        let batch = |rows: &Vec<Vec<Gf128>>| assemble_instance_z(&geometry, rows, &cycles.public);
        let elements: Vec<Vec<Gf128>> = cycles.rows.iter().map(batch).collect();
        let words: Vec<Vec<u64>> = elements.iter().map(|z| words_of(z)).collect();
        let bytes = words.iter().map(|words| bytes_of(words)).collect();
        Accepted {
            elements,
            words,
            bytes,
        }
    }
}

/// The lowest byte of each word first.
pub fn bytes_of(words: &[u64]) -> Vec<u8> {
    words.iter().flat_map(|word| word.to_le_bytes()).collect()
}
