//! Vectors of the bit test, the ten step conditions and the filler, for every size of batch that `replay` holds.

use std::collections::BTreeSet;

use magnetar_cpu::circuit::{
    assemble_instance_z, build_circuit_batched, witness_row, WITNESS_LAYOUT as L,
};
use magnetar_cpu::expand::RomRow;
use magnetar_cpu::interp::CycleRecord;
use magnetar_field::{mul, Gf128, ONE};
use words::words_of;

use crate::answer::{
    above_one, refusal, Refusal, BATCH_LENGTH, CYCLE, GIVEN_BIT, ONE as ONE_COLUMN, SIZE,
};
use crate::conditions::{Cycle, CONDITIONS};
use crate::makers::{any_record, any_rom, lend};
use crate::{accepted_batches, is_derived, put, set_up, Numbers, SIZES};

/// Smallest above 1, high word alone, both words, all ones.
const ABOVE_ONE: [u128; 6] = [2, 3, 1 << 64, (1 << 64) + 1, 1 << 127, u128::MAX];

const WRONG_SIZES: [usize; 3] = [0, 3, 512];

/// Two words an element.
pub fn words_in(cpi: usize) -> usize {
    2 * L::M * cpi
}

/// Lengths that a batch of so many cycles has not, as far as `replay` holds so many words.
pub fn wrong_lengths(cpi: usize) -> impl Iterator<Item = usize> {
    let (words, most) = (words_in(cpi), words_in(4));
    let lengths = [0, words / 2, words - 1, words + 1, 2 * words];
    lengths.into_iter().filter(move |&length| length <= most)
}

pub fn bits() {
    let mut numbers = Numbers(0xb175);
    for cpi in SIZES {
        let words = words_in(cpi);
        let mut z = accepted_batches(cpi).swap_remove(0);
        set_up(&z, cpi);
        println!("q {cpi:x} {words:x} 0");
        for i in 0..16 {
            let column = numbers.next() as usize % (L::W_COLS * cpi);
            let before = z[column];
            change(&mut z, column, Gf128(ABOVE_ONE[i % 6]));
            let answer = bit_answer(cpi, &z);
            println!("q {cpi:x} {words:x} {answer:x}");
            // Every fourth stays above 1, so that the smallest of several is named.
            if i % 4 != 0 {
                change(&mut z, column, before);
            }
        }
        for cpi in WRONG_SIZES {
            println!("q {cpi:x} {words:x} {:x}", refusal(SIZE).answer());
        }
        for length in wrong_lengths(cpi) {
            println!("q {cpi:x} {length:x} {:x}", refusal(BATCH_LENGTH).answer());
        }
    }
}

/// The smallest batch column below the one column that is above 1.
fn bit_answer(cpi: usize, z: &[Gf128]) -> u64 {
    let above = z[..L::W_COLS * cpi]
        .iter()
        .position(|element| element.0 > 1);
    above.map_or(0, |column| above_one(cpi, column))
}

fn change(z: &mut [Gf128], column: usize, element: Gf128) {
    z[column] = element;
    put(column, element);
}

/// Cycles of the program with one column after the other changed, of those that the conditions read.
pub fn conditions() {
    let mut numbers = Numbers(0xc04d);
    let mut seen = BTreeSet::new();
    for cpi in SIZES {
        for mut z in accepted_batches(cpi) {
            set_up(&z, cpi);
            for cycle in 0..cpi {
                seen.insert(unmet(&z, cpi, cycle));
            }
            for _ in 0..8 {
                let cycle = numbers.next() as usize % cpi;
                let column = read_column(&mut numbers) * cpi + cycle;
                let before = z[column];
                change(&mut z, column, before + ONE);
                seen.insert(unmet(&z, cpi, cycle));
                change(&mut z, column, before);
            }
        }
        conditions_refused(&mut numbers, cpi);
    }
    let all: BTreeSet<u64> = (0..=CONDITIONS as u64).collect();
    assert_eq!(
        seen, all,
        "each condition is to be the first that is not met"
    );
}

/// A column of RD, the loaded word, the outputs of shift and ALU, the flags, offset, address or opcode.
fn read_column(numbers: &mut Numbers) -> usize {
    let parts = [
        L::RD..L::RD + 64,
        L::RD..L::RD + 16,
        L::LOAD_VAL..L::LOAD_VAL + 64,
        L::SHIFT_OUT..L::SHIFT_OUT + 64,
        L::ALU..L::ALU + 64,
        L::FLAGS..L::FLAGS + 5,
        L::OFF..L::OFF + 3,
        L::RAM_ADDR..L::RAM_ADDR + 8,
        L::FETCH..L::FETCH + 7,
    ];
    let part = parts[numbers.next() as usize % parts.len()].clone();
    part.start + numbers.next() as usize % part.len()
}

/// A line, and its answer by document 01's conditions on the words of the cycle.
fn unmet(z: &[Gf128], cpi: usize, cycle: usize) -> u64 {
    let output = z[L::ONE_COL * cpi + 1].0;
    let answer = cycle_of(z, cpi, cycle).first_unmet(output);
    println!("u {cpi:x} {:x} {cycle:x} {answer:x}", words_in(cpi));
    answer
}

fn cycle_of(z: &[Gf128], cpi: usize, cycle: usize) -> Cycle {
    let bit = |column: usize| z[column * cpi + cycle].0 as u64;
    let word = |first: usize, bits: usize| (0..bits).map(|i| bit(first + i) << i).sum::<u64>();
    Cycle {
        rs1: word(L::RS1, 64),
        rs2: word(L::RS2, 64),
        rd: word(L::RD, 64),
        load_val: word(L::LOAD_VAL, 64),
        shift_out: word(L::SHIFT_OUT, 64),
        t1: word(L::T1, 64),
        t2: word(L::T2, 64),
        alu: word(L::ALU, 64),
        flags: word(L::FLAGS, 16) as u32,
        off: word(L::OFF, 3) as u32,
        ram_addr: word(L::RAM_ADDR, 8),
        opcode: word(L::FETCH, 7),
        funct3: word(L::FETCH + 25, 3),
    }
}

fn conditions_refused(numbers: &mut Numbers, cpi: usize) {
    let asks = |cpi: usize, length: usize, cycle: usize, right: Refusal| {
        println!("u {cpi:x} {length:x} {cycle:x} {:x}", right.answer());
    };
    let mut z = accepted_batches(cpi).swap_remove(1);
    let words = words_in(cpi);
    set_up(&z, cpi);
    for cycle in [cpi, cpi + 1, usize::MAX] {
        asks(cpi, words, cycle, refusal(CYCLE));
    }
    for wrong in WRONG_SIZES {
        asks(wrong, words, 0, refusal(SIZE));
    }
    for length in wrong_lengths(cpi) {
        asks(cpi, length, cpi, refusal(BATCH_LENGTH));
    }
    // What is asked first is the given columns, then the one column, then the cycle.
    change(&mut z, L::ONE_COL * cpi, Gf128(2));
    asks(cpi, words, cpi, refusal(ONE_COLUMN));
    for value in ABOVE_ONE {
        change(&mut z, any_given(numbers, cpi), Gf128(value));
        asks(cpi, words, cpi, first_above_one(&z, cpi));
    }
}

fn any_given(numbers: &mut Numbers, cpi: usize) -> usize {
    crate::given_column(numbers) * cpi + numbers.next() as usize % cpi
}

/// The smallest given batch column above 1.
fn first_above_one(z: &[Gf128], cpi: usize) -> Refusal {
    let is_above = |&at: &usize| !is_derived(at / cpi) && z[at].0 > 1;
    let place = (0..L::W_COLS * cpi).find(is_above).expect("one above 1");
    Refusal {
        number: GIVEN_BIT,
        place,
    }
}

/// Batches that the original makes, lent with anything in their derived columns: filled they are themselves again.
pub fn fillings() {
    let mut numbers = Numbers(0xf177);
    for cpi in SIZES {
        let accepted = accepted_batches(cpi).into_iter().step_by(4);
        let others: Vec<_> = (0..5).map(|_| any_batch(&mut numbers, cpi)).collect();
        for right in accepted.chain(others) {
            set_up(&right, cpi);
            lend_batch(&emptied(&mut numbers, &right, cpi), cpi);
            println!("f {cpi:x} {:x} 0", words_in(cpi));
        }
        fillings_refused(&mut numbers, cpi);
    }
}

/// Random records and ROM rows, with halt and taken as the original's own rows want them.
fn any_batch(numbers: &mut Numbers, cpi: usize) -> Vec<Gf128> {
    let public = [Gf128(numbers.element()), Gf128(numbers.element())];
    let row = |i: usize| settled_row(&any_record(numbers), &any_rom(numbers, i), &public);
    let rows: Vec<_> = (0..cpi).map(row).collect();
    assemble_instance_z(&L::geometry(cpi), &rows, &public)
}

fn settled_row(record: &CycleRecord, rom: &RomRow, public: &[Gf128]) -> Vec<Gf128> {
    let row = |choice: usize| {
        let record = CycleRecord {
            halted_latch: choice & 1 == 1,
            branch_taken: choice & 2 == 2,
            ..record.clone()
        };
        witness_row(&record, rom, public)
    };
    let mut rows = (0..4).map(row).filter(|row| is_filled(row));
    let settled = rows.next().expect("one halt and taken that hold");
    assert!(rows.next().is_none(), "the rows leave halt or taken open");
    settled
}

/// Whether the original's rows hold that say what derived columns are: all of bin but the conditions (RAM address and zero
/// extension), and the carry's of fld.
fn is_filled(z: &[Gf128]) -> bool {
    let spec = build_circuit_batched(1);
    let holds = |row: usize, [a, b, c]: &[Vec<Gf128>; 3]| mul(a[row], b[row]) == c[row];
    let bin = [&spec.a_bin, &spec.b_bin, &spec.c_bin].map(|side| side.apply(z));
    let fld = [&spec.a_fld, &spec.b_fld, &spec.c_fld].map(|side| side.apply(z));
    let is_condition = |row: usize| matches!(row, 255..=262 | 322..=377);
    (0..512).all(|row| is_condition(row) || holds(row, &bin)) && holds(2, &fld)
}

/// Random bits in the derived columns, and a few elements above 1.
fn emptied(numbers: &mut Numbers, right: &[Gf128], cpi: usize) -> Vec<Gf128> {
    let mut z = right.to_vec();
    for (at, element) in z[..L::W_COLS * cpi].iter_mut().enumerate() {
        if is_derived(at / cpi) {
            *element = match numbers.next() % 64 {
                0 => Gf128(numbers.element()),
                word => Gf128((word % 2).into()),
            };
        }
    }
    z
}

/// The lines that lend a batch.
pub fn lend_batch(z: &[Gf128], cpi: usize) {
    println!("Z");
    for cycle in 0..cpi {
        for start in (0..L::W_COLS).step_by(64) {
            let bit = |i: usize| (z[(start + i) * cpi + cycle].0 as u64 & 1) << i;
            let word: u64 = (0..64).map(bit).sum();
            if word != 0 {
                println!("W {:x} {cpi:x} {word:x}", start * cpi + cycle);
            }
        }
    }
    for (column, element) in z.iter().enumerate() {
        if element.0 > 1 || column >= L::W_COLS * cpi && element.0 != 0 {
            lend_element(z, column);
        }
    }
}

/// The other five words of the line are those that are lent there.
fn lend_element(z: &[Gf128], column: usize) {
    let from = (2 * column).min(2 * z.len() - 7);
    let lent = words_of(&z[from / 2..(from + 8) / 2]);
    lend(from, &lent[from % 2..from % 2 + 7]);
}

/// What is refused is left as it is lent.
fn fillings_refused(numbers: &mut Numbers, cpi: usize) {
    let mut z = any_batch(numbers, cpi);
    let words = words_in(cpi);
    set_up(&z, cpi);
    lend_batch(&z, cpi);
    for wrong in WRONG_SIZES {
        println!("f {wrong:x} {words:x} {:x}", refusal(SIZE).answer());
    }
    for length in wrong_lengths(cpi) {
        println!("f {cpi:x} {length:x} {:x}", refusal(BATCH_LENGTH).answer());
    }
    let mut changed = |column: usize, value: u128| {
        change(&mut z, column, Gf128(value));
        lend_element(&z, column);
        let right = match z[..L::W_COLS * cpi].iter().any(|element| element.0 > 1) {
            true => first_above_one(&z, cpi),
            false => refusal(ONE_COLUMN),
        };
        println!("f {cpi:x} {words:x} {:x}", right.answer());
    };
    changed(L::ONE_COL * cpi, 0);
    changed(L::ONE_COL * cpi, 1 << 64 | 1);
    for value in ABOVE_ONE {
        changed(any_given(numbers, cpi), value);
    }
}
