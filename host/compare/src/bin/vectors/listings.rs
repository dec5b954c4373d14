//! Vectors of a row's sums and of the listing reader, over the house listing and over it with a word changed.

use magnetar_cpu::circuit::{build_circuit, build_circuit_batched, CircuitSpec, WITNESS_LAYOUT};
use magnetar_field::Gf128;
use magnetar_spartan::SparseMatrix;
use words::words_of;

use crate::answer::{
    refusal, Refusal, BATCH_LENGTH, CYCLE, MARK_ORDER, MUST_BE_ZERO, NO_MARK, ROW_SOUGHT, SIZE,
    TERM_ORDER,
};
use crate::house::{self, Relation, Word};
use crate::makers::lend;
use crate::steps::{words_in, wrong_lengths};
use crate::{accepted_batches, put, set_up, Numbers, SIZES};

/// What is written for a word past the end of a part.
const PAST: u64 = 1 << 63;

/// A row of the house listing: its mark, where it starts, and its words.
#[derive(Clone)]
pub struct Row {
    pub mark: (Relation, usize),
    pub start: usize,
    pub words: Vec<u32>,
}

/// One word of the house listing that is changed; the place behind the last changes none.
#[derive(Clone, Copy)]
pub struct Change {
    pub place: usize,
    pub word: u32,
}

/// The house listing as the original's matrices have it.
pub fn house_rows() -> Vec<Row> {
    let spec = build_circuit();
    let mut rows: Vec<Row> = Vec::new();
    for relation in [Relation::Bin, Relation::Fld] {
        for row in 0..relation.padded_rows() {
            let words = row_words(&spec, relation, row);
            // What has no terms is padding.
            if words.len() > 1 {
                rows.push(Row {
                    mark: (relation, row),
                    start: rows.last().map_or(0, |row| row.start + row.words.len()),
                    words,
                });
            }
        }
    }
    rows
}

fn sides(spec: &CircuitSpec, relation: Relation) -> [&SparseMatrix; 3] {
    match relation {
        Relation::Bin => [&spec.a_bin, &spec.b_bin, &spec.c_bin],
        Relation::Fld => [&spec.a_fld, &spec.b_fld, &spec.c_fld],
    }
}

/// A mark, and the terms of A, B and C in the order of the entries.
fn row_words(spec: &CircuitSpec, relation: Relation, row: usize) -> Vec<u32> {
    let mut words = vec![mark_word(relation, row)];
    for (side, matrix) in (0..).zip(sides(spec, relation)) {
        let entries = matrix.entries.iter().filter(|entry| entry.0 == row);
        words.extend(entries.map(|&(_, column, value)| {
            let coefficient = match value.0 {
                0 => 1 << 29,
                power => power.trailing_zeros() << 12,
            };
            side << 30 | coefficient | column as u32
        }));
    }
    words
}

fn mark_word(relation: Relation, row: usize) -> u32 {
    3 << 30 | (relation as u32) << 29 | row as u32
}

fn length(rows: &[Row]) -> usize {
    rows.iter().map(|row| row.words.len()).sum()
}

/// No word changed.
pub fn unchanged(rows: &[Row]) -> Change {
    Change {
        place: length(rows),
        word: 0,
    }
}

/// A change for each question that a word can fail, and its refusal: the last word is a term of B.
pub fn faults(rows: &[Row]) -> [(Change, Refusal); 4] {
    let last = length(rows) - 1;
    let last_row = rows.last().expect("a row");
    let last_word = *last_row.words.last().expect("a word");
    let before = rows[rows.len() - 2].words[0];
    [
        (last, last_word | 1 << 28, MUST_BE_ZERO),
        (0, 0, NO_MARK),
        (last_row.start, before, MARK_ORDER),
        (last, last_word & 0x3fff_ffff, TERM_ORDER),
    ]
    .map(|(place, word, number)| (Change { place, word }, Refusal { number, place }))
}

/// Every relation but 0 is fld.
fn relation_number(numbers: &mut Numbers, relation: Relation) -> u64 {
    match relation {
        Relation::Bin => 0,
        Relation::Fld => [1, 2, 0xffff_ffff][numbers.next() as usize % 3],
    }
}

/// A row with another coefficient and column in one of its terms.
fn with_change(numbers: &mut Numbers, row: &Row) -> (Row, Change) {
    let i = 1 + numbers.next() as usize % (row.words.len() - 1);
    let word = row.words[i] & 0xc000_0000 | numbers.next() as u32 & 0x3_ffff;
    let mut changed = row.clone();
    changed.words[i] = word;
    let place = row.start + i;
    (changed, Change { place, word })
}

/// The numbers of a line p but the answer.
pub fn sums_line(cpi: usize, length: usize, change: Change, row: [u64; 2], cycle: usize) -> String {
    let Change { place, word } = change;
    let [relation, row] = row;
    format!("{cpi:x} {length:x} {place:x} {word:x} {relation:x} {row:x} {cycle:x}")
}

/// Rows with some of their columns any elements, as they are and with a word changed.
pub fn sums() {
    let rows = house_rows();
    let mut numbers = Numbers(0x5035);
    for cpi in SIZES {
        let mut z = accepted_batches(cpi).swap_remove(0);
        set_up(&z, cpi);
        for i in 0..16 {
            // The rows of fld are few.
            let at = numbers.next() as usize % rows.len();
            let row = if i % 3 == 0 {
                &rows[rows.len() - 1 - at % 31]
            } else {
                &rows[at]
            };
            let cycle = numbers.next() as usize % cpi;
            let (row, change) = match i % 2 {
                0 => (row.clone(), unchanged(&rows)),
                _ => with_change(&mut numbers, row),
            };
            for _ in 0..3 {
                let (side, column) = any_term(&mut numbers, &row);
                let at = WITNESS_LAYOUT::geometry(cpi).map_z_col(column, cycle);
                z[at] = Gf128(numbers.element() >> (40 * side));
                put(at, z[at]);
            }
            lend(0, &words_of(&sums_of(&row, &z, cpi, cycle, i % 2 == 0)));
            let number = relation_number(&mut numbers, row.mark.0);
            let asked = [number, row.mark.1 as u64];
            println!(
                "p {} 0",
                sums_line(cpi, words_in(cpi), change, asked, cycle)
            );
        }
        sums_refused(&rows, cpi);
    }
}

/// Side and column of one of the terms.
fn any_term(numbers: &mut Numbers, row: &Row) -> (u32, usize) {
    let word = row.words[1 + numbers.next() as usize % (row.words.len() - 1)];
    (word >> 30, word as usize & 0xfff)
}

/// The original's sums over the terms of a row; those of the circuit's row must be the same where no word is changed.
pub fn sums_of(row: &Row, z: &[Gf128], cpi: usize, cycle: usize, is_house: bool) -> [Gf128; 3] {
    let geo = WITNESS_LAYOUT::geometry(cpi);
    let mut matrices = [0; 3].map(|_| SparseMatrix::empty(1, geo.m));
    for &word in &row.words {
        if let Word::Term { side, term } = house::read(word).expect("a word in order") {
            let column = geo.map_z_col(term.column, cycle);
            let value = Gf128(term.coefficient.value());
            matrices[side as usize].entries.push((0, column, value));
        }
    }
    let sums = matrices.map(|matrix| matrix.apply(z)[0]);
    if is_house {
        let (relation, number) = row.mark;
        let batch_row = relation.padded_rows() * cycle + number;
        let spec = build_circuit_batched(cpi);
        let of_circuit = sides(&spec, relation).map(|matrix| matrix.apply(z)[batch_row]);
        assert_eq!(sums, of_circuit, "the sums of a row of the circuit");
    }
    sums
}

/// In the order of the questions, each with all later ones wrong as well. The words are 2 before a call, and stay.
fn sums_refused(rows: &[Row], cpi: usize) {
    let words = words_in(cpi);
    let same = unchanged(rows);
    let [missing, there] = [[0, 511], [0, 0]];
    let refused = |cpi: usize, length: usize, change: Change, row: [u64; 2], right: Refusal| {
        let cycle = if right.number == CYCLE {
            usize::MAX
        } else {
            cpi
        };
        println!(
            "p {} {:x}",
            sums_line(cpi, length, change, row, cycle),
            right.answer()
        );
    };
    lend(0, &[2; 6]);
    refused(3, words, faults(rows)[0].0, missing, refusal(SIZE));
    for length in wrong_lengths(cpi) {
        refused(
            cpi,
            length,
            faults(rows)[1].0,
            missing,
            refusal(BATCH_LENGTH),
        );
    }
    for (change, right) in faults(rows) {
        refused(cpi, words, change, missing, right);
    }
    for row in [
        missing,
        [0, 483],
        [0, 512],
        [0, 1 << 32],
        [1, 31],
        [1, 32],
        [2, u64::MAX],
    ] {
        refused(cpi, words, same, row, refusal(ROW_SOUGHT));
    }
    refused(cpi, words, same, there, refusal(CYCLE));
    println!(
        "p {} {:x}",
        sums_line(cpi, words, same, [1, 30], cpi),
        refusal(CYCLE).answer()
    );
}

/// Two rows after each other, one of them at times not there; then listings that do not open.
pub fn reader() {
    let rows = house_rows();
    let mut numbers = Numbers(0x4ead);
    for i in 0..48 {
        let mut asked = [0; 2].map(|_| rows[numbers.next() as usize % rows.len()].clone());
        let mut change = unchanged(&rows);
        match i % 6 {
            0 => asked[1] = asked[0].clone(),
            1 => asked[0] = rows[rows.len() - 1 - i % 31].clone(),
            2 => (asked[0], change) = with_change(&mut numbers, &asked[0]),
            3 => asked[0] = not_there(&mut numbers),
            4 => asked[1] = not_there(&mut numbers),
            _ => {}
        }
        if asked[1].mark == asked[0].mark {
            asked[1] = asked[0].clone();
        }
        let most = asked.iter().map(|row| row.words.len()).max().unwrap_or(0);
        let word = match i % 8 {
            0 => u64::MAX,
            _ => numbers.next() % (most as u64 + 2),
        };
        read(&mut numbers, change, &asked, word, 0);
    }
    let [first, last] = [&rows[0], &rows[rows.len() - 1]];
    for (change, right) in faults(&rows) {
        let none = [first, last].map(|row| Row {
            words: Vec::new(),
            ..row.clone()
        });
        read(&mut numbers, change, &none, 0, right.answer());
    }
}

/// A row that the house listing has not; it has no words.
fn not_there(numbers: &mut Numbers) -> Row {
    let mark = match numbers.next() % 5 {
        0 => (Relation::Bin, 483),
        1 => (Relation::Bin, 512 + 30),
        2 => (Relation::Fld, 31),
        3 => (Relation::Fld, 32),
        _ => (Relation::Bin, 1 << 32),
    };
    Row {
        mark,
        start: 0,
        words: Vec::new(),
    }
}

/// The numbers of a line o but the answer.
pub fn reader_line(numbers: &mut Numbers, change: Change, asked: &[Row; 2], word: u64) -> String {
    let Change {
        place,
        word: changed,
    } = change;
    let [first, next] = asked.each_ref().map(|row| {
        let relation = relation_number(numbers, row.mark.0);
        format!("{relation:x} {:x}", row.mark.1)
    });
    format!("{place:x} {changed:x} {first} {next} {word:x}")
}

fn read(numbers: &mut Numbers, change: Change, asked: &[Row; 2], word: u64, answer: u64) {
    lend(0, &said(asked, word));
    let line = reader_line(numbers, change, asked, word);
    println!("o {line} {answer:x}");
}

/// Of each row its start, its end, a word of its part and the position afterwards; a row that is not there keeps the
/// position.
pub fn said(asked: &[Row; 2], word: u64) -> Vec<u64> {
    let mut said = Vec::new();
    let mut position = 0;
    for row in asked {
        if row.words.is_empty() {
            said.extend([refusal(ROW_SOUGHT).answer(), 0, PAST, position]);
        } else {
            position = (row.start + row.words.len()) as u64;
            let word = usize::try_from(word).ok().and_then(|i| row.words.get(i));
            let word = word.map_or(PAST, |&word| word.into());
            said.extend([row.start as u64, position, word, position]);
        }
    }
    said
}
