//! The house listing, seen in each cycle of a batch, against the original's `build_circuit_batched`.

use crate::columns::{no, CYCLES, SIZES};
use crate::house::{self, Circuit, Coefficient, Relation, Side, Word};
use crate::listing::{self, BIN_TERMS, FLD_TERMS};
use crate::numbers::Numbers;
use crate::original;
use crate::report::{test, Tally, Test};
use crate::verdict::answer::{refusal, CYCLE};
use product::Answer;

const RANDOM_WORDS: u64 = 400_000;
const FILLINGS: u64 = 1 << 23;

pub fn tests() -> Vec<Test> {
    let terms = (BIN_TERMS + FLD_TERMS) as u64;
    let mut tests = vec![test("shape of the batched matrices", 9 * 14, shapes)];
    for cpi in SIZES {
        tests.push(test(
            format!("build_circuit_batched of {cpi}, entries"),
            terms * cpi as u64 + 6,
            move |tally| entries(tally, cpi),
        ));
    }
    tests.extend([
        test(
            "each listing word in each cycle, as the boundary gives it",
            CYCLES * listing::WORDS as u64,
            listing_words,
        ),
        test(
            "words with every filling of bits 31 to 9",
            FILLINGS,
            fillings,
        ),
        test(
            "marks of every row of both relations",
            9 * 1024,
            marks_of_every_row,
        ),
        test("random words", RANDOM_WORDS, random_words),
        test(
            "cycles refused for words, after 7 and 9",
            9 * 4 * 6,
            cycles_refused,
        ),
    ]);
    tests
}

fn shapes(tally: &mut Tally) {
    for cpi in SIZES {
        listing::same_shape(tally, &original::build_circuit_batched(cpi), cpi);
    }
}

fn entries(tally: &mut Tally, cpi: usize) {
    let mut batch = batch_of(&listing::words(), cpi);
    let spec = original::build_circuit_batched(cpi);
    for relation in [Relation::Bin, Relation::Fld] {
        let right = listing::original_matrices(&spec, relation);
        listing::same_entries(tally, relation, batch.relation(relation), &right);
    }
}

/// The matrices of a batch: the listing read once for each cycle, through the boundary.
fn batch_of(words: &[u32], cpi: usize) -> Circuit {
    let mut circuit = Circuit::default();
    for cycle in 0..cpi {
        let mut mark = None;
        for &word in words {
            let Ok(seen) = product::batched(cpi, cycle, word) else {
                // Left out: the count of entries then differs.
                continue;
            };
            place(&mut circuit, &mut mark, seen);
        }
    }
    circuit
}

/// Takes one answer apart: a mark opens a batch row, a term goes into that row.
fn place(circuit: &mut Circuit, mark: &mut Option<(Relation, usize)>, seen: u64) {
    let index = (seen & 0xffff_ffff) as usize;
    let coefficient = match seen >> 32 & 0xff {
        255 => 0,
        k => 1_u128.checked_shl(k as u32).unwrap_or(u128::MAX),
    };
    let side = match seen >> 40 {
        0 => Side::A,
        1 => Side::B,
        2 => Side::C,
        3 => return *mark = Some((Relation::Bin, index)),
        4 => return *mark = Some((Relation::Fld, index)),
        _ => return,
    };
    if let Some((relation, row)) = *mark {
        let entry = (row, index, coefficient);
        circuit.relation(relation).side(side).push(entry);
    }
}

fn listing_words(tally: &mut Tally) {
    let words = listing::words();
    for cpi in SIZES {
        for cycle in 0..cpi {
            for &word in &words {
                same_word(tally, cpi, cycle, word);
            }
        }
    }
}

/// Every filling of bits 31 to 9, which hold every kind and every must-be-zero bit.
fn fillings(tally: &mut Tally) {
    for top in 0..FILLINGS as u32 {
        same_word(tally, 4, 3, top << 9 | 0x11);
    }
}

fn marks_of_every_row(tally: &mut Tally) {
    for cpi in SIZES {
        for mark in 0..1024_u32 {
            let (relation, row) = (mark >> 9, mark & 511);
            same_word(tally, cpi, cpi - 1, 3 << 30 | relation << 29 | row);
        }
    }
}

/// Half of the words have their must-be-zero bits cleared, for few others get past question 7.
fn random_words(tally: &mut Tally) {
    let mut numbers = Numbers::for_test(8);
    for i in 0..RANDOM_WORDS {
        let cpi = SIZES[numbers.below(9) as usize];
        let cycle = numbers.below(2 * cpi as u64) as usize;
        let word = numbers.next() as u32;
        same_word(
            tally,
            cpi,
            cycle,
            if i % 2 == 0 { word } else { tidy(word) },
        );
    }
}

/// The word with its must-be-zero bits cleared.
fn tidy(word: u32) -> u32 {
    match (word >> 30, word >> 29 & 1) {
        (3, _) => word & 0xe000_01ff,
        (_, 0) => word & 0xc003_ffff,
        _ => word & 0xe000_0fff,
    }
}

fn cycles_refused(tally: &mut Tally) {
    let words = [
        (0x0000_0140, CYCLE),
        (0x8000_3fff, CYCLE),
        (0xc000_01ff, CYCLE),
        (0xe000_001f, CYCLE),
        (0xe000_0020, house::FLD_ROW),
        (0x2000_1000, house::MUST_BE_ZERO),
    ];
    for cpi in SIZES {
        for cycle in [cpi, cpi + 1, 1 << 32, usize::MAX] {
            for (word, right) in words {
                let place = || format!("word {word:08x} in cycle {cycle} of {cpi}");
                tally.same(place, product::batched(cpi, cycle, word), no(right));
            }
        }
    }
}

fn same_word(tally: &mut Tally, cpi: usize, cycle: usize, word: u32) {
    let place = || format!("word {word:08x} in cycle {cycle} of {cpi}");
    let right = right_answer(cpi, cycle, word);
    tally.same(place, product::batched(cpi, cycle, word), right);
}

/// What the boundary owes for a word: this crate's own reading of the house format, and the
/// original's column map.
fn right_answer(cpi: usize, cycle: usize, word: u32) -> Answer {
    let read = house::read(word).map_err(refusal)?;
    if cycle >= cpi {
        return no(CYCLE);
    }
    let (kind, coefficient, index) = match read {
        Word::Mark { relation, row } => {
            (3 + relation as u64, 0, relation.padded_rows() * cycle + row)
        }
        Word::Term { side, term } => (
            side as u64,
            match term.coefficient {
                Coefficient::Zero => 255,
                Coefficient::Power(k) => u64::from(k),
            },
            original::geometry(cpi).map_z_col(term.column, cycle),
        ),
    };
    Ok(index as u64 | coefficient << 32 | kind << 40)
}
