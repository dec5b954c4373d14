//! What a word stands for by itself, whatever its must-be-zero bits hold, against document 01's house
//! format.

use crate::house::{self, bits, MUST_BE_ZERO};
use crate::numbers::Numbers;
use crate::parallel::in_parts;
use crate::report::{test, Tally, Test};

/// Fillings of bits 31 to 18, and of the others.
const TOPS: usize = 1 << 14;
const FILLINGS: u64 = 1 << 18;
const PARTS: usize = 64;

/// Of bits 31 to 18: every kind and flag, with the other bits zero, all one, or each one alone.
const SOME_TOPS: usize = 8 * (2 + 11);

const RANDOM_WORDS: u64 = 4_000_000;

pub fn tests() -> Vec<Test> {
    vec![
        test(
            "words by themselves, every filling of bits 31 to 18 over four of the others",
            TOPS as u64 * 4,
            tops,
        ),
        test(
            "words by themselves, every filling of bits 17 to 0 under every kind and flag",
            SOME_TOPS as u64 * FILLINGS,
            bottoms,
        ),
        test(
            format!("words by themselves, {RANDOM_WORDS} random ones"),
            RANDOM_WORDS,
            random,
        ),
    ]
}

fn tops(tally: &mut Tally) {
    for top in 0..TOPS as u32 {
        for bottom in [0, 0x3_ffff, 0x2_a7d3, 0x1_582c] {
            same(tally, top << 18 | bottom);
        }
    }
}

fn some_tops() -> Vec<u32> {
    let others = (0..11).map(|i| 1 << i).chain([0, 0x7ff]);
    let tops = |others: u32| (0..8).map(move |kind| kind << 11 | others);
    others.flat_map(tops).collect()
}

fn bottoms(tally: &mut Tally) {
    let tops = some_tops();
    in_parts(tally, tops.len(), |tally, part| {
        for bottom in 0..FILLINGS as u32 {
            same(tally, tops[part] << 18 | bottom);
        }
    });
}

fn random(tally: &mut Tally) {
    let each = RANDOM_WORDS / PARTS as u64;
    in_parts(tally, PARTS, |tally, part| {
        let mut numbers = Numbers::for_part(9, part as u64);
        for _ in 0..each {
            same(tally, numbers.next() as u32);
        }
    });
}

fn same(tally: &mut Tally, word: u32) {
    let seen = [
        product::read_word(word),
        product::relation_of(word),
        product::coefficient_of(word),
        product::is_clean(word),
    ];
    tally.same(|| format!("word {word:08x}"), seen, right(word));
}

/// The word read, its relation, its coefficient, and whether question 7 lets it pass.
fn right(word: u32) -> [u64; 4] {
    let field = |high, low| u64::from(bits(word, high, low));
    let (kind, flag) = (field(31, 30), field(29, 29));
    let relation = 3 + flag;
    let coefficient = match flag {
        0 => field(17, 12),
        _ => 255,
    };
    let read = match kind {
        3 => relation << 40 | field(8, 0),
        side => side << 40 | coefficient << 32 | field(11, 0),
    };
    let clean = house::read(word) != Err(MUST_BE_ZERO);
    [read, relation, coefficient, clean.into()]
}
