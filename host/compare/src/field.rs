//! Elements of the field: sum, product, shift, product with a power of two.

use crate::numbers::Numbers;
use crate::original;
use crate::report::{test, Tally, Test};

const RANDOM_SUMS: u64 = 200_000;
const RANDOM_PRODUCTS: u64 = 1_600_000;
const EDGES: u64 = 130;
const RANDOM_ELEMENTS: u64 = 370;
const ELEMENTS: u64 = EDGES + RANDOM_ELEMENTS;

pub fn tests() -> Vec<Test> {
    vec![
        test("products P1 to P3 of the bench sheet", 6, bench_sheet),
        test("add, all pairs of edge elements", EDGES * EDGES, add_edges),
        test("add, random elements", 2 * RANDOM_SUMS, add_random),
        test("mul, all pairs of edge elements", EDGES * EDGES, mul_edges),
        test("mul, random elements", RANDOM_PRODUCTS, mul_random),
        test(
            "shl by 0 to 192 and far beyond",
            ELEMENTS * shifts().len() as u64,
            shl_all,
        ),
        test(
            "times_power 0 to 127 against mul",
            ELEMENTS * 128,
            times_power_all,
        ),
        test(
            "times_power from 128 on is 0",
            ELEMENTS * far_powers().len() as u64,
            times_power_far,
        ),
        test(
            "word 0 is the low one, any other the high one",
            4 * OTHER_WORDS.len() as u64 * ELEMENTS,
            word_choice,
        ),
    ]
}

/// Document 01's three products, asked of both sides.
fn bench_sheet(tally: &mut Tally) {
    let p3 = 0xc000_0000_0000_0000_u128 << 64 | 0x1067;
    let products = [
        (1 << 127, 2, 0x87),
        (1 << 64, 1 << 64, 0x87),
        (1 << 127, 1 << 127, p3),
    ];
    for (a, b, right) in products {
        tally.same(|| at("product", a, b), product::mul(a, b), right);
        tally.same(|| at("original", a, b), original::mul(a, b), right);
    }
}

fn add_edges(tally: &mut Tally) {
    for_edge_pairs(|a, b| tally.same(|| at("add", a, b), product::add(a, b), original::add(a, b)));
}

fn add_random(tally: &mut Tally) {
    let mut numbers = Numbers::for_test(1);
    for i in 0..RANDOM_SUMS {
        let (a, b) = operands(&mut numbers, i);
        let sum = product::add(a, b);
        tally.same(|| at("add", a, b), sum, original::add(a, b));
        tally.same(|| at("add by +=", a, b), sum, original::add_assign(a, b));
    }
}

fn mul_edges(tally: &mut Tally) {
    for_edge_pairs(|a, b| tally.same(|| at("mul", a, b), product::mul(a, b), original::mul(a, b)));
}

fn mul_random(tally: &mut Tally) {
    let mut numbers = Numbers::for_test(2);
    for i in 0..RANDOM_PRODUCTS {
        let (a, b) = operands(&mut numbers, i);
        tally.same(|| at("mul", a, b), product::mul(a, b), original::mul(a, b));
    }
}

fn shl_all(tally: &mut Tally) {
    for a in elements(3) {
        for k in shifts() {
            // A u128 shifted by 128 or more keeps no bit; `<<` itself takes no such k.
            let right = a.checked_shl(k).unwrap_or(0);
            tally.same(|| at("shl", a, k.into()), product::shl(a, k), right);
        }
    }
}

fn times_power_all(tally: &mut Tally) {
    for a in elements(4) {
        for k in 0..128 {
            let right = original::mul(a, 1 << k);
            tally.same(
                || at("times_power", a, k.into()),
                product::times_power(a, k),
                right,
            );
        }
    }
}

fn times_power_far(tally: &mut Tally) {
    for a in elements(5) {
        for k in far_powers() {
            let product = product::times_power(a, k);
            tally.same(|| at("times_power", a, k.into()), product, 0);
        }
    }
}

const OTHER_WORDS: [u32; 4] = [2, 3, 256, u32::MAX];

fn word_choice(tally: &mut Tally) {
    let mut numbers = Numbers::for_test(6);
    for a in elements(7) {
        let b = numbers.dense();
        let k = numbers.below(128) as u32;
        for word in OTHER_WORDS {
            let place = || format!("word {word} of {a:#x}, {b:#x}, k {k}");
            tally.same(place, product::add_word(a, b, word), high(a ^ b));
            tally.same(
                place,
                product::mul_word(a, b, word),
                high(original::mul(a, b)),
            );
            tally.same(place, product::shl_word(a, k, word), high(a << k));
            let right = high(original::mul(a, 1 << k));
            tally.same(place, product::times_power_word(a, k, word), right);
        }
    }
}

/// 0, each 2^k and all ones.
fn edges() -> Vec<u128> {
    let mut edges = vec![0, u128::MAX];
    edges.extend((0..128).map(|k| 1 << k));
    edges
}

/// The edge elements and random ones of every sort.
fn elements(sequence: u64) -> Vec<u128> {
    let mut numbers = Numbers::for_test(sequence);
    let mut elements = edges();
    elements.extend((0..RANDOM_ELEMENTS).map(|i| operand(&mut numbers, i)));
    elements
}

fn for_edge_pairs(mut each: impl FnMut(u128, u128)) {
    for a in edges() {
        for b in edges() {
            each(a, b);
        }
    }
}

/// Pair i of operands: the sixteen pairs of sorts take turns.
fn operands(numbers: &mut Numbers, i: u64) -> (u128, u128) {
    (operand(numbers, i), operand(numbers, i / 4))
}

fn operand(numbers: &mut Numbers, sort: u64) -> u128 {
    match sort % 4 {
        0 => numbers.dense(),
        1 => numbers.sparse(),
        2 => numbers.power(),
        _ => numbers.bit(),
    }
}

fn shifts() -> Vec<u32> {
    let mut shifts: Vec<u32> = (0..=192).collect();
    shifts.extend(far_powers());
    shifts
}

fn far_powers() -> Vec<u32> {
    vec![
        128,
        129,
        191,
        192,
        255,
        256,
        257,
        384,
        1 << 16,
        1 << 31,
        u32::MAX,
    ]
}

fn high(a: u128) -> u64 {
    (a >> 64) as u64
}

fn at(what: &str, a: u128, b: u128) -> String {
    format!("{what} of {a:#x} and {b:#x}")
}
