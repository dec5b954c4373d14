//! The field's product beside the original's.

use std::hint::black_box;

use magnetar_field::Gf128;

use crate::table::two;
use crate::timing::{in_turn, Work};

const REPETITIONS: usize = 2001;

pub fn print() {
    let sorts = [
        ("dense operands", Operands::dense()),
        ("operands 0 and 1", Operands::bits()),
    ];
    for (sort, operands) in sorts {
        let what = format!("`mul`, {sort}, one word");
        two(&what, "ns", time(&operands), REPETITIONS);
    }
}

/// Seconds a product of two elements, of which one word is handed over: the original's, the
/// product's.
fn time(operands: &Operands) -> [f64; 2] {
    let pairs = &operands.pairs;
    let same = |&(a, b): &(u128, u128)| original_mul(a, b) == product_mul(a, b);
    assert!(pairs.iter().all(same), "the products differ");
    let work = Work {
        units: pairs.len(),
        repetitions: REPETITIONS,
    };
    in_turn(
        work,
        [&mut || xor_of_products(pairs, original_mul), &mut || {
            xor_of_products(pairs, product_mul)
        }],
    )
}

fn xor_of_products(pairs: &[(u128, u128)], mul: fn(u128, u128) -> u64) {
    let xor = |sum, &(a, b): &(u128, u128)| sum ^ mul(black_box(a), black_box(b));
    black_box(pairs.iter().fold(0, xor));
}

#[inline(never)]
fn original_mul(a: u128, b: u128) -> u64 {
    magnetar_field::mul(Gf128(a), Gf128(b)).0 as u64
}

#[inline(never)]
fn product_mul(a: u128, b: u128) -> u64 {
    product::mul_word(a, b, 0)
}

/// Pairs to be multiplied.
struct Operands {
    pairs: Vec<(u128, u128)>,
}

impl Operands {
    const PAIRS: u64 = 512;

    fn dense() -> Operands {
        Operands::from_halves(|half| half)
    }

    fn bits() -> Operands {
        Operands::from_halves(|half| half & 1)
    }

    /// A dense element has two halves of its own, an element 0 or 1 only a bit of the lower one.
    fn from_halves(keep: fn(u64) -> u64) -> Operands {
        let element = |i: u64| {
            let low = keep(scrambled(2 * i));
            let high = if low > 1 { scrambled(2 * i + 1) } else { 0 };
            u128::from(low) | u128::from(high) << 64
        };
        let pair = |i| (element(2 * i), element(2 * i + 1));
        Operands {
            pairs: (0..Self::PAIRS).map(pair).collect(),
        }
    }
}

/// The i-th number of SplitMix64.
fn scrambled(i: u64) -> u64 {
    let mut z = (i + 1).wrapping_mul(0x9e37_79b9_7f4a_7c15);
    z = (z ^ z >> 30).wrapping_mul(0xbf58_476d_1ce4_e5b9);
    z = (z ^ z >> 27).wrapping_mul(0x94d0_49bb_1331_11eb);
    z ^ z >> 31
}
