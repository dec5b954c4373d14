//! Lines with a number that is not the answer owed, so that a replay which calls every line right is seen to
//! be wrong.

use std::fmt::Write;
use std::ops::Range;

use magnetar_cpu::circuit::{build_circuit_batched, WITNESS_LAYOUT};
use magnetar_field::{mul, Gf128, ONE};
use words::words_of;

use crate::answer::{
    above_one, refusal, Refusal, BATCH_LENGTH, CYCLE, CYCLES_LENGTH, GIVEN_BIT, PUBLIC_LENGTH,
    ROW_SOUGHT, SIZE,
};
use crate::listings::{house_rows, reader_line, said, sums_line, sums_of, unchanged};
use crate::makers::lend;
use crate::steps::{lend_batch, words_in};
use crate::{accepted_batches, judged, put, set_up, Numbers, REFUSED};

pub fn lines() {
    field();
    columns();
    checks();
    for read in [0, 2] {
        println!("t 63 0 5 5 {read:x}");
    }
    changed("t", &[0x33, 0, 5, 5, 0], 4..5);
    // The original's answer where the ISA reserves, and reserved where it does not.
    for (funct3, read) in [(2, 2), (3, 2), (1, 3)] {
        println!("t 63 {funct3:x} 5 5 {read:x}");
    }
    println!("t 33 2 5 5 3");
}

/// The line with one answer after the other changed in its lowest bit.
fn changed(letter: &str, numbers: &[u64], answers: Range<usize>) {
    for at in answers {
        let mut line = letter.to_string();
        for (i, number) in numbers.iter().enumerate() {
            let number = number ^ u64::from(i == at);
            write!(line, " {number:x}").expect("a string takes it");
        }
        println!("{line}");
    }
}

fn field() {
    let (a, b) = (0xfeed << 80 | 3, 5 << 70 | 7);
    let halves = |element: u128| [element as u64, (element >> 64) as u64];
    let operands = [halves(a), halves(b)].concat();
    let product = halves(mul(Gf128(a), Gf128(b)).0);
    changed("m", &[&operands[..], &product].concat(), 4..6);
    let sum = halves((Gf128(a) + Gf128(b)).0);
    changed("a", &[&operands[..], &sum].concat(), 4..6);
    let moved = halves(a << 7);
    changed("l", &[&halves(a)[..], &[7], &moved].concat(), 3..5);
}

fn columns() {
    let geo = WITNESS_LAYOUT::geometry(4);
    let parts = [4, geo.w_cols, geo.m, geo.one_col, geo.w128];
    changed("g", &parts.map(|part| part as u64), 1..5);
    changed("g", &[3, REFUSED + 1, 0, 0, 0], 1..2);
    for letter in ["c", "z"] {
        changed(letter, &[4, 5, 2, geo.map_col(5, 2) as u64], 3..4);
        changed(letter, &[4, 4096, 2, REFUSED + 14], 3..4);
    }
    changed("b", &[4, geo.map_col(5, 2) as u64, 5, 2], 2..4);
    changed("b", &[4, geo.one_col as u64, REFUSED + 14, 0], 2..3);
}

/// An accepted batch, and the same with a bit that is wrong.
fn checks() {
    let spec = build_circuit_batched(1);
    let mut z = accepted_batches(1).swap_remove(0);
    set_up(&z, 1);
    let accepted = judged(&spec, &z, 1);
    // The row of a batch that is accepted is not looked at.
    changed("k", &accepted, 1..2);
    changed("k", &accepted, 3..5);
    counted_elsewhere(accepted);
    z[0] = z[0] + ONE;
    put(0, z[0]);
    let failed = judged(&spec, &z, 1);
    changed("k", &failed, 1..5);
    counted_elsewhere(failed);
}

/// One row of bin counted as one of fld: the sum is right.
fn counted_elsewhere([cpi, kind, row, bin, fld]: [u64; 5]) {
    let (bin, fld) = (bin - 1, fld + 1);
    println!("k {cpi:x} {kind:x} {row:x} {bin:x} {fld:x}");
}

/// The check's refusals, the bit test, the conditions, the filler, a row's sums, the reader; and lines that are none.
pub fn others() {
    let z = accepted_batches(1).swap_remove(0);
    set_up(&z, 1);
    batches(&z);
    sums(&z);
    reader();
    // A letter that stands for nothing.
    println!("x 0");
    no_room();
}

/// Lines that ask for more words than `replay` has. Of the words that it has the answer would be right.
fn no_room() {
    let most = words_in(4) as u64;
    let length = refusal(BATCH_LENGTH).answer();
    println!("s {:x} 1 0", most / 2);
    println!("r {:x} 0", most - 6);
    println!("W {:x} 1 0", most / 2 - 63);
    println!("k 8 3 {BATCH_LENGTH:x} 0 0");
    println!("q 8 {:x} {length:x}", 2 * most);
    println!("u 8 {:x} 0 {length:x}", 2 * most);
    println!("f 8 {:x} {length:x}", 2 * most);
    lend(0, &[2; 6]);
    println!("p 8 {:x} dab 0 0 0 0 {length:x}", 2 * most);
    println!("v {:x} 2000 {:x}", most - 63, REFUSED + PUBLIC_LENGTH);
    println!("v 0 {:x} {:x}", most + 1, REFUSED + BATCH_LENGTH);
    println!(
        "j 1 1000 {:x} 2000 {:x}",
        most / 2 + 1,
        REFUSED + PUBLIC_LENGTH
    );
    println!("j 1 {:x} 0 2000 {:x}", most + 1, REFUSED + CYCLES_LENGTH);
}

fn batches(z: &[Gf128]) {
    let words = words_in(1) as u64;
    let no_size = refusal(SIZE).answer();
    changed("k", &[3, 3, SIZE, 0, 0], 1..3);
    changed("q", &[1, words, 0], 2..3);
    changed("q", &[3, words, no_size], 2..3);
    changed("u", &[1, words, 0, 0], 3..4);
    changed("u", &[1, words, 1, refusal(CYCLE).answer()], 3..4);
    put(5, Gf128(2));
    let above = Refusal {
        number: GIVEN_BIT,
        place: 5,
    };
    changed("q", &[1, words, above_one(1, 5)], 2..3);
    changed("u", &[1, words, 0, above.answer()], 3..4);
    put(5, z[5]);
    lend_batch(z, 1);
    changed("f", &[1, words, 0], 2..3);
    changed("f", &[3, words, no_size], 2..3);
    let derived = WITNESS_LAYOUT::CARRY_OFF;
    put(derived, z[derived] + ONE);
    println!("f 1 {words:x} 0");
    put(derived, z[derived]);
}

/// What is lent with one word after the other changed in its lowest bit, each before the line.
fn lent_changed(right: &[u64], line: &str) {
    for at in 0..right.len() {
        let mut lent = right.to_vec();
        lent[at] ^= 1;
        lend(0, &lent);
        println!("{line}");
    }
    lend(0, right);
}

fn sums(z: &[Gf128]) {
    let rows = house_rows();
    let line = |row: u64| sums_line(1, words_in(1), unchanged(&rows), [0, row], 0);
    let right = words_of(&sums_of(&rows[0], z, 1, 0, true));
    lent_changed(&right, &format!("p {} 0", line(0)));
    println!("p {} 1", line(0));
    // A refusal leaves what was there.
    let refused = refusal(ROW_SOUGHT).answer();
    println!("p {} {refused:x}", line(511));
    lend(0, &[2; 6]);
    println!("p {} {:x}", line(511), refused + 1);
}

fn reader() {
    let rows = house_rows();
    let asked = [rows[0].clone(), rows[1].clone()];
    let line = reader_line(&mut Numbers(0), unchanged(&rows), &asked, 1);
    lent_changed(&said(&asked, 1), &format!("o {line} 0"));
    println!("o {line} 1");
}
